#!/usr/bin/env python3
"""Times `dtool check` on blobs that are hard to check without memory, and beside fdtdump on one of a board's size.

    python3 bench/check.py crates/dtool/out/dtool

fdtdump is taken where it is installed (Debian's device-tree-compiler)."""
import os
import shutil
import struct
import subprocess
import sys
import tempfile
import time

RUNS = 5
MEGABYTE = 1 << 20


def word(number):
    return struct.pack(">I", number)


def padded(data):
    return data + bytes(-len(data) % 4)


class Blob:
    """A blob under construction: its structure block and its names."""

    def __init__(self):
        self.tokens, self.names, self.places, self.end = [], [], {}, 0

    def begin(self, name=""):
        self.tokens.append(word(1) + padded(name.encode() + b"\0"))

    def close(self):
        self.tokens.append(word(2))

    def prop(self, name, value=b""):
        if name not in self.places:
            self.places[name] = self.end
            self.names.append(name.encode() + b"\0")
            self.end += len(name) + 1
        self.tokens.append(word(3) + word(len(value)) + word(self.places[name]) + padded(value))

    def nops(self, count):
        self.tokens.append(word(4) * count)

    def bytes(self):
        structure = b"".join(self.tokens) + word(9)
        strings = b"".join(self.names)
        total = 56 + len(structure) + len(strings)
        header = [0xd00dfeed, total, 56, 56 + len(structure), 40, 17, 16, 0, len(strings), len(structure)]
        return b"".join(map(word, header)) + bytes(16) + structure + strings


def siblings(count):
    b = Blob()
    b.begin()
    for i in range(count):
        b.begin(f"node@{i:x}")
        b.close()
    b.close()
    return b.bytes()


def properties(count):
    b = Blob()
    b.begin()
    for i in range(count):
        b.prop(f"p{i}", word(i))
    b.close()
    return b.bytes()


def numbered(numbers):
    """A root and its children, each with one of the numbers."""
    b = Blob()
    b.begin()
    b.prop("phandle", word(numbers[0]))
    for i, number in enumerate(numbers[1:]):
        b.begin(f"n{i:x}")
        b.prop("phandle", word(number))
        b.close()
    b.close()
    return b.bytes()


def deep(rest):
    """64 nodes, each in the one before, and all the rest in the innermost."""
    b = Blob()
    b.begin()
    for _ in range(63):
        b.begin("bus")
    rest(b)
    for _ in range(64):
        b.close()
    return b.bytes()


def board(controller=None, ranges=False):
    """About as many nodes, properties and phandles as a board of today has; with an interrupt controller of this phandle, and with
    ranges that aren't empty, where these are wanted."""
    b = Blob()
    b.begin()
    if controller is not None:
        b.prop("interrupt-parent", word(controller))
    b.prop("#address-cells", word(2))
    b.prop("#size-cells", word(2))
    b.prop("compatible", b"vendor,board\0vendor,soc\0")
    if controller is not None:
        b.begin("interrupt-controller@0")
        b.prop("#interrupt-cells", word(3))
        b.prop("interrupt-controller")
        b.prop("phandle", word(controller))
        b.close()
    number = 0
    for bus in range(20):
        b.begin(f"bus@{bus:x}0000000")
        b.prop("compatible", b"simple-bus\0")
        b.prop("#address-cells", word(1))
        b.prop("#size-cells", word(1))
        b.prop("ranges", word(0) + word(bus) + word(0) + word(1 << 28) if ranges else b"")
        for device in range(50):
            b.begin(f"device@{device:x}0000")
            b.prop("compatible", f"vendor,device-{device}\0vendor,device\0".encode())
            b.prop("reg", word(device << 16) + word(0x1000))
            b.prop("interrupts", word(0) + word(bus * 50 + device) + word(4))
            b.prop("clocks", word(1) + word(device) + word(2) + word(device))
            b.prop("clock-names", b"core\0bus\0")
            b.prop("status", b"okay\0")
            if device % 5 < 2:
                number += 1
                b.prop("phandle", word(number))
            b.close()
        b.close()
    b.close()
    return b.bytes()


def many_properties(b):
    for i in range(600_000):
        b.prop(f"{i:x}")


BLOBS = [
    ("a board", board),
    ("65,535 siblings", lambda: siblings(65_535)),
    ("65,000 properties of a node", lambda: properties(65_000)),
    ("65,536 phandles in a row", lambda: numbered(range(1, 65_537))),
    ("65,536 phandles scattered", lambda: numbered([i * 65_521 % 0xfffffffd + 1 for i in range(1, 65_537)])),
    ("4,000,000 NOPs, 64 deep", lambda: deep(lambda b: b.nops(4_000_000))),
    ("600,000 properties, 64 deep", lambda: deep(many_properties)),
    ("65,000 nodes, 64 deep", lambda: deep(lambda b: [(b.begin(f"n{i:x}"), b.close()) for i in range(65_000)])),
]


def best(command):
    """The shortest wall time of some runs in seconds, and what was printed."""
    times = []
    for _ in range(RUNS):
        start = time.perf_counter()
        done = subprocess.run(command, stdout=subprocess.PIPE, stderr=subprocess.DEVNULL, check=True)
        times.append(time.perf_counter() - start)
    return min(times), done.stdout


def main():
    tool = sys.argv[1]
    with tempfile.TemporaryDirectory() as folder:
        path = os.path.join(folder, "blob.dtb")
        for name, make in BLOBS:
            data = make()
            with open(path, "wb") as to:
                to.write(data)
            seconds, line = best([tool, "check", path])
            beside = ""
            if name == "a board" and shutil.which("fdtdump"):
                beside = f", fdtdump {best(['fdtdump', path])[0] * 1000:.1f} ms"
            size = len(data) / MEGABYTE
            print(f"{name}: {size:.2f} MiB, {line.decode().strip()}: {seconds * 1000:.1f} ms{beside}")


if __name__ == "__main__":
    main()

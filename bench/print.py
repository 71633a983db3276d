#!/usr/bin/env python3
"""Times `dtool print` beside `dtc -I dtb -O dts`, and checks that what it prints is compiled to the same tree again.

    bench/print.py DTOOL [BLOB..]

Without blobs: made ones of 16 MiB and of a board's size, of one kind each. With blobs: each of these, and the median of the ratios. dtc, if it is
there, gets a minute a blob."""
import os, shutil, statistics, struct, subprocess, sys, tempfile, time

NUL = b"\0"


def padded(data):
    return data + NUL * (-len(data) % 4)


def blob(structure, strings):
    structure += struct.pack(">2I", 2, 9)
    front = 56
    header = struct.pack(">10I", 0xD00DFEED, front + len(structure) + len(strings), front, front + len(structure), 40, 17, 16, 0,
                         len(strings), len(structure))
    return header + NUL * 16 + structure + strings


def opened(name):
    return struct.pack(">I", 1) + padded(name + NUL)


def prop(at, value):
    return struct.pack(">3I", 3, len(value), at) + padded(value)


def made(size):
    """Blobs of about so many bytes, by their kinds."""
    word = b"abcdefghijklm\0"
    rest = size - 200
    yield "cells", blob(opened(b"") + prop(0, struct.pack(">I", 0x1234) * (rest // 4)), b"p\0")
    yield "texts", blob(opened(b"") + prop(0, word * (rest // len(word))), b"p\0")
    yield "bytes", blob(opened(b"") + prop(0, b"\x01" * (rest // 4 * 4 + 1)), b"p\0")
    count = min(65000, rest // 60)
    nodes = b"".join(opened(b"node@%x" % k) + prop(0, b"okay\0") + prop(2, struct.pack(">2I", k, 4)) + struct.pack(">I", 2) for k in range(count))
    yield "nodes", blob(opened(b"") + nodes, b"s\0reg\0")
    values = b"".join(opened(b"n%d" % k) + b"".join(prop(2 * j, b"okay\0") for j in range(26)) + struct.pack(">I", 2) for k in range(min(65000, rest // 540)))
    yield "properties", blob(opened(b"") + values, b"".join(b"%c\0" % c for c in range(97, 123)))


def best(command, runs, into):
    times = []
    for _ in range(runs):
        with open(into, "wb") as out:
            began = time.perf_counter()
            done = subprocess.run(command, stdout=out, stderr=subprocess.PIPE, timeout=60)
            times.append(time.perf_counter() - began)
        if done.returncode:
            return None, done.stderr.decode(errors="replace").strip()
    return min(times), ""


def run(dtool, name, path, folder, runs=5):
    text, again = os.path.join(folder, "text.dts"), os.path.join(folder, "again.dtb")
    own, why = best([dtool, "print", path], runs, text)
    if own is None:
        print(f"{name:28} {why}")
        return None
    size = os.path.getsize(text)
    same = "too long to compile"
    if size <= 1 << 24:
        compiled, why = best([dtool, "compile", "--raw", text], 1, again)
        same = why
        if compiled is not None:
            printed, _ = best([dtool, "print", again], 1, os.path.join(folder, "again.dts"))
            same = "same" if open(text, "rb").read() == open(os.path.join(folder, "again.dts"), "rb").read() else "ANOTHER"
    other = None
    if shutil.which("dtc"):
        try:
            other, _ = best(["dtc", "-q", "-I", "dtb", "-O", "dts", path], 2, os.path.join(folder, "dtc.dts"))
        except subprocess.TimeoutExpired:
            pass
    ratio = own / other if other else None
    print(f"{name:28} {os.path.getsize(path):9} bytes {own * 1000:9.1f} ms   dtc {other * 1000 if other else float('nan'):9.1f} ms   "
          f"{ratio if ratio else float('nan'):5.2f}   text {size:9}   {same}")
    return ratio


def main():
    dtool, blobs = sys.argv[1], sys.argv[2:]
    with tempfile.TemporaryDirectory() as folder:
        if blobs:
            ratios = [r for r in (run(dtool, os.path.basename(b)[-28:], b, folder, 3) for b in blobs) if r]
            if ratios:
                print(f"median {statistics.median(ratios):.2f} worst {max(ratios):.2f} of {len(ratios)}")
            return
        for size in (200_000, 1 << 22, 1 << 24):
            for name, data in made(size):
                path = os.path.join(folder, "made.dtb")
                with open(path, "wb") as file:
                    file.write(data)
                run(dtool, f"{name} {size}", path, folder)


main()

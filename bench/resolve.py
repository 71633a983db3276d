#!/usr/bin/env python3
"""Times `dtool regs` and `dtool irqs`, and one question of `dma` and of `spec`, beside `dtool check`, on blobs that have much to resolve, or on the
blobs of a folder.

    python3 bench/resolve.py crates/dtool/out/dtool [FOLDER]

Of a folder it also counts the lines by what they hold: `whole`, `cut`, `hops N`, or the name of the fault. There it asks each node directly below a bus
with `dma-ranges` for the address 0 and for the first one that a range holds, and each entry of each property `Xs` or `Y-Xs`, but for interrupts, whose first
cell is the phandle of a node with `#X-cells`."""
import collections
import concurrent.futures
import os
import subprocess
import sys
import tempfile

from boards import Tree
from check import Blob, best, board, word

CONTROLLER = 0x1000000


def begin_root(b):
    """A root whose interrupts go to one controller, which is its first child."""
    b.begin()
    b.prop("#address-cells", word(1))
    b.prop("#size-cells", word(1))
    b.prop("interrupt-parent", word(CONTROLLER))
    b.begin("ic")
    b.prop("interrupt-controller")
    b.prop("#interrupt-cells", word(3))
    b.prop("phandle", word(CONTROLLER))
    b.close()


def begin_bus(b, name):
    b.begin(name)
    b.prop("#address-cells", word(1))
    b.prop("#size-cells", word(1))
    b.prop("ranges", word(0) + word(0) + word(0x80000000))


def resolved_board():
    """The board of check.py, with ranges that aren't empty and an interrupt controller."""
    return board(controller=CONTROLLER, ranges=True)


def four_buses(nodes):
    b = Blob()
    begin_root(b)
    for i in range(4):
        begin_bus(b, f"bus{i}")
    for i in range(nodes):
        b.begin(f"n{i:x}")
        b.prop("reg", word(i) + word(1))
        b.close()
    for _ in range(5):
        b.close()
    return b.bytes()


def senders(nodes):
    b = Blob()
    begin_root(b)
    for i in range(nodes):
        b.begin(f"n{i:x}")
        b.prop("interrupts", word(0) + word(i) + word(4))
        b.close()
    b.close()
    return b.bytes()


def one_node(name, value):
    b = Blob()
    begin_root(b)
    b.begin("n")
    b.prop(name, value)
    b.close()
    b.close()
    return b.bytes()


def circles(nodes):
    """Nodes whose interrupt parent is sought in a circle of two."""
    b = Blob()
    b.begin()
    for at, to in ((1, 2), (2, 1)):
        b.begin(f"c{at}")
        b.prop("phandle", word(at))
        b.prop("interrupt-parent", word(to))
        b.close()
    for i in range(nodes):
        b.begin(f"n{i:x}")
        b.prop("interrupt-parent", word(1))
        b.prop("interrupts", word(0))
        b.close()
    b.close()
    return b.bytes()


def below_properties(nodes, properties):
    """Nodes with `reg` below one of many properties."""
    b = Blob()
    begin_root(b)
    b.begin("bus")
    for i in range(properties):
        b.prop(f"p{i:x}")
    b.prop("#address-cells", word(1))
    b.prop("#size-cells", word(1))
    b.prop("ranges")
    for i in range(nodes):
        b.begin(f"n{i:x}")
        b.prop("reg", word(i) + word(1))
        b.close()
    b.close()
    b.close()
    return b.bytes()


def provider(b, cells):
    """A provider, and a connector whose map comes next."""
    b.begin("provider")
    b.prop("phandle", word(1))
    b.prop("#x-cells", word(cells))
    b.close()


def crowd(b, nodes):
    for i in range(nodes):
        b.begin(f"n{i:x}")
        b.close()


def many_entries(entries):
    b = Blob()
    b.begin()
    provider(b, 2)
    b.begin("user")
    b.prop("xs", (word(1) + word(2) + word(3)) * entries)
    b.close()
    crowd(b, 60_000)
    b.close()
    return b.bytes()


def many_rows(rows):
    b = Blob()
    b.begin()
    provider(b, 1)
    b.begin("connector")
    b.prop("phandle", word(2))
    b.prop("#x-cells", word(1))
    b.prop("x-map", b"".join(word(i) + word(1) + word(i) for i in range(rows)))
    b.close()
    b.begin("user")
    b.prop("xs", word(2) + word(rows - 1))
    b.close()
    crowd(b, 60_000)
    b.close()
    return b.bytes()


def many_ranges(ranges):
    b = Blob()
    b.begin()
    b.prop("#address-cells", word(1))
    b.prop("#size-cells", word(1))
    b.begin("bus")
    b.prop("#address-cells", word(1))
    b.prop("#size-cells", word(1))
    b.prop("dma-ranges", b"".join(word(i) + word(i) + word(1) for i in range(ranges)))
    b.begin("device")
    b.close()
    b.close()
    crowd(b, 60_000)
    b.close()
    return b.bytes()


QUESTIONS = [
    ("a board: an address on the root's bus", resolved_board, ["dma", "/bus@00000000", "0", "16"]),
    ("60,000 nodes, the last of 200,000 entries", lambda: many_entries(200_000), ["spec", "/user", "xs", "x", "199999"]),
    ("60,000 nodes, the last of 200,000 rows of a map", lambda: many_rows(200_000), ["spec", "/user", "xs", "x", "0"]),
    ("60,000 nodes, the last of 200,000 ranges", lambda: many_ranges(200_000), ["dma", "/bus/device", "199999", "1"]),
]

BLOBS = [
    ("a board", resolved_board),
    ("65,000 nodes with reg, four buses deep", lambda: four_buses(65_000)),
    ("65,000 nodes with interrupts", lambda: senders(65_000)),
    ("200,000 entries of reg", lambda: one_node("reg", b"".join(word(i) + word(1) for i in range(200_000)))),
    ("200,000 entries of interrupts", lambda: one_node("interrupts", (word(0) + word(1) + word(4)) * 200_000)),
    ("200,000 entries of interrupts-extended", lambda: one_node("interrupts-extended", (word(CONTROLLER) + word(0) + word(1) + word(4)) * 200_000)),
    ("30,000 nodes sent round in a circle of two", lambda: circles(30_000)),
    ("30,000 nodes below 30,000 properties", lambda: below_properties(30_000, 30_000)),
]


def told(line):
    """What a line says, in a word or two."""
    words = line.split()
    if b"fault" in words:
        return words[-1].decode()
    return (b" ".join(words[-2:]) if words[-2] == b"hops" else words[-1]).decode()


def show(tool, name, path):
    seconds = {}
    lines = {}
    for job in ("check", "regs", "irqs"):
        seconds[job], lines[job] = best([tool, job, path])
    times = ", ".join(f"{job} {s * 1000:.1f} ms" for job, s in seconds.items())
    print(f"{name}: {times}; {lines['regs'].count(10)} regions, {lines['irqs'].count(10)} routes")
    return seconds, lines


def ask(tool, name, path, words):
    check, _ = best([tool, "check", path])
    seconds, line = best([tool, words[0], path, *words[1:]])
    print(f"{name}: check {check * 1000:.1f} ms, {words[0]} {seconds * 1000:.1f} ms: {line.decode().strip()}")


def cells(value):
    return [int.from_bytes(value[at:at + 4], "big") for at in range(0, len(value) - 3, 4)]


def dma_questions(tree):
    """Of each node directly below a bus with `dma-ranges`: 0, and the first address that a range holds."""
    nodes = dict(tree.nodes)
    for path in nodes:
        bus = nodes.get(path.rpartition(b"/")[0])
        if path and bus is not None and b"dma-ranges" in bus:
            width = (cells(bus.get(b"#address-cells", b"")) or [2])[0]
            first = int.from_bytes(bus[b"dma-ranges"][:4 * width], "big")
            for address in sorted({0, first if first < 1 << 64 else 0}):
                yield ["dma", path.decode(), str(address), "1"]


def specifier_questions(tree):
    """Of each list of phandles with specifiers: each entry, as long as providers say how many cells they want."""
    by_number = {int.from_bytes(number, "big"): dict(tree.nodes)[path] for number, path in tree.numbers.items()}
    for path, properties in tree.nodes:
        for name, value in properties.items():
            kind = name.split(b"-")[-1][:-1]
            if not name.endswith(b"s") or not kind or kind == b"interrupt":
                continue
            left, index = cells(value), 0
            while left and b"#" + kind + b"-cells" in by_number.get(left[0], {}):
                yield ["spec", path.decode() or "/", name.decode(), kind.decode(), str(index)]
                left, index = left[1 + cells(by_number[left[0]][b"#" + kind + b"-cells"])[0]:], index + 1


def answer(tool, blob, words):
    done = subprocess.run([tool, words[0], blob, *words[1:]], capture_output=True)
    return words[0], told(done.stdout or done.stderr)


def asked_of_boards(tool, folder):
    """Counts what the questions to the blobs of a folder are answered, by kind."""
    kinds = collections.defaultdict(collections.Counter)
    with concurrent.futures.ThreadPoolExecutor() as pool:
        for name in sorted(os.listdir(folder)):
            path = os.path.join(folder, name)
            with open(path, "rb") as blob:
                tree = Tree(blob.read())
            questions = [*dma_questions(tree), *specifier_questions(tree)]
            for job, kind in pool.map(lambda words, path=path: answer(tool, path, words), questions):
                kinds[job][kind] += 1
    for job, kind in kinds.items():
        print(f"{job}: {', '.join(f'{k} {n}' for k, n in kind.most_common())}")


def main():
    tool = sys.argv[1]
    if len(sys.argv) > 2:
        total, kinds = collections.Counter(), {job: collections.Counter() for job in ("regs", "irqs")}
        for name in sorted(os.listdir(sys.argv[2])):
            seconds, lines = show(tool, name, os.path.join(sys.argv[2], name))
            total.update(seconds)
            for job, kind in kinds.items():
                kind.update(map(told, lines[job].splitlines()))
        print(f"together: {', '.join(f'{job} {s:.2f} s' for job, s in total.items())}")
        for job, kind in kinds.items():
            print(f"{job}: {', '.join(f'{k} {n}' for k, n in kind.most_common())}")
        asked_of_boards(tool, sys.argv[2])
        return
    with tempfile.TemporaryDirectory() as folder:
        path = os.path.join(folder, "blob.dtb")
        for name, make in BLOBS:
            with open(path, "wb") as to:
                to.write(make())
            show(tool, name, path)
        for name, make, words in QUESTIONS:
            with open(path, "wb") as to:
                to.write(make())
            ask(tool, name, path, words)


if __name__ == "__main__":
    main()

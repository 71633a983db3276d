#!/usr/bin/env python3
"""Compiles every source below a folder with dtool and with dtc, compares what the blobs say, and prints the ratios of time
and of memory, and how long the blobs are.

    python3 bench/boards.py crates/dtool/out/dtool FOLDER [RUNS]

With tools/dtc in place of the program it is seen what that script makes of them, the dialect of dtc included. A folder
of real boards is made of a Linux source tree, each board behind the C preprocessor:

    apt-get install linux-source && tar -xf /usr/src/linux-source-*.tar.xz
    python3 bench/boards.py make linux-source-* FOLDER

Two blobs say the same where the nodes, the order of siblings and the values are the same, a number of a node standing for
that node wherever either compiler put it, and where properties are the same in any order. Two knowing differences aside: a
node that is deleted and comes again stands last here, and dtc drops a property `name` that is its node's name. An object's
lists of cells may be in any order. dtc has to be installed."""
import os
import re
import struct
import subprocess
import sys
import tempfile
from collections import Counter
from concurrent.futures import ThreadPoolExecutor

from measuring import peak, timed


def make(linux, folder):
    """Writes each board of a Linux source tree, behind the C preprocessor, into a folder."""
    boards = []
    for base, _, names in os.walk(os.path.join(linux, "arch")):
        if "/boot/dts" in base:
            boards += [os.path.join(base, name) for name in names if name.endswith((".dts", ".dtso"))]

    def one(path):
        out = os.path.join(folder, os.path.relpath(path, os.path.join(linux, "arch")).replace("/boot/dts", ""))
        os.makedirs(os.path.dirname(out), exist_ok=True)
        prefixes = os.path.join(linux, "scripts/dtc/include-prefixes")
        command = ["gcc", "-E", "-nostdinc", "-I", prefixes, "-undef", "-D__DTS__", "-x", "assembler-with-cpp", path, "-o", out]
        done = subprocess.run(command, stderr=subprocess.DEVNULL)
        if done.returncode and os.path.exists(out):
            os.remove(out)
        return done.returncode == 0

    with ThreadPoolExecutor() as pool:
        print(f"{sum(pool.map(one, sorted(boards)))} of {len(boards)} boards written")


def run(command, seconds=60):
    """The bytes that a command writes, its status, the last line of its standard error, and its wall time."""
    with tempfile.TemporaryFile() as out, tempfile.TemporaryFile() as told:
        status, took = timed(command, out, told, seconds)
        out.seek(0)
        told.seek(0)
        lines = told.read().decode(errors="replace").strip().splitlines()
        return out.read(), status, lines[-1] if lines else "", took


class Tree:
    """What a blob says: paths in preorder, and for each its properties."""

    def __init__(self, blob):
        word = lambda at: struct.unpack_from(">I", blob, at)[0]
        structure, strings, reserved = word(8), word(12), word(16)
        self.reservations, self.nodes, stack, at = [], [], [], structure
        while blob[reserved:reserved + 16] != bytes(16):
            self.reservations.append(blob[reserved:reserved + 16])
            reserved += 16
        while True:
            token, at = word(at), at + 4
            if token == 1:
                end = blob.index(0, at)
                stack.append(blob[at:end])
                self.nodes.append((b"/".join(stack), {}))
                open_node = self.nodes[-1][1]
                at = (end + 4) & ~3
            elif token == 2:
                stack.pop()
            elif token == 3:
                size, name = word(at), strings + word(at + 4)
                open_node[blob[name:blob.index(0, name)]] = blob[at + 8:at + 8 + size]
                at = (at + 8 + size + 3) & ~3
            elif token == 9:
                break
        self.numbers = {}
        for path, properties in self.nodes:
            if len(properties.get(b"phandle", b"")) == 4:
                self.numbers[properties[b"phandle"]] = path


def same_value(a, b, ours, theirs):
    """Whether two values are the same, a number of a node in the one standing for the same node's in the other."""
    if a == b:
        return True
    if len(a) != len(b):
        return False
    at = 0
    while at < len(a):
        if a[at:at + 4] == b[at:at + 4]:
            at += 4
        elif a[at:at + 4] in ours.numbers and ours.numbers[a[at:at + 4]] == theirs.numbers.get(b[at:at + 4]):
            at += 4
        elif a[at] == b[at]:
            at += 1
        else:
            return False
    return True


def moved_names(source):
    """The names of the nodes that a source deletes: one that comes again stands last here, and in its old place in dtc."""
    names = set()
    for by_label, name in re.findall(rb"/delete-node/\s+(&?)([^;\s]+)\s*;", source):
        names.update(re.findall(rb"\b" + re.escape(name) + rb":\s*(?:\w+:\s*)*([\w,.+@#?*-]+)\s*\{", source) if by_label else [name])
    return names


def are_same_cells(path, a, b):
    """Whether an object's lists of cells say the same, in any order."""
    if path.startswith(b"/__fixups__"):
        return sorted(a.split(b"\0")) == sorted(b.split(b"\0"))
    cells = lambda value: sorted(value[at:at + 4] for at in range(0, len(value), 4))
    return path.startswith(b"/__local_fixups__") and cells(a) == cells(b)


def difference(ours, theirs, moved):
    """The first thing in which two trees differ, aside from the place of nodes with these names; None where there is none."""
    if ours.reservations != theirs.reservations:
        return "reservations"
    a, b = ([path for path, _ in tree.nodes if not moved.intersection(path.split(b"/"))] for tree in (ours, theirs))
    mine, others = dict(ours.nodes), dict(theirs.nodes)
    if mine.keys() != others.keys():
        return f"nodes {sorted(mine.keys() ^ others.keys())[:3]}"
    if a != b:
        return "the order of siblings"
    for path in mine:
        a, b = mine[path], others[path]
        for name in sorted(a.keys() | b.keys()):
            if name == b"name" and name not in b and a[name] == path.split(b"/")[-1].split(b"@")[0] + b"\0":
                continue
            if name in a and name in b and (name == b"phandle" or same_value(a[name], b[name], ours, theirs)):
                continue
            if name in a and name in b and are_same_cells(path, a[name], b[name]):
                continue
            return f"{path.decode()} {name.decode()}"
    return None


def came_from(path):
    """The folder of a board's source in the Linux tree, by the first line marker: where dtc looks for /include/."""
    with open(path, "rb") as source:
        return os.path.dirname(source.readline().decode(errors="replace").split('"')[1:2][0]) or "."


def compare(tool, path, runs):
    """What came of one source: a word for it, and the ratios of time and memory where both compiled it."""
    words = ["-q", "-@", "-I", "dts", "-O", "dtb", "-i", came_from(path), path]
    commands = [tool, *words] if os.path.basename(tool) == "dtc" else [tool, "compile", path], ["dtc", *words]
    ours, theirs = (min((run(command) for _ in range(runs)), key=lambda r: r[3]) for command in commands)
    if ours[1] or theirs[1]:
        return ("dtool refuses" if ours[1] else "compiles") + (", dtc refuses" if theirs[1] else ", dtc compiles"), ours[2], None
    with open(path, "rb") as source:
        found = difference(Tree(ours[0]), Tree(theirs[0]), moved_names(source.read()))
    ratio = ours[3] / theirs[3], peak(commands[0]) / peak(commands[1]), path, ours[0], theirs[0]
    return "the same" if found is None else "other", found, ratio


def main():
    if sys.argv[1] == "make":
        return make(*sys.argv[2:4])
    tool, folder, runs = sys.argv[1], sys.argv[2], int(sys.argv[3]) if len(sys.argv) > 3 else 3
    words, faults, ratios = Counter(), Counter(), []
    for base, _, names in sorted(os.walk(folder)):
        for path in sorted(os.path.join(base, name) for name in names if name.endswith((".dts", ".dtso"))):
            word, told, ratio = compare(tool, path, runs)
            words[word] += 1
            if word != "the same":
                faults[(word, told.split("fault ")[-1].split(" at ")[0] if word.startswith("dtool") else "")] += 1
                print(f"{word}: {os.path.relpath(path, folder)}: {told}")
            if ratio:
                ratios.append(ratio)
    for (word, fault), count in faults.most_common():
        print(f"{count:6} {word} {fault}")
    for word, count in words.most_common():
        print(f"{count:6} {word}")
    for which, name in enumerate(("time", "peak memory")):
        parts = sorted((r[which], r[2]) for r in ratios)
        if parts:
            print(f"{name} beside dtc's: median {parts[len(parts) // 2][0]:.2f}, worst {parts[-1][0]:.2f} ({os.path.relpath(parts[-1][1], folder)})")
    longer = [path for _, _, path, own, other in ratios if len(own) > len(other)]
    alike = [path for _, _, path, own, other in ratios if len(own) > len(other) and own[36:40] == other[36:40]]
    print(f"blobs: {sum(len(r[3]) for r in ratios)} bytes, dtc's {sum(len(r[4]) for r in ratios)}; {len(longer)} longer than dtc's, "
          f"of which {len(alike)} have no more in their structure blocks {alike[:3]}")


if __name__ == "__main__":
    main()

#!/usr/bin/env python3
"""Applies the overlays of a Linux source tree to their boards with dtool and with fdtoverlay, compares what the results say, and
prints the ratios of time.

    python3 bench/pairs.py crates/dtool/out/dtool LINUX FOLDER

LINUX is the source tree, whose Makefiles name the pairs, and FOLDER the boards that bench/boards.py has made of it. Two results
say the same where the nodes and the values are the same, a number of a node standing for that node; siblings may be in any order.
dtc has to be installed."""
import os
import re
import subprocess
import sys
import tempfile

from boards import Tree, same_value
from measuring import timed

RUNS = 15


def pairs(linux):
    """The names of a board and of its overlays, as the Makefiles have them."""
    for base, _, names in os.walk(os.path.join(linux, "arch")):
        if "Makefile" in names and "/boot/dts" in base:
            for made in re.findall(r"-dtbs\s*:=\s*(.*)", open(os.path.join(base, "Makefile")).read()):
                words = made.split()
                if any(word.endswith(".dtbo") for word in words):
                    yield [os.path.splitext(word)[0] for word in words]


def sources(folder):
    """Where the source of each name is."""
    found = {}
    for base, _, names in os.walk(folder):
        for name in names:
            found[os.path.splitext(name)[0]] = os.path.join(base, name)
    return found


def difference(ours, theirs):
    """The first thing in which two trees differ; None where there is none."""
    mine, others = dict(ours.nodes), dict(theirs.nodes)
    if mine.keys() != others.keys():
        return f"nodes {sorted(mine.keys() ^ others.keys())[:3]}"
    for path in mine:
        a, b = mine[path], others[path]
        for name in sorted(a.keys() | b.keys()):
            if name not in a or name not in b or name != b"phandle" and not same_value(a[name], b[name], ours, theirs):
                return f"{path.decode()} {name.decode()}"
    return None


def best(command, out):
    """The shortest wall time of some runs whose output goes into a file, or None where one fails."""
    times = []
    for _ in range(RUNS):
        with open(out, "wb") as to:
            status, took = timed(command, to, subprocess.DEVNULL, 60)
        if status:
            return None
        times.append(took)
    return min(times)


def main():
    tool, linux, folder = sys.argv[1:4]
    where, ratios = sources(folder), []
    with tempfile.TemporaryDirectory() as room:
        at = lambda name: os.path.join(room, name)
        for names in sorted(pairs(linux)):
            blobs = [at(f"{k}.dtb") for k in range(len(names))]
            for name, blob in zip(names, blobs):
                with open(blob, "wb") as to:
                    status = subprocess.run([tool, "compile", where.get(name, name)], stdout=to, stderr=subprocess.DEVNULL).returncode
                if status:
                    break
            if status:
                print(f"{' '.join(names)}: {name} isn't compiled")
                continue
            ours = best([tool, "apply", *blobs], at("ours"))
            theirs = best(["fdtoverlay", "-i", blobs[0], "-o", at("theirs"), *blobs[1:]], at("told"))
            if ours is None or theirs is None:
                print(f"{' '.join(names)}: refused by {'dtool' if ours is None else ''} {'fdtoverlay' if theirs is None else ''}")
                continue
            differs = difference(*(Tree(open(at(name), "rb").read()) for name in ("ours", "theirs")))
            ratios.append(ours / theirs)
            print(f"{' '.join(names)}: {differs or 'the same'}, {ours * 1000:.2f} ms, fdtoverlay {theirs * 1000:.2f} ms")
    ratios.sort()
    if ratios:
        print(f"{len(ratios)} pairs, time of fdtoverlay's: median {ratios[len(ratios) // 2]:.2f}, worst {ratios[-1]:.2f}")


if __name__ == "__main__":
    main()

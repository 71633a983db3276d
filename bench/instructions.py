#!/usr/bin/env python3
"""Counts the instructions of dtool and of dtc's programs on the same inputs, beside the goals.

    python3 bench/instructions.py dtool [--boards FOLDER] [--pairs LINUX] [--count N]
    python3 bench/instructions.py dtool --old OLD/dtool

FOLDER holds boards that bench/boards.py has made of the Linux source tree LINUX, whose Makefiles name the pairs of a board and overlays. It counts the
boards that are named below, which Linux 6.1 has, or with --count so many of all, spread by size; and 21 pairs, or so many. A median hangs on the set, so
only figures of one set are compared. A run counts only where both programs end with 0 and their blobs say the same; what one refuses is named. It needs
Debian's valgrind, device-tree-compiler and libfdt-dev; a row whose program isn't installed is named, and isn't at its goal. With --old two builds of
dtool are compared on small inputs of each kind. Counts don't depend on the machine's load.

glibc clears and copies long stretches by `rep stosb` and `rep movsb`, which valgrind counts byte by byte, so both programs are told to use neither."""
import argparse
import math
import os
import re
import shutil
import statistics
import subprocess
import sys
import tempfile
from concurrent.futures import ThreadPoolExecutor

import apply
import boards
import kinds
import pairs
from measuring import peak

NO_REP = "glibc.cpu.x86_rep_stosb_threshold=1000000000:glibc.cpu.x86_rep_movsb_threshold=1000000000"
FULL = """
#include <libfdt.h>
#include <stdio.h>
#include <stdlib.h>
int main(int argc, char **argv) {
    static char blob[16 << 20];
    FILE *from = fopen(argv[1], "rb");
    return from && !fdt_check_full(blob, fread(blob, 1, sizeof blob, from)) ? 0 : 1;
}
"""
SMALLEST = "/dts-v1/;\n/ { };\n"
HEAD, TAIL = kinds.HEAD, kinds.TAIL


def two_levels(count):
    """So many nodes, eight in each node below the root, a property each."""
    return HEAD + "".join(f"n{i} {{ p = <{i}>; " + "".join(f"m{j} {{ p = <{j}>; }}; " for j in range(7)) + "};\n" for i in range(count // 8)) + TAIL


def deep(count):
    """So many nodes, 63 in one another, a property each."""
    return HEAD + "".join(f"n{i} {{ p; " + "a { p; " * 62 + "};" * 63 + "\n" for i in range(count // 63)) + TAIL


# The goal of each kind beside dtc, how many pieces, and the text of so many.
MADE = {
    "cells": (0.22, 128_000, lambda n: HEAD + "a = <" + "0x1234 " * n + ">;\n" + TAIL),
    "bytes": (0.12, 512_000, lambda n: HEAD + "a = [" + "0a " * n + "];\n" + TAIL),
    "expressions": (0.25, 32_000, lambda n: HEAD + "a = <" + "(1 + (2 << 3) * ~4) " * n + ">;\n" + TAIL),
    "nodes in two levels": (0.20, 8_000, two_levels),
    "nodes 63 deep": (0.20, 8_000, deep),
    "line markers": (0.12, 32_000, lambda n: '# 1 "file.dts" 2\n' * n + SMALLEST),
    "reservations": (0.30, 8_000, lambda n: "/dts-v1/;\n" + "/memreserve/ 0x10000000 0x4000;\n" * n + "/ { };\n"),
}

# Boards from 0.8 to 105 KB of source, spread by size.
BOARDS = (
    "ps3", "or1ksim", "gamecube", "vocore2", "kirkwood-ns2max", "bcm4709-asus-rt-ac87u", "rk3036-evb", "socfpga_arria10_socdk_nand",
    "rk3188-px3-evb", "imx6sll-evk", "meson-gxl-s905d-sml5442tw", "at91-kizbox3-hs", "imx6dl-gw5913", "rk3328-nanopi-r2s", "zynqmp-zcu102-rev1.1",
    "imx7d-colibri-aster", "k3-am654-base-board", "msm8916-samsung-a3u-eur", "r8a774e1-beacon-rzg2h-kit", "rk3399-nanopc-t4", "k3-j721e-common-proc-board",
)

# Boards with blobs above 100 KB.
LARGE_BOARDS = ("tegra30-pegatron-chagall", "sdm845-cheza-r2", "sm8250-sony-xperia-edo-pdx203", "sc7280-herobrine-evoker-r0", "tegra124-jetson-tk1", "am574x-idk")


class Bench:
    """The program, the folder that inputs are written to, and the rows so far."""

    def __init__(self, tool, room):
        self.tool, self.room, self.rows, self.refused = tool, room, [], []
        self.full = self.at("full")
        with open(self.at("full.c"), "w") as to:
            to.write(FULL)
        made = subprocess.run(["cc", "-O2", self.at("full.c"), "-lfdt", "-o", self.full], stderr=subprocess.DEVNULL)
        if made.returncode:
            self.full = None

    def at(self, name):
        return os.path.join(self.room, name)

    def write(self, name, text):
        with open(self.at(name), "w") as to:
            to.write(text)
        return self.at(name)

    def count(self, command, out=os.devnull):
        """The instructions of a command; None where it fails."""
        counted = ["valgrind", "--tool=callgrind", "--callgrind-out-file=/dev/null", *command]
        with open(out, "wb") as to:
            done = subprocess.run(counted, stdout=to, stderr=subprocess.PIPE, text=True, env={**os.environ, "GLIBC_TUNABLES": NO_REP})
        return int(re.search(r"Collected : (\d+)", done.stderr).group(1)) if done.returncode == 0 else None

    def row(self, title, goal, value, told=""):
        self.rows.append((title, goal, value))
        shown = "not measured" if value is None else f"{value:.2f}"
        at_goal = value is not None and value <= goal
        print(f"{title:<60} {shown:>12} {goal:>8.2f} {'at its goal' if at_goal else '':<12} {told}", flush=True)

    def ratios(self, title, goals, ratios):
        """Rows of the median and, where there is a goal, of the worst of some ratios."""
        known = sorted(ratio for ratio in ratios if ratio is not None)
        for goal, name, value in zip(goals, ("median", "worst"), (statistics.median(known), known[-1]) if known else (None, None)):
            self.row(f"{title}, {name} of {len(known)}", goal, value)

    def ended(self):
        met = sum(value is not None and value <= goal for _, goal, value in self.rows)
        for line in self.refused:
            print(f"left out: {line}")
        print(f"{met} of {len(self.rows)} at their goals")


def spread(paths, count):
    """So many of some files, spread by size."""
    paths = sorted(paths, key=os.path.getsize)
    return paths if len(paths) <= count else [paths[i * (len(paths) - 1) // (count - 1)] for i in range(count)]


def tree(path):
    with open(path, "rb") as blob:
        return boards.Tree(blob.read())


def least_peak(command):
    """The least peak of some runs, which differ by a tenth with where the system puts a small program."""
    return min(peak(command) for _ in range(7))


def board(bench, source, key):
    """What the two programs take for one board: its blob's size, and each command's ratio."""
    ours, theirs = bench.at(f"{key}.dtb"), bench.at(f"{key}.dtc.dtb")
    compiled = bench.count([bench.tool, "compile", source], ours)
    by_dtc = bench.count(["dtc", "-q", "-@", "-I", "dts", "-O", "dtb", "-o", theirs, source])
    if compiled is None or by_dtc is None:
        return f"{source}: refused by {'dtool' if compiled is None else 'dtc'}"
    with open(source, "rb") as text:
        differs = boards.difference(tree(ours), tree(theirs), boards.moved_names(text.read()))
    if differs:
        return f"{source}: {differs} differs"
    checked = bench.count([bench.tool, "check", ours])
    full = bench.full and bench.count([bench.full, ours])
    beside = lambda words, command: (lambda a, b: a / b if a and b else None)(bench.count([bench.tool, *words, ours]), bench.count([*command, ours]))
    return {
        "size": os.path.getsize(ours),
        "compile": compiled / by_dtc,
        "check": checked / full if full else None,
        "dump": checked / bench.count(["fdtdump", ours]),
        "print": beside(["print"], ["dtc", "-q", "-I", "dtb", "-O", "dts"]),
        "regs": bench.count([bench.tool, "regs", ours]) / checked,
        "irqs": bench.count([bench.tool, "irqs", ours]) / checked,
        "memory": least_peak([bench.tool, "compile", source]) / least_peak(["dtc", "-q", "-@", "-I", "dts", "-O", "dtb", source]),
    }


def named(bench, paths, names):
    """The paths of the boards of some names."""
    found = {os.path.basename(path).removesuffix(".dts"): path for path in paths}
    bench.refused += [f"{name}: not in the folder" for name in names if name not in found]
    return [found[name] for name in names if name in found]


def of_boards(bench, folder, count):
    found = [os.path.join(base, name) for base, _, names in os.walk(folder) for name in names if name.endswith(".dts")]
    chosen, larger = (spread(found, count), []) if count else (named(bench, found, BOARDS), named(bench, found, LARGE_BOARDS))
    with ThreadPoolExecutor(os.cpu_count()) as pool:
        done = list(pool.map(lambda k: board(bench, k[1], k[0]), enumerate(chosen + larger)))
    bench.refused += [line for line in done if isinstance(line, str)]
    counted = lambda ones: [one for one in ones if not isinstance(one, str)]
    all_boards = counted(done[: len(chosen)])
    large = [one for one in counted(done) if one["size"] > 100_000]
    above = [one for one in all_boards if one["size"] > 8_192]
    each = lambda ones, name: [one[name] for one in ones]
    bench.ratios("compile beside dtc", (0.10,), each(all_boards, "compile"))
    bench.ratios("compile beside dtc, blobs above 100 KB", (0.06, 0.09), each(large, "compile"))
    bench.ratios("check beside fdt_check_full", (1.6, 1.8), each(above, "check"))
    bench.ratios("check beside fdtdump", (0.37,), each(all_boards, "dump"))
    bench.ratios("print beside dtc -O dts", (0.20,), each(all_boards, "print"))
    bench.ratios("regs beside check", (1.6,), each(above, "regs"))
    bench.ratios("irqs beside check", (1.6,), each(above, "irqs"))
    bench.ratios("peak memory of compile beside dtc", (0.9, 1.1), each(counted(done), "memory"))


def pair(bench, where, names, key):
    blobs = [bench.at(f"{key}.{k}.dtb") for k in range(len(names))]
    for name, blob in zip(names, blobs):
        with open(blob, "wb") as to:
            if subprocess.run([bench.tool, "compile", where.get(name, name)], stdout=to, stderr=subprocess.DEVNULL).returncode:
                return f"{' '.join(names)}: {name} isn't compiled"
    ours, theirs = bench.at(f"{key}.ours"), bench.at(f"{key}.theirs")
    applied = bench.count([bench.tool, "apply", *blobs], ours)
    by_peer = bench.count(["fdtoverlay", "-i", blobs[0], "-o", theirs, *blobs[1:]])
    if applied is None or by_peer is None:
        return f"{' '.join(names)}: refused by {'dtool' if applied is None else 'fdtoverlay'}"
    differs = pairs.difference(tree(ours), tree(theirs))
    return f"{' '.join(names)}: {differs} differs" if differs else applied / by_peer


def of_pairs(bench, linux, folder, count):
    where, found = pairs.sources(folder), sorted(pairs.pairs(linux))
    chosen = found if len(found) <= count else [found[i * (len(found) - 1) // (count - 1)] for i in range(count)]
    with ThreadPoolExecutor(os.cpu_count()) as pool:
        done = list(pool.map(lambda k: pair(bench, where, k[1], k[0]), enumerate(chosen)))
    bench.refused += [line for line in done if isinstance(line, str)]
    bench.ratios("apply beside fdtoverlay", (0.11, 0.70), [one for one in done if not isinstance(one, str)])


def of_made(bench):
    """Made texts beside dtc, and how a count grows from so many pieces to twice as many."""
    start = bench.count([bench.tool, "compile", bench.write("smallest.dts", SMALLEST)])
    for title, (goal, count, made) in MADE.items():
        text, twice = bench.write("a.dts", made(count)), bench.write("b.dts", made(2 * count))
        ours, by_dtc = bench.count([bench.tool, "compile", text], bench.at("a.dtb")), bench.count(["dtc", "-q", "-I", "dts", "-O", "dtb", text])
        more = bench.count([bench.tool, "compile", twice])
        exponent = math.log2((more - start) / (ours - start)) if ours and more else math.nan
        bench.row(f"{title}, {count:,}, compile beside dtc", goal, ours / by_dtc if ours and by_dtc else None, f"exponent {exponent:.2f}")


def of_memory(bench):
    text = bench.write("smallest.dts", SMALLEST)
    with open(bench.at("smallest.dtb"), "wb") as to:
        subprocess.run([bench.tool, "compile", text], stdout=to, check=True)
    bench.row("pages touched by compile of the smallest text", 75, pages([bench.tool, "compile", text]))
    bench.row("pages touched by check of the smallest blob", 80, pages([bench.tool, "check", bench.at("smallest.dtb")]))
    nodes = bench.write("nodes.dts", two_levels(65_000))
    bench.row("peak memory of 65,000 nodes with a property beside dtc", 1.3, peak([bench.tool, "compile", nodes]) / peak(["dtc", "-q", "-I", "dts", "-O", "dtb", nodes]))
    for piece in ("p;", "l:", "/ { };"):
        size = (16 << 20) - 64
        body = {"p;": HEAD + piece * (size // 2) + TAIL, "l:": HEAD + piece * (size // 2) + TAIL, "/ { };": "/dts-v1/;\n" + piece * (size // 6)}[piece]
        worst = bench.write("worst.dts", body)
        bench.row(f"memory a byte of 16 MiB of `{piece}`", 40, peak([bench.tool, "compile", worst]) * (1 << 20) / len(body))


def pages(command):
    """The pages that a command touches first: the median of some runs, since where the system puts a program makes a difference of some pages."""

    def one():
        process = subprocess.Popen(command, stdout=subprocess.DEVNULL)
        return os.wait4(process.pid, 0)[2].ru_minflt

    return float(statistics.median(one() for _ in range(25)))


def of_numbers(bench):
    """What one more object that brings a number takes, for each number of the base."""
    count = 8_000
    base = bench.write("base.dts", HEAD + "".join(f"n{i} {{ phandle = <{i + 1}>; }};\n" for i in range(count)) + TAIL)
    blobs = [bench.at("base.dtb")]
    subprocess.run(f'"{bench.tool}" compile "{base}" > "{blobs[0]}"', shell=True, check=True)
    for k in range(3):
        overlay = bench.write("o.dts", f"/dts-v1/;\n/plugin/;\n&{{/}} {{ p{k} = <&l{k}>; l{k}: o{k} {{ }}; }};\n")
        blobs.append(bench.at(f"o{k}.dtb"))
        subprocess.run(f'"{bench.tool}" compile "{overlay}" > "{blobs[-1]}"', shell=True, check=True)
    two, three = (bench.count([bench.tool, "apply", *blobs[:k]]) for k in (3, 4))
    bench.row("one more object that brings a number, a number of the base", 10, (three - two) / count)


def compare(old, new):
    """Two builds of dtool on small inputs of each kind."""
    worst = []
    with tempfile.TemporaryDirectory() as room:
        bench = Bench(new, room)

        def compared(name, words):
            before, after = (bench.count([tool, *words]) or 0 for tool in (old, new))
            growth = after / before - 1 if before else 0
            worst.append(growth)
            print(f"{name:<36} {before:>13,} {after:>13,} {growth:>+8.2%}", flush=True)

        def compile_to(source, target, written):
            with open(target, "wb") as to:
                return subprocess.run([old, "compile", bench.write(source, written)], stdout=to, stderr=subprocess.DEVNULL).returncode == 0

        for kind, made in kinds.KINDS.items():
            if compile_to("a.dts", bench.at("a.dtb"), made(256 << 10)):
                compared(f"compile {kind}", ["compile", bench.at("a.dts")])
                compared(f"check {kind}", ["check", bench.at("a.dtb")])
        for made in (apply.fragments, apply.fragments_by_path, apply.fixups, apply.local_fixups, apply.labels, apply.properties, apply.joined):
            base, overlay = made(500)
            if compile_to("a.dts", bench.at("a.dtb"), base) and compile_to("b.dts", bench.at("b.dtbo"), overlay):
                compared(f"apply {made.__name__}", ["apply", bench.at("a.dtb"), bench.at("b.dtbo")])
    print(f"largest growth {max(worst):+.2%}")


def main():
    words = argparse.ArgumentParser(description=__doc__, formatter_class=argparse.RawDescriptionHelpFormatter)
    words.add_argument("tool")
    words.add_argument("--boards")
    words.add_argument("--pairs")
    words.add_argument("--count", type=int)
    words.add_argument("--old")
    given = words.parse_args()
    lacking = [name for name in ("valgrind", "dtc", "fdtdump", "fdtoverlay", "/usr/bin/time") if not shutil.which(name)]
    if "valgrind" in lacking:
        sys.exit("valgrind isn't installed")
    if given.old:
        return compare(given.old, given.tool)
    if lacking:
        sys.exit(f"not installed: {', '.join(lacking)}")
    with tempfile.TemporaryDirectory() as room:
        bench = Bench(given.tool, room)
        if not bench.full:
            bench.refused.append("fdt_check_full: no libfdt-dev")
        if given.boards:
            of_boards(bench, given.boards, given.count)
        if given.pairs and given.boards:
            of_pairs(bench, given.pairs, given.boards, given.count or 21)
        of_made(bench)
        of_memory(bench)
        of_numbers(bench)
        bench.ended()


if __name__ == "__main__":
    main()

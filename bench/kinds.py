#!/usr/bin/env python3
"""Times `dtool compile` on large texts of one kind each, of 4, 8 and 16 MiB, and dtc on those that it can take.

    python3 bench/kinds.py crates/dtool/out/dtool [KIND ..]

Time has to grow no faster than the text. A text that isn't compiled so far (labels, references) is refused only after it
was read whole, so that its time is the reader's. dtc has to be installed; it is stopped after a minute."""
import os
import subprocess
import sys
import tempfile
import time

MIB = 1 << 20
SIZES = (4 * MIB, 8 * MIB, 16 * MIB)
HEAD, TAIL = "/dts-v1/;\n/ {\n", "};\n"


def filled(before, piece, after, size):
    """`before`, as many pieces as fit, `after`."""
    count = (size - len(before) - len(after)) // len(piece)
    return before + piece * count + after


def numbered(before, piece, after, size):
    """The same with pieces that have a number of their own."""
    parts, left, number = [before], size - len(before) - len(after), 0
    while True:
        part = piece(number)
        if len(part) > left:
            break
        parts.append(part)
        left -= len(part)
        number += 1
    return "".join(parts) + after


def nested(number):
    """64 bodies in one another."""
    return f"n{number} {{ " + "a { " * 62 + "};" * 63 + "\n"


KINDS = {
    "cells": lambda size: filled(HEAD + "a = <", "0 ", ">;\n" + TAIL, size),
    "wide cells": lambda size: filled(HEAD + "a = <", "0x12345678 ", ">;\n" + TAIL, size),
    "one long text": lambda size: filled(HEAD + 'a = "', "x", '";\n' + TAIL, size),
    "escapes": lambda size: filled(HEAD + 'a = "', "\\x41", '";\n' + TAIL, size),
    "texts": lambda size: filled(HEAD + 'a = "', 'vendor,device", "', '";\n' + TAIL, size),
    "bytes": lambda size: filled(HEAD + "a = [", "0aFF ", "];\n" + TAIL, size),
    "expressions": lambda size: filled(HEAD + "a = <", "(1 + (2 << 3) * ~4) ", ">;\n" + TAIL, size),
    "longest expressions": lambda size: filled(HEAD + "a = <", "(" + "-" * 1021 + "1) ", ">;\n" + TAIL, size),
    "comments": lambda size: filled("", "/* a comment */ // and another\n", HEAD + TAIL, size),
    "one long comment": lambda size: filled("/*", "*", "*/" + HEAD + TAIL, size),
    "line markers": lambda size: filled("", '# 1 "file.dts" 2\n', HEAD + TAIL, size),
    "blanks": lambda size: filled("", " \t\n", HEAD + TAIL, size),
    "properties": lambda size: numbered(HEAD, lambda n: f"p{n} = <{n}>;\n", TAIL, size),
    "nested bodies": lambda size: numbered(HEAD, nested, TAIL, size),
    "reservations": lambda size: filled("/dts-v1/;\n", "/memreserve/ 0x10000000 0x4000;\n", "/ {\n};\n", size),
    "labels": lambda size: numbered(HEAD, lambda n: f"l{n}: n{n} {{ }};\n", TAIL, size),
    "references": lambda size: filled(HEAD + "l: n { };\n};\n/ {\na = <", "&l ", ">;\n" + TAIL, size),
    "statements": lambda size: filled("/dts-v1/;\n", "/ {\n};\n", "/ {\n};\n", size),
}
# More than 65,536 nodes are refused, and labels and references aren't compiled so far: what is timed is the reader.


def timed(command, out, limit):
    """The wall time in seconds, and whether it succeeded; None where it was stopped."""
    start = time.perf_counter()
    try:
        with open(out, "wb") as to:
            done = subprocess.run(command, stdout=to, stderr=subprocess.DEVNULL, timeout=limit)
    except subprocess.TimeoutExpired:
        return None, False
    return time.perf_counter() - start, done.returncode == 0


def shown(result):
    seconds, succeeded = result
    if seconds is None:
        return "   > 60"
    return f"{seconds:7.2f}{' ' if succeeded else '*'}"


def main():
    tool, kinds = sys.argv[1], sys.argv[2:] or list(KINDS)
    print(f"{'kind':<20} {'4 MiB':>8} {'8 MiB':>8} {'16 MiB':>8}   {'MB/s':>6}   {'dtc 4':>8} {'dtc 8':>8}   (seconds; * refused)")
    with tempfile.TemporaryDirectory() as folder:
        dts, out = os.path.join(folder, "text.dts"), os.path.join(folder, "out.dtb")
        for kind in kinds:
            ours, theirs = [], []
            for size in SIZES:
                with open(dts, "w") as to:
                    to.write(KINDS[kind](size))
                ours.append(timed([tool, "compile", dts], out, 600))
                if size < SIZES[-1]:
                    slow = bool(theirs) and theirs[-1][0] is None
                    theirs.append((None, False) if slow else timed(["dtc", "-q", "-I", "dts", "-O", "dtb", dts], out, 60))
            rate = SIZES[-1] / 1e6 / ours[-1][0]
            print(f"{kind:<20} {' '.join(map(shown, ours))}   {rate:6.1f}   {' '.join(map(shown, theirs))}", flush=True)


if __name__ == "__main__":
    main()

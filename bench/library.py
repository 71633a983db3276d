#!/usr/bin/env python3
"""Counts the instructions of a call of the library for C, beside libfdt's, and the stack that it takes.

    python3 bench/library.py BLOB..

Needs tools/build --library, a C compiler, valgrind, and libfdt (Debian's libfdt-dev). A count is that of a program that makes the call once for each
node, less that of one that makes none, by callgrind: the same from run to run."""
import os
import re
import subprocess
import sys
import tempfile

HERE = os.path.dirname(os.path.abspath(__file__))
LIBRARY = os.environ.get("DTOOL_LIBRARY", f"{HERE}/../crates/dt_c/out")
PAIRS = [("check-128k", "fdt_check_full"), ("check-4k", "fdt_check_full"), ("node_at", "fdt_path_offset"), ("parent", "fdt_parent_offset"),
         ("by_phandle", "fdt_node_offset_by_phandle"), ("value", "fdt_getprop"), ("path", "fdt_get_path"), ("name", "fdt_get_name"), ("root", None),
         ("property", None), ("region", None), ("route", None)]


def instructions(program, blob, call, count):
    command = ["valgrind", "--tool=callgrind", "--callgrind-out-file=/dev/null", program, blob, call, str(count)]
    done = subprocess.run(command, stderr=subprocess.PIPE, text=True, check=True)
    return int(re.search(r"Collected : (\d+)", done.stderr).group(1))


def main():
    with tempfile.TemporaryDirectory() as folder:
        program = os.path.join(folder, "library")
        compiler = os.environ.get("CC", "cc")
        subprocess.run([compiler, "-O2", "-std=gnu11", f"{HERE}/library.c", f"{LIBRARY}/libdtool.a", "-lfdt", "-o", program], check=True)
        for blob in sys.argv[1:]:
            size, nodes, phandles = map(int, subprocess.run([program, blob, "size"], capture_output=True, text=True, check=True).stdout.split())
            print(f"{blob}: {size} bytes, {nodes} nodes, {phandles} phandles")
            none = instructions(program, blob, "none", 0)
            costs = {}

            def cost(call):
                if call not in costs:
                    count = 1 if "check" in call else phandles if "phandle" in call else nodes
                    costs[call] = (instructions(program, blob, call, count) - none) // max(count, 1)
                return costs[call]

            for ours, theirs in PAIRS:
                other = f"{cost(theirs):>12,}  {theirs}, {cost(ours) / cost(theirs):.2f} times" if theirs else ""
                print(f"  {ours:<12} {cost(ours):>12,} {other}", flush=True)
            print(subprocess.run([program, blob, "stack"], capture_output=True, text=True, check=True).stdout, end="")


main()

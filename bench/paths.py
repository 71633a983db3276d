#!/usr/bin/env python3
"""Times how long an index of a blob takes to find each of many siblings by its path, with the compilation of their source.

    python3 bench/paths.py crates/dt_cases/out/dt_cases

The time has to grow no faster than the number of siblings."""
import os
import subprocess
import sys
import tempfile
import time

RUNS = 3


def seconds(tool, count):
    """The least time of some runs over a table with one case: as many siblings, each asked for by its path."""
    with tempfile.TemporaryDirectory() as folder:
        with open(os.path.join(folder, "paths.cases"), "w") as table:
            table.write(f"compile, paths\n| /dts-v1/; / {{ \n* {count} n{{}} {{ }}; \n| }};\n= {count + 1}\n")
        least = float("inf")
        for _ in range(RUNS):
            start = time.perf_counter()
            subprocess.run([tool, folder], stdout=subprocess.DEVNULL, check=True)
            least = min(least, time.perf_counter() - start)
    return least


def main():
    for count in (15_000, 30_000, 60_000):
        print(f"{count} siblings: {seconds(sys.argv[1], count) * 1000:.0f} ms", flush=True)


if __name__ == "__main__":
    main()

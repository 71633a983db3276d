#!/usr/bin/env python3
"""Times `apply_bytes` beside `apply_list` and fdtoverlay, on the bases and objects of apply.py.

    python3 bench/apply_bytes.py crates/dt_cases/out/dt_cases [COUNT [KIND ..]]

The library is called by the program of cases; a time is that of a case with the call less that of one without it. dtc makes the blobs, with labels.
A kind counts only where both calls answer blobs that read as one tree."""
import os
import subprocess
import sys
import tempfile

import apply

RUNS = 3
KINDS = (apply.fragments, apply.fragments_by_path, apply.fixups, apply.local_fixups, apply.labels, apply.properties, apply.joined)


def seconds(words, folder):
    """The least processor time of some runs, and what the last one wrote to standard error."""
    times = []
    for _ in range(RUNS):
        before = os.times()
        done = subprocess.run(words, cwd=folder, stdout=subprocess.DEVNULL, stderr=subprocess.PIPE, text=True, timeout=120)
        after = os.times()
        times.append(after.children_user + after.children_system - before.children_user - before.children_system)
    return min(times), done.stderr


def answered(program, folder, calls, *blobs):
    """The time of a case that takes these calls, and its answer."""
    with open(os.path.join(folder, "one.cases"), "w") as to:
        to.write(calls + "\n" + "--\n".join(f"x {blob.hex()}\n" for blob in blobs) + "= nothing\n")
    return seconds([program, "."], folder)


def compiled(folder, name, text):
    source, blob = os.path.join(folder, name + ".dts"), os.path.join(folder, name)
    with open(source, "w") as to:
        to.write(text)
    subprocess.run(["dtc", "-q", "-@", "-o", blob, source], check=True)
    with open(blob, "rb") as of:
        return of.read()


def main():
    program = os.path.abspath(sys.argv[1])
    count = int(sys.argv[2]) if len(sys.argv) > 2 else 2000
    print(f"{count:<20}{'bytes of the base':>20}{'apply_bytes':>16}{'apply_list':>16}{'fdtoverlay':>16}")
    for kind in KINDS:
        name = kind.__name__.replace("_", " ")
        if sys.argv[3:] and name not in sys.argv[3:]:
            continue
        with tempfile.TemporaryDirectory() as folder:
            blobs = [compiled(folder, name, text) for name, text in zip(("base", "object"), kind(count))]
            answers = [answered(program, folder, f"{call}, read", *blobs)[1] for call in ("apply-bytes", "apply")]
            if answers[0] != answers[1]:
                print(f"{name:20} reads otherwise")
                continue
            without = answered(program, folder, "check", blobs[0])[0]
            times = [answered(program, folder, f"{call}, check", *blobs)[0] - without for call in ("apply-bytes", "apply")]
            times.append(seconds(["fdtoverlay", "-i", "base", "-o", "out", "object"], folder)[0])
            print(f"{name:20}{len(blobs[0]):>20,}" + "".join(f"{time:>14.2f} s" for time in times), flush=True)


if __name__ == "__main__":
    main()

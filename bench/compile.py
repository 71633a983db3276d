#!/usr/bin/env python3
"""Times `dtool compile` beside dtc on a made-up source, prints the memory of both, and compares what they make.

    python3 bench/compile.py crates/dtool/out/dtool

The source has 255 buses of 200 devices with three properties each. dtc has to be installed."""
import os
import subprocess
import sys
import tempfile
import time

from measuring import peak

BUSES, DEVICES, RUNS = 255, 200, 7


def source():
    lines = ["/dts-v1/;", "/ {"]
    for bus in range(BUSES):
        lines.append(f'\tbus{bus}@{bus:x} {{\n\t\tcompatible = "simple-bus", "vendor,bus-{bus}";')
        for device in range(DEVICES):
            lines.append(
                f'\t\tdev@{device:x} {{ compatible = "vendor,dev"; reg = <0x{device:x} 0x1000>; status = "okay"; }};')
        lines.append("\t};")
    lines.append("};\n")
    return "\n".join(lines)


def best(command, out):
    """The shortest wall time of some runs, in seconds, and the most memory that one takes, in MiB."""
    times = []
    for _ in range(RUNS):
        with open(out, "wb") as to:
            start = time.perf_counter()
            done = subprocess.run(command, stdout=to)
            times.append(time.perf_counter() - start)
        if done.returncode:
            sys.exit(f"{command[0]} ended with status {done.returncode}")
    return min(times), peak(command)


def main():
    tool = sys.argv[1]
    with tempfile.TemporaryDirectory() as folder:
        dts, ours, theirs = (os.path.join(folder, name) for name in ("big.dts", "ours.dtb", "theirs.dtb"))
        with open(dts, "w") as to:
            to.write(source())
        seconds, peak = best([tool, "compile", dts], ours)
        seconds_dtc, peak_dtc = best(["dtc", "-q", "-I", "dts", "-O", "dtb", dts], theirs)
        with open(ours, "rb") as a, open(theirs, "rb") as b:
            same = a.read() == b.read()
        print(f"source {os.path.getsize(dts)} bytes, {1 + BUSES * (1 + DEVICES)} nodes")
        print(f"dtool {seconds:.3f} s, dtc {seconds_dtc:.3f} s, ratio {seconds_dtc / seconds:.1f}")
        print(f"dtool {peak:.0f} MiB, dtc {peak_dtc:.0f} MiB at most")
        print("the same bytes" if same else "other bytes")


if __name__ == "__main__":
    main()

#!/usr/bin/env python3
"""Counts the instructions and the processor time of edits of a blob in a buffer, by the library for C and by libfdt.

    python3 bench/edits.py [--owned dt_cases] [STEPS] BLOB..

With --owned the program of cases takes the same steps on a blob in memory of its own (`BlobBuf`). Each step looks a node up by its path, and then sets a property of it (half of them new or longer than before), adds a child, or patches the first
cell of its `compatible`. A figure is that of the steps less that of the same program without one. Needs what bench/library.py needs. The trees are
compared by c/tests/edits.c, not here."""
import os
import re
import shutil
import subprocess
import sys
import tempfile

from boards import Tree

HERE = os.path.dirname(os.path.abspath(__file__))
LIBRARY = os.environ.get("DTOOL_LIBRARY", f"{HERE}/../crates/dt_c/out")


def instructions(*words):
    done = subprocess.run(["valgrind", "--tool=callgrind", "--callgrind-out-file=/dev/null", *words], stdout=subprocess.DEVNULL, stderr=subprocess.PIPE, text=True)
    return int(re.search(r"Collected : (\d+)", done.stderr).group(1))


def seconds(*words):
    times = []
    for _ in range(5):
        before = os.times()
        subprocess.run(words, stdout=subprocess.DEVNULL, stderr=subprocess.DEVNULL)
        times.append(os.times().children_user + os.times().children_system - before.children_user - before.children_system)
    return min(times)


def table(folder, blob, edit, steps):
    """A folder with a table of one case: the steps of edits.c as words, and then a check, which answers one line."""
    with open(blob, "rb") as read:
        data = read.read()
    nodes = [(path, values) for path, values in Tree(data).nodes if edit != "patch" or len(values.get(b"compatible", b"")) >= 4][:4096]
    words = []
    for step in range(steps):
        path = nodes[step * 7919 % len(nodes)][0].decode() or "/"
        value = bytes([step % 256]) + bytes(3 + step % 20)
        words.append({
            "set": f"set {path} {'status' if step % 2 else 'new-property'} {value.hex()}",
            "add": f"node {path} new@{step:x}",
            "patch": f"cell {path} compatible 0 {step}",
        }[edit])
    room = os.path.join(folder, f"{edit}-{steps}")
    os.makedirs(room)
    with open(os.path.join(room, "edits.cases"), "w") as to:
        lines = [data[at:at + 4096].hex() for at in range(0, len(data), 4096)]
        to.write(f"edited {'; '.join(words)}, check\n" + "".join(f"x {line}\n" for line in lines) + "= \n")
    return room


def main():
    words = sys.argv[1:]
    owned = None
    if words and words[0] == "--owned":
        owned, words = words[1], words[2:]
    steps = words.pop(0) if words and words[0].isdigit() else "1000"
    with tempfile.TemporaryDirectory() as folder:
        program = os.path.join(folder, "edits")
        compiler = os.environ.get("CC", "cc")
        subprocess.run([compiler, "-O2", "-std=gnu11", f"{HERE}/edits.c", f"{LIBRARY}/libdtool.a", "-lfdt", "-o", program], check=True)
        for blob in words:
            print(f"{blob}: {os.path.getsize(blob)} bytes, {steps} steps")
            for edit in "set", "add", "patch":
                costs = {}
                for who in "dtool", "libfdt":
                    counts = [instructions(program, who, what, steps, blob) for what in (edit, "none")]
                    times = [seconds(program, who, what, steps, blob) for what in (edit, "none")]
                    costs[who] = counts[0] - counts[1], times[0] - times[1]
                (ours, own_time), (theirs, time) = costs["dtool"], costs["libfdt"]
                print(f"  {edit:5}  {ours:>14,}  libfdt {theirs:>14,}, {ours / theirs:.2f} times; {own_time:.2f} s, libfdt {time:.2f} s", flush=True)
                if owned:
                    rooms = [table(folder, blob, edit, count) for count in (int(steps), 0)]
                    counts, times = [instructions(owned, room) for room in rooms], [seconds(owned, room) for room in rooms]
                    ours, own_time = counts[0] - counts[1], times[0] - times[1]
                    print(f"  owned  {ours:>14,}  {ours / theirs:.2f} times, its words among them; {own_time:.2f} s", flush=True)
                    for room in rooms:
                        shutil.rmtree(room)


main()

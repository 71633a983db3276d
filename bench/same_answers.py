#!/usr/bin/env python3
"""Compares what two builds of dtool answer: status, standard output and standard error.

    python3 bench/same_answers.py OLD/dtool NEW/dtool FOLDER [--pairs LINUX] [--damaged 1000]

FOLDER holds boards that bench/boards.py has made of the Linux source tree LINUX. Both programs compile each source, check and print its blob and print
its addresses and routes, and apply the overlays of each pair; then they get so many sources and so many blobs with a few bytes changed. It prints each
command that they answer differently, and how many commands were compared."""
import argparse
import os
import random
import subprocess
import tempfile
from concurrent.futures import ThreadPoolExecutor

import pairs


def answers(tools, words):
    """What each program answers; of a path in a message the folder is the same."""
    return [(done.returncode, done.stdout, done.stderr) for done in (subprocess.run([tool, *words], capture_output=True) for tool in tools)]


def compared(tools, words):
    """A line where the programs differ, and what the new one wrote."""
    old, new = answers(tools, words)
    return [] if old == new else [f"{' '.join(words)}: {old[0]} {old[2][:80]} and {new[0]} {new[2][:80]}"], new[1] if new[0] == 0 else None


def of_blob(tools, path):
    return [line for command in ("check", "print", "regs", "irqs") for line in compared(tools, [command, path])[0]]


def of_source(tools, room, key, source):
    """The differences of a source and of its blob."""
    differences, blob = compared(tools, ["compile", source])
    if blob is None:
        return differences, None
    path = os.path.join(room, f"{key}.dtb")
    with open(path, "wb") as to:
        to.write(blob)
    return differences + of_blob(tools, path), path


def damaged(data, choose):
    """The same bytes with one to three places changed: a byte, or four bytes to a number that tokens have."""
    other = bytearray(data)
    for _ in range(choose.randrange(1, 4)):
        at = choose.randrange(len(other))
        if choose.random() < 0.5:
            other[at] = choose.randrange(256)
        else:
            at &= ~3
            other[at:at + 4] = choose.choice([bytes((0, 0, 0, n)) for n in (0, 1, 2, 3, 4, 9)] + [b"\xff" * 4, choose.randbytes(4)])[:len(other) - at]
    return bytes(other)


def of_damaged(tools, room, kind, paths, count):
    def one(k):
        choose = random.Random(k)
        with open(choose.choice(paths), "rb") as read:
            data = damaged(read.read(), choose)
        path = os.path.join(room, f"{kind}-{k}")
        with open(path, "wb") as to:
            to.write(data)
        found = compared(tools, ["compile", path])[0] if kind == "source" else of_blob(tools, path)
        os.remove(path)
        return found

    with ThreadPoolExecutor(os.cpu_count()) as pool:
        return [line for lines in pool.map(one, range(count)) for line in lines]


def of_pairs(tools, room, linux, folder):
    where, differences, count = pairs.sources(folder), [], 0
    for names in sorted(pairs.pairs(linux)):
        blobs = []
        for k, name in enumerate(names):
            blobs.append(os.path.join(room, f"pair-{k}.dtb"))
            with open(blobs[-1], "wb") as to:
                subprocess.run([tools[0], "compile", where.get(name, name)], stdout=to, stderr=subprocess.DEVNULL)
        differences += compared(tools, ["apply", *blobs])[0]
        count += 1
    return differences, count


def main():
    words = argparse.ArgumentParser(description=__doc__, formatter_class=argparse.RawDescriptionHelpFormatter)
    words.add_argument("old")
    words.add_argument("new")
    words.add_argument("folder")
    words.add_argument("--pairs")
    words.add_argument("--damaged", type=int, default=1000)
    given = words.parse_args()
    tools = given.old, given.new
    sources = sorted(os.path.join(base, name) for base, _, names in os.walk(given.folder) for name in names if name.endswith((".dts", ".dtso")))
    with tempfile.TemporaryDirectory() as room:
        with ThreadPoolExecutor(os.cpu_count()) as pool:
            done = list(pool.map(lambda k: of_source(tools, room, *k), enumerate(sources)))
        differences = [line for lines, _ in done for line in lines]
        blobs = [blob for _, blob in done if blob]
        applied = 0
        if given.pairs:
            found, applied = of_pairs(tools, room, given.pairs, given.folder)
            differences += found
        differences += of_damaged(tools, room, "source", sources, given.damaged)
        differences += of_damaged(tools, room, "blob", blobs, given.damaged)
    for line in differences:
        print(line)
    print(f"{len(sources)} sources, {len(blobs)} blobs, {applied} pairs, {given.damaged} damaged ones of each: {len(differences)} differences")


if __name__ == "__main__":
    main()

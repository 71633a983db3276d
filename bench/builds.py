#!/usr/bin/env python3
"""Builds all blobs of an architecture of a Linux source tree with tools/dtc in place of dtc, compares what they say, and prints the time of both builds.

    python3 bench/builds.py crates/dtool/out/dtool LINUX FOLDER [ARCH] [JOBS] [CONFIG]

LINUX is an unpacked source tree, such as Debian's linux-source, FOLDER an empty folder for the two builds, which need flex and bison, CONFIG the
name of a configuration, such as multi_v7_defconfig. A source tree of U-Boot is built by its own rules: ARCH is then `uboot`, and CROSS_COMPILE is
taken from the environment. Prints the status with which make ends. Two blobs say the same where the nodes and the values are the same, a phandle
standing for its node, and siblings and properties may be in any order. Without -@ dtool numbers labelled nodes too, and keeps the labels that an
overlay refers to; and it keeps a property `name` that is its node's name: these are counted apart. A source that DTOOL_ELSE compiled is listed.
Blobs are compared by dtool-same, so tools/build --library comes first."""
import os
import resource
import subprocess
import sys
from collections import Counter

HERE = os.path.dirname(os.path.abspath(__file__))
os.environ.setdefault("DTOOL_LIBRARY", os.path.realpath(f"{HERE}/../crates/dt_c/out"))
sys.path.insert(0, f"{HERE}/../python")

from dtool import Blob, same  # noqa: E402


def configure(command, folder, arch, config, log):
    subprocess.run([*command, config], stdout=log, stderr=log, check=True)
    if arch == "uboot":
        return
    with open(os.path.join(folder, ".config"), "a") as file:
        file.write("CONFIG_COMPILE_TEST=y\nCONFIG_OF_ALL_DTBS=y\n")
    for target in ("olddefconfig", "scripts_dtc"):
        subprocess.run([*command, target], stdout=log, stderr=log, check=True)


def build(tree, folder, arch, jobs, config, *more):
    """The blobs that a build makes, by their names, its user time, and the status of make."""
    os.makedirs(folder, exist_ok=True)
    command = ["make", "-C", tree, *([] if arch == "uboot" else [f"ARCH={arch}"]), f"O={os.path.abspath(folder)}", f"-j{jobs}"]
    with open(os.path.join(folder, "log"), "w") as log:
        configure(command, folder, arch, config, log)
        before = resource.getrusage(resource.RUSAGE_CHILDREN).ru_utime
        status = subprocess.run([*command, "dtbs", *more], stdout=log, stderr=log).returncode
        took = resource.getrusage(resource.RUSAGE_CHILDREN).ru_utime - before
    blobs = {}
    for base, _, names in os.walk(folder):
        for name in names:
            if name.endswith((".dtb", ".dtbo")):
                path = os.path.join(base, name)
                blobs[os.path.relpath(path, folder)] = path
    return blobs, took, status


def compared(ours, theirs):
    """A word for what two blobs have in common, by dtool-same."""
    more = False
    words = set()
    for it in same.differences(theirs, ours, names=["theirs", "ours"]):
        if it.kind not in ("node", "property") or it.message != "only in ours":
            return "other"
        if it.node == "/__symbols__":
            more = True
        elif it.kind == "node":
            words.add("the same, and nodes that dtc leaves out")
        elif it.property == "name" and ours[it.node]["name"].texts == (ours[it.node].name.partition("@")[0],):
            words.add("the same, and a name that dtc drops")
        else:
            return "other"
    if words:
        return min(words, key=lambda word: "name" in word)
    numbered = {node.path for node in ours if "phandle" in node} - {node.path for node in theirs if "phandle" in node}
    return "the same, and more phandles or labels" if more or numbered else "the same"


def main():
    tool, tree, folder = os.path.abspath(sys.argv[1]), sys.argv[2], sys.argv[3]
    arch = sys.argv[4] if len(sys.argv) > 4 else "arm64"
    jobs = sys.argv[5] if len(sys.argv) > 5 else str(os.cpu_count())
    config = sys.argv[6] if len(sys.argv) > 6 else "defconfig"
    os.environ["DTOOL"] = tool
    instead = os.environ.pop("DTOOL_ELSE", None)
    theirs, dtc_took, dtc_status = build(tree, os.path.join(folder, "theirs"), arch, jobs, config)
    if instead is not None:
        os.environ["DTOOL_ELSE"] = instead
    script = os.path.join(HERE, "../tools/dtc")
    ours, dtool_took, status = build(tree, os.path.join(folder, "ours"), arch, jobs, config, f"DTC={os.path.abspath(script)}")
    words = Counter()
    for name, path in sorted(theirs.items()):
        word = compared(Blob.read(ours[name]), Blob.read(path)) if name in ours else "not made"
        words[word] += 1
        if word in ("other", "not made"):
            print(f"{word}: {name}")
    with open(os.path.join(folder, "ours", "log")) as log:
        for line in log:
            if "compiled by" in line and "instead" in line:
                print(line.strip())
    for word, count in words.most_common():
        print(f"{count:6} {word}")
    print(f"{config}: {len(ours)} of {len(theirs)} blobs, make ended with {status} (with its own dtc {dtc_status}); "
          f"user time {dtool_took:.0f} s, with its own dtc {dtc_took:.0f} s")


if __name__ == "__main__":
    main()

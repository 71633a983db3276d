#!/usr/bin/env python3
"""Compares dtc's blobs of real boards with dtool's by dtool-same, one in twenty of them damaged in one cell.

    python3 bench/same.py crates/dtool/out/dtool FOLDER [PAIRS]

FOLDER holds sources behind the C preprocessor, as bench/boards.py makes them. Both compilers number nodes in an order of their own, and the order of
properties may differ. A damaged pair has to be found, and no other; a property `name`, which dtc drops where it is its node's name, is set apart."""
import os
import random
import subprocess
import sys
import tempfile
import time

HERE = os.path.dirname(os.path.abspath(__file__))
os.environ.setdefault("DTOOL_LIBRARY", os.path.realpath(f"{HERE}/../crates/dt_c/out"))
sys.path.insert(0, f"{HERE}/../python")

from dtool import Blob, Fault, same  # noqa: E402


def damaged(data, choose):
    """The blob with another number in one cell of a value that is no node's phandle; None where it is no blob any more."""
    blob = Blob(data)
    node = choose.choice([node for node in blob if any(len(value) >= 4 for name, value in node.properties().items() if name != "phandle")])
    name, value = choose.choice([(name, value) for name, value in node.properties().items() if len(value) >= 4 and name != "phandle"])
    at = data.index(bytes(value), node.offset) + 4 * choose.randrange(len(value) // 4)
    other = bytearray(data)
    other[at:at + 4] = choose.randbytes(4)
    try:
        return Blob(other) if other != data else None
    except Fault:
        return None


def main():
    tool, folder, pairs = sys.argv[1], sys.argv[2], int(sys.argv[3]) if len(sys.argv) > 3 else 200
    choose = random.Random(1)
    paths = sorted(os.path.join(base, name) for base, _, names in os.walk(folder) for name in names if name.endswith((".dts", ".i")))
    choose.shuffle(paths)
    done, sound, found, missed, wrong, named, took = 0, 0, 0, 0, 0, 0, []
    with tempfile.TemporaryDirectory() as room:
        theirs, ours = os.path.join(room, "theirs.dtb"), os.path.join(room, "ours.dtb")
        for path in paths:
            if done == pairs:
                break
            if subprocess.run(["dtc", "-q", "-@", "-I", "dts", "-O", "dtb", "-o", theirs, path], stderr=subprocess.DEVNULL).returncode:
                continue
            if subprocess.run([f"{HERE}/../tools/dtc", "-@", "-I", "dts", "-O", "dtb", "-o", ours, path], stderr=subprocess.DEVNULL,
                              env={**os.environ, "DTOOL": os.path.abspath(tool)}).returncode:
                continue
            one, other = Blob.read(theirs), Blob.read(ours)
            is_damaged = done % 20 == 0
            if is_damaged:
                other = damaged(bytes(other), choose)
                if other is None:
                    continue
            done += 1
            start = time.process_time()
            differences = list(same.differences(one, other))
            took.append(time.process_time() - start)
            rest = [it for it in differences if not (it.kind == "property" and it.property == "name")]
            named += len(rest) < len(differences)
            if is_damaged:
                found, missed = found + bool(rest), missed + (not rest)
            else:
                sound, wrong = sound + (not rest), wrong + bool(rest)
            if bool(rest) != is_damaged or (is_damaged and len(rest) > 1):
                print(f"{os.path.basename(path)}: {'damaged' if is_damaged else 'sound'}: {len(rest)} differences; {rest[:2]}")
    print(f"{done} pairs: {found} damaged found, {missed} missed; {sound} others the same, {wrong} not, {named} aside from a name that dtc drops; "
          f"slowest {max(took):.2f} s")


main()

#!/usr/bin/env python3
"""Times `dtool apply` on bases and objects with many things of one sort, and fdtoverlay on a few of them.

    python3 bench/apply.py crates/dtool/out/dtool [COUNT [COUNT OF FDTOVERLAY]]

The base and the object are compiled by dtool. fdtoverlay is quadratic in each of these; it is given a minute."""
import os
import subprocess
import sys
import tempfile

from measuring import peak, timed

RUNS = 5
BASE = "/dts-v1/;\n"
OVERLAY = "/dts-v1/;\n/plugin/;\n"


def nodes(count, node):
    """Nodes, 255 to each child of the root."""
    return "".join(f"b{at} {{ " + "".join(node(i) for i in range(at, min(at + 255, count))) + "};\n" for at in range(0, count, 255))


def labelled(count):
    return BASE + "/ {\n" + nodes(count, lambda i: f"l{i}: n{i} {{ }}; ") + "};\n"


def fragments(count):
    return labelled(count), OVERLAY + "".join(f"&l{i} {{ p; }};\n" for i in range(count))


def fragments_by_path(count):
    return labelled(count), OVERLAY + "".join(f"&{{/b{i - i % 255}/n{i}}} {{ p; }};\n" for i in range(count))


def fixups(count):
    return labelled(count), OVERLAY + "&l0 { p = <" + " ".join(f"&l{i}" for i in range(count)) + ">; };\n"


def fixups_of_one_label(count):
    return labelled(1), OVERLAY + "&l0 { p = <" + "&l0 " * count + ">; };\n"


def local_fixups(count):
    return labelled(1), OVERLAY + "&l0 {\n" + nodes(count // 2, lambda i: f"n{i}: n{i} {{ p = <&n{i}>; }}; ") + "};\n"


def labels(count):
    return labelled(1), OVERLAY + "&l0 {\n" + nodes(count, lambda i: f"n{i}: n{i} {{ }}; ") + "};\n"


def properties(count):
    return labelled(1), OVERLAY + "&l0 {\n" + "".join(f"p{i} = <{i}>;\n" for i in range(count)) + "};\n"


def joined(count):
    """Each node lands on one of the base's that has a phandle, and is referred to."""
    return labelled(count), OVERLAY + "&{/} {\n" + nodes(count, lambda i: f"m{i}: n{i} {{ p = <&m{i}>; }}; ") + "};\n"


def joined_to_each_other(count):
    """Each node of a fragment lands on one of the fragment before, where the base has none."""
    one = nodes(count // 2, lambda i: f"m{i}: n{i} {{ p = <&m{i}>; }}; ")
    return BASE + "/ { };\n", OVERLAY + "&{/} {\n" + one + "};\n&{/} {\n" + one.replace("m", "k") + "};\n"


def seconds(command):
    """The shortest wall time of some runs, and the peak memory in MiB; a word where the command fails or takes too long."""
    best = None
    for _ in range(RUNS):
        status, took = timed(command, subprocess.DEVNULL, subprocess.DEVNULL, 60)
        if status:
            return "over 60 s" if status < 0 else "refuses"
        best = min(best or took, took)
        if best > 5:
            break
    return f"{best:7.3f} s {peak(command):4.0f} MiB"


def main():
    tool = sys.argv[1]
    many = int(sys.argv[2]) if len(sys.argv) > 2 else 20000
    few = int(sys.argv[3]) if len(sys.argv) > 3 else 2000
    print(f"{'':24}{'dtool, ' + str(many):20}{'dtool, ' + str(few):20}{'fdtoverlay, ' + str(few):20}")
    with tempfile.TemporaryDirectory() as folder:
        source, base, overlay, out = (os.path.join(folder, name) for name in ("text.dts", "base.dtb", "overlay.dtbo", "out.dtb"))
        for kind in (fragments, fragments_by_path, fixups, fixups_of_one_label, local_fixups, labels, properties, joined,
                     joined_to_each_other):
            words = []
            for count, command in ((many, [tool, "apply", base, overlay]), (few, [tool, "apply", base, overlay]),
                                   (few, ["fdtoverlay", "-i", base, "-o", out, overlay])):
                for text, blob in zip(kind(count), (base, overlay)):
                    with open(source, "w") as to:
                        to.write(text)
                    with open(blob, "wb") as to:
                        subprocess.run([tool, "compile", source], stdout=to, check=True)
                words.append(seconds(command))
            print(f"{kind.__name__.replace('_', ' '):24}" + "".join(f"{word:20}" for word in words), flush=True)


if __name__ == "__main__":
    main()

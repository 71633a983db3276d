#!/usr/bin/env python3
"""Times `dtool compile` on sources with many things of one sort, and dtc on a few of them.

    python3 bench/sources.py crates/dtool/out/dtool [COUNT [COUNT OF DTC]]

dtc is quadratic in most of these, and its parser takes no more than some 9,980 siblings; it is given ten seconds."""
import os
import subprocess
import sys
import tempfile

from measuring import peak, timed

RUNS = 3
WIDTH = 255  # how many children a node has, where the nodes themselves aren't the point


def tree(count, node):
    """A root with so many nodes below it, some for each child of the root."""
    lines, at = [], 0
    while at < count:
        inner = "".join(node(i) for i in range(at, min(at + WIDTH, count)))
        lines.append(f"b{at} {{ {inner} }};\n")
        at += WIDTH
    return "".join(lines)


def nodes(count):
    return "/ {\n" + tree(count, lambda i: f"n{i} {{ }}; ") + "};\n"


def siblings(count):
    return "/ {\n" + "".join(f"n{i} {{ }};\n" for i in range(count)) + "};\n"


def labels(count):
    return "/ {\n" + tree(count, lambda i: f"l{i}: n{i} {{ }}; ") + "};\n"


def labels_of_one_node(count):
    return "/ {\n" + "".join(f"l{i}: " for i in range(count)) + "n { };\n};\n"


def references_by_label(count):
    return "/ {\np = <" + " ".join(f"&l{i}" for i in range(count)) + ">;\n" + tree(count, lambda i: f"l{i}: n{i} {{ }}; ") + "};\n"


def references_by_path(count):
    paths = " ".join(f"&{{/b{i - i % WIDTH}/n{i}}}" for i in range(count))
    return f"/ {{\np = <{paths}>;\n" + tree(count, lambda i: f"n{i} {{ }}; ") + "};\n"


def references_as_texts(count):
    return "/ {\np = " + ", ".join("&l" for _ in range(count)) + ";\nl: n { };\n};\n"


def reopened_nodes(count):
    return "/ {\n" + tree(count, lambda i: f"n{i} {{ }}; ") + "};\n" + "/ {\n" + tree(count, lambda i: f"n{i} {{ p; }}; ") + "};\n"


def blocks(count):
    return labels(count) + "".join(f"&l{i} {{ p; }};\n" for i in range(count))


def deletions(count):
    return labels(count) + "".join(f"/delete-node/ &l{i};\n" for i in range(count))


def deleted_and_back(count):
    return "/ { };\n" + "".join("/ { n { l: m { }; }; };\n/ { /delete-node/ n; };\n" for _ in range(count))


def properties(count):
    return "/ {\n" + tree(count, lambda i: f"n{i} {{ p = <{i}>; }}; ") + "};\n"


def properties_of_one_node(count):
    return "/ {\n" + "".join(f"p{i} = <{i}>;\n" for i in range(count)) + "};\n"


def redefined_properties(count):
    return properties_of_one_node(count) + properties_of_one_node(count)


def written_numbers(count):
    return "/ {\n" + tree(count, lambda i: f"n{i} {{ phandle = <{i + 1}>; }}; ") + "};\n"


# ---- overlays

def fragments(count):
    return "".join(f"&l{i} {{ p; }};\n" for i in range(count // 2))


def fragments_by_path(count):
    return "".join(f"&{{/n{i}}} {{ p; }};\n" for i in range(count // 2))


def outside_references(count):
    return "&l { p = <" + " ".join(f"&l{i}" for i in range(count)) + ">; };\n"


def references_by_one_label(count):
    return "&l { p = <" + "&x " * count + ">; };\n"


def inside_references(count):
    # Each of these nodes is made again below __local_fixups__.
    nodes = tree(count // 2, lambda i: f"n{i}: n{i} {{ p = <&n{i}>; }}; ")
    return "&l {\n" + nodes + "};\n"


SOURCES = [nodes, siblings, labels, labels_of_one_node, references_by_label, references_by_path, references_as_texts, reopened_nodes, blocks,
           deletions, deleted_and_back, properties, properties_of_one_node, redefined_properties, written_numbers]
OVERLAYS = [fragments, fragments_by_path, labels_of_one_node, outside_references, references_by_one_label, inside_references, properties_of_one_node]


def seconds(command):
    """The shortest wall time of some runs and the peak memory in MiB; a word where the command fails or takes too long."""
    best = None
    for _ in range(RUNS):
        status, took = timed(command, subprocess.DEVNULL, subprocess.DEVNULL, 10)
        if status:
            return "over 10 s" if status < 0 else "refuses"
        best = min(best or took, took)
    return f"{best:7.3f} s {peak(command):4.0f} MiB"


def main():
    tool = sys.argv[1]
    many = int(sys.argv[2]) if len(sys.argv) > 2 else 65000
    few = int(sys.argv[3]) if len(sys.argv) > 3 else 4000
    print(f"{'':24}{'dtool, ' + str(many):20}{'dtool, ' + str(few):20}{'dtc, ' + str(few):20}")
    with tempfile.TemporaryDirectory() as folder:
        path = os.path.join(folder, "source.dts")
        for begin, kinds in ("/dts-v1/;\n", SOURCES), ("/dts-v1/;\n/plugin/;\n", OVERLAYS):
            for kind in kinds:
                words = []
                for count, command in ((many, [tool, "compile", path]), (few, [tool, "compile", path]),
                                       (few, ["dtc", "-q", "-@", "-I", "dts", "-O", "dtb", path])):
                    with open(path, "w") as to:
                        to.write(begin + kind(count if kind is deleted_and_back else min(count, 64500 if kinds is SOURCES else 60000)))
                    words.append(seconds(command))
                print(f"{kind.__name__.replace('_', ' '):24}" + "".join(f"{word:20}" for word in words), flush=True)


if __name__ == "__main__":
    main()

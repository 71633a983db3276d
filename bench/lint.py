#!/usr/bin/env python3
"""What dtool-lint reports of real boards, beside dtc's warnings.

    python3 bench/lint.py boards FOLDER           counts its findings by kind, and dtc's warnings of mistakes of meaning that it doesn't repeat
    python3 bench/lint.py mistakes EVK.i          plants eleven mistakes in imx8mm-evk behind the C preprocessor, and looks for each at its place

FOLDER holds sources behind the C preprocessor, as bench/boards.py makes them; they are compiled by dtc, which has to be installed. Needs
tools/build --library, or DTOOL_LIBRARY. A warning counts as repeated where lint reports the same node by a kind that speaks of the same thing."""
import os
import re
import subprocess
import sys
import tempfile
import time
from collections import Counter, defaultdict
from concurrent.futures import ProcessPoolExecutor
from dataclasses import astuple

HERE = os.path.dirname(os.path.abspath(__file__))
os.environ.setdefault("DTOOL_LIBRARY", os.path.realpath(f"{HERE}/../crates/dt_c/out"))
sys.path.insert(0, f"{HERE}/../python")

from dtool import Blob, Fault, lint  # noqa: E402
from dtool.source import Source  # noqa: E402

#: dtc's checks of meaning, and the kinds that speak of the same. Each *_property that isn't here is one of specifiers.
CHECKS = {
    "reg_format": {"reg"}, "ranges_format": {"ranges"}, "dma_ranges_format": {"ranges"}, "graph_endpoint": {"endpoints"},
    "interrupts_property": {"interrupts", "phandles"}, "interrupts_extended_property": {"interrupts"},
    "unique_unit_address_if_enabled": {"duplicates", "shared-addresses"}, "compatible_is_string_list": {"compatible"}, "alias_paths": {"paths"},
    "simple_bus_reg": {"unit-addresses", "address-forms"}, "i2c_bus_reg": {"unit-addresses", "address-forms"},
    "spi_bus_reg": {"unit-addresses", "address-forms"},
}
WARNING = re.compile(r"Warning \((\w+)\): (/[^:]*?)(?:: (.*))?$")


def parent(path):
    return path.rpartition("/")[0] or "/"


def board(path):
    """The findings of a board, dtc's warnings, and how long lint took."""
    with tempfile.TemporaryDirectory() as folder:
        blob = os.path.join(folder, "board.dtb")
        done = subprocess.run(["dtc", "-@", "-Wunique_unit_address_if_enabled", "-I", "dts", "-O", "dtb", "-o", blob, path], stderr=subprocess.PIPE, text=True,
                              errors="replace")
        if done.returncode:
            return None
        start = time.process_time()
        try:
            findings = [astuple(finding) for finding in lint.lint(Blob.read(blob))]
        except (Fault, lint.NotLinted):
            return None
        return path, findings, [match.groups() for match in map(WARNING.search, done.stderr.splitlines()) if match], time.process_time() - start


def boards(folder):
    paths = sorted(os.path.join(base, name) for base, _, names in os.walk(folder) for name in names if name.endswith((".dts", ".i")))
    with ProcessPoolExecutor() as pool:
        done = [result for result in pool.map(board, paths, chunksize=8) if result]
    kinds, on, warned, missed, examples = Counter(), Counter(), Counter(), Counter(), {}
    for path, findings, warnings, _ in done:
        kinds += Counter(finding[3] for finding in findings)
        on += Counter({finding[3] for finding in findings})
        nodes = defaultdict(set)
        for finding in findings:
            nodes[finding[3]] |= {finding[0], parent(finding[0])} if finding[3] in ("duplicates", "shared-addresses") else {finding[0]}
        for check, node, message in warnings:
            wanted = CHECKS.get(check) or ({"specifiers"} if check.endswith("_property") else None)
            if wanted is None:
                continue
            warned[check] += 1
            if not any(node in nodes[kind] or (check.startswith("unique") and parent(node) in nodes[kind]) for kind in wanted):
                key = check, re.sub(r'"[^"]*"|\d+', "N", message or "")
                missed[key] += 1
                examples.setdefault(key, (os.path.basename(path), node, message))
    print(f"{len(done)} of {len(paths)} boards; slowest {max(result[3] for result in done):.2f} s, all {sum(result[3] for result in done):.0f} s")
    for kind, count in kinds.most_common():
        print(f"  {kind:<17} {count:>6} findings on {on[kind]:>5} boards")
    print("dtc's warnings:")
    for check, count in warned.most_common():
        print(f"  {check:<31} {count:>6}, not repeated {sum(n for key, n in missed.items() if key[0] == check)}")
    for key, count in missed.most_common(20):
        print(f"    {count} {key[0]}: {key[1]}; {' '.join(map(str, examples[key]))}")


#: What is planted: the text, what it becomes, and the node's name, property and index that have to be reported.
MISTAKES = {
    "a cell too few in gpios": ("reset-gpios = <&gpio4 22 1>", "reset-gpios = <&gpio4 22>", "ethernet-phy@0", "reset-gpios", 0),
    "a cell too few in clocks": ("clocks = <&clk 158>", "clocks = <&clk>", "camera@3c", "clocks", 0),
    "a cell too few in reg": ("reg = <0x30890000 0x10000>", "reg = <0x30890000>", "serial@30890000", "reg", None),
    "a cell too few in interrupts": ("interrupts = <0 28 4>", "interrupts = <0 28>", "serial@30880000", "interrupts", 0),
    "a cell too few in ranges": ("ranges = <0x0 0x0 0x0 0x3e000000>", "ranges = <0x0 0x0 0x0>", "soc@0", "ranges", None),
    "another unit address": ("memory@40000000", "memory@50000000", "memory@50000000", "reg", 0),
    "a remote-endpoint elsewhere": ("remote-endpoint = <&csi_in>", "remote-endpoint = <&dsi_out>", "endpoint", "remote-endpoint", 0),
    "a compatible that is no text": ("compatible = \"fsl,imx8mm-evk\", \"fsl,imx8mm\"", "compatible = <1>", "", "compatible", None),
    "a second node @0": ("ethphy0: ethernet-phy@0 {", "other@0 { reg = <0>; }; ethphy0: ethernet-phy@0 {", None, None, None),
    "stdout-path to nowhere": ("stdout-path = &uart2", "stdout-path = \"/nowhere\"", "chosen", "stdout-path", None),
    "an interrupt-parent of no node": ("interrupt-parent = <&gpio2>", "interrupt-parent = <0x7777>", None, "interrupt-parent", 0),
}


def mistakes(path):
    with open(path) as file:
        sound = file.read()
    found = 0
    for name, (old, new, node, prop, index) in MISTAKES.items():
        at = sound.index(f" {old}") + 1
        text = sound[:at] + new + sound[at + len(old):]
        with tempfile.NamedTemporaryFile("wb", suffix=".dtb") as blob:
            done = subprocess.run(["dtc", "-@", "-q", "-q", "-f", "-I", "dts", "-O", "dtb", "-o", blob.name], input=text, text=True, stderr=subprocess.PIPE)
            findings = [finding for finding in lint.lint(Blob.read(blob.name)) if finding.kind not in lint.OFF]
        here = [f for f in findings if (node is None or f.node.rpartition("/")[2] == node) and (f.property, f.index) == (prop, index)]
        found += bool(here)
        place = Source(text, path).place(here[0].node, here[0].property) if here else None
        print(f"{'found' if here else 'MISSED':<7} {name}: {len(findings)} findings; {done.stderr.strip()[:80]}")
        for finding in here[:1] or findings[:3]:
            print(f"        {place.file + ':' + str(place.line) if place else '?'}: {finding.node}: {finding.property}: {finding.message}")
    print(f"{found} of {len(MISTAKES)} found")


if len(sys.argv) != 3 or sys.argv[1] not in ("boards", "mistakes"):
    sys.exit(__doc__)
{"boards": boards, "mistakes": mistakes}[sys.argv[1]](sys.argv[2])

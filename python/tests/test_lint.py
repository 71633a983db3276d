"""dtool-lint: mistakes of meaning are reported at their place, and sound boards aren't reported."""
import json
import os
import subprocess
import tempfile
import unittest

from dtool import Blob, lint
from dtool._terminal import escaped
from dtool.lists import is_phandles, specifier_kind
from dtool.source import Source

from . import BOARD, ROOT, Stored, asked, compiled

#: A change of the board, and what has to be reported: the node, the property and the index, and the kind.
MISTAKES = [
    ("led-gpios = <&conn 1 1>, <0>, <&ga 3 0>", "led-gpios = <&conn 1 1>, <0>, <&ga 3>", "/soc/uart@1000", "led-gpios", 2, "specifiers"),
    ("clocks = <&ck 7>, <&ck 8>", "clocks = <&ck 7>, <&ck>", "/soc/uart@1000", "clocks", 1, "specifiers"),
    ("clocks = <&ck 7>, <&ck 8>", "clocks = <&ck 7>, <0x7777 8>", "/soc/uart@1000", "clocks", 1, "specifiers"),
    ("clocks = <&ck 7>, <&ck 8>", "clocks = <&ic 7>", "/soc/uart@1000", "clocks", 0, "specifiers"),
    ("reg = <0x1800 1>", "reg = <0x1800>", "/soc/pci@1800", "reg", None, "reg"),
    ("reg = <0x1800 1>", "reg = <0x1800 1>, <0x9000 1>", "/soc/pci@1800", "reg", 1, "reg"),
    ("reg = <0x1800 1>", "reg", "/soc/pci@1800", "reg", None, "reg"),
    ("reg = <0x50>; vdd", "vdd", "/soc/i2c@1400/sensor@50", None, None, "reg"),
    ("interrupts = <0 1 4>", "interrupts = <0 1>", "/soc/uart@1000", "interrupts", 0, "interrupts"),
    ("<&ic 0 9 4>", "<&ic 0 9>", "/soc/pci@1800", "interrupts-extended", 2, "interrupts"),
    ("<&nx 1>, <0>", "<&nx 2>, <0>", "/soc/pci@1800", "interrupts-extended", 0, "interrupts"),
    ("ranges = <0x1000 0 0x40001000 0x1000>", "ranges = <0x1000 0 0x40001000>", "/soc", "ranges", None, "ranges"),
    ("dma-ranges = <0 1 0 0x10000>", "dma-ranges", "/soc", "dma-ranges", None, "ranges"),
    ("memory@40000000", "memory@50000000", "/memory@50000000", "reg", 0, "unit-addresses"),
    ("sensor@50", "sensor@51", "/soc/i2c@1400/sensor@51", "reg", 0, "unit-addresses"),
    ("remote-endpoint = <&ea>", "remote-endpoint = <&eb>", "/graph/port-b/endpoint", "remote-endpoint", 0, "endpoints"),
    ("remote-endpoint = <&ea>", "remote-endpoint = <&ck>", "/graph/port-b/endpoint", "remote-endpoint", 0, "endpoints"),
    ("eb: endpoint {", "eb: end {", "/graph/port-b/end", None, None, "endpoints"),
    ('compatible = "a,uart"', "compatible = <1>", "/soc/uart@1000", "compatible", None, "compatible"),
    ("sensor@50 {", "other@50 { reg = <0x50>; }; sensor@50 {", "/soc/i2c@1400/sensor@50", None, None, "duplicates"),
    ('stdout-path = "serial0:115200n8"', 'stdout-path = "/nowhere"', "/chosen", "stdout-path", None, "paths"),
    ('stdout-path = "serial0:115200n8"', 'stdout-path = "serial1:115200n8"', "/chosen", "stdout-path", None, "paths"),
    ("serial0 = &uart", 'serial0 = "/soc/uart@1001"', "/aliases", "serial0", None, "paths"),
    ("interrupt-parent = <&ic>", "interrupt-parent = <0x7777>", "/", "interrupt-parent", 0, "phandles"),
    ("vdd-supply = <&ck>", "vdd-supply = <0x7777>", "/soc/i2c@1400/sensor@50", "vdd-supply", 0, "phandles"),
]


class Lint(unittest.TestCase):
    def findings(self, text):
        return [finding for finding in lint.lint(Blob(compiled(text))) if finding.kind not in lint.OFF]

    def test_sound(self):
        self.assertEqual(self.findings(BOARD), [])

    def test_mistakes(self):
        for old, new, *wanted in MISTAKES:
            with self.subTest(new):
                self.assertEqual(BOARD.count(old), 1)
                text = BOARD.replace(old, new)
                places = [[f.node, f.property, f.index, f.kind] for f in self.findings(text)]
                self.assertIn(wanted, places)
                self.assertLessEqual(len(places), 2, "one mistake is reported once, and an endpoint from both sides")
                place = Source(text, "board.dts").place(wanted[0], wanted[1])
                self.assertEqual(place, ("board.dts", BOARD[:BOARD.index(old)].count("\n") + 1))

    def test_twice(self):
        """The same unit address is no mistake where one node is disabled, and below other buses only where it is asked for."""
        self.assertEqual(self.findings(BOARD.replace("sensor@50 {", 'other@50 { reg = <0x50>; status = "disabled"; }; sensor@50 {')), [])
        shared = BOARD.replace("cell: cell { };", "cell: cell { }; a@1600 { reg = <0x1600 1>; }; b@1600 { reg = <0x1600 1>; };")
        self.assertEqual(self.findings(shared), [])
        self.assertEqual([f.kind for f in lint.lint(Blob(compiled(shared)))], ["shared-addresses"])

    def test_forms(self):
        forms = BOARD.replace("pci@1800", "pci").replace("uart@1000", "uart@01000")
        self.assertEqual([(f.node, f.kind) for f in lint.lint(Blob(compiled(forms)))], [("/soc/uart@01000", "address-forms"), ("/soc/pci", "address-forms")])

    def test_not_reported(self):
        for new in ("hog { gpio-hog; gpios = <1 2>; };", "bus { #address-cells = <1>; #size-cells = <1>; x@5 { reg = <5 1>; }; };",
                    "x { pinctrl-0; vdd-supply = <0>; assigned-clock-parents = <0>, <&ck 1>; };", "x { nr-gpios = <4>; snps,nr-gpios = <3>; };"):
            with self.subTest(new):
                self.assertEqual(self.findings(BOARD.replace("cell: cell { };", "cell: cell { }; " + new).replace("nr-gpios = <4>; ", "")), [])

    def test_object(self):
        overlay = Blob(compiled("/dts-v1/; /plugin/; &x { a; };"))
        with self.assertRaises(lint.NotLinted):
            lint.lint(overlay)
        text, status, why = asked("lint", Stored(bytes(overlay)))
        self.assertEqual((text, status), ("", 2))
        self.assertIn("it is an overlay's object: apply it to its base", why)

    def test_lists(self):
        self.assertEqual(specifier_kind("clocks"), ("clock", None))
        self.assertEqual(specifier_kind("a,b-gpios"), ("gpio", None))
        self.assertEqual(specifier_kind("nvmem-cells"), ("nvmem-cell", 0))
        self.assertEqual([specifier_kind(name) for name in ("snps,nr-gpios", "clock-names", "gpios-states")], [None] * 3)
        self.assertEqual([is_phandles(name) for name in ("pinctrl-0", "pinctrl-12", "vdd-supply", "pinctrl-names", "supply")], [True] * 3 + [False] * 2)


class Program(unittest.TestCase):
    def setUp(self):
        self.text = BOARD.replace("interrupts = <0 1 4>", "interrupts = <0 1>")
        self.blob = Stored(compiled(self.text))

    def test_lines(self):
        message = "/soc/uart@1000: interrupts[0]: 8 bytes, but an entry has 3 cells: `#interrupt-cells` of /interrupt-controller\n"
        self.assertEqual(asked("lint", self.blob), (f"{self.blob.name}: {message}", 1, ""))
        self.assertEqual(asked("lint", Stored(compiled(BOARD))), ("", 0, ""))
        with tempfile.NamedTemporaryFile("w", suffix=".i") as source:
            source.write('# 7 "dir/board.dts"\n' + self.text)
            source.flush()
            line = 7 + self.text[:self.text.index("interrupts = <0 1>")].count("\n")
            self.assertEqual(asked("lint", "--source", source.name, self.blob)[0], f"dir/board.dts:{line}: {message}")
            self.assertEqual(asked("lint", "--warnings", "--source", source.name, self.blob)[0],
                             f"dir/board.dts:{line}: Warning (dtool_interrupts): {message}")
            found = json.loads(asked("lint", "--json", "--source", source.name, self.blob)[0])
            self.assertEqual([(it["file"], it["line"], it["node"], it["property"], it["index"], it["kind"]) for it in found],
                             [("dir/board.dts", line, "/soc/uart@1000", "interrupts", 0, "interrupts")])

    def test_kinds(self):
        self.assertEqual(asked("lint", "--without", "interrupts", self.blob)[:2], ("", 0))
        self.assertEqual(asked("lint", "--only", "reg", self.blob)[:2], ("", 0))
        self.assertEqual(asked("lint", "--only", "interrupts", self.blob)[1], 1)
        self.assertEqual(asked("lint", "--only", "spam", self.blob)[1], 2)
        text = asked("lint", "--help")[0]
        for kind in lint.KINDS:
            self.assertIn(f"  {kind} ", text)

    def test_faults(self):
        self.assertEqual(asked("lint", "/nope.dtb"), ("", 2, "python -m dtool lint: /nope.dtb: No such file or directory\n"))
        self.assertEqual(asked("lint", Stored(b"abc"))[1], 2)
        self.assertEqual(asked("lint", "--source", "/nope.i", self.blob)[1], 2)
        self.assertEqual(asked("lint")[1], 2)

    def test_escapes(self):
        """What a stranger wrote into a blob doesn't reach the terminal as it is."""
        blob = Stored(compiled(BOARD.replace('stdout-path = "serial0:115200n8"', 'stdout-path = "/\\x1b[31m\\n\\xff"')))
        text = asked("lint", blob)[0]
        self.assertIn('"/\\x1b[31m\\n\\xff" names no node', text)
        self.assertTrue(text.isascii() and text.count("\n") == 1)
        self.assertEqual(escaped("a\ue000\u202e\x00\udcff\ud800é"), "a\\ue000\\u202e\\x00\\xff\\ud800é")

    def test_launcher(self):
        """tools/lint, from a folder with modules of the same names."""
        with tempfile.TemporaryDirectory() as folder:
            for name in ("dtool.py", "json.py", "argparse.py"):
                with open(os.path.join(folder, name), "w") as file:
                    file.write("raise SystemExit('wrong module')")
            done = subprocess.run([os.path.join(ROOT, "tools", "lint"), self.blob.name], cwd=folder, stdout=subprocess.PIPE, stderr=subprocess.STDOUT)
            self.assertEqual((done.returncode, done.stdout.count(b"\n")), (1, 1), done.stdout)


if __name__ == "__main__":
    unittest.main()

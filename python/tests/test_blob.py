"""Blobs and nodes: answers, faults, and that no use of the public names crashes."""
import copy
import glob
import json
import os
import pickle
import random
import re
import subprocess
import sys
import unittest

import dtool
from dtool import Blob, Fault, FaultKind, Node, Region

from . import BOARD, DTOOL, LACKS, Stored, asked, compiled, read

try:
    import libfdt
except ImportError:
    sys.path.append("/usr/lib/python3/dist-packages")
    try:
        import libfdt
    except ImportError:
        libfdt = None
    sys.path.pop()

SMALL = compiled(BOARD)


class Answers(unittest.TestCase):
    def setUp(self):
        self.blob = Blob(SMALL)
        self.uart = self.blob["/soc/uart@1000"]

    def test_nodes(self):
        paths = [node.path for node in self.blob]
        self.assertEqual(paths[0], "/")
        self.assertEqual(len(self.blob), len(paths))
        self.assertIn("/soc/i2c@1400/sensor@50", paths)
        for node in Blob(SMALL):
            again = Blob(SMALL)[node.path]  # a path that isn't known beforehand
            self.assertEqual((again.path, again.offset, again.name), (node.path, node.offset, node.name))
            self.assertEqual(node.parent, None if node.path == "/" else node.blob[node.path.rpartition("/")[0] or "/"])
            self.assertEqual([child.parent for child in node.children], [node] * len(list(node.children)))
            for child in node.children:
                self.assertEqual(node.child(child.name), child)
        self.assertIsNone(self.blob.root.child("nope"))
        self.assertEqual(self.uart.unit_address, "1000")
        self.assertIsNone(self.blob.root.unit_address)
        self.assertTrue("/soc" in self.blob and b"/soc" in self.blob and "/nope" not in self.blob and 5 not in self.blob)

    def test_values(self):
        self.assertEqual(self.uart["reg"].cells, (0x1000, 0x100, 0x1fff, 2))
        self.assertEqual(self.blob.root["compatible"].texts, ("a,board", "a,family"))
        self.assertEqual(self.uart["compatible"].text, "a,uart")
        self.assertEqual(list(self.uart.properties())[:2], ["compatible", "reg"])
        self.assertEqual(sum(len(node.properties()) for node in self.blob), self.blob.property_count)
        self.assertTrue("reg" in self.uart and "nope" not in self.uart)
        self.assertIsNone(self.uart.get("nope"))
        with self.assertRaises(KeyError):
            self.uart["nope"]
        with self.assertRaises(ValueError):
            dtool.Value(b"abc").cells
        with self.assertRaises(ValueError):
            dtool.Value(b"abc").texts

    def test_header(self):
        self.assertEqual(self.blob.reservations, [(0x1000, 0x2000), (0x100000000, 1)])
        self.assertEqual(self.blob.boot_cpu, 0)
        self.assertEqual(bytes(self.blob), SMALL)

    def test_look_ups(self):
        self.assertEqual(self.blob.alias("serial0"), self.uart)
        self.assertIsNone(self.blob.alias("serial1"))
        self.assertEqual([node.path for node in self.blob.compatible("a,uart")], ["/soc/uart@1000"])
        self.assertEqual([node.path for node in self.blob.compatible("a,family")], ["/"])
        for node in self.blob:
            if "phandle" in node:
                self.assertEqual(self.blob.by_phandle(node["phandle"].cells[0]), node)
        self.assertIsNone(self.blob.by_phandle(0xffff))

    def test_addresses(self):
        self.assertEqual(self.uart.regions(), [Region(0x40001000, 0x100, True), Region(0x40001fff, 2, False)])
        self.assertEqual(self.uart.region(1), Region(0x40001fff, 2, False))
        self.assertEqual(self.blob["/clocks"].regions(), [])
        self.assertEqual(self.uart.dma(0x10, 16), Region(0x100000010, 16, True))
        with self.assertRaises(Fault) as refused:
            self.uart.region(2)
        self.assertEqual(refused.exception.kind, FaultKind.NO_REG)
        self.assertEqual(str(refused.exception), "fault 71 NoReg")

    def test_routes(self):
        controller = self.blob["/interrupt-controller"]
        self.assertEqual(self.uart.interrupts(), [(controller, (0, 1, 4), 0)])
        pci = self.blob["/soc/pci@1800"]
        self.assertEqual(pci.interrupts(), [(controller, (0, 5, 4), 1), None, (controller, (0, 9, 4), 0)])
        with self.assertRaises(Fault):
            pci.interrupt(2)  # by the standard's rule an empty entry is a phandle of no node
        gpio = self.blob["/gpio-a"]
        self.assertEqual(self.uart.specifiers("led-gpios", "gpio"), [(gpio, (7, 1), 1), None, (gpio, (3, 0), 0)])
        self.assertEqual(self.uart.specifier("clocks", "clock", 1), (self.blob["/clocks"], (8,), 0))
        self.assertEqual(self.uart.specifiers("nope", "clock"), [])
        with self.assertRaises(Fault):
            self.uart.specifiers("clocks", "gpio")

    def test_enabled(self):
        blob = Blob(compiled('/dts-v1/; / { a { status = "okay"; }; b { status = "disabled"; }; };'))
        self.assertEqual([node.is_enabled for node in blob], [True, True, False])

    def test_lines(self):
        """`python -m dtool` prints the program's lines, and JSON says the same."""
        for blob in (SMALL, compiled("/dts-v1/; / { };")):
            stored = Stored(blob)
            for command in ("regs", "irqs"):
                lines = subprocess.run([DTOOL, command, stored.name], stdout=subprocess.PIPE, check=True).stdout.decode()
                self.assertEqual(asked(command, stored), (lines, 0, ""))
                text, status, _ = asked(command, "--json", stored)
                rows = [" ".join([row["node"], str(row["index"]), self.row(row)]) for row in json.loads(text)]
                self.assertEqual((rows, status), (lines.splitlines(), 0))

    @staticmethod
    def row(row):
        if "fault" in row:
            return f"fault {row['fault']} {row['name']}"
        if "address" in row:
            return f"{row['address']} {row['size']} {'whole' if row['whole'] else 'cut'}"
        return " ".join([row["controller"], *map(hex, row["cells"]), "hops", str(row["hops"])])

    def test_commands(self):
        stored = Stored(SMALL)
        self.assertEqual(asked("spec", stored, "/soc/uart@1000", "clocks", "clock", "1"), ("/clocks 0x8 hops 0\n", 0, ""))
        self.assertEqual(asked("spec", stored, "/soc/uart@1000", "led-gpios", "gpio")[0],
                         "0 /gpio-a 0x7 0x1 hops 1\n1 empty\n2 /gpio-a 0x3 0x0 hops 0\n")
        self.assertEqual(json.loads(asked("spec", "--json", stored, "/soc/uart@1000", "led-gpios", "gpio")[0])[1], None)
        self.assertEqual(asked("get", stored, "/soc/uart@1000", "reg")[0], "reg = <0x1000 0x100 0x1fff 0x2>\n")
        self.assertEqual(json.loads(asked("get", "--json", stored, "/", "compatible")[0])["compatible"]["texts"], ["a,board", "a,family"])
        self.assertEqual(asked("get", stored, "/nope")[1:], (1, "dtool: fault 70 NoNode\n"))
        self.assertEqual(asked("get", stored, "/", "nope")[1:], (1, "dtool: no property 'nope'\n"))
        self.assertEqual(asked("regs", "/nope.dtb")[1:], (1, "dtool: /nope.dtb: No such file or directory\n"))
        self.assertEqual(asked("regs", Stored(b"abc"))[1:], (1, "dtool: fault 40 ShortHeader\n"))
        self.assertEqual(asked("spam")[1], 2)

    def test_libfdt(self):
        """Each node, property and phandle as libfdt has it: of the small blob, and of those in the folder DTOOL_BOARDS."""
        if libfdt is None:
            LACKS.add("python3-libfdt")
            self.skipTest("no python3-libfdt")
        boards = glob.glob(os.path.join(os.environ.get("DTOOL_BOARDS", "/nonexistent"), "*.dtb"))
        nodes = 0
        for data in [SMALL, *map(self.bytes_of, boards)]:
            blob, tree = Blob(data), libfdt.FdtRo(data)
            shift = tree.off_dt_struct()
            for node in blob:
                nodes += 1
                at = node.offset - shift
                self.assertEqual(tree.get_name(at), node.name)
                if not self.is_found_otherwise(node):
                    self.assertEqual(tree.path_offset(node.path), at)
                self.assertEqual(tree.get_phandle(at), node["phandle"].cells[0] if "phandle" in node else 0)
                if node.parent:
                    self.assertEqual(tree.parent_offset(at), node.parent.offset - shift)
                names, where = {}, tree.first_property_offset(at, libfdt.QUIET_NOTFOUND)
                while where >= 0:
                    one = tree.get_property_by_offset(where)
                    names[one.name] = bytes(one)
                    where = tree.next_property_offset(where, libfdt.QUIET_NOTFOUND)
                self.assertEqual(list(names.items()), list(node.properties().items()))
        self.assertGreater(nodes, 20)

    def is_found_otherwise(self, node):
        """Whether libfdt takes a name on the way for that of an earlier sibling with a unit address: `spi` for `spi@1000`."""
        while node.parent:
            siblings = [] if node.unit_address else [child for child in node.parent.children if child.name.partition("@")[0] == node.name]
            if len(siblings) > 1:
                return True
            node = node.parent
        return False

    @staticmethod
    def bytes_of(path):
        with open(path, "rb") as file:
            return file.read()


class Misuse(unittest.TestCase):
    """Nothing that is written with the public names reaches undefined behaviour."""

    def setUp(self):
        self.blob = Blob(SMALL)
        self.node = self.blob["/soc"]

    def test_types(self):
        for wrong in (5, None, "text", [1], 1.5):
            with self.assertRaises(TypeError):
                Blob(wrong)
        for wrong in (5, None, 1.5, ["reg"]):
            for call in (self.node.get, self.blob.__getitem__, self.node.child, self.blob.compatible, self.blob.alias):
                with self.assertRaises(TypeError):
                    call(wrong)
        for wrong in ("0", None, 1.5):
            for call in (self.node.region, self.node.interrupt, self.blob.by_phandle):
                with self.assertRaises(TypeError):
                    call(wrong)

    def test_ranges(self):
        for call, bits in ((self.node.region, 64), (self.node.interrupt, 64), (self.blob.by_phandle, 32)):
            for wrong in (-1, 1 << bits, 1 << 200):
                with self.assertRaises(OverflowError):
                    call(wrong)
        for wrong in ((-1, 0), (0, -1), (1 << 128, 0), (0, 1 << 128)):
            with self.assertRaises(OverflowError):
                self.node.dma(*wrong)
        with self.assertRaises(Fault):
            self.node.region((1 << 64) - 1)

    def test_names(self):
        for name in ("", "\0", "reg\0", "a" * 5000, "é", "\ud800", b"\xff"):
            self.assertIsNone(self.node.get(name))
            self.assertNotIn(name, self.node)
            self.assertIsNone(self.node.child(name))
        for path in ("", "soc", "/soc/", "//", "/\0", "/" * 5000, "/é", "/\ud800"):
            with self.assertRaises(KeyError):
                self.blob[path]

    def test_nodes_come_from_calls(self):
        with self.assertRaises(TypeError):
            Node()
        with self.assertRaises(TypeError):
            Node(self.blob, 8)
        with self.assertRaises(TypeError):
            Node.__new__(Node)
        with self.assertRaises(AttributeError):
            object.__new__(Node).name
        for it in (self.node, self.blob):
            with self.assertRaises(AttributeError):
                it.offset = 8
            with self.assertRaises(AttributeError):
                del it.offset
        with self.assertRaises(TypeError):
            iter(self.node)

    def test_bytes_are_kept(self):
        data = bytearray(SMALL)
        blob = Blob(data)
        data[:] = bytes(len(data))
        self.assertEqual(len(blob), len(Blob(SMALL)))
        blob.__init__(b"x")
        self.assertEqual(bytes(blob), SMALL)

    def test_copies(self):
        for again in (copy.copy(self.node), copy.deepcopy(self.node), pickle.loads(pickle.dumps(self.node))):
            self.assertEqual((again.path, again["ranges"]), ("/soc", self.node["ranges"]))
        self.assertNotEqual(self.node, Blob(SMALL)["/soc"])
        self.assertEqual(len({self.node, self.blob["/soc"]}), 1)

    def test_damaged(self):
        """Damaged blobs through every public name: a Fault, or an answer. DTOOL_DAMAGED says how many."""
        choose, accepted, count = random.Random(1), 0, int(os.environ.get("DTOOL_DAMAGED", "300"))
        for _ in range(count):
            data = bytearray(SMALL)
            for _ in range(choose.randint(1, 3)):
                data[choose.randrange(len(data))] = choose.randrange(256)
            if choose.random() < 0.1:
                del data[choose.randrange(len(data)):]
            try:
                blob = Blob(data)
            except Fault as fault:
                self.assertTrue(fault.kind < 60 and (fault.place is None or 0 <= fault.place <= len(data)))
                continue
            accepted += 1
            self.look_at(blob)
        self.assertTrue(0 < accepted < count)

    def look_at(self, blob):
        self.look(lambda: (repr(blob), blob.reservations, blob.boot_cpu, blob.property_count, blob.alias("serial0"), blob.compatible("a,uart")))
        self.assertGreaterEqual(len(blob), 1)
        for node in blob:
            self.assertEqual(blob[node.path], node)
            self.look(lambda: (repr(node), node.parent, list(node.children), node.name, node.unit_address, node.is_enabled, hash(node)))
            for name, value in node.properties().items():
                self.assertEqual(node[name], value)
                self.look(lambda: value.texts)
                self.look(lambda: value.cells)
                self.look(lambda: value.text)
                for kind in ("clock", "gpio", "interrupt"):
                    self.look(lambda: node.specifiers(name, kind))
                    self.look(lambda: node.specifier(name, kind, 1))
            self.look(node.regions)
            self.look(node.interrupts)
            self.look(lambda: node.region(1))
            self.look(lambda: node.interrupt(1))
            self.look(lambda: node.dma(16, 16))
        try:
            dtool.lint.lint(blob)
        except dtool.lint.NotLinted:
            pass

    @staticmethod
    def look(call):
        try:
            call()
        except (Fault, ValueError):
            pass


class Names(unittest.TestCase):
    """What other files say, too."""

    def test_faults(self):
        listed = dict(re.findall(r"^### (\d+) (\w+)$", read("docs", "faults.md"), re.MULTILINE))
        wanted = {int(number): name for number, name in listed.items() if number == "2" or 40 <= int(number) < 60 or 70 <= int(number) < 90}
        self.assertEqual({kind.value: kind.title for kind in FaultKind}, wanted)

    def test_calls(self):
        from dtool import _library

        declared = dict(re.findall(r"^[a-z].*?\**dtool_(\w+)\(((?:const|uint8_t)[^;]*)\);", read("c", "dtool.h"), re.MULTILINE | re.DOTALL))
        self.assertEqual(set(_library._CALLS), set(declared) - {"is_node"})
        for name, (_, parameters) in _library._CALLS.items():
            self.assertEqual(len(parameters), declared[name].count(",") + 1, name)

    def test_version(self):
        version = re.search(r"^version=(.*)$", read("tools", "common.sh"), re.MULTILINE).group(1)
        self.assertEqual(dtool.__version__, version)
        self.assertIn(f'\nversion = "{version}"\n', read("python", "pyproject.toml"))


if __name__ == "__main__":
    unittest.main()

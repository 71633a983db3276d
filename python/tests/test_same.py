"""dtool-same: blobs that mean the same, and what others differ by."""
import random
import unittest

from dtool import Blob
from dtool.same import are_same, differences

from . import BOARD, Stored, asked, compiled


class Same(unittest.TestCase):
    def found(self, one, other, exact=False):
        return [(it.node, it.property, it.kind, it.message) for it in differences(Blob(compiled(one)), Blob(compiled(other)), exact, ["A", "B"])]

    def test_numbers(self):
        """A phandle is its node, whatever its number, and a node may have one that nobody refers to."""
        renumbered = BOARD.replace("ck: clocks {", "ck: clocks { phandle = <0x70>;").replace("cell: cell { }", "cell: cell { phandle = <0x71>; }")
        self.assertEqual(self.found(BOARD, renumbered), [])
        self.assertEqual(self.found(BOARD, BOARD.replace("memory@40000000 {", "more: memory@40000000 {").replace("/dts-v1/;", "/dts-v1/;"))[0][:3],
                         ("/__symbols__", "more", "property"))

    def test_references(self):
        board = BOARD.replace("gpio-controller;", "gpio-controller; #clock-cells = <1>;")
        self.assertEqual(self.found(board, board.replace("clocks = <&ck 7>, <&ck 8>", "clocks = <&ck 7>, <&ga 8>")),
                         [("/soc/uart@1000", "clocks", "value", "<&{/clocks} 0x7 &{/clocks} 0x8> in A, <&{/clocks} 0x7 &{/gpio-a} 0x8> in B")])
        swapped = board.replace("clocks = <&ck 7>, <&ck 8>", "clocks = <0x70 7>, <0x70 8>")
        one, other = (swapped.replace(node, f"{node} phandle = <0x70>;") for node in ("ga: gpio-a {", "ck: clocks {"))
        self.assertEqual([it[:2] for it in self.found(one, other)], [("/soc/uart@1000", "clocks")])  # the same bytes, and another node

    def test_values(self):
        self.assertEqual(self.found(BOARD, BOARD.replace('"a,uart"', '"a,uart2"')),
                         [("/soc/uart@1000", "compatible", "value", '"a,uart" in A, "a,uart2" in B')])
        self.assertEqual(self.found(BOARD, BOARD.replace("gpio-controller;", "")), [("/gpio-a", "gpio-controller", "property", "only in A")])
        self.assertEqual(self.found(BOARD, BOARD.replace("cell: cell { };", "cell: cell { below { deeper { }; }; };")),
                         [("/soc/cell/below", None, "node", "only in B")])
        self.assertEqual(self.found(BOARD, BOARD.replace("/memreserve/ 0x1000 0x2000;", "")),
                         [("", None, "header", "reservations: 0x1000 0x2000, 0x100000000 0x1 in A, 0x100000000 0x1 in B")])

    def test_order(self):
        other = BOARD.replace("#address-cells = <2>;\n\t#size-cells = <1>;", "#size-cells = <1>;\n\t#address-cells = <2>;")
        self.assertEqual(self.found(BOARD, other), [])
        self.assertEqual(self.found(BOARD, other, True), [("/", None, "order", "the order of its properties")])
        children = BOARD.replace("cell: cell { };", "").replace("uart: uart@1000 {", "cell: cell { }; uart: uart@1000 {")
        self.assertEqual([it for it in self.found(BOARD, children) if it[0] != "/__symbols__"], [])
        self.assertIn(("/soc", None, "order", "the order of its children"), self.found(BOARD, children, True))

    def test_damaged(self):
        """A cell that was changed is found, but for a phandle's own."""
        sound, choose, tried = compiled(BOARD), random.Random(2), 0
        blob = Blob(sound)
        for node in blob:
            for name, value in node.properties().items():
                if name != "phandle" and value and sound.count(bytes(value)) == 1:
                    data = bytearray(sound)
                    at = sound.index(bytes(value)) + choose.randrange(len(value))
                    data[at] ^= 1 << choose.randrange(8)
                    try:
                        other = Blob(data)
                    except Exception:
                        continue
                    tried += 1
                    self.assertFalse(are_same(blob, other), name)
        self.assertGreater(tried, 20)

    def test_program(self):
        one, other = Stored(compiled(BOARD)), Stored(compiled(BOARD.replace("<0x1800 1>", "<0x1800 2>")))
        self.assertEqual(asked("same", one, one), ("", 0, ""))
        text, status, _ = asked("same", one, other)
        self.assertEqual(status, 1)
        self.assertRegex(text, r"^/soc/pci@1800: reg: <0x1800 0x1> in \S+\.dtb, <0x1800 0x2> in \S+\.dtb\n$")
        self.assertEqual(asked("same", "-q", one, other), ("", 1, ""))
        self.assertEqual(asked("same", one, Stored(b"abc"))[:2], ("", 2))
        self.assertEqual(asked("same", one, "/nope.dtb"), ("", 2, "python -m dtool same: /nope.dtb: No such file or directory\n"))
        self.assertEqual(asked("same", one)[1], 2)
        many = Stored(compiled("/dts-v1/; / { " + " ".join(f"n{k} {{ }};" for k in range(30)) + " };"))
        few = Stored(compiled("/dts-v1/; / { };"))
        self.assertEqual((asked("same", many, few)[0].count("\n"), asked("same", "--all", many, few)[0].count("\n")), (21, 30))


if __name__ == "__main__":
    unittest.main()

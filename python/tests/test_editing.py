"""Blobs that change: what they then read as, what is refused, and that no use of the public names crashes."""
import pickle
import random
import threading
import unittest

from dtool import Blob, EditableBlob, Fault, FaultKind, NoSuchNode

from . import BOARD, compiled

SMALL = compiled(BOARD)


def tree(blob):
    """All nodes of a blob with their properties, in order."""
    return [(node.path, list(node.properties().items())) for node in blob]


class Edits(unittest.TestCase):
    def setUp(self):
        self.blob = Blob(SMALL)
        self.editable = self.blob.editable()

    def test_nothing_changed(self):
        self.assertEqual(tree(self.editable.blob()), tree(self.blob))
        self.assertEqual(self.editable.blob().reservations, self.blob.reservations)

    def test_a_property_that_is_there_keeps_its_place(self):
        names = list(self.blob["/soc/uart@1000"].properties())
        self.editable.set("/soc/uart@1000", "reg", bytes(8))
        self.editable.set(b"/soc/uart@1000", b"status", bytearray(b"okay\0"))
        uart = self.editable.blob()["/soc/uart@1000"]
        self.assertEqual(list(uart.properties()), names + ["status"])
        self.assertEqual((uart["reg"].cells, uart["status"].text), ((0, 0), "okay"))
        self.assertEqual(self.blob["/soc/uart@1000"]["reg"].cells, (0x1000, 0x100, 0x1fff, 2))

    def test_a_node_is_the_last_child(self):
        self.editable.add("/soc", "new@1500")
        self.editable.add("/soc/new@1500", "below")
        self.editable.set("/soc/new@1500", "reg", b"\0\0\x15\0\0\0\0\1")
        soc = self.editable.blob()["/soc"]
        self.assertEqual([child.name for child in soc.children][-1], "new@1500")
        self.assertEqual(soc.child("new@1500").regions()[0].address, 0x40001500)
        self.assertEqual([node.path for node in soc.child("new@1500").children], ["/soc/new@1500/below"])

    def test_a_cell(self):
        before = bytes(self.editable)
        self.editable.patch("/soc/uart@1000", "reg", 4, 0x200)
        self.assertEqual(self.editable.blob()["/soc/uart@1000"]["reg"].cells, (0x1000, 0x200, 0x1fff, 2))
        self.assertEqual(sum(a != b for a, b in zip(before, bytes(self.editable))), 1)
        self.editable.patch("/soc/uart@1000", "compatible", 3, 0x61626364)
        self.assertEqual(self.editable.blob()["/soc/uart@1000"]["compatible"], b"a,uabcd")

    def test_refused(self):
        before = bytes(self.editable)
        numbered = next(node for node in self.blob if "phandle" in node)
        for kind, call, words in (
            (FaultKind.BAD_NAME, self.editable.set, ("/soc", "a/b", b"")),
            (FaultKind.BAD_NAME, self.editable.add, ("/soc", "a/b")),
            (FaultKind.BAD_NAME, self.editable.patch, ("/soc", "a/b", 0, 0)),
            (FaultKind.DUPLICATE, self.editable.add, ("/", "soc")),
            (FaultKind.BLOB_PHANDLE, self.editable.set, ("/soc", "phandle", bytes(numbered["phandle"]))),
            (FaultKind.BLOB_PHANDLE, self.editable.set, ("/soc", "phandle", b"1")),
            (FaultKind.BLOB_PHANDLE, self.editable.patch, (numbered.path, "phandle", 0, 0)),
            (FaultKind.LIMIT, self.editable.set, ("/soc", "large", bytes(16 << 20))),
        ):
            with self.assertRaises(Fault) as raised:
                call(*words)
            self.assertEqual(raised.exception.kind, kind, words[1])
        for call, words in ((self.editable.set, ("/nope", "a", b"")), (self.editable.add, ("/nope", "a")), (self.editable.patch, ("/nope", "a", 0, 0))):
            self.assertRaises(NoSuchNode, call, *words)
        for offset in (-1, 13, 16, 1 << 32, 1 << 64):
            self.assertRaises(IndexError, self.editable.patch, "/soc/uart@1000", "reg", offset, 0)
        self.assertRaises(IndexError, self.editable.patch, "/soc", "nope", 0, 0)
        self.assertRaises(OverflowError, self.editable.patch, "/soc/uart@1000", "reg", 0, 1 << 32)
        self.assertRaises(TypeError, self.editable.set, "/soc", "a", "text")
        self.assertRaises(TypeError, self.editable.set, "/soc", "a", 4)
        self.assertRaises(TypeError, EditableBlob, SMALL)
        self.assertEqual(bytes(self.editable), before)

    def test_it_grows(self):
        for number in range(300):
            self.editable.set("/", f"p{number}", bytes([number % 256]) * (number * 7 % 200))
        self.editable.set("/", "large", b"x" * 3000000)
        root = self.editable.blob().root
        self.assertEqual([root[f"p{number}"] for number in range(300)], [bytes([number % 256]) * (number * 7 % 200) for number in range(300)])
        self.editable.set("/", "large", b"")
        self.assertLess(len(bytes(self.editable)), 100000)

    def test_random_steps(self):
        random.seed(1)
        wanted = {path: dict(properties) for path, properties in tree(self.blob)}
        for step in range(400):
            path = random.choice(list(wanted))
            if random.random() < 0.3:
                name = f"n{step}"
                self.editable.add(path, name)
                wanted[path.rstrip("/") + "/" + name] = {}
            else:
                name, value = random.choice(["a", "b", "status", "reg"]), random.randbytes(random.randrange(30))
                self.editable.set(path, name, value)
                wanted[path][name] = value
                if len(value) >= 4:
                    offset, number = random.randrange(len(value) - 3), random.getrandbits(32)
                    self.editable.patch(path, name, offset, number)
                    wanted[path][name] = value[:offset] + number.to_bytes(4, "big") + value[offset + 4:]
        self.assertEqual({path: dict(properties) for path, properties in tree(self.editable.blob())}, wanted)

    def test_copies(self):
        self.editable.add("/", "n")
        again = pickle.loads(pickle.dumps(self.editable))
        again.add("/", "m")
        self.assertNotIn("/m", self.editable.blob())
        self.assertIn("/n", again.blob())
        self.assertIn("bytes>", repr(again))

    def test_threads(self):
        def add(which):
            for number in range(100):
                self.editable.add("/", f"t{which}-{number}")

        threads = [threading.Thread(target=add, args=(which,)) for which in range(4)]
        for thread in threads:
            thread.start()
        for thread in threads:
            thread.join()
        self.assertEqual(len(self.editable.blob()), len(self.blob) + 400)


if __name__ == "__main__":
    unittest.main()

"""dtool-report: the page says what the program prints, and a blob can't harm who opens it."""
import os
import re
import shutil
import subprocess
import tempfile
import unittest
from html.parser import HTMLParser

from dtool import Blob
from dtool.report import page

from . import BOARD, DTOOL, LACKS, Stored, asked, compiled

BROWSER = os.environ.get("CHROMIUM") or shutil.which("chromium")
HARM = ["</script><script>document.title='owned'</script>", "<img src=x onerror=document.title='owned'>", "'\\\" onload=alert(1) x='", "<!--", "&lt;b&gt;",
        "]]>", "</style>", "javascript:alert(1)"]


class Elements(HTMLParser):
    """The elements of a page, with their attributes."""

    def __init__(self, text):
        super().__init__()
        self.found = []
        self.feed(text)

    def handle_starttag(self, tag, attrs):
        self.found.append((tag, dict(attrs)))

    def count(self, tag):
        return sum(it == tag for it, _ in self.found)


def harmful():
    texts = ", ".join('"' + text.replace('"', '\\"').replace('\\\\"', '\\"') + '"' for text in HARM)
    properties = f'compatible = "a,board"; harm = {texts}; model = {texts.partition(", ")[0]}; raw = [ff fe 3c 00]'
    return BOARD.replace('compatible = "a,board", "a,family"', properties)


class Page(unittest.TestCase):
    def page_of(self, text, other=None, name="board.dtb"):
        return "".join(page(Blob(compiled(text)), name, None if other is None else Blob(compiled(other)), "other.dtb"))

    def test_counts(self):
        """As many bars as regions, and as many rows as interrupts, as the program lists."""
        text = self.page_of(BOARD)
        stored = Stored(compiled(BOARD))
        lines = {command: subprocess.run([DTOOL, command, stored.name], stdout=subprocess.PIPE, check=True).stdout.decode().splitlines()
                 for command in ("regs", "irqs")}
        elements = Elements(text)
        self.assertEqual(elements.count("rect"), sum(line.endswith((" whole", " cut")) for line in lines["regs"]))
        for line in lines["regs"]:
            if line.endswith((" whole", " cut")):
                path, _, address, size, how = line.split()
                self.assertRegex(text, f"{re.escape(path.rpartition('/')[2])} {size} {how}")
        arrived = sum(" hops " in line for line in lines["irqs"])
        table = text.partition('<h2 id="i">')[2].partition("<h2")[0]
        self.assertEqual(table.count("<tr><td>"), arrived + 1)  # and the one behind an empty entry, which irqs doesn't reach
        self.assertEqual(elements.count("details") - len(Blob(compiled(BOARD))), 1)  # that of the one controller

    def test_structure(self):
        text = self.page_of(harmful(), BOARD, "<b>&\"'</b>.dtb")
        elements = Elements(text)
        ids = [attrs["id"] for _, attrs in elements.found if "id" in attrs]
        self.assertEqual(len(ids), len(set(ids)))
        for tag, attrs in elements.found:
            self.assertIn(tag, {"html", "head", "meta", "title", "style", "body", "h1", "h2", "p", "nav", "a", "svg", "rect", "text", "line", "details",
                                "summary", "table", "tr", "td", "th", "span", "label", "input", "button", "script", "code"})
            for name, value in attrs.items():
                self.assertFalse(name.startswith("on") or name == "style", (tag, name))
                if name in ("id", "href", "class"):
                    self.assertRegex(value, r"^#?[a-z]+[0-9]*$")
            for end in attrs.get("href", "#")[1:], :
                self.assertTrue(not end or end in ids, end)
        self.assertEqual((elements.count("script"), elements.count("style"), elements.count("b"), elements.count("img")), (1, 1, 0, 0))
        self.assertIn("default-src 'none'", dict(elements.found[3][1])["content"])
        self.assertIn("what differs", text)

    def test_lint(self):
        text = self.page_of(BOARD.replace("interrupts = <0 1 4>", "interrupts = <0 1>"))
        self.assertIn("8 bytes, but an entry has 3 cells", text)
        self.assertIn("it is an overlay&#x27;s object", self.page_of("/dts-v1/; /plugin/; &x { a; };"))

    def test_overlaps(self):
        """A region that overlaps one of another branch is marked; a child in its parent's isn't."""
        soc = "soc {{ ranges; #address-cells = <2>; #size-cells = <1>; a@0 {{ reg = <0 0 0x100>; ranges; #address-cells = <2>; #size-cells = <1>; {} }}; {} }};"
        head = "/dts-v1/; / { #address-cells = <2>; #size-cells = <1>; "
        inside, beside = "b@10 { reg = <0 0x10 0x10>; };", ""
        self.assertEqual(Elements(self.page_of(head + soc.format(inside, beside) + " };")).found.count(("rect", {})), 0)
        self.assertNotIn("overlaps", self.page_of(head + soc.format(inside, beside) + " };").partition("</svg>")[0].partition("<svg")[2])
        self.assertIn("overlaps", self.page_of(head + soc.format("", inside) + " };").partition("</svg>")[0].partition("<svg")[2])

    def test_program(self):
        stored = Stored(compiled(BOARD))
        with tempfile.TemporaryDirectory() as folder:
            out = os.path.join(folder, "board.html")
            self.assertEqual(asked("report", stored, "-o", out, "--beside", stored), ("", 0, ""))
            with open(out, encoding="utf-8") as file:
                self.assertIn("both mean the same", file.read())
        self.assertTrue(asked("report", stored)[0].endswith("</html>\n"))
        self.assertEqual(asked("report", "/nope.dtb"), ("", 2, "python -m dtool report: /nope.dtb: No such file or directory\n"))
        self.assertEqual(asked("report", Stored(b"abc"))[:2], ("", 2))
        self.assertEqual(asked("report", stored, "-o", "/nope/x.html")[1], 2)

    def browser(self, text, fragment, *words):
        """What a browser writes that opens a page; the test is left out where there is none."""
        if not BROWSER:
            LACKS.add("chromium")
            self.skipTest("no chromium")
        with tempfile.TemporaryDirectory() as folder:
            path = os.path.join(folder, "page.html")
            with open(path, "w", encoding="utf-8") as file:
                file.write(text)
            return subprocess.run([BROWSER, "--headless", "--no-sandbox", "--disable-gpu", "--enable-logging=stderr", f"--user-data-dir={folder}/profile",
                                   *words, f"file://{path}{fragment}"], stdout=subprocess.PIPE, stderr=subprocess.PIPE, timeout=120)

    def test_screenshot(self):
        """The page as it looks: of the board of these tests, or of the blob that DTOOL_SHOWN names. DTOOL_SCREENSHOT says where it is put."""
        shown = os.environ.get("DTOOL_SHOWN")
        text = "".join(page(Blob.read(shown), os.path.basename(shown))) if shown else self.page_of(BOARD)
        with tempfile.TemporaryDirectory() as folder:
            path = os.environ.get("DTOOL_SCREENSHOT", os.path.join(folder, "page.png"))
            self.browser(text, "", "--hide-scrollbars", "--window-size=900,560", f"--screenshot={path}")
            with open(path, "rb") as file:
                data = file.read()
        self.assertEqual(data[:4], b"\x89PNG")
        self.assertTrue(5000 < len(data) < 100_000, len(data))

    def test_browser(self):
        """In a browser no script fails, and none of the blob's runs."""
        done = self.browser(self.page_of(harmful(), name="harm.dtb"), "#n3", "--virtual-time-budget=2000", "--dump-dom")
        text = done.stdout.decode()
        self.assertIn("<title>harm.dtb</title>", text)
        self.assertNotIn("CONSOLE", done.stderr.decode(errors="replace"))
        self.assertRegex(text, r'<details class="node" id="n3" open="">')  # the page's own script ran: it opened what the link names


if __name__ == "__main__":
    unittest.main()

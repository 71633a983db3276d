"""dtool-report: one page that shows a blob."""
import argparse
import base64
import hashlib
import os
import sys
from collections import Counter, defaultdict
from dataclasses import dataclass
from html import escape
from typing import Callable, Dict, Iterable, Iterator, List, Optional, Tuple

from . import __version__
from ._terminal import escaped, report_failure, use_backslashes
from .faults import Fault, FaultKind
from .lint import OFF, NotLinted, lint
from .same import differences
from .tree import Blob, Node, Region, Route
from .values import Value

STYLE = """
:root { color-scheme: light dark; --line: #8884; --dim: #777; --mark: #c40; --bar: #48c; }
body { font: 14px/1.4 system-ui, sans-serif; margin: 1em auto; max-width: 76em; padding: 0 1em; }
h1 { font-size: 1.5em; } h2 { font-size: 1.15em; margin: 1.6em 0 .4em; border-bottom: 1px solid var(--line); }
code, .value, table, svg text { font-family: ui-monospace, monospace; font-size: 12px; }
nav a { margin-right: 1em; } details details { margin-left: 1.2em; } summary { cursor: pointer; }
summary:focus-visible, a:focus-visible, input:focus-visible { outline: 2px solid var(--bar); }
.value { margin: 0 0 0 1.2em; overflow-wrap: anywhere; } .dim { color: var(--dim); } .bad { color: var(--mark); }
table { border-collapse: collapse; } td, th { text-align: left; vertical-align: top; padding: .1em .8em .1em 0; border-bottom: 1px solid var(--line); }
svg { width: 100%; } svg rect { fill: var(--bar); fill-opacity: .35; stroke: var(--bar); } svg .over { fill: var(--mark); stroke: var(--mark); }
svg .gap { fill: none; stroke: none; } svg text { fill: currentColor; } svg .dim { fill: var(--dim); } svg line { stroke: var(--line); }
.hidden { display: none; } .hit > summary { background: #fc06; } input { font: inherit; width: 24em; max-width: 100%; }
@media print { nav, .search { display: none; } body { max-width: none; } a { color: inherit; text-decoration: none; } }
"""

SCRIPT = """
'use strict';
const box = document.getElementById('search'), count = document.getElementById('count');
const nodes = Array.from(document.querySelectorAll('details.node'));
const texts = nodes.map(node => Array.from(node.children).filter(it => it.tagName !== 'DETAILS').map(it => it.textContent).join(' ').toLowerCase());
let waiting = 0;
function find() {
  const wanted = box.value.trim().toLowerCase();
  let found = 0;
  nodes.forEach((node, k) => {
    const hit = wanted !== '' && texts[k].includes(wanted);
    node.classList.toggle('hit', hit);
    if (hit) {
      found += 1;
      for (let it = node; it instanceof HTMLDetailsElement; it = it.parentElement) it.open = true;
    }
  });
  count.textContent = wanted === '' ? '' : found + (found === 1 ? ' node' : ' nodes');
  const first = document.querySelector('details.hit');
  if (first) first.scrollIntoView({ block: 'nearest' });
}
box.addEventListener('input', () => { clearTimeout(waiting); waiting = setTimeout(find, 150); });
function show() {
  const id = location.hash.slice(1);
  const target = /^[a-z][0-9]*$/.test(id) && document.getElementById(id);
  if (!target) return;
  for (let it = target; it; it = it.parentElement) if (it instanceof HTMLDetailsElement) it.open = true;
  target.scrollIntoView();
}
addEventListener('hashchange', show);
document.getElementById('open').addEventListener('click', () => nodes.forEach(node => { node.open = true; }));
document.getElementById('shut').addEventListener('click', () => nodes.forEach(node => { node.open = false; }));
addEventListener('beforeprint', () => nodes.forEach(node => { node.open = true; }));
show();
"""


def _hash(text: str) -> str:
    return "sha256-" + base64.b64encode(hashlib.sha256(text.encode()).digest()).decode()


#: The most regions of a picture, and the most rows of a table: a blob of 16 MiB has room for millions.
MOST_REGIONS, MOST_ROWS = 5000, 10000

#: What the page may do: its own style and its own script, and nothing else.
POLICY = f"default-src 'none'; style-src '{_hash(STYLE)}'; script-src '{_hash(SCRIPT)}'; base-uri 'none'; form-action 'none'"


@dataclass(frozen=True)
class Placed:
    """An entry of a node's `reg` with its region."""

    node: Node
    index: int
    region: Region

    @property
    def end(self) -> int:
        return self.region.address + max(self.region.size, 1)


def page(blob: Blob, name: str, other: Optional[Blob] = None, other_name: str = "") -> Iterator[str]:
    """The page of a blob, in parts. Names and values of the blob are escaped, and none becomes an attribute."""
    yield from _Page(blob, name, other, other_name).parts()


def _table(heads: Tuple[str, ...], rows: Iterable[Tuple[str, ...]]) -> Iterator[str]:
    """A table of cells that are HTML already; the first rows of a long one."""
    yield "<table>" + ("<tr>" + "".join(f"<th>{head}</th>" for head in heads) + "</tr>" if heads else "") + "\n"
    for count, row in enumerate(rows):
        if count == MOST_ROWS:
            yield "<tr><td>.. and more</td></tr>\n"
            break
        yield "<tr>" + "".join(f"<td>{cell}</td>" for cell in row) + "</tr>\n"
    yield "</table>\n"


def _text(text: str) -> str:
    """A text for the page: what a terminal may show, with HTML's characters escaped."""
    return escape(escaped(text))


class _Page:
    def __init__(self, blob: Blob, name: str, other: Optional[Blob], other_name: str):
        self.blob, self.name, self.other, self.other_name = blob, name, other, other_name
        self.nodes = list(blob)
        self.ids: Dict[Node, str] = {node: f"n{k}" for k, node in enumerate(self.nodes)}
        self.children: Dict[Node, List[Node]] = {node: list(node.children) for node in self.nodes}
        by_path = {node.path: node for node in self.nodes}
        try:
            self.findings = [(by_path[it.node], it) for it in lint(blob) if it.kind not in OFF]
            self.not_linted = ""
        except NotLinted as why:
            self.findings, self.not_linted = [], str(why)
        self.wrong = {node for node, _ in self.findings}
        self.regions, self.refused = self.placed()

    def placed(self) -> Tuple[List[Placed], List[Tuple[Node, int, Fault]]]:
        regions: List[Placed] = []
        refused: List[Tuple[Node, int, Fault]] = []
        for node in self.nodes:
            for index, outcome in enumerate(node._regions()):
                if isinstance(outcome, Region):
                    regions.append(Placed(node, index, outcome))
                elif outcome.kind != FaultKind.NO_RANGES:
                    refused.append((node, index, outcome))
        return sorted(regions, key=lambda it: (it.region.address, -it.region.size)), refused

    def link(self, node: Node, text: Optional[str] = None) -> str:
        return f'<a href="#{self.ids[node]}">{_text(node.path if text is None else text)}</a>'

    def parts(self) -> Iterator[str]:
        title = _text(self.name)
        yield (f'<!DOCTYPE html>\n<html lang="en">\n<head>\n<meta charset="utf-8">\n<meta http-equiv="Content-Security-Policy" content="{POLICY}">\n'
               f'<meta name="viewport" content="width=device-width">\n<title>{title}</title>\n<style>{STYLE}</style>\n</head>\n<body>\n<h1>{title}</h1>\n')
        model = self.blob.root.get("model")
        yield (f'<p>{_text(model.text) if model is not None and model.is_texts and len(model.texts) == 1 else "A devicetree"}: {len(self.nodes)} nodes, '
               f'{self.blob.property_count} properties, {len(bytes(self.blob))} bytes, boot CPU {self.blob.boot_cpu}.</p>\n')
        sections = [("a", "Addresses", self.addresses), ("i", "Interrupts", self.interrupts), ("l", "What lint reports", self.lint)]
        if self.other is not None:
            sections.append(("d", f"Differences from {self.other_name}", self.differences))
        sections.append(("t", "Tree", self.tree))
        yield "<nav>" + " ".join(f'<a href="#{key}">{_text(heading)}</a>' for key, heading, _ in sections) + "</nav>\n"
        for key, heading, body in sections:
            yield f'<h2 id="{key}">{_text(heading)}</h2>\n'
            yield from body()
        yield f"<script>{SCRIPT}</script>\n</body>\n</html>\n"

    # ---- addresses

    def addresses(self) -> Iterator[str]:
        yield ("<p>Each region of the CPU's address space, from the lowest address up. Heights follow the sizes' logarithms. "
               'A red one overlaps a region of a node that is neither above nor below its own.</p>\n')
        reserved = self.blob.reservations
        if reserved:
            yield "<p>Reserved: " + ", ".join(f"<code>{it.address:#x}</code> of {it.size:#x} bytes" for it in reserved) + "</p>\n"
        if len(self.regions) > MOST_REGIONS:
            yield f"<p>{len(self.regions)} regions are too many for a picture. These are the first:</p>\n"
        if self.regions:
            yield from _Picture(self.regions[:MOST_REGIONS], self.link).parts()
        else:
            yield "<p>None.</p>\n"
        if self.refused:
            yield f"<details><summary>{len(self.refused)} entries of <code>reg</code> without an address</summary>"
            yield from _table((), ((self.link(node), str(index), fault.kind.title) for node, index, fault in self.refused))
            yield "</details>\n"

    # ---- interrupts

    def interrupts(self) -> Iterator[str]:
        arriving: Dict[Node, List[Tuple[Tuple[int, ...], Node, int, int]]] = defaultdict(list)
        lost: List[Tuple[Node, int, Fault]] = []
        for node in self.nodes:
            for index, outcome in enumerate(node._interrupts()):
                if isinstance(outcome, Route):
                    arriving[outcome.controller].append((outcome.cells, node, index, outcome.hops))
                elif isinstance(outcome, Fault):
                    lost.append((node, index, outcome))
        if not arriving and not lost:
            yield "<p>None.</p>\n"
        for controller in (node for node in self.nodes if node in arriving):
            rows = sorted(arriving[controller], key=lambda row: row[0])
            count = Counter(row[0] for row in rows)
            yield f"<details open><summary>{self.link(controller)}: {len(rows)} interrupts</summary>"
            yield from _table(("line", "from", "index"), (
                (" ".join(f"{cell:#x}" for cell in cells), self.link(node),
                 f"{index}{f', through {hops} maps' if hops else ''}{', shared' if count[cells] > 1 else ''}") for cells, node, index, hops in rows))
            yield "</details>\n"
        if lost:
            yield "<p>These arrive nowhere:</p>\n"
            yield from _table((), ((self.link(node), str(index), fault.kind.title) for node, index, fault in lost))

    # ---- lint and differences

    def lint(self) -> Iterator[str]:
        if not self.findings:
            yield f"<p>{_text(self.not_linted) or 'Nothing.'}</p>\n"
            return
        yield from _table(("node", "property", "kind", "what is wrong"), (
            (self.link(node), _text((it.property or "") + ("" if it.index is None else f"[{it.index}]")), it.kind, _text(it.message))
            for node, it in self.findings))

    def differences(self) -> Iterator[str]:
        assert self.other is not None
        by_path = {node.path: node for node in self.nodes}
        rows = list(differences(self.blob, self.other, names=["this blob", "the other"]))
        if not rows:
            yield "<p>None: both mean the same.</p>\n"
            return
        yield from _table(("node", "property", "what differs"), (
            (self.link(by_path[it.node]) if it.node in by_path else _text(it.node or "the header"), _text(it.property or ""), _text(it.message))
            for it in rows))

    # ---- the tree

    def tree(self) -> Iterator[str]:
        yield ('<p class="search"><label>Search names and values: <input id="search" type="search"></label> <span id="count" role="status"></span> '
               '<button id="open" type="button">open all</button> <button id="shut" type="button">close all</button></p>\n')
        left: List[Optional[Node]] = [self.blob.root]
        while left:
            node = left.pop()
            if node is None:
                yield "</details>\n"
                continue
            mark = ' <span class="bad">(lint)</span>' if node in self.wrong else ""
            opened = " open" if node == self.blob.root else ""
            yield f'<details class="node" id="{self.ids[node]}"{opened}><summary>{_text(node.name or "/")}{mark}</summary>\n'
            for name, value in node.properties().items():
                yield f'<p class="value">{_text(name)}{self.value(value)}</p>\n'
            left.append(None)
            left += reversed(self.children[node])

    @staticmethod
    def value(value: Value) -> str:
        if not value:
            return ""
        if value.is_texts:
            text = ", ".join(f'"{text}"' for text in value.texts)
        elif len(value) % 4 == 0:
            text = _cells(value)
        else:
            text = f"[{value[:4096].hex(' ')}{' ..' if len(value) > 4096 else ''}]"
        return f' <span class="dim">=</span> {_text(text)}'


def _cells(value: Value) -> str:
    """Cells as a source has them; the first thousand of a long value."""
    cells = Value(value[:4096]).cells
    return "<" + " ".join(f"{cell:#x}" for cell in cells) + (" ..>" if len(value) > 4096 else ">")


class _Picture:
    """A picture of regions: a bar for each, beside those that overlap it. Between two addresses at which bars begin or end lies as much height as
    the logarithm of their distance, so that a register and a gigabyte can both be seen."""

    WIDTH, LEFT, LANE, ROW = 1100, 220, 26, 15

    def __init__(self, regions: List[Placed], link: Callable[[Node, str], str]):
        self.regions, self.link = regions, link
        bounds = sorted({address for it in regions for address in (it.region.address, it.end)})
        self.heights: Dict[int, int] = {}
        begins: Dict[int, int] = defaultdict(int)
        for it in regions:
            begins[it.region.address] += 1
        covered = self.covered(bounds)
        at = 20
        self.gaps: List[Tuple[int, int, int]] = []
        for low, high in zip(bounds, bounds[1:]):
            self.heights[low] = at
            if not covered[low]:
                self.gaps.append((at, low, high))
            at += max(self.ROW * begins[low], 4, self.ROW * (high - low).bit_length() // 12) if covered[low] else self.ROW + 3
        self.heights[bounds[-1]] = at
        self.height = at + 20

    def covered(self, bounds: List[int]) -> Dict[int, bool]:
        """Whether some region has the addresses behind each bound."""
        change: Dict[int, int] = defaultdict(int)
        for it in self.regions:
            change[it.region.address] += 1
            change[it.end] -= 1
        depth, found = 0, {}  # type: int, Dict[int, bool]
        for bound in bounds:
            depth += change[bound]
            found[bound] = depth > 0
        return found

    def lanes(self) -> Iterator[Tuple[Placed, int, int, bool]]:
        """Each region with its lane, the row of its label, and whether it overlaps a region of no node above or below its own."""
        ends: List[Optional[Placed]] = []
        rows: Dict[int, int] = defaultdict(int)
        for it in self.regions:
            live = [other for other in ends if other is not None and other.end > it.region.address]
            over = any(not _is_above(other.node, it.node) and not _is_above(it.node, other.node) and other.node != it.node for other in live)
            lane = next((k for k, other in enumerate(ends) if other is None or other.end <= it.region.address), len(ends))
            if lane == len(ends):
                ends.append(it)
            else:
                ends[lane] = it
            yield it, lane, rows[it.region.address], over
            rows[it.region.address] += 1

    def parts(self) -> Iterator[str]:
        placed = list(self.lanes())
        lanes = 1 + max(lane for _, lane, _, _ in placed)
        step = max(4, min(self.LANE, 400 // lanes))
        label = self.LEFT + step * lanes + 10
        yield f'<svg viewBox="0 0 {self.WIDTH} {self.height}" role="img" aria-label="The CPU\'s address space">\n'
        for it, lane, row, over in placed:
            top, bottom = self.heights[it.region.address], self.heights[it.end]
            words = f"{it.node.name or '/'} {it.region.size:#x} {'whole' if it.region.whole else 'cut'}{', overlaps' if over else ''}"
            style = ' class="over"' if over else ""
            yield (f'<rect{style} x="{self.LEFT + step * lane}" y="{top}" width="{step - 2}" '
                   f'height="{max(bottom - top, 2)}"><title>{_text(it.node.path)} {it.index}</title></rect>\n')
            if row == 0:
                yield f'<text x="0" y="{top + 11}">{it.region.address:#x}</text><line x1="0" y1="{top}" x2="{self.LEFT}" y2="{top}"/>\n'
            yield f'<text x="{label}" y="{top + 11 + self.ROW * row}">{self.link(it.node, words)}</text>\n'
        for top, low, high in self.gaps:
            yield f'<text class="dim" x="0" y="{top + 12}">{low:#x}  .. {high - low:#x} free</text>\n'
        yield "</svg>\n"


def _is_above(above: Node, node: Node) -> bool:
    return node.path.startswith(above.path.rstrip("/") + "/")


# ---- the program


def main(words: Optional[List[str]] = None, program: str = "dtool-report") -> int:
    """The program: its status."""
    use_backslashes()
    parser = argparse.ArgumentParser(prog=program, description="Writes one page that shows a blob: its addresses, interrupts, tree and mistakes.",
                                     epilog="Status 0: the page is written; 2: a blob can't be read, or the page not written.")
    parser.add_argument("--version", action="version", version=f"{program} of dtool {__version__}")
    parser.add_argument("blob", metavar="BLOB")
    parser.add_argument("-o", "--out", metavar="FILE", help="the page; the default is standard output")
    parser.add_argument("--beside", metavar="OTHER", help="another blob: the page lists what differs by meaning")
    options = parser.parse_args(words)
    name = options.blob
    try:
        blob = Blob.read(name)
        other = None
        if options.beside is not None:
            name = options.beside
            other = Blob.read(name)
        parts: Iterable[str] = page(blob, os.path.basename(options.blob), other, os.path.basename(options.beside or ""))
        name = options.out or "standard output"
        if options.out is None:
            sys.stdout.writelines(parts)
        else:
            text = "".join(parts)
            with open(options.out, "w", encoding="utf-8") as file:
                file.write(text)
    except (OSError, Fault) as why:
        report_failure(program, name, why)
        return 2
    return 0


if __name__ == "__main__":
    sys.exit(main())

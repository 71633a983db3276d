"""dtool-same: what two blobs differ by in meaning."""
import argparse
import os
import sys
from dataclasses import dataclass
from typing import Dict, Iterator, List, Optional, Set

from . import __version__
from ._terminal import escaped, report_failure, use_backslashes
from .faults import Fault
from .lists import is_phandles, specifier_kind
from .tree import Blob, Node
from .values import Value

#: How many differences are printed without --all.
FIRST = 20


@dataclass(frozen=True)
class Difference:
    """Something in which two blobs differ."""

    #: The path of the node, or "" for the header and the reservations.
    node: str
    #: The property, or None.
    property: Optional[str]
    #: `header`, `node`, `property`, `value` or `order`.
    kind: str
    #: What is only in one, or what both have.
    message: str


def differences(first: Blob, second: Blob, exact: bool = False, names: Optional[List[str]] = None) -> Iterator[Difference]:
    """What two blobs differ by, node by node. A phandle is the node that has it, so numbers don't count, nor whether a node has one.

    The order of siblings and properties counts where `exact` is true. `names` are what the blobs are called.
    """
    return _Pair(first, second, names or ["the first", "the second"]).differences(exact)


def are_same(first: Blob, second: Blob, exact: bool = False) -> bool:
    """Whether two blobs mean the same."""
    return next(differences(first, second, exact), None) is None


class _Side:
    """One of two blobs: its nodes by their paths, and the paths of its phandles."""

    def __init__(self, blob: Blob):
        self.blob = blob
        self.nodes: Dict[str, Node] = {node.path: node for node in blob}
        self.properties: Dict[str, Dict[str, Value]] = {path: node.properties() for path, node in self.nodes.items()}
        self.by_phandle: Dict[bytes, str] = {bytes(values["phandle"]): path for path, values in self.properties.items() if "phandle" in values}

    def cells(self, path: Optional[str], name: str, absent: int) -> int:
        value = self.properties[path].get(name) if path is not None else None
        return value.cells[0] if value is not None and len(value) == 4 else absent

    def phandles(self, path: str, name: str, value: Value) -> Set[int]:
        """The bytes at which phandles begin in a value, as far as its name says so; none where it isn't a list of that kind, after all."""
        if is_phandles(name) or name == "remote-endpoint":
            return set(range(0, len(value) - 3, 4))
        if name in ("iommu-map", "msi-map"):
            return set(range(4, len(value) - 3, 16))
        if name == "interrupt-map":
            own = self.cells(path, "#address-cells", 2) + self.cells(path, "#interrupt-cells", 1)
            return self.rows(value, own, "interrupt", True)
        if name.endswith("-map") and f"#{name[:-4]}-cells" in self.properties[path]:
            return self.rows(value, self.cells(path, f"#{name[:-4]}-cells", 0), name[:-4], False)
        kind = ("interrupt", None) if name == "interrupts-extended" else specifier_kind(name)
        if name == "gpios" and "gpio-hog" in self.properties[path]:
            return set()
        return set() if kind is None else self.rows(value, 0, kind[0], False)

    def rows(self, value: Value, before: int, kind: str, has_address: bool) -> Set[int]:
        """Those of rows that have so many cells before a phandle, and behind it as many as its node says."""
        found, at = set(), 4 * before
        while at + 4 <= len(value):
            target = self.by_phandle.get(bytes(value[at:at + 4]))
            if target is not None:
                found.add(at)
            elif any(value[at:at + 4]):
                return set()
            behind = self.cells(target, f"#{kind}-cells", 0) + (self.cells(target, "#address-cells", 0) if has_address else 0)
            at += 4 * (1 + behind + before)
        return found if at == len(value) + 4 * before else set()

    def shown(self, path: str, name: str, value: Value) -> str:
        """A value, with its phandles as paths, in some 80 characters."""
        if not value:
            return "nothing"
        if value.is_texts:
            text = ", ".join(f'"{text}"' for text in value.texts)
        elif len(value) % 4 == 0:
            phandles = self.phandles(path, name, value)
            cells = (self.by_phandle.get(bytes(value[at:at + 4])) if at in phandles else None for at in range(0, len(value), 4))
            text = "<" + " ".join(f"&{{{target}}}" if target else f"{cell:#x}" for target, cell in zip(cells, value.cells)) + ">"
        else:
            text = f"[{value.hex(' ')}]"
        return text if len(text) <= 80 else text[:76] + " .."


class _Pair:
    def __init__(self, first: Blob, second: Blob, names: List[str]):
        self.a, self.b, self.names = _Side(first), _Side(second), names

    def differences(self, exact: bool) -> Iterator[Difference]:
        yield from self.of_header()
        for path in [*self.a.nodes, *(path for path in self.b.nodes if path not in self.a.nodes)]:
            is_in = path in self.a.nodes, path in self.b.nodes
            above = path.rpartition("/")[0] or "/"
            if all(is_in):
                yield from self.of_node(path, exact)
            elif above in self.a.nodes and above in self.b.nodes:  # what is below a node that isn't in both isn't, either
                yield Difference(path, None, "node", f"only in {self.names[is_in.index(True)]}")

    def of_header(self) -> Iterator[Difference]:
        for what, one, other in (("the boot CPU", self.a.blob.boot_cpu, self.b.blob.boot_cpu),
                                 ("reservations", self.reserved(self.a), self.reserved(self.b))):
            if one != other:
                yield Difference("", None, "header", f"{what}: {one} in {self.names[0]}, {other} in {self.names[1]}")

    @staticmethod
    def reserved(side: _Side) -> str:
        return ", ".join(f"{it.address:#x} {it.size:#x}" for it in side.blob.reservations) or "none"

    def of_node(self, path: str, exact: bool) -> Iterator[Difference]:
        one, other = self.a.properties[path], self.b.properties[path]
        for name in [*one, *(name for name in other if name not in one)]:
            if name == "phandle":
                continue
            if name not in one or name not in other:
                yield Difference(path, name, "property", f"only in {self.names[name not in one]}")
            elif not self.is_same(path, name, one[name], other[name]):
                yield Difference(path, name, "value",
                                 f"{self.a.shown(path, name, one[name])} in {self.names[0]}, {self.b.shown(path, name, other[name])} in {self.names[1]}")
        if exact:
            yield from self.of_order(path)

    def of_order(self, path: str) -> Iterator[Difference]:
        for what, one, other in (("properties", list(self.a.properties[path]), list(self.b.properties[path])),
                                 ("children", *([child.name for child in side.nodes[path].children] for side in (self.a, self.b)))):
            if [name for name in one if name in other and name != "phandle"] != [name for name in other if name in one and name != "phandle"]:
                yield Difference(path, None, "order", f"the order of its {what}")

    def is_same(self, path: str, name: str, one: Value, other: Value) -> bool:
        if len(one) != len(other):
            return False
        phandles = self.a.phandles(path, name, one) & self.b.phandles(path, name, other)
        if not phandles and one == other:
            return True
        return all(self.is_same_cell(bytes(one[at:at + 4]), bytes(other[at:at + 4]), at in phandles) for at in range(0, len(one), 4))

    def is_same_cell(self, one: bytes, other: bytes, is_phandle: bool) -> bool:
        """A phandle is the node that has it. A cell of which nobody knows what it is may be one where the numbers differ."""
        node = self.a.by_phandle.get(one)
        if is_phandle or one != other:
            same = self.b.by_phandle.get(other)
            return node == same and (node is not None or one == other)
        return True


# ---- the program


def main(words: Optional[List[str]] = None, program: str = "dtool-same") -> int:
    """The program: its status."""
    use_backslashes()
    parser = argparse.ArgumentParser(prog=program, description="Prints what two blobs differ by in meaning: a phandle is the node that has it.",
                                     epilog="Status 0: they mean the same; 1: they differ; 2: a blob can't be read.")
    parser.add_argument("--version", action="version", version=f"{program} of dtool {__version__}")
    parser.add_argument("blobs", metavar="BLOB", nargs=2)
    parser.add_argument("--exact", action="store_true", help="the order of siblings and of properties counts, too")
    parser.add_argument("--all", action="store_true", help=f"print all differences, and not the first {FIRST}")
    parser.add_argument("-q", "--quiet", action="store_true", help="print nothing")
    options = parser.parse_args(words)
    blobs = []
    for name in options.blobs:
        try:
            blobs.append(Blob.read(name))
        except (OSError, Fault) as why:
            report_failure(program, name, why)
            return 2
    names = [os.path.basename(name) for name in options.blobs]
    found = list(differences(blobs[0], blobs[1], options.exact, names if names[0] != names[1] else options.blobs))
    if not options.quiet:
        for it in found if options.all else found[:FIRST]:
            print(escaped(": ".join(part for part in (it.node, it.property, it.message) if part)))
        if len(found) > FIRST and not options.all:
            print(f"and {len(found) - FIRST} more")
    return 1 if found else 0


if __name__ == "__main__":
    sys.exit(main())

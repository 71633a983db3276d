"""dtool-lint: what the lists of a blob say wrongly."""
import argparse
import json
import sys
from collections import defaultdict
from dataclasses import asdict, dataclass
from typing import Dict, Iterable, Iterator, List, Optional, Set, Tuple

from . import __version__
from ._terminal import escaped, report_failure, use_backslashes
from .faults import Fault, FaultKind
from .lists import is_phandles, specifier_kind
from .source import Source
from .tree import Blob, Node
from .values import Value

#: The kinds of findings, with what each is about.
KINDS = {
    "reg": "an entry of `reg` that has no address of the CPU, a `reg` that isn't whole entries, or none on an I2C or SPI bus",
    "ranges": "`ranges` or `dma-ranges` that isn't whole entries, or is empty where the cells of both buses differ",
    "interrupts": "an interrupt that arrives nowhere, by `interrupts`, `interrupts-extended`, interrupt parents and maps",
    "specifiers": "an entry of a list of phandles with specifiers (`clocks`, `*-gpios`, `phys` ..) that arrives nowhere",
    "phandles": "a cell of a list of phandles (`interrupt-parent`, `*-supply`, `pinctrl-0` ..) that names no node",
    "endpoints": "a `remote-endpoint` whose node doesn't point back, and an endpoint's name and unit address",
    "compatible": "a `compatible` that isn't one or more texts",
    "duplicates": "two enabled nodes of one unit address on one I2C, SPI or MDIO bus, or in one list of ports",
    "unit-addresses": "a unit address that isn't the first of `reg`, below the root, simple-bus, I2C and SPI",
    "paths": "an alias or `stdout-path` that names no node",
    "shared-addresses": "two enabled nodes of one unit address on another bus: mostly parts of one device",
    "address-forms": "no unit address below simple-bus, I2C and SPI, or one with capitals or leading zeros",
}

#: Kinds that are reported only where they are asked for: more than a tenth of such findings are no mistakes.
OFF = {"shared-addresses", "address-forms"}

NOT_REPORTED = """\
Not reported: addresses on PCI buses and below buses without `ranges`; `gpios` of a hog; a phandle 0, which is an empty entry; a provider without
`#nvmem-cell-cells` or `#msi-cells`, whose specifiers have no cells; addresses of Marvell's MBus, whose windows are opened at run time; an empty
list of phandles, but for `interrupt-parent`; what is refused because of a `ranges` or an `interrupt-parent` that is reported itself. An overlay's
object is refused: apply it first."""

STATUS = "Status 0: nothing is reported; 1: something is; 2: a blob can't be linted."


@dataclass(frozen=True)
class Finding:
    """Something that is wrong."""

    #: The path of the node.
    node: str
    #: The property, or None where it is the node's name.
    property: Optional[str]
    #: The number of the entry in the list, or None.
    index: Optional[int]
    #: One of KINDS.
    kind: str
    #: What is wrong.
    message: str


class NotLinted(Exception):
    """Why a blob isn't linted."""


def lint(blob: Blob) -> List[Finding]:
    """All findings of a blob, of every kind, node by node. Raises NotLinted for an overlay's object."""
    if is_object(blob):
        raise NotLinted("it is an overlay's object: apply it to its base, and lint the result")
    return _Board(blob).findings()


def is_object(blob: Blob) -> bool:
    """Whether a blob is an overlay's object: a child of the root has a node `__overlay__`, or labels of another tree are left."""
    return "/__fixups__" in blob or any(child.child("__overlay__") for child in blob.root.children)


def _plural(count: int, what: str) -> str:
    return f"{count} {what}" if count == 1 else f"{count} {what}s"


class _Board:
    """A blob on the way to its findings. Each node's properties are read once."""

    def __init__(self, blob: Blob):
        self.blob = blob
        self.nodes = list(blob)
        self.properties: Dict[Node, Dict[str, Value]] = {node: node.properties() for node in self.nodes}
        self.parents: Dict[Node, Node] = {}
        self.children: Dict[Node, List[Node]] = defaultdict(list)
        by_path = {node.path: node for node in self.nodes}
        for node in self.nodes[1:]:
            parent = by_path[node.path.rpartition("/")[0] or "/"]
            self.parents[node] = parent
            self.children[parent].append(node)
        self.by_phandle = {value: node for node in self.nodes for value in [self.properties[node].get("phandle")] if value is not None}
        self.bad: Set[Tuple[Node, str]] = set()  # properties that have a finding of their own

    def findings(self) -> List[Finding]:
        found: Dict[Node, List[Finding]] = defaultdict(list)
        # `ranges` and lists of phandles first: what is refused because of one of them isn't reported again.
        rules = [self.ranges, self.phandles, self.regions, self.interrupts, self.specifiers, self.endpoints, self.compatible, self.duplicates,
                 self.unit_addresses, self.paths]
        for rule in rules:
            for node in self.nodes:
                for finding in rule(node):
                    found[node].append(finding)
                    if finding.property:
                        self.bad.add((node, finding.property))
        return [finding for node in self.nodes for finding in found[node]]

    # ---- what the rules ask

    def cells(self, bus: Node, name: str, default: int) -> int:
        value = self.properties[bus].get(name)
        return default if value is None or len(value) != 4 else value.cells[0]

    def address_cells(self, bus: Node) -> int:
        return self.cells(bus, "#address-cells", 2)

    def size_cells(self, bus: Node) -> int:
        return self.cells(bus, "#size-cells", 1)

    def target(self, value: bytes) -> Optional[Node]:
        return self.by_phandle.get(Value(value))

    def is_compatible(self, node: Node, text: bytes) -> bool:
        return text in self.properties[node].get("compatible", b"").split(b"\0")

    def ways_up(self, node: Node) -> Iterator[Node]:
        while node in self.parents:
            node = self.parents[node]
            yield node

    # ---- addresses

    def ranges(self, node: Node) -> Iterator[Finding]:
        for name in ("ranges", "dma-ranges"):
            value = self.properties[node].get(name)
            if value is None:
                continue
            if node not in self.parents:
                yield Finding(node.path, name, None, "ranges", f"the root has `{name}`, and there is no bus above it")
                continue
            bus = self.parents[node]
            own, above = (self.address_cells(node), self.size_cells(node)), (self.address_cells(bus), self.size_cells(bus))
            width = 4 * (own[0] + above[0] + own[1])
            if not value and own != above:
                differ = [f"{name_} is {a} here and {b} above" for name_, a, b in zip(("#address-cells", "#size-cells"), own, above) if a != b]
                yield Finding(node.path, name, None, "ranges", f"`{name}` is empty, so addresses stay as they are, but {' and '.join(differ)}")
            elif value and (not width or len(value) % width):
                yield Finding(node.path, name, None, "ranges",
                              f"{_plural(len(value), 'byte')}, but an entry has {own[0]} cells of an address here, {above[0]} of one above "
                              f"and {own[1]} of a size: {_plural(width, 'byte')}")

    def regions(self, node: Node) -> Iterator[Finding]:
        value = self.properties[node].get("reg")
        if value is None:
            kind = self.bus_kind(self.parents[node]) if node in self.parents else None
            if kind in ("I2C", "SPI"):
                yield Finding(node.path, None, None, "reg", f"the node is on an {kind} bus, and has no `reg`")
            return
        if node not in self.parents:
            yield Finding(node.path, "reg", None, "reg", "the root has `reg`, and there is no bus above it")
            return
        if not value:
            yield Finding(node.path, "reg", None, "reg", "`reg` is empty")
            return
        bus = self.parents[node]
        address, size = self.address_cells(bus), self.size_cells(bus)
        width = 4 * (address + size)
        if not width or len(value) % width:
            yield Finding(node.path, "reg", None, "reg",
                          f"{_plural(len(value), 'byte')}, but an entry has {address} cells of an address and {size} of a size: "
                          f"{_plural(width, 'byte')}")
            return
        if any((above, "ranges") in self.bad or self.is_mbus(above) for above in self.ways_up(node)):
            return
        for index, region in enumerate(node._regions()):
            if isinstance(region, Fault) and region.kind not in (FaultKind.NO_RANGES, FaultKind.PCI_BUS):
                first = value[index * width:index * width + 4 * address]
                yield Finding(node.path, "reg", index, "reg", _REGION[region.kind].format(address=f"0x{int.from_bytes(first, 'big'):x}"))

    def unit_addresses(self, node: Node) -> Iterator[Finding]:
        bus = self.parents.get(node)
        if bus is None:
            return
        unit = node.unit_address
        kind = self.bus_kind(bus)
        value = self.properties[node].get("reg")
        width = 4 * self.address_cells(bus)
        if value is None and kind == "simple-bus":
            value = Value(self.properties[node].get("ranges", Value())[4 * self.address_cells(node):])
        if kind is None or not value or not 0 < width <= 16 or len(value) % 4 or len(value) < width:
            return
        cells = Value(value[:width]).cells
        address = int.from_bytes(value[:width], "big")
        if kind == "I2C":
            address &= ~(1 << 30)  # I2C_OWN_SLAVE_ADDRESS
        forms = (f"{address:x}", ",".join(f"{cell:x}" for cell in cells))
        if unit is None:
            if kind != "root":
                yield Finding(node.path, "reg", 0, "address-forms", f"the node has no unit address, and its first address is {address:x}")
        elif unit not in forms:
            same = unit.lower().lstrip("0") in [form.lstrip("0") for form in forms]
            yield Finding(node.path, "reg", 0, "address-forms" if same else "unit-addresses",
                          f"the unit address is {unit}, and the first address is {address:x}")

    def bus_kind(self, bus: Node) -> Optional[str]:
        name = bus.name.partition("@")[0]
        if bus not in self.parents:
            return "root"
        if self.is_compatible(bus, b"simple-bus"):
            return None if self.is_mbus(bus) else "simple-bus"
        if name in ("i2c-bus", "i2c-arb") or (name == "i2c" and not any(child.name.partition("@")[0] == "i2c-bus" for child in self.children[bus])):
            return "I2C"
        if name == "spi" or self.has_spi_devices(bus):
            return None if "spi-slave" in self.properties[bus] else "SPI"
        return None

    def has_spi_devices(self, bus: Node) -> bool:
        return (self.address_cells(bus), self.size_cells(bus)) == (1, 0) and any(
            name.startswith("spi-") for child in self.children[bus] for name in self.properties[child])

    def is_mbus(self, bus: Node) -> bool:
        return any(text.startswith(b"marvell,") and text.endswith(b"-mbus") for text in self.properties[bus].get("compatible", b"").split(b"\0"))

    def is_exclusive(self, bus: Node) -> bool:
        """Whether a unit address of a bus is one device's or one port's."""
        name = bus.name.partition("@")[0]
        return (self.bus_kind(bus) in ("I2C", "SPI") or name.startswith(("mdio", "i2c-mux", "ports"))
                or any(child.name.startswith(("ethernet-phy@", "port@", "endpoint@")) for child in self.children[bus]))

    def duplicates(self, node: Node) -> Iterator[Finding]:
        if not {"#address-cells", "#size-cells"} <= self.properties[node].keys():
            return
        first: Dict[str, Node] = {}
        for child in self.children[node]:
            unit = child.unit_address
            if unit and self.properties[child].get("status") != b"disabled\0":
                if unit in first:
                    kind = "duplicates" if self.is_exclusive(node) else "shared-addresses"
                    yield Finding(child.path, None, None, kind, f"{first[unit].name} is enabled, too, and has the same unit address")
                first.setdefault(unit, child)

    # ---- lists of phandles

    def interrupts(self, node: Node) -> Iterator[Finding]:
        name = "interrupts-extended" if "interrupts-extended" in self.properties[node] else "interrupts"
        if name not in self.properties[node] or (name == "interrupts" and self.has_bad_parent(node)):
            return
        for index, outcome in enumerate(node._interrupts()):
            if isinstance(outcome, Fault):
                yield Finding(node.path, name, index, "interrupts", self.why_no_interrupt(node, name, outcome))

    def why_no_interrupt(self, node: Node, name: str, fault: Fault) -> str:
        parent = self.interrupt_parent(node) if fault.kind == FaultKind.BAD_CELLS and name == "interrupts" else None
        value = self.properties[node][name]
        if parent is not None and len(value) % (4 * self.cells(parent, "#interrupt-cells", 1) or 1):
            count = self.cells(parent, "#interrupt-cells", 1)
            return f"{_plural(len(value), 'byte')}, but an entry has {_plural(count, 'cell')}: `#interrupt-cells` of {parent.path}"
        return _INTERRUPT[fault.kind]

    def interrupt_parent(self, node: Node) -> Optional[Node]:
        """The first node after one or more steps that has `#interrupt-cells`, where there is one (2.4.1)."""
        seen: Set[Node] = set()
        here: Optional[Node] = node
        while here is not None and here not in seen:
            seen.add(here)
            named = self.properties[here].get("interrupt-parent")
            here = self.parents.get(here) if named is None else self.target(named)
            if here is not None and "#interrupt-cells" in self.properties[here]:
                return here
        return None

    def has_bad_parent(self, node: Node) -> bool:
        """Whether the way to the interrupt parent begins with a property that has a finding."""
        for here in (node, *self.ways_up(node)):
            if here != node and "#interrupt-cells" in self.properties[here]:
                return False
            if "interrupt-parent" in self.properties[here]:
                return (here, "interrupt-parent") in self.bad
        return False

    def specifiers(self, node: Node) -> Iterator[Finding]:
        for name, value in self.lists_of(node):
            kind = specifier_kind(name)
            if kind is None or (name == "gpios" and "gpio-hog" in self.properties[node]):
                continue
            for index, (at, outcome) in enumerate(node._entries(name, *kind)):
                if isinstance(outcome, Fault):
                    yield Finding(node.path, name, index, "specifiers", self.why_not(value, at, kind[0], outcome))

    def why_not(self, value: Value, at: int, kind: str, fault: Fault) -> str:
        """Why the entry at a byte of a list arrives nowhere."""
        if len(value) - at < 4:
            return f"{_plural(len(value) - at, 'byte')} at the end are no cell"
        target = self.target(value[at:at + 4])
        if target is None:
            return f"phandle 0x{int.from_bytes(value[at:at + 4], 'big'):x} names no node"
        if fault.kind == FaultKind.BAD_CELLS:
            count = self.properties[target].get(f"#{kind}-cells")
            left = (len(value) - at) // 4 - 1
            if count is None:
                return f"{target.path} has no `#{kind}-cells`"
            if len(count) == 4 and left < count.cells[0] <= 8:
                return f"{target.path} asks for {_plural(count.cells[0], 'cell')}, and {left} {'is' if left == 1 else 'are'} left"
            if len(value) % 4:
                return f"{_plural(len(value), 'byte')} are no whole cells"
            return f"`#{kind}-cells` of {target.path} is no number from 0 to 8"
        return _SPECIFIER[fault.kind].format(kind=kind)

    def lists_of(self, node: Node) -> Iterable[Tuple[str, Value]]:
        """The properties that may be lists: none in nodes whose properties are named by someone else."""
        return () if node.path in ("/aliases", "/__symbols__") else self.properties[node].items()

    def phandles(self, node: Node) -> Iterator[Finding]:
        for name, value in self.lists_of(node):
            if not is_phandles(name):
                continue
            if len(value) % 4 or (not value and name == "interrupt-parent"):
                yield Finding(node.path, name, None, "phandles", f"{_plural(len(value), 'byte')} are no list of phandles")
                continue
            for index, cell in enumerate(value.cells):
                if cell and self.target(value[4 * index:4 * index + 4]) is None:
                    yield Finding(node.path, name, index, "phandles", f"phandle 0x{cell:x} names no node")

    def endpoints(self, node: Node) -> Iterator[Finding]:
        remote = self.properties[node].get("remote-endpoint")
        if remote is None or node not in self.parents:
            return
        if node.name.partition("@")[0] != "endpoint":
            yield Finding(node.path, None, None, "endpoints", "it has `remote-endpoint`, and its name isn't `endpoint`")
        target = self.target(remote)
        if target is None:
            if remote != b"\0\0\0\0":
                yield Finding(node.path, "remote-endpoint", 0, "endpoints", f"phandle 0x{int.from_bytes(remote[:4], 'big'):x} names no node")
        else:
            back = self.properties[target].get("remote-endpoint")
            if target == node:
                yield Finding(node.path, "remote-endpoint", 0, "endpoints", "it points to itself")
            elif back is None or self.target(back) != node:
                where = "has no `remote-endpoint`" if back is None else "points elsewhere"
                yield Finding(node.path, "remote-endpoint", 0, "endpoints", f"{target.path} {where}")
        reg = self.properties[node].get("reg")
        if reg is not None and node.unit_address != f"{int.from_bytes(reg, 'big'):x}" and len(reg) == 4:
            yield Finding(node.path, "reg", 0, "endpoints", f"the unit address is {node.unit_address}, and `reg` is {reg.cells[0]:x}")

    # ---- texts

    def compatible(self, node: Node) -> Iterator[Finding]:
        value = self.properties[node].get("compatible")
        if value is not None and not value.is_texts:
            yield Finding(node.path, "compatible", None, "compatible", f"the value is no list of texts: {value[:32].hex(' ')}")

    def named(self, value: bytes, by_alias: bool) -> Optional[Node]:
        """The node that a path in a value names, or an alias with a path behind it."""
        text = value[:-1]
        if text.startswith(b"/"):
            return self.blob.get(text)
        first, _, rest = text.partition(b"/")
        aliases = self.blob.get("/aliases") if by_alias else None
        alias = aliases.get(first) if aliases else None
        if alias is None or not alias.startswith(b"/"):
            return None
        return self.blob.get(bytes(alias[:-1]) + (b"/" + rest if rest else b""))

    def paths(self, node: Node) -> Iterator[Finding]:
        if node.path == "/aliases":
            for name, value in self.properties[node].items():
                if name not in ("phandle", "linux,phandle", "name") and (not value.endswith(b"\0") or self.named(value, False) is None):
                    yield Finding(node.path, name, None, "paths", f"{self.shown(value)} names no node")
        elif node.path == "/chosen":
            for name in ("stdout-path", "linux,stdout-path"):
                path = self.properties[node].get(name)
                if path is not None and (not path.endswith(b"\0") or self.named(path[:-1].partition(b":")[0] + b"\0", True) is None):
                    yield Finding(node.path, name, None, "paths", f"{self.shown(path)} names no node")

    @staticmethod
    def shown(value: Value) -> str:
        return '"' + value[:-1].decode("utf-8", "surrogateescape") + '"' if value.endswith(b"\0") else f"<{value[:16].hex(' ')}>"


_REGION = {
    FaultKind.BAD_CELLS: "a bus above has `ranges`, `#address-cells` or `#size-cells` that are wrong",
    FaultKind.NOT_MAPPED: "address {address} is outside of the `ranges` of a bus above",
    FaultKind.OVERFLOW: "address {address} is mapped to one that has more bits than its bus has",
}

_INTERRUPT = {
    FaultKind.BAD_CELLS: "the list isn't whole entries of `#interrupt-cells` of the interrupt parent, or that is no number from 1 to 8",
    FaultKind.NO_INTERRUPTS: "there is no entry",
    FaultKind.NO_PARENT: "no node above has `#interrupt-cells`, and none has an `interrupt-parent`",
    FaultKind.LOOP: "interrupt parents or maps go round in a circle",
    FaultKind.BAD_MAP: "it arrives at a node that is no interrupt controller and has no `interrupt-map`, or whose map is cut",
    FaultKind.NO_MAP_ENTRY: "no row of an `interrupt-map` on the way fits",
    FaultKind.NO_UNIT_ADDRESS: "an `interrupt-map` on the way compares more cells of an address than `reg` has",
    FaultKind.UNKNOWN_PHANDLE: "a phandle on the way names no node",
}

_SPECIFIER = {
    FaultKind.NO_INTERRUPTS: "there is no entry",
    FaultKind.LOOP: "maps go round in a circle",
    FaultKind.BAD_MAP: "`{kind}-map`, its mask or its pass-thru on the way is cut",
    FaultKind.NO_MAP_ENTRY: "no row of a `{kind}-map` on the way fits",
    FaultKind.UNKNOWN_PHANDLE: "a phandle in a `{kind}-map` on the way names no node",
}


# ---- the program


def _lines(findings: Iterable[Finding], blob: str, source: Optional[Source], as_warnings: bool) -> Iterator[str]:
    for finding in findings:
        place = source.place(finding.node, finding.property) if source else None
        where = f"{place.file}:{place.line}" if place else blob
        entry = "" if finding.property is None else f": {finding.property}" if finding.index is None else f": {finding.property}[{finding.index}]"
        word = f"Warning (dtool_{finding.kind.replace('-', '_')}): " if as_warnings else ""
        yield escaped(f"{where}: {word}{finding.node}{entry}: {finding.message}")


def _objects(findings: Iterable[Finding], blob: str, source: Optional[Source]) -> Iterator[dict]:
    for finding in findings:
        place = source.place(finding.node, finding.property) if source else None
        yield {"blob": blob, **asdict(finding), "file": place.file if place else None, "line": place.line if place else None}


def _parser(program: str) -> argparse.ArgumentParser:
    kinds = "\n".join(f"  {name:<16} {what}{' (off)' if name in OFF else ''}" for name, what in KINDS.items())
    parser = argparse.ArgumentParser(prog=program, formatter_class=argparse.RawDescriptionHelpFormatter,
                                     description="Reports what the lists of a blob say wrongly: each node, property and index, and what is wrong.",
                                     epilog=f"kinds, all on but for those marked off:\n{kinds}\n\n{NOT_REPORTED}\n\n{STATUS}")
    parser.add_argument("--version", action="version", version=f"{program} of dtool {__version__}")
    parser.add_argument("blobs", metavar="BLOB", nargs="+", help="a blob of version 17")
    parser.add_argument("--json", action="store_true", help="print a list of objects")
    parser.add_argument("--source", metavar="FILE", help="the source of the blob behind the C preprocessor: print file and line of each property")
    parser.add_argument("--name", metavar="NAME", help="the name of the source in what is printed, where no line marker gives one")
    parser.add_argument("--all", action="store_true", help="report every kind")
    parser.add_argument("--only", metavar="KIND", action="append", choices=KINDS, help="report this kind alone; may be given again")
    parser.add_argument("--without", metavar="KIND", action="append", choices=KINDS, help="don't report this kind; may be given again")
    parser.add_argument("--warnings", action="store_true", help="print dtc's form, `FILE:LINE: Warning (dtool_KIND): ..`")
    return parser


def main(words: Optional[List[str]] = None, program: str = "dtool-lint") -> int:
    """The program: its status."""
    use_backslashes()
    options = _parser(program).parse_args(words)
    status, objects = 0, []  # type: int, List[dict]
    wanted = set(options.only or (KINDS if options.all else KINDS.keys() - OFF)) - set(options.without or ())
    try:
        source = Source.read(options.source, options.name) if options.source else None
    except OSError as why:
        report_failure(program, options.source, why)
        return 2
    for name in options.blobs:
        try:
            findings = lint(Blob.read(name))
        except (OSError, Fault, NotLinted) as why:
            report_failure(program, name, why)
            status = 2
            continue
        findings = [finding for finding in findings if finding.kind in wanted]
        status = max(status, 1 if findings else 0)
        if options.json:
            objects += _objects(findings, name, source)
        else:
            for line in _lines(findings, name, source, options.warnings):
                print(line)
    if options.json:
        print(json.dumps(objects, indent=2))
    return status


if __name__ == "__main__":
    sys.exit(main())

"""Blobs and their nodes."""
import ctypes
import operator
import os
from typing import TYPE_CHECKING, Callable, Dict, Iterator, List, NamedTuple, Optional, Tuple, TypeVar, Union

from ._library import CALLS, TABLE_WORDS, CFault, CProperty, CRegion, CReservation, CRoute, CSpan
from .faults import Fault, FaultKind, NoSuchNode
from .values import Value

if TYPE_CHECKING:
    from .editing import EditableBlob

Text = Union[str, bytes]
_Answer = TypeVar("_Answer")
_check, _root, _node_at, _parent = (CALLS[name] for name in ("check", "root", "node_at", "parent"))
_first_child, _next_sibling, _child = (CALLS[name] for name in ("first_child", "next_sibling", "child"))
_by_phandle, _name, _path, _value, _property = (CALLS[name] for name in ("by_phandle", "name", "path", "value", "property"))
_region, _dma_region, _route = (CALLS[name] for name in ("region", "dma_region", "route"))
_interrupt_at, _specifier_route, _specifier_at = (CALLS[name] for name in ("interrupt_at", "specifier_route", "specifier_at"))

#: Room for the longest path, of 64 names of 255 bytes, with its NUL.
_PATH_ROOM = 16385


class Region(NamedTuple):
    """Addresses of the root's bus, as the CPU sees them."""

    #: The first address.
    address: int
    #: How many bytes.
    size: int
    #: Whether all of them are mapped to one place; else only the first byte is promised.
    whole: bool


class Route(NamedTuple):
    """Where an interrupt, or another specifier, arrives."""

    #: The interrupt controller, or the provider.
    controller: "Node"
    #: The specifier there.
    cells: Tuple[int, ...]
    #: How many maps it went through.
    hops: int


class Reservation(NamedTuple):
    """An entry of the memory reservation block."""

    address: int
    size: int


def _bytes_of(text: Text) -> bytes:
    """A name or a path as bytes. A text that isn't ASCII stays one that no node and no property has."""
    if isinstance(text, str):
        return text.encode("utf-8", "surrogatepass")
    if isinstance(text, (bytes, bytearray, memoryview)):
        return bytes(text)
    raise TypeError(f"a name is str or bytes, and not {type(text).__name__}")


def _number(number: int, bits: int, what: str) -> int:
    number = operator.index(number)
    if not 0 <= number < 1 << bits:
        raise OverflowError(f"{what} is from 0 to 2^{bits} - 1, and not {number}")
    return number


def _fault(fault: CFault) -> Fault:
    return Fault(FaultKind(fault.number), fault.place if fault.has_place else None)


class Blob:
    """A checked blob of version 17. It keeps its own copy of the bytes.

    `blob["/soc/serial@1000"]` is the node of a path, `for node in blob` goes through all nodes, each before its children, and `len(blob)` is how many
    there are. Raises Fault where the bytes are no blob, or one beyond dtool's limits.
    """

    __slots__ = ("_data", "_nodes", "_paths", "_numbered", "__weakref__")
    _data: bytes
    _nodes: Optional[List["Node"]]
    _paths: Dict[int, str]
    _numbered: Dict[int, "Node"]  # what by_phandle found

    def __new__(cls, data: Union[bytes, bytearray, memoryview]) -> "Blob":
        own = bytes(memoryview(data))
        table, fault = (ctypes.c_uint64 * TABLE_WORDS)(), CFault()
        if not _check(own, len(own), table, TABLE_WORDS, fault):
            raise _fault(fault)
        blob = super().__new__(cls)
        object.__setattr__(blob, "_data", own)
        object.__setattr__(blob, "_nodes", None)
        object.__setattr__(blob, "_paths", {})
        object.__setattr__(blob, "_numbered", {})
        return blob

    def __setattr__(self, name: str, value: object) -> None:
        raise AttributeError("a blob doesn't change")

    def __delattr__(self, name: str) -> None:
        raise AttributeError("a blob doesn't change")

    def __reduce__(self) -> tuple:
        return Blob, (self._data,)

    @classmethod
    def read(cls, path: Union[str, "os.PathLike[str]"]) -> "Blob":
        """The blob in a file."""
        with open(path, "rb") as file:
            return cls(file.read())

    def __repr__(self) -> str:
        return f"<Blob of {len(self._data)} bytes>"

    def __bytes__(self) -> bytes:
        return self._data

    @property
    def root(self) -> "Node":
        """The root."""
        return _node(self, _root(self._data, len(self._data)))

    def __getitem__(self, path: Text) -> "Node":
        """The node of a path, such as `/soc/serial@1000`. Raises NoSuchNode, a KeyError."""
        text, out, fault = _bytes_of(path), ctypes.c_size_t(), CFault()
        if not _node_at(self._data, len(self._data), text, len(text), out, fault):
            raise NoSuchNode(FaultKind(fault.number))
        return _node(self, out.value)

    def get(self, path: Text) -> Optional["Node"]:
        """The node of a path, or None."""
        try:
            return self[path]
        except NoSuchNode:
            return None

    def __contains__(self, path: object) -> bool:
        return isinstance(path, (str, bytes)) and self.get(path) is not None

    def __iter__(self) -> Iterator["Node"]:
        return iter(self._all())

    def __len__(self) -> int:
        return len(self._all())

    def _all(self) -> List["Node"]:
        """All nodes, each before its children. They are looked up once, with their paths."""
        if self._nodes is None:
            nodes: List[Node] = []
            paths: Dict[int, str] = {}
            open_nodes = [(self.root, "")]
            while open_nodes:
                node, above = open_nodes.pop()
                path = f"{above}/{node.name}" if nodes else "/"
                nodes.append(node)
                paths[node.offset] = path
                open_nodes += [(child, path if len(nodes) > 1 else "") for child in reversed(list(node.children))]
            object.__setattr__(self, "_paths", paths)
            object.__setattr__(self, "_nodes", nodes)
        return self._nodes  # type: ignore[return-value]

    @property
    def reservations(self) -> List[Reservation]:
        """The memory reservation block."""
        found: List[Reservation] = []
        one = CReservation()
        while CALLS["reservation"](self._data, len(self._data), len(found), one):
            found.append(Reservation(one.address, one.size))
        return found

    @property
    def boot_cpu(self) -> int:
        """The header's boot_cpuid_phys."""
        return CALLS["boot_cpu"](self._data, len(self._data))

    @property
    def property_count(self) -> int:
        """How many properties all nodes have."""
        return CALLS["count"](self._data, len(self._data)).properties

    def by_phandle(self, number: int) -> Optional["Node"]:
        """The node whose phandle is a number, or None."""
        number, out = _number(number, 32, "a phandle"), ctypes.c_size_t()
        if number not in self._numbered:
            if not _by_phandle(self._data, len(self._data), number, out):
                return None
            self._numbered[number] = _node(self, out.value)
        return self._numbered[number]

    def alias(self, name: Text) -> Optional["Node"]:
        """The node that an alias of `/aliases` names, such as `serial0`; None without that alias, or where it names no node."""
        aliases = self.get("/aliases")
        value = aliases.get(name) if aliases else None
        return None if value is None or not value.endswith(b"\0") else self.get(bytes(value[:-1]))

    def compatible(self, text: Text) -> List["Node"]:
        """The nodes that list a text in `compatible`, in the order of the blob."""
        wanted = _bytes_of(text)
        return [node for node in self if wanted in (node.get("compatible") or b"").split(b"\0")[:-1]]

    def editable(self) -> "EditableBlob":
        """A copy that can be changed. Raises Fault where its parts, one behind the other, are longer than 16 MiB."""
        from .editing import EditableBlob

        return EditableBlob(self)


class Node:
    """A node of a blob. Nodes come from a Blob and from other nodes. `node["reg"]` is the value of a property."""

    __slots__ = ("_blob", "_offset")
    _blob: Blob
    _offset: int
    __iter__ = None

    def __new__(cls, *_: object, **__: object) -> "Node":
        raise TypeError("a node comes from a Blob, as blob[path]")

    def __setattr__(self, name: str, value: object) -> None:
        raise AttributeError("a node doesn't change")

    def __delattr__(self, name: str) -> None:
        raise AttributeError("a node doesn't change")

    def __reduce__(self) -> tuple:
        return operator.getitem, (self._blob, self.path)

    def __repr__(self) -> str:
        return f"<Node {self.path}>"

    def __eq__(self, other: object) -> bool:
        if not isinstance(other, Node):
            return NotImplemented
        return self._blob is other._blob and self._offset == other._offset

    def __hash__(self) -> int:
        return hash((id(self._blob), self._offset))

    def _here(self) -> Tuple[bytes, int, int]:
        data = self._blob._data
        return data, len(data), self._offset

    def _look(self, call: Callable[..., bool], *more: object) -> Optional["Node"]:
        out = ctypes.c_size_t()
        return _node(self._blob, out.value) if call(*self._here(), *more, out) else None

    def _bytes_at(self, span: CSpan) -> bytes:
        return self._blob._data[span.at:span.at + span.len]

    @property
    def blob(self) -> Blob:
        """The blob that has the node."""
        return self._blob

    @property
    def offset(self) -> int:
        """The offset of the node's first token in the blob."""
        return self._offset

    @property
    def name(self) -> str:
        """The name, with its unit address; the root's is empty."""
        return self._bytes_at(_name(*self._here())).decode("ascii")

    @property
    def unit_address(self) -> Optional[str]:
        """What the name has behind `@`, or None."""
        _, at, address = self.name.partition("@")
        return address if at else None

    @property
    def path(self) -> str:
        """The path: `/`, or each name behind a slash."""
        known = self._blob._paths.get(self._offset)
        if known is not None:
            return known
        out = ctypes.create_string_buffer(_PATH_ROOM)
        _path(*self._here(), out, _PATH_ROOM)
        return out.value.decode("ascii")

    @property
    def parent(self) -> Optional["Node"]:
        """The node above; None for the root."""
        return self._look(_parent)

    @property
    def children(self) -> Iterator["Node"]:
        """The children, in the order of the blob."""
        child = self._look(_first_child)
        while child is not None:
            yield child
            child = child._look(_next_sibling)

    def child(self, name: Text) -> Optional["Node"]:
        """The child of a name, with its unit address, or None."""
        text = _bytes_of(name)
        return self._look(_child, text, len(text))

    def get(self, name: Text) -> Optional[Value]:
        """The value of a property, or None."""
        text, span = _bytes_of(name), CSpan()
        return Value(self._bytes_at(span)) if _value(*self._here(), text, len(text), span) else None

    def __getitem__(self, name: Text) -> Value:
        value = self.get(name)
        if value is None:
            raise KeyError(name)
        return value

    def __contains__(self, name: object) -> bool:
        return isinstance(name, (str, bytes)) and self.get(name) is not None

    def properties(self) -> Dict[str, Value]:
        """The properties with their values, in the order of the blob."""
        found: Dict[str, Value] = {}
        one = CProperty()
        while _property(*self._here(), len(found), one):
            found[self._bytes_at(one.name).decode("ascii")] = Value(self._bytes_at(one.value))
        return found

    @property
    def is_enabled(self) -> bool:
        """Whether `status` is absent, `okay` or `ok` (2.3.4)."""
        return self.get("status") in (None, b"okay\0", b"ok\0")

    # ---- addresses

    def region(self, index: int) -> Region:
        """The address at which the CPU reaches an entry of `reg` (2.3). Raises Fault."""
        out, fault = CRegion(), CFault()
        if not _region(*self._here(), _number(index, 64, "an index"), out, fault):
            raise _fault(fault)
        return _region_of(out)

    def regions(self) -> List[Region]:
        """Those of all entries of `reg`; none without it. Raises Fault for the first that has none."""
        return [_answer(one) for one in self._regions()]

    def _regions(self) -> Iterator[Union[Region, Fault]]:
        """The region of each entry of `reg`, or its fault. A list that isn't whole entries has one fault for all."""
        return _each(self.region, FaultKind.NO_REG, lambda fault: fault.kind == FaultKind.BAD_CELLS) if "reg" in self else iter(())

    def dma(self, address: int, size: int) -> Region:
        """What the node reaches by DMA at an address of its bus, by `dma-ranges` (2.3.9). Raises Fault."""
        address, size = _number(address, 128, "an address"), _number(size, 128, "a size")
        low, out, fault = (1 << 64) - 1, CRegion(), CFault()
        if not _dma_region(*self._here(), address & low, address >> 64, size & low, size >> 64, out, fault):
            raise _fault(fault)
        return _region_of(out)

    # ---- interrupts and other specifiers

    def interrupt(self, index: int) -> Route:
        """Where an interrupt arrives (2.4). Raises Fault; an empty entry is one that no interrupt arrives from, and so is each behind it."""
        return self._arrival(_route, _number(index, 64, "an index"))

    def interrupts(self) -> List[Optional[Route]]:
        """Where all interrupts arrive; none without any. An empty entry of `interrupts-extended` is None, as the kernel counts. Raises Fault."""
        return [_answer(one) for one in self._interrupts()]

    def _interrupts(self) -> Iterator[Union[Route, Fault, None]]:
        if "interrupts-extended" in self:
            return (outcome for _, outcome in self._entries("interrupts-extended", "interrupt"))
        return _each(self.interrupt, FaultKind.NO_INTERRUPTS, lambda fault: True) if "interrupts" in self else iter(())

    def specifier(self, name: Text, kind: Text, index: int) -> Route:
        """Where an entry of a list of phandles with specifiers arrives (2.5): `("clocks", "clock", 0)`, `("led-gpios", "gpio", 0)`.

        Each entry before it is read first, so none may be empty: `specifiers` goes on behind those. Raises Fault.
        """
        text, word = _bytes_of(name), _bytes_of(kind)
        return self._arrival(_specifier_route, text, len(text), word, len(word), _number(index, 64, "an index"))

    def specifiers(self, name: Text, kind: Text) -> List[Optional[Route]]:
        """Where all entries of a list arrive; none without it. An empty entry is None, as the kernel counts. Raises Fault."""
        return [_answer(one) for _, one in self._entries(name, kind)]

    def _arrival(self, call: Callable[..., bool], *more: object) -> Route:
        out, fault = CRoute(), CFault()
        if not call(*self._here(), *more, out, fault):
            raise _fault(fault)
        return Route(_node(self._blob, out.controller), tuple(out.cells[:out.len]), out.hops)

    def _entries(self, name: Text, kind: Text, absent: Optional[int] = None) -> Iterator[Tuple[int, Union[Route, Fault, None]]]:
        """The entries of a list with the byte at which each begins: its route, its fault, or None for an empty entry.

        Where a provider has no `#KIND-cells`, `absent` is their number. Behind an entry whose length isn't known nothing is read.
        """
        text, word = _bytes_of(name), _bytes_of(kind)
        list_ = self.get(text)
        at = 0
        while list_ is not None and at < len(list_):
            phandle = int.from_bytes(list_[at:at + 4], "big")
            if len(list_) - at < 4:
                yield at, Fault(FaultKind.BAD_CELLS)
                return
            if phandle == 0:
                yield at, None
                at += 4
                continue
            target = self._blob.by_phandle(phandle)
            count = None if target is None else target._specifier_cells(word, absent)
            if target is not None and absent is not None and b"#" + word + b"-cells" not in target:
                yield at, Route(target, (), 0)
            else:
                yield at, self._outcome_at(text, word, at)
            if count is None:
                return
            at += 4 * (1 + count)

    def _outcome_at(self, name: bytes, kind: bytes, at: int) -> Union[Route, Fault]:
        try:
            if name == b"interrupts-extended":
                return self._arrival(_interrupt_at, at)
            return self._arrival(_specifier_at, name, len(name), kind, len(kind), at)
        except Fault as fault:
            return fault

    def _specifier_cells(self, kind: bytes, absent: Optional[int]) -> Optional[int]:
        """How many cells a specifier of a kind has here; None where that isn't said, or not from 0 to 8."""
        value = self.get(b"#" + kind + b"-cells")
        if value is None:
            return absent
        count = value.cells[0] if len(value) == 4 else 9
        return count if count <= 8 else None


def _node(blob: Blob, offset: int) -> Node:
    """The node at an offset that a call gave."""
    node = object.__new__(Node)
    object.__setattr__(node, "_blob", blob)
    object.__setattr__(node, "_offset", offset)
    return node


def _region_of(region: CRegion) -> Region:
    return Region(region.address_low | region.address_high << 64, region.size_low | region.size_high << 64, region.whole)


def _answer(outcome: Union[_Answer, Fault]) -> _Answer:
    """An answer; a fault is raised."""
    if isinstance(outcome, Fault):
        raise outcome
    return outcome


def _each(call: Callable[[int], _Answer], end: FaultKind, is_all: Callable[[Fault], bool]) -> Iterator[Union[_Answer, Fault]]:
    """The outcome of a call at each index, up to the fault that ends the list, or behind one that is each entry's."""
    index = 0
    while True:
        try:
            yield call(index)
        except Fault as fault:
            if fault.kind == end:
                return
            yield fault
            if is_all(fault):
                return
        index += 1

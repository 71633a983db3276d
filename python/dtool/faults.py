"""Faults: why a call has no answer."""
import enum
from typing import Optional


class FaultKind(enum.IntEnum):
    """The kinds of faults that the library reports, by their numbers. docs/faults.md has an entry for each."""

    LIMIT = 2
    SHORT_HEADER = 40
    BAD_MAGIC = 41
    BAD_TOTAL = 42
    BAD_VERSION = 43
    MISALIGNED = 44
    BLOCK_OUTSIDE = 45
    NO_RESERVATION_END = 46
    BAD_TAG = 47
    STRUCTURE_CUT = 48
    BAD_NAME = 49
    BAD_NAME_OFFSET = 50
    BAD_NESTING = 51
    LATE_PROPERTY = 52
    DUPLICATE = 53
    BAD_END = 54
    BLOB_PHANDLE = 55
    NO_NODE = 70
    NO_REG = 71
    BAD_CELLS = 72
    NOT_MAPPED = 73
    NO_RANGES = 74
    PCI_BUS = 75
    OVERFLOW = 76
    NO_INTERRUPTS = 80
    NO_PARENT = 81
    LOOP = 82
    BAD_MAP = 83
    NO_MAP_ENTRY = 84
    NO_UNIT_ADDRESS = 85
    UNKNOWN_PHANDLE = 86

    @property
    def title(self) -> str:
        """The name as dtool prints it, such as `NoNode`."""
        return "".join(word.capitalize() for word in self.name.split("_"))


class Fault(Exception):
    """Why a call has no answer: its kind, and for a blob that isn't accepted the byte at which it is wrong."""

    def __init__(self, kind: FaultKind, place: Optional[int] = None):
        super().__init__(kind, place)
        #: The kind of the fault.
        self.kind = FaultKind(kind)
        #: The offset in the blob of the token that is wrong, or None.
        self.place = place

    def __str__(self) -> str:
        at = "" if self.place is None else f" at {self.place}"
        return f"fault {self.kind.value} {self.kind.title}{at}"


class NoSuchNode(Fault, KeyError):
    """A path that names no node."""

    __str__ = Fault.__str__

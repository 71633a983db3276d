"""Blobs that change."""
import ctypes
import operator
import threading
from typing import Callable, Union

from ._library import CALLS, CFault
from .faults import Fault, FaultKind, NoSuchNode
from .tree import Blob, Text, _bytes_of, _fault, _number

_open_into, _set_prop, _add_node, _patch_cell, _node_at = (CALLS[name] for name in ("open_into", "set_prop", "add_node", "patch_cell", "node_at"))

#: A blob may have so many bytes.
_MOST_BYTES = 16 << 20
#: How much longer than its blob a buffer is at first.
_SPARE = 4096


class EditableBlob:
    """A copy of a blob that changes: `blob.editable()` makes one, and `bytes(editable)` or `editable.blob()` is the result.

    A node is named by its path. After a change the blob reads as the tree with that change, in order: a property that is there keeps its place, a new
    one goes last, and so does a new node. A call that raises Fault changes nothing. Each call takes a time that is the blob's size.
    """

    __slots__ = ("_buffer", "_lock")

    def __init__(self, blob: Blob):
        if not isinstance(blob, Blob):
            raise TypeError(f"an editable blob is made of a Blob, and not of {type(blob).__name__}")
        self._lock = threading.Lock()  # A call of the library lets other threads run.
        self._buffer = _opened(bytes(blob), len(bytes(blob)) + _SPARE)

    def __reduce__(self) -> tuple:
        return EditableBlob, (self.blob(),)

    def __repr__(self) -> str:
        return f"<EditableBlob of {len(bytes(self))} bytes>"

    def __bytes__(self) -> bytes:
        with self._lock:
            return self._buffer.raw[:self._size()]

    def blob(self) -> Blob:
        """The blob as it is now."""
        return Blob(bytes(self))

    def set(self, path: Text, name: Text, value: Union[bytes, bytearray, memoryview]) -> None:
        """Sets a property of the node of a path. A number is its bytes, the highest first, and a text has its NUL.

        Raises NoSuchNode; and Fault: BAD_NAME, BLOB_PHANDLE (a `phandle` that is no number from 1 to 0xfffffffe, or another node's), LIMIT (the blob
        would be longer than 16 MiB).
        """
        text, own = _bytes_of(name), bytes(memoryview(value))
        self._change(path, len(text) + len(own), lambda here, fault: _set_prop(*here, text, len(text), own, len(own), fault))

    def add(self, parent: Text, name: Text) -> None:
        """Adds a node below the node of a path.

        Raises NoSuchNode; and Fault: BAD_NAME, DUPLICATE, LIMIT (as above, or more than 64 names in a path, or 65,536 nodes).
        """
        text, out = _bytes_of(name), ctypes.c_size_t()
        self._change(parent, len(text), lambda here, fault: _add_node(*here, text, len(text), out, fault))

    def patch(self, path: Text, name: Text, offset: int, number: int) -> None:
        """Writes a 32-bit number at an offset of the value of a property; no other byte changes.

        Raises NoSuchNode; IndexError where the property isn't there, or its value has no four bytes at that offset; and Fault: BAD_NAME, BLOB_PHANDLE.
        """
        text, offset, number = _bytes_of(name), operator.index(offset), _number(number, 32, "a cell")
        if not 0 <= offset < 1 << 32:
            raise IndexError(f"no value has an offset {offset}")
        try:
            self._change(path, 0, lambda here, fault: _patch_cell(*here, text, len(text), offset, number, fault))
        except Fault as fault:
            if fault.kind != FaultKind.LIMIT:
                raise
            raise IndexError(f"no cell at {offset}") from None

    def _change(self, path: Text, size: int, call: Callable[[tuple, CFault], bool]) -> None:
        """Makes a change that brings so many bytes, and some more, at the node of a path; in a longer buffer where this one has no room for it."""
        text, fault = _bytes_of(path), CFault()
        with self._lock:
            if self._size() + 2 * size + 64 > len(self._buffer) <= _MOST_BYTES:
                self._buffer = _opened(self._buffer.raw, 2 * len(self._buffer) + 2 * size)
            node = ctypes.c_size_t()
            if not _node_at(self._buffer, len(self._buffer), text, len(text), node, fault):
                raise NoSuchNode(FaultKind(fault.number))
            if not call((self._buffer, len(self._buffer), node), fault):
                raise _fault(fault)

    def _size(self) -> int:
        return int.from_bytes(self._buffer[4:8], "big")


def _opened(data: bytes, room: int) -> ctypes.Array:
    """A buffer of so many bytes with a blob in it that was checked. Raises Fault where the blob's parts, one behind the other, pass 16 MiB."""
    while True:
        buffer, fault = ctypes.create_string_buffer(room), CFault()
        if _open_into(data, len(data), buffer, room, fault):
            return buffer
        if room > _MOST_BYTES:
            raise _fault(fault)
        room *= 2  # Parts that overlapped take more room one behind the other.

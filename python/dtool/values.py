"""Values of properties."""
import struct
from typing import Tuple


class Value(bytes):
    """The value of a property: its bytes, which can be read as cells or as texts (Devicetree Specification v0.4, 2.2.4)."""

    __slots__ = ()

    @property
    def cells(self) -> Tuple[int, ...]:
        """The value as numbers of 32 bits. ValueError where it isn't whole cells."""
        if len(self) % 4:
            raise ValueError(f"{len(self)} bytes are no whole cells")
        return struct.unpack(f">{len(self) // 4}I", self)

    @property
    def texts(self) -> Tuple[str, ...]:
        """The value as texts, each with a NUL behind it. ValueError where it isn't that."""
        if not self:
            return ()
        if self[-1]:
            raise ValueError("the last text has no NUL behind it")
        return tuple(text.decode("utf-8", "surrogateescape") for text in self[:-1].split(b"\0"))

    @property
    def text(self) -> str:
        """The value as one text. ValueError where it isn't that."""
        texts = self.texts
        if len(texts) != 1:
            raise ValueError(f"{len(texts)} texts are not one")
        return texts[0]

    @property
    def is_texts(self) -> bool:
        """Whether the value is one or more texts, none of them empty, of printable characters."""
        return bool(self) and not self[-1] and all(text and text.isascii() and text.decode().isprintable() for text in self[:-1].split(b"\0"))

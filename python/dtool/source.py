"""Where a source defines a node or a property: file and line, through cpp's line markers."""
import re
from typing import Dict, Iterable, Iterator, List, NamedTuple, Optional, Tuple

_TOKEN = re.compile(
    r"""
    (?P<marker> ^\#[ \t]*(?:line[ \t]+)?(?P<line>\d+)[ \t]+"(?P<file>(?:[^"\\\n]|\\.)*)"[^\n]* )
  | (?P<skip> \s+ | /\*.*?\*/ | //[^\n]* )
  | (?P<string> "(?:[^"\\]|\\.)*" )
  | (?P<directive> /[a-z][a-z0-9-]*/ )
  | (?P<path> &\{[^}]*\} )
  | (?P<reference> &[A-Za-z_][A-Za-z0-9_]* )
  | (?P<label> [A-Za-z_][A-Za-z0-9_]*: )
  | (?P<name> [A-Za-z0-9,._+*\#?@-]+ )
  | (?P<other> . )
    """,
    re.VERBOSE | re.MULTILINE | re.DOTALL,
)


class Place(NamedTuple):
    """A line of a file."""

    file: str
    line: int


#: A token: its kind, its text and its place.
_Token = Tuple[str, str, Place]


class Source:
    """A source behind the C preprocessor, as far as it says where things are. It is no check: whatever isn't understood has no place."""

    def __init__(self, text: str, name: str):
        self._nodes: Dict[str, Place] = {}
        self._properties: Dict[Tuple[str, str], Place] = {}
        self._labels: Dict[str, str] = {}
        self._read(self._tokens(text, name))

    @classmethod
    def read(cls, path: str, name: Optional[str] = None) -> "Source":
        """The source in a file, which may have another name where no line marker gives one."""
        with open(path, encoding="utf-8", errors="surrogateescape") as file:
            return cls(file.read(), name or path)

    def place(self, node: str, name: Optional[str] = None) -> Optional[Place]:
        """Where a property was defined last, or where its node was opened first; None where neither was found."""
        found = self._properties.get((node, name)) if name else None
        return found or self._nodes.get(node)

    @staticmethod
    def _tokens(text: str, name: str) -> Iterator[_Token]:
        """The tokens with their places, up to the end."""
        file, line, counted = name, 1, 0
        for match in _TOKEN.finditer(text):
            line += text.count("\n", counted, match.start())
            counted = match.start()
            kind = match.lastgroup
            if match["marker"] is not None:
                file, line = re.sub(r"\\(.)", r"\1", match["file"]), int(match["line"]) - 1
            elif kind != "skip":
                yield kind or "other", match.group(), Place(file, line)

    def _read(self, tokens: Iterable[_Token]) -> None:
        open_nodes: List[Optional[str]] = []
        words: List[_Token] = []
        for kind, text, place in tokens:
            if text == "{" and kind == "other":
                open_nodes.append(self._opened(open_nodes, words))
                words = []
            elif text == "}" and kind == "other":
                if open_nodes:
                    open_nodes.pop()
                words = []
            elif text == ";" and kind == "other":
                self._ended(open_nodes[-1] if open_nodes else None, words)
                words = []
            else:
                words.append((kind, text, place))

    def _opened(self, open_nodes: List[Optional[str]], words: List[_Token]) -> Optional[str]:
        """The path of the node that some words open. Its labels are kept."""
        head = next((word for word in words if word[0] in ("name", "reference", "path") or word[1] == "/"), None)
        if head is None:
            return None
        kind, text, place = head
        if kind == "reference":
            path = self._labels.get(text[1:])
        elif kind == "path":
            path = text[2:-1]
        elif text == "/":
            path = "/"
        else:
            above = open_nodes[-1] if open_nodes else None
            path = None if above is None else f"{above.rstrip('/')}/{text}"
        if path is not None:
            self._nodes.setdefault(path, place)
            self._labels.update((word[1][:-1], path) for word in words if word[0] == "label")
        return path

    def _ended(self, node: Optional[str], words: List[_Token]) -> None:
        """A statement of a node: a property, with or without a value, or a deletion."""
        words = [word for word in words if word[0] != "label"]
        if node is None or not words:
            return
        if words[0][1] == "/delete-property/" and len(words) > 1:
            self._properties.pop((node, words[1][1]), None)
        elif words[0][0] == "name":
            self._properties[node, words[0][1]] = words[0][2]

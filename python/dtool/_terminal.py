"""What the programs print on a terminal: a blob's bytes, and why a file can't be read."""
import sys


def use_backslashes() -> None:
    """Has both streams print what their encoding lacks as escapes, and not fail."""
    for stream in (sys.stdout, sys.stderr):
        stream.reconfigure(errors="backslashreplace")  # type: ignore[attr-defined]


def escaped(text: str) -> str:
    """A text as a terminal may show it. A byte that is no UTF-8 is a surrogate here."""

    def shown(c: str) -> str:
        if c.isprintable():
            return c
        return f"\\x{ord(c) & 0xff:02x}" if "\udc80" <= c <= "\udcff" else c.encode("unicode_escape").decode()

    return "".join(map(shown, text))


def report_failure(program: str, name: str, why: Exception) -> None:
    """Prints why a program fails at a file."""
    print(escaped(f"{program}: {name}: {why.strerror if isinstance(why, OSError) else why}"), file=sys.stderr)

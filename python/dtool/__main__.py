"""`python -m dtool`: what the program prints of a blob, and more of it, as lines or as JSON."""
import argparse
import json
import sys
from typing import Iterator, List, Optional, Tuple, Union

from . import __version__, lint, report, same
from .faults import Fault, FaultKind
from .tree import Blob, Node, Region, Route
from .values import Value


#: The commands that are programs of their own, too, with a help of their own.
PROGRAMS = {"lint": lint, "same": same, "report": report}


def _region_lines(blob: Blob) -> Iterator[Tuple[Node, int, Union[Region, Fault]]]:
    for node in blob:
        for index, outcome in enumerate(node._regions()):
            yield node, index, outcome


def _interrupt_lines(blob: Blob) -> Iterator[Tuple[Node, int, Union[Route, Fault]]]:
    for node in blob:
        for index, outcome in enumerate(node._interrupts()):
            if outcome is None:  # the program's rule knows no empty entries
                outcome = Fault(FaultKind.UNKNOWN_PHANDLE)
            yield node, index, outcome
            if isinstance(outcome, Fault):
                break


def _line(outcome: Union[Region, Route, Fault]) -> str:
    """An outcome as the program prints it."""
    if isinstance(outcome, Region):
        return f"{outcome.address:#x} {outcome.size:#x} {'whole' if outcome.whole else 'cut'}"
    if isinstance(outcome, Route):
        return " ".join([outcome.controller.path, *(f"{cell:#x}" for cell in outcome.cells), "hops", str(outcome.hops)])
    return str(outcome)


def _object(outcome: Union[Region, Route, Fault]) -> dict:
    """An outcome as JSON has it. Addresses and sizes are texts, since they have up to 128 bits."""
    if isinstance(outcome, Region):
        return {"address": f"{outcome.address:#x}", "size": f"{outcome.size:#x}", "whole": outcome.whole}
    if isinstance(outcome, Route):
        return {"controller": outcome.controller.path, "cells": list(outcome.cells), "hops": outcome.hops}
    return {"fault": outcome.kind.value, "name": outcome.kind.title}


def _value(value: Value) -> dict:
    """A value as JSON has it: its bytes, its cells where it is whole cells, and its texts where it is texts."""
    return {"hex": value.hex(), "cells": list(value.cells) if len(value) % 4 == 0 else None, "texts": list(value.texts) if value.is_texts else None}


def _shown(name: str, value: Value) -> str:
    """A value as `dtool print` prints it, on one line."""
    if not value:
        return name
    if value.is_texts:
        return f"{name} = " + ", ".join('"' + text.replace("\\", "\\\\").replace('"', '\\"') + '"' for text in value.texts)
    if len(value) % 4 == 0:
        return f"{name} = <{' '.join(f'{cell:#x}' for cell in value.cells)}>"
    return f"{name} = [{value.hex(' ')}]"


def _parser() -> argparse.ArgumentParser:
    parser = argparse.ArgumentParser(prog="python -m dtool", description="Asks a blob. The last three have helps of their own.")
    parser.add_argument("--version", action="version", version=f"dtool {__version__}")
    commands = parser.add_subparsers(dest="command", metavar="COMMAND", required=True)
    for name, what in (("regs", "the CPU's address of each entry of each `reg`"), ("irqs", "where each interrupt arrives"),
                       ("spec", "where the entries of a list of specifiers arrive"), ("get", "the properties of a node, or one of them")):
        command = commands.add_parser(name, help=what, description=f"Prints {what}.")
        command.add_argument("--json", action="store_true", help="print JSON")
        command.add_argument("blob", metavar="FILE")
        if name in ("spec", "get"):
            command.add_argument("node", metavar="PATH")
        if name == "spec":
            command.add_argument("property", metavar="PROPERTY", help="such as led-gpios")
            command.add_argument("kind", metavar="KIND", help="such as gpio")
            command.add_argument("index", metavar="INDEX", nargs="?", type=int, help="this entry alone; none before it may be empty")
        if name == "get":
            command.add_argument("property", metavar="PROPERTY", nargs="?")
    for name, what in (("lint", "what the lists of a blob say wrongly"), ("same", "what two blobs differ by in meaning"),
                       ("report", "a page that shows a blob")):
        commands.add_parser(name, help=what, add_help=False)
    return parser


def _run(options: argparse.Namespace) -> None:
    blob = Blob.read(options.blob)
    if options.command in ("regs", "irqs"):
        rows = list((_region_lines if options.command == "regs" else _interrupt_lines)(blob))
        if options.json:
            print(json.dumps([{"node": node.path, "index": index, **_object(outcome)} for node, index, outcome in rows], indent=2))
        else:
            sys.stdout.writelines(f"{node.path} {index} {_line(outcome)}\n" for node, index, outcome in rows)
        return
    node = blob[options.node]
    if options.command == "get":
        values = node.properties() if options.property is None else {options.property: node[options.property]}
        if options.json:
            print(json.dumps({name: _value(value) for name, value in values.items()}, indent=2))
        else:
            sys.stdout.writelines(_shown(name, value) + "\n" for name, value in values.items())
    elif options.index is not None:
        route = node.specifier(options.property, options.kind, options.index)
        print(json.dumps(_object(route), indent=2) if options.json else _line(route))
    else:
        outcomes = [outcome for _, outcome in node._entries(options.property, options.kind)]
        if options.json:
            print(json.dumps([None if outcome is None else _object(outcome) for outcome in outcomes], indent=2))
        else:
            sys.stdout.writelines(f"{index} {'empty' if outcome is None else _line(outcome)}\n" for index, outcome in enumerate(outcomes))


def main(words: Optional[List[str]] = None) -> int:
    """The program: its status, which is that of `dtool`, 1 for a fault."""
    words = sys.argv[1:] if words is None else words
    for name, module in PROGRAMS.items():
        if words[:1] == [name]:
            return module.main(words[1:], f"python -m dtool {name}")
    options = _parser().parse_args(words)
    try:
        _run(options)
    except Fault as fault:
        print(f"dtool: {fault}", file=sys.stderr)
        return 1
    except KeyError as name:
        print(f"dtool: no property {name}", file=sys.stderr)
        return 1
    except OSError as why:
        print(f"dtool: {why.filename or 'output'}: {why.strerror}", file=sys.stderr)
        return 1
    return 0


if __name__ == "__main__":
    sys.exit(main())

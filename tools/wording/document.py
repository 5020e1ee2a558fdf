"""The tables of docs/PROGRAM.md: the subcommands and the options, as help has them."""

from __future__ import annotations

import re
from typing import Iterator

from .man import _in_usage, _said, _sentence
from .tables import Argument, Problem, Program

#: Where a made table stands in the document: between its name and END.
BEGIN, END = "<!-- made by tools/words: {} -->", "<!-- made: end -->"


def _cell(text: str) -> str:
    return text.replace("|", "\\|")


def _usage(argument: Argument) -> str:
    """An argument as a usage has it, without the signs of troff."""
    return re.sub(r"\\f[BIR]", "", _in_usage(argument)).replace("\\-", "-")


def _subcommands(program: Program) -> Iterator[str]:
    yield "| Subcommand | What it does |"
    yield "|---|---|"
    for it in program.subcommands:
        usage = " ".join(["coap", it.name, *map(_usage, it.words)])
        yield f"| `{_cell(usage)}` | {_cell(_sentence(it.about))} |"


def _options(program: Program) -> Iterator[str]:
    yield "| Option | Of | What it does |"
    yield "|---|---|---|"
    told = set()
    for it in sorted((it for sub in program.subcommands for it in sub.options), key=lambda it: it.name):
        if it in told:
            continue
        told.add(it)
        name = _usage(it).strip("[].").replace("|--", ", --")
        often = ", again and again" if it.form == "Repeated" else ""
        having = _said([f"`{name}`" for name in program.having(it)])
        yield f"| `{_cell(name)}`{often} | {having} | {_cell(_sentence(it.help))} |"


def _statuses(program: Program) -> Iterator[str]:
    yield "| Status | When |"
    yield "|---|---|"
    for number, said in program.statuses:
        yield f"| {number} | {_cell(said)} |"


_TABLES = {"subcommands": _subcommands, "options": _options, "statuses": _statuses}


def document(program: Program, text: str) -> str:
    """The document with its tables made anew."""
    for name, table in _TABLES.items():
        begin = BEGIN.format(name)
        place = re.compile(re.escape(begin) + r".*?" + re.escape(END), re.DOTALL)
        if len(place.findall(text)) != 1:
            raise Problem(f"docs/PROGRAM.md has no place for its {name}, or several")
        made = "\n".join([begin, "", *table(program), "", END])
        text = place.sub(lambda _: made, text)
    return text

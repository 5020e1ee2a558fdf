"""The man page."""

from __future__ import annotations

import re
from typing import Iterator, List, Set, Tuple

from .tables import Argument, Problem, Program, Subcommand

_HEAD = '.\\" Made by tools/words from the tables of the program; change those.'
#: What the one variable of the environment says that is read.
_NO_COLOR = (
    "With a value of it nothing is in colours. Else the lines of --trace are, where standard error is a terminal, and "
    "the rows of --chart, where standard output is one."
)
#: What Ctrl-C leaves behind, by subcommands.
_INTERRUPTED = (
    (
        ("observe",),
        "No cancel is sent. The server goes on until a notification is rejected or is not acknowledged, which takes up "
        "to 93 s, and then ends the observation by itself. With --count or --seconds the program cancels in the end.",
    ),
    (
        ("serve",),
        'No "served N" is printed. What was held is gone, and observers are not told. A server that is given COUNT '
        "ends by itself.",
    ),
    (
        ("get", "put", "post", "delete", "discover", "ping"),
        "No report is printed. What was asked for may have been done, and may still be: a request that is on its way "
        "is not called back.",
    ),
)


def _escaped(text: str) -> str:
    """The text, so that nothing in it is a request of troff."""
    return text.replace("\\", "\\e").replace("-", "\\-")


def _line(text: str) -> str:
    """A line of text."""
    line = _escaped(text)
    return "\\&" + line if line.startswith((".", "'")) else line


def _sentence(text: str) -> str:
    return text[0].upper() + text[1:] + ("" if text.endswith(".") else ".")


def _name(argument: Argument) -> str:
    """An argument as a paragraph begins with it."""
    if not argument.is_option:
        return f"\\fI{_escaped(argument.name)}\\fR"
    value = f" \\fI{_escaped(argument.value)}\\fR" if argument.value else ""
    letter = f"\\fB\\-{argument.letter}\\fR, " if argument.letter else ""
    return f"{letter}\\fB\\-\\-{_escaped(argument.name)}\\fR{value}"


def _in_usage(argument: Argument) -> str:
    it = _name(argument).replace("\\fR, \\fB", "\\fR|\\fB")
    if argument.form == "Required":
        return it
    return f"[{it}]" + (".." if argument.form == "Repeated" else "")


def _paragraph(name: str, *lines: str) -> Iterator[str]:
    yield from (".TP", name, *lines)


def _said(parts: List[str]) -> str:
    """a, b and c."""
    return " and ".join([", ".join(parts[:-1]), parts[-1]]) if len(parts) > 1 else parts[0]


def _of_subcommand(it: Subcommand) -> Iterator[str]:
    yield f".SS {_escaped(it.name)}"
    yield " ".join([f"\\fBcoap {_escaped(it.name)}\\fR", *map(_in_usage, [*it.options, *it.words])])
    yield ".PP"
    yield _line(_sentence(it.about))
    for word in it.words:
        yield from _paragraph(_name(word), _line(_sentence(word.help)))
    yield from (".PP", "Example:", ".PP", ".RS 4", ".nf", _line(it.example), ".fi", ".RE")


def _of_options(program: Program) -> Iterator[str]:
    """Each option once, with the subcommands that have it so."""
    for name, letter, said in program.usual:
        yield from _paragraph(f"\\fB\\-{letter}\\fR, \\fB\\-\\-{name}\\fR", _line(_sentence(said)))
    told = set()
    for argument in sorted((it for sub in program.subcommands for it in sub.options), key=lambda it: it.name):
        if argument not in told:
            told.add(argument)
            having = _said([f"\\fB{it}\\fR" for it in program.having(argument)])
            often = " It may be given several times." if argument.form == "Repeated" else ""
            yield from _paragraph(_name(argument), f"Of {having}.{often}", _line(_sentence(argument.help)))


def _of_interrupts(program: Program) -> Iterator[str]:
    yield _line("The program handles no signal. Ctrl-C ends it at once, and the shell sees the status 130.")
    known = {it.name for it in program.subcommands}
    for names, said in _INTERRUPTED:
        if not known.issuperset(names):
            raise Problem(f"the man page speaks of {', '.join(names)}, which the tables don't have")
        yield from _paragraph(_said([f"\\fB{it}\\fR" for it in names]), _line(said))
    yield from (".PP", "The others leave nothing behind.")


def page(program: Program) -> str:
    """The text of coap.1."""
    lines = [_HEAD, f'.TH COAP 1 "" "knifesilver {program.version}" "User Commands"']
    lines += [".SH NAME", f"coap \\- {_line(program.about)}", ".SH SYNOPSIS"]
    lines += ["\\fBcoap\\fR \\fICOMMAND\\fR [\\fIOPTION\\fR].. [\\fIWORD\\fR]..", ".br"]
    lines += ["\\fBcoap help\\fR [\\fICOMMAND\\fR]", ".SH DESCRIPTION"]
    lines += [line for it in program.groups for line in (_line(it), ".br")][:-1]
    lines += [".PP", "Options stand before the words, between them or after them."]
    lines += ["A word that begins with \\- stands after \\-\\-; no option stands there."]
    lines += [".SH COMMANDS", *(line for it in program.subcommands for line in _of_subcommand(it))]
    lines += [".SH OPTIONS", *_of_options(program), ".SH EXIT STATUS"]
    for number, said in program.statuses:
        lines += _paragraph(f"\\fB{number}\\fR", _line(said))
    lines += [".SH ENVIRONMENT", *_paragraph("\\fBNO_COLOR\\fR", _line(_NO_COLOR))]
    lines += [".SH WHEN IT IS INTERRUPTED", *_of_interrupts(program)]
    lines += [".SH SEE ALSO", "RFC 7252 (CoAP), RFC 7641 (observations), RFC 7959 (bodies in blocks)"]
    return "\n".join(lines) + "\n"


def names(text: str) -> Tuple[Set[str], Set[str]]:
    """The subcommands and the options that a page has."""
    options = re.findall(r"^\.TP\n(?:\\fB\\-\w\\fR, )?\\fB\\-\\-([\w\\-]+)\\fR", text, re.MULTILINE)
    commands = re.findall(r"^\.SS ([\w\\-]+)$", text, re.MULTILINE)
    return {it.replace("\\-", "-") for it in commands}, {it.replace("\\-", "-") for it in options}

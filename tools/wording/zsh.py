"""Completion for zsh."""

from __future__ import annotations

import re
from typing import Iterator, Set

from .tables import Argument, Program, Subcommand

_HEAD = """#compdef coap
# Completion of coap for zsh, made by tools/words from the tables of the program; change those.

_coap_commands() {
    local -a commands=(
"""
_MIDDLE = """    )
    _describe -t commands command commands
}

_coap() {
    local curcontext=$curcontext state line
    typeset -A opt_args
"""
_WORDS = """    [[ $state == words ]] || return
    curcontext=${curcontext%:*:*}:coap-$line[1]:
    case $line[1] in
"""
_END = """    esac
}

_coap "$@"
"""


def _quoted(text: str) -> str:
    return "'" + text.replace("'", "'\\''") + "'"


def _escaped(text: str) -> str:
    return re.sub(r"([\[\]:\\])", r"\\\1", text)


def _action(argument: Argument) -> str:
    if argument.takes_file:
        return "_files"
    return f"({' '.join(argument.choices)})" if argument.choices else " "


def _spec(argument: Argument) -> str:
    """An argument as _arguments reads it."""
    if not argument.is_option:
        colons = "::" if argument.form == "Optional" else ":"
        return f"{colons}{_escaped(argument.name)}\\: {_escaped(argument.brief)}:{_action(argument)}"
    many = "*" if argument.form == "Repeated" else ""
    value = f":{_escaped(argument.value)}:{_action(argument)}" if argument.value else ""
    return f"{many}--{argument.name}{'=' if value else ''}[{_escaped(argument.brief)}]{value}"


def _quoted_spec(argument: Argument) -> str:
    """The same in quotes; where it has two names, these stand before."""
    if not argument.letter:
        return _quoted(_spec(argument))
    names = f"-{argument.letter},--{argument.name}"
    return f"'({names.replace(',', ' ')})'{{{names}}}{_quoted(f'[{_escaped(argument.brief)}]')}"


def _usual(program: Program, *only: str) -> Iterator[str]:
    for name, letter, said in program.usual:
        if not only or name in only:
            yield f"'(- : *)'{{-{letter},--{name}}}{_quoted(f'[{said}]')}"


def _arguments(sub: Subcommand, program: Program) -> Iterator[str]:
    yield f"        {sub.name})"
    yield "            _arguments -S \\"
    specs = [*_usual(program, "help"), *(_quoted_spec(it) for it in (*sub.options, *sub.words))]
    yield " \\\n".join(f"                {it}" for it in specs)
    yield "            ;;"


def completion(program: Program) -> str:
    listed = [f"{it.name}:{_escaped(it.about)}" for it in program.subcommands] + ["help:Prints help"]
    lines = [_HEAD, *(f"        {_quoted(it)}\n" for it in listed), _MIDDLE, "    _arguments -C \\\n"]
    lines += [f"        {it} \\\n" for it in _usual(program)]
    lines += ["        '1: :_coap_commands' \\\n        '*:: :->words' && return\n", _WORDS]
    lines += [f"{line}\n" for it in program.subcommands for line in _arguments(it, program)]
    lines += ["        help) _arguments '1: :_coap_commands' ;;\n", _END]
    return "".join(lines)


def names(text: str, command: str) -> Set[str]:
    """The options that a subcommand has in it."""
    body = re.search(rf"^        {re.escape(command)}\)\n((?:            .*\n)*)", text, re.MULTILINE)
    return set(re.findall(r"['*{,]--([\w-]+)[=\[}]", body[1])) if body else set()

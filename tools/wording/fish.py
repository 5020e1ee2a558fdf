"""Completion for fish."""

from __future__ import annotations

import re
from typing import Iterator, Set

from .tables import Argument, Program, Subcommand

_HEAD = """# Completion of coap for fish, made by tools/words from the tables of the program; change those.

# Whether the subcommand is one of these.
function __coap_is
    set -l words (commandline -opc)
    contains -- "$words[2]" $argv
end

# Whether there is no subcommand yet.
function __coap_begins
    test (count (commandline -opc)) -eq 1
end

complete -c coap -f
"""


def _quoted(text: str) -> str:
    return "'" + text.replace("\\", "\\\\").replace("'", "\\'") + "'"


def _option(command: str, argument: Argument) -> str:
    words = ["complete -c coap -n", _quoted(f"__coap_is {command}")]
    words += ["-s", argument.letter] if argument.letter else []
    words += ["-l", argument.name]
    if argument.takes_file:
        words.append("-r -F")
    elif argument.value:
        words += ["-x", *(["-a", _quoted(" ".join(argument.choices))] if argument.choices else [])]
    return " ".join([*words, "-d", _quoted(argument.brief)])


def _of_subcommand(it: Subcommand) -> Iterator[str]:
    yield f"complete -c coap -n __coap_begins -a {it.name} -d {_quoted(it.about)}"
    yield f"complete -c coap -n {_quoted(f'__coap_is {it.name}')} -s h -l help -d 'print help'"
    yield from (_option(it.name, option) for option in it.options)
    if any(word.takes_file for word in it.words):
        yield f"complete -c coap -n {_quoted(f'__coap_is {it.name}')} -F"


def completion(program: Program) -> str:
    lines = [f"complete -c coap -n __coap_begins -s {letter} -l {name} -d {_quoted(said)}\n"
             for name, letter, said in program.usual]
    lines += [f"\n# {it.name}\n" + "".join(f"{line}\n" for line in _of_subcommand(it)) for it in program.subcommands]
    named = " ".join(it.name for it in program.subcommands)
    lines += ["\n# help\n", "complete -c coap -n __coap_begins -a help -d 'Prints help'\n"]
    lines += [f"complete -c coap -n '__coap_is help' -a {_quoted(named)}\n"]
    return _HEAD + "".join(lines)


def names(text: str, command: str) -> Set[str]:
    """The options that a subcommand has in it."""
    return set(re.findall(rf"^complete -c coap -n '__coap_is {re.escape(command)}' .*?-l ([\w-]+)", text, re.MULTILINE))

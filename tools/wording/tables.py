"""Reads the tables of the program's words, from the sources that are proved. What it can't read is a Problem."""

from __future__ import annotations

import pathlib
import re
from typing import Dict, Iterator, List, NamedTuple, Tuple, Union

TOP = pathlib.Path(__file__).resolve().parent.parent.parent
CRATES = TOP / "crates"
ARGUMENTS = CRATES / "coap_arguments" / "src"
TABLES = ARGUMENTS / "tables.rt"
#: The file of the arguments, and that of the subcommands.
SOURCES = (ARGUMENTS / "table_words.rt", TABLES)
#: Each way in which an argument is given (arguments.rt), with what an option of it is here.
WORDS, OPTIONS = ("Required", "Optional"), ("Single", "Repeated", "Flag", "ShortFlag")
_TOKEN = re.compile(r"""\s*(?://[^\n]*\s*)*("(?:\\.|[^"\\])*"|'[^'\\]'|::|\w+|[^\s\w])""", re.DOTALL)
_ESCAPED = {"n": "\n", '"': '"', "\\": "\\", "t": "\t"}
#: Values that help lists: names after "one of", numbers after a colon.
_ONE_OF = re.compile(r"\bone of ((?:[\w/-]+, )*[\w/-]+),? (?:and|or) ([\w/-]+)")
_NUMBERS = re.compile(r": ((?:\d+, )+)or (\d+)")


class Problem(Exception):
    """Why the tables are not read, or what is made of them is not right."""


class Named(NamedTuple):
    """A value that has a name, with its fields; a constant has none."""

    name: str
    fields: Dict[str, "Value"]


Value = Union[str, List["Value"], Named]


class Argument(NamedTuple):
    """An argument of a subcommand."""

    #: Required, Optional, Single, Repeated or Flag.
    form: str
    name: str
    help: str
    #: How help names the value of an option; "" where it has none.
    value: str
    #: The letter that stands for an option, too; "" where none does.
    letter: str

    @property
    def is_option(self) -> bool:
        return self.form in OPTIONS

    @property
    def takes_file(self) -> bool:
        return (self.value or self.name) == "FILE"

    @property
    def brief(self) -> str:
        """The first part of what help says."""
        return re.split(r"[;:.] |, as | \(", self.help)[0]

    @property
    def choices(self) -> List[str]:
        """The words that its value can be, as far as the tables say them."""
        found = [it for it in self.value.split("|") if it.islower()]
        for lists in (_ONE_OF, _NUMBERS):
            listed = lists.search(self.help)
            if self.value and listed:
                found += [*(it for it in listed[1].split(", ") if it), listed[2]]
        return found


class Subcommand(NamedTuple):
    """A subcommand, with its arguments in their order."""

    name: str
    about: str
    example: str
    arguments: Tuple[Argument, ...]

    @property
    def words(self) -> List[Argument]:
        return [it for it in self.arguments if not it.is_option]

    @property
    def options(self) -> List[Argument]:
        return [it for it in self.arguments if it.is_option]


class Program(NamedTuple):
    """What is said of the program."""

    about: str
    version: str
    #: Its subcommands by what they are for, a line each.
    groups: Tuple[str, ...]
    subcommands: Tuple[Subcommand, ...]
    #: Each exit status with what it says.
    statuses: Tuple[Tuple[int, str], ...]
    #: Help, and the version where the command line has one: name, letter, what help says.
    usual: Tuple[Tuple[str, str, str], ...]

    def having(self, option: Argument) -> List[str]:
        """The subcommands that have that option."""
        return [it.name for it in self.subcommands if option in it.options]


# ---- The form of the sources ----


def _unquoted(token: str) -> str:
    without_breaks = re.sub(r"\\\n\s*", "", token[1:-1])
    return re.sub(r"\\(.)", lambda it: _ESCAPED[it[1]], without_breaks)


class _Reader:
    """A file of items `const NAME: TYPE = VALUE;`, token by token."""

    def __init__(self, text: str) -> None:
        self.tokens = _TOKEN.findall(text)
        self.at = 0

    def seen(self, token: str) -> bool:
        """Whether the next token is that one, which is taken then."""
        found = self.at < len(self.tokens) and self.tokens[self.at] == token
        self.at += found
        return found

    def take(self, token: str = "") -> str:
        found = self.tokens[self.at] if self.at < len(self.tokens) else "the end"
        if token and found != token:
            raise Problem(f"{TABLES.name}: {found} where {token} should be")
        self.at += 1
        return found

    def listed(self) -> List[Value]:
        found: List[Value] = []
        while not self.seen("]"):
            found.append(self.value())
            if not self.seen(","):
                self.take("]")
                break
        return found

    def fields(self) -> Dict[str, Value]:
        found: Dict[str, Value] = {}
        while not self.seen("}"):
            name = self.take()
            self.take(":")
            found[name] = self.value()
            if not self.seen(","):
                self.take("}")
                break
        return found

    def value(self) -> Value:
        self.seen("&")
        token = self.take()
        if token.startswith('"'):
            return _unquoted(token)
        if token.startswith("'"):
            return token[1:-1]
        if token == "[":
            return self.listed()
        if not re.fullmatch(r"\w+", token):
            raise Problem(f"{TABLES.name}: {token} where a value should be")
        while self.seen("::"):
            token = self.take()
        return Named(token, self.fields() if self.seen("{") else {})

    def items(self) -> Iterator[Tuple[str, Value]]:
        """Each constant and static with its value."""
        while self.at < len(self.tokens):
            if self.take() in ("const", "static"):
                name = self.take()
                while not self.seen("="):
                    self.take()
                yield name, self.value()
                self.take(";")


# ---- What they say ----


def _text(of: Named, field: str) -> str:
    found = of.fields.get(field)
    if not isinstance(found, str):
        raise Problem(f"{TABLES.name}: {field} of {of.name} is no text")
    return found


def _only(of: Named, name: str, *fields: str) -> None:
    """Fails where a value is another one, or has other fields, which would be left out of what is made."""
    if of.name != name or set(of.fields) != set(fields):
        raise Problem(f"{TABLES.name}: {of.name} with {', '.join(of.fields)} in the place of {name}")


def _argument(value: Value) -> Argument:
    if not isinstance(value, Named):
        raise Problem(f"{TABLES.name}: {value} is no argument")
    _only(value, "Argument", "form", "name", "help")
    form = value.fields["form"]
    if not isinstance(form, Named) or form.name not in WORDS + OPTIONS:
        raise Problem(f"{TABLES.name}: {form} is a form that tools/words doesn't know")
    has_value, has_letter = form.name in ("Single", "Repeated"), form.name == "ShortFlag"
    _only(form, form.name, *(["value_name"] if has_value else ["letter"] if has_letter else []))
    value_name, letter = (_text(form, it) if it in form.fields else "" for it in ("value_name", "letter"))
    name = "Flag" if has_letter else form.name
    return Argument(name, _text(value, "name"), _text(value, "help"), value_name, letter)


def _subcommand(value: Value, constants: Dict[str, Value]) -> Subcommand:
    if not isinstance(value, Named):
        raise Problem(f"{TABLES.name}: {value} is no subcommand")
    _only(value, "Subcommand", "name", "about", "example", "arguments")
    arguments = value.fields["arguments"]
    if not isinstance(arguments, list):
        raise Problem(f"{TABLES.name}: the arguments of {_text(value, 'name')} are no list")
    named = (constants.get(it.name, it) if isinstance(it, Named) else it for it in arguments)
    example = _text(value, "example").removeprefix("Example: ")
    return Subcommand(_text(value, "name"), _text(value, "about"), example, tuple(map(_argument, named)))


def _found(pattern: str, file: pathlib.Path) -> str:
    found = re.search(pattern, file.read_text("utf-8"), re.MULTILINE)
    if found is None:
        raise Problem(f"{file.relative_to(TOP)} has no {pattern}")
    return found[1]


def _statuses() -> Tuple[Tuple[int, str], ...]:
    body = _found(r"^pub enum Status \{\n((?:.*\n)*?)\}", CRATES / "coap_status" / "src" / "status.rt")
    rows = re.findall(r"/// (.*)\n\s+\w+ = (\d+),", body)
    if len(rows) != body.count(" = "):
        raise Problem("status.rt: a status without a comment")
    return tuple((int(number), said) for said, number in rows)


def program(version: str) -> Program:
    """What the sources say of the program."""
    values = dict(item for file in SOURCES for item in _Reader(file.read_text("utf-8")).items())
    tables = [it for it in values.values() if isinstance(it, list)]
    groups = values.get("GROUPS")
    if not isinstance(groups, str) or not tables:
        raise Problem(f"{TABLES.name} has no GROUPS or no table")
    usual = [("help", "h", "print help")]
    if ".version(" in (ARGUMENTS / "command_line.rt").read_text("utf-8"):
        usual.append(("version", "V", "print the version"))
    return Program(
        _found(r"^//! The program `coap`: (.*?)\.$", CRATES / "coap" / "src" / "main.rt"),
        version,
        tuple(it for it in groups.split("\n\n")[0].split("\n")),
        tuple(_subcommand(it, values) for table in tables for it in table),
        _statuses(),
        tuple(usual),
    )

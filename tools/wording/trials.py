"""Whether what is made says all that the tables say, and the shells take it."""

from __future__ import annotations

import pathlib
import re
import shutil
import subprocess
import tempfile
from typing import Dict, Iterator, List, Tuple

from . import bash, fish, man, zsh
from .tables import SOURCES, Problem, Program, Subcommand

#: Which programs read a file and judge its form, by the end of its name; troff says what is wrong on standard error.
_READERS = {
    "coap.1": ("groff", "-man", "-Tutf8", "-wmac", "-z"),
    "completions/coap": ("bash", "-n"),
    "_coap": ("zsh", "-f", "-n"),
    "coap.fish": ("fish", "--no-config", "--no-execute"),
}
#: How each is asked to do nothing: where that fails, it is missing, or too old for these words.
_NOTHING = {"groff": "--version", "bash": "--version", "zsh": "--version", "fish": "--no-config --version"}
#: Prints what bash would offer for the words of each line, a line each.
_ASK_BASH = """. "$1"
while read -r -a COMP_WORDS; do
    COMP_WORDS=("${COMP_WORDS[@]/#_/}")
    COMP_CWORD=$((${#COMP_WORDS[@]} - 1))
    _coap
    printf '%s\\n' "${COMPREPLY[*]}"
done 2>/dev/null
"""
#: Likewise of fish, which is asked for long options alone.
_ASK_FISH = """source $argv[1]
while read --local line
    echo (complete --do-complete $line | string match --regex '^--[\\w-]+')
end
"""


def _wanted(sub: Subcommand) -> List[str]:
    return sorted([f"--{it.name}" for it in sub.options] + ["--help"])


def is_there(reader: str) -> bool:
    """Whether that program is installed, and takes the words that it is given here."""
    words = [reader, *_NOTHING[reader].split()]
    return shutil.which(reader) is not None and not subprocess.run(words, capture_output=True, check=False).returncode


def left_out(program: Program, made: Dict[str, str]) -> Iterator[str]:
    """The subcommands and options of the tables that a file doesn't have. The names are found here by another way."""
    options = {it for sub in program.subcommands for it in _wanted(sub)}
    read = {sub.name for sub in program.subcommands} | {it.name for sub in program.subcommands for it in sub.arguments}
    for source in SOURCES:
        named = re.findall(r'\bname: "(.*)"', source.read_text("utf-8"))
        yield from (f"{source.name}: {it} is not read" for it in named if it not in read)
    for file, text in made.items():
        if file.endswith(".1"):
            commands, listed = man.names(text)
            yield from (f"{file} has no {it}" for it in sorted({sub.name for sub in program.subcommands} - commands))
            yield from (f"{file} has no {it}" for it in sorted(options - {f"--{it}" for it in listed}))
            continue
        shell = {"coap": bash, "_coap": zsh, "coap.fish": fish}[pathlib.Path(file).name]
        for sub in program.subcommands:
            other = set(_wanted(sub)) ^ {f"--{it}" for it in shell.names(text, sub.name)}
            yield from (f"{file}: {it} of {sub.name}: not as in the tables" for it in sorted(other))


def _questions(program: Program) -> Iterator[Tuple[str, List[str]]]:
    """Words of a command line, of which the last is to be completed (_ is the empty one), and what is to be offered."""
    yield "coap _", sorted([*(it.name for it in program.subcommands), "help"])
    for sub in program.subcommands:
        yield f"coap {sub.name} --", _wanted(sub)
        yield f"coap {sub.name} -- -", []
        for it in sub.options:
            again = it.form == "Repeated"
            given = f"--{it.name} 1" if it.value else f"--{it.name}"
            yield f"coap {sub.name} {given} --", [that for that in _wanted(sub) if again or that != f"--{it.name}"]
            if it.value and not it.takes_file:
                yield from ((f"coap {sub.name} --{it.name} {word}", sorted(it.choices)) for word in ("_", "=", "= _"))


def offered_wrongly(program: Program, share: pathlib.Path) -> Iterator[str]:
    """Where bash, or fish where it is installed, would offer something else than the tables have."""
    of_fish = [(f"coap {sub.name} --", _wanted(sub)) for sub in program.subcommands]
    asked = (
        (["bash", "--norc", "-c", _ASK_BASH, "bash", share / "bash-completion/completions/coap"], _questions(program)),
        (["fish", "--no-config", "-c", _ASK_FISH, share / "fish/vendor_completions.d/coap.fish"], of_fish),
    )
    for words, told in asked:
        if not is_there(str(words[0])):
            continue
        questions = list(told)
        lines = "".join(f"{question}\n" for question, _ in questions)
        said = subprocess.run(words, input=lines, capture_output=True, text=True, check=False).stdout.split("\n")[:-1]
        if len(said) != len(questions):
            raise Problem(f"{words[0]} answers {len(said)} of {len(questions)} questions")
        for (question, wanted), offers in zip(questions, said):
            if sorted(offers.split()) != wanted:
                yield f"{words[0]} offers for {question}: {offers}, and not {' '.join(wanted)}"


def misread(made: Dict[str, str]) -> Tuple[List[str], List[str]]:
    """What the shells and troff find wrong, and which of them are not installed."""
    wrong: List[str] = []
    missing: List[str] = []
    with tempfile.TemporaryDirectory() as room:
        for number, (file, text) in enumerate(made.items()):
            reader = next(it for end, it in _READERS.items() if file.endswith(end))
            if not is_there(reader[0]):
                missing.append(reader[0])
                continue
            copy = pathlib.Path(room) / f"{number}"
            copy.write_text(text, "utf-8")
            ran = subprocess.run([*reader, copy], capture_output=True, text=True, check=False)
            if ran.returncode or ran.stderr:
                wrong.append(f"{file}: {reader[0]} says: {ran.stderr.strip()}")
    return wrong, missing

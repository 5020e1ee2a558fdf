"""Completion for bash."""

from __future__ import annotations

import re
from typing import Dict, Iterator, List, Set

from .tables import Program, Subcommand

_HEAD = """# shellcheck shell=bash
# Completion of coap for bash, made by tools/words from the tables of the program; change those.
_coap() {
    local command=${COMP_WORDS[1]} word=${COMP_WORDS[COMP_CWORD]} options='' once='' again='' words=()
    local at given=' ' waits='' place=0 ended=''
    COMPREPLY=()
    if [ "$COMP_CWORD" -eq 1 ]; then
        command=''
    fi
    case $command in
"""
_WALK = """    esac
    # which options stand before, and which word comes here (bash parts --store=map at the =)
    for ((at = 2; at < COMP_CWORD; at++)); do
        case ${COMP_WORDS[at]} in
            =) continue ;;
            *) [ -z "$waits" ] || { waits='' && continue; } ;;
        esac
        case $ended${COMP_WORDS[at]} in
            --) ended=yes ;;
            --*=*) given="$given${COMP_WORDS[at]%%=*} " ;;
            -*)
                given="$given${COMP_WORDS[at]} "
                case " $once $again " in *" ${COMP_WORDS[at]} "*) waits=${COMP_WORDS[at]} ;; esac
                ;;
            *) place=$((place + 1)) ;;
        esac
    done
    [ "$word" != = ] || word=''
    if [ -n "$waits" ]; then
        case "$command $waits" in
"""
_WORDS = """            *) return ;;
        esac
    elif [ -z "$ended" ] && [[ $word == -* ]]; then
        for at in $options $once; do
            [[ $given == *" $at "* ]] || words+=("$at")
        done
        for at in $again; do
            words+=("$at")
        done
    else
        case "$command $place" in
"""
_END = """            *) return ;;
        esac
    fi
    mapfile -t COMPREPLY < <(compgen -W "${words[*]}" -- "$word")
}
complete -F _coap coap
"""
_FILES = "compopt -o filenames 2>/dev/null; mapfile -t COMPREPLY < <(compgen -f -- \"$word\"); return"


def _options(sub: Subcommand, *forms: str) -> List[str]:
    return [f"--{it.name}" for it in sub.options if it.form in forms]


def _of_subcommands(program: Program) -> Iterator[str]:
    usual = [f"--{name}" for name, _, _ in program.usual]
    for sub in program.subcommands:
        sets = [f"options='{' '.join([*_options(sub, 'Flag'), '--help'])}'"]
        for name, form in (("once", "Single"), ("again", "Repeated")):
            if _options(sub, form):
                sets.append(f"{name}='{' '.join(_options(sub, form))}'")
        yield f"        {sub.name}) {' '.join(sets)} ;;"
    yield f"        '') options='{' '.join(usual)}' ;;"


def _of_values(program: Program) -> Iterator[str]:
    """What the value of an option can be."""
    found: Dict[str, List[str]] = {}
    for sub in program.subcommands:
        for it in sub.options:
            does = _FILES if it.takes_file else f"words=({' '.join(it.choices)})" if it.choices else ""
            if does:
                found.setdefault(does, []).append(f"'{sub.name} --{it.name}'")
    for does, cases in found.items():
        yield f"            {' | '.join(cases)}) {does} ;;"


def _of_places(program: Program) -> Iterator[str]:
    """What a word can be: the first one is a subcommand."""
    names = " ".join([*(it.name for it in program.subcommands), "help"])
    yield f"            ' 0' | 'help 0') words=({names}) ;;"
    for sub in program.subcommands:
        for place, it in enumerate(sub.words):
            if it.takes_file:
                yield f"            '{sub.name} {place}') {_FILES} ;;"


def completion(program: Program) -> str:
    parts = (_HEAD, _of_subcommands, _WALK, _of_values, _WORDS, _of_places, _END)
    return "".join(it if isinstance(it, str) else "".join(f"{line}\n" for line in it(program)) for it in parts)


def names(text: str, command: str) -> Set[str]:
    """The options that a subcommand has in it."""
    line = re.search(rf"^        {re.escape(command)}\) (.*) ;;$", text, re.MULTILINE)
    return set(re.findall(r"--([\w-]+)", line[1])) if line else set()

#!/usr/bin/env python3
"""Makes the page of a module: assemble.py MODULE.wasm README.md PAGE.html

The premises are the words of README."""

import base64
import json
import pathlib
import re
import sys

HERE = pathlib.Path(__file__).resolve().parent
SCRIPTS = ("module", "record", "facts", "promises", "premises", "stories", "broken")
SCRIPTS += ("network", "ladder", "strangers", "drag", "picture", "link", "page", "inspect", "play", "controls")
MOST_BYTES = 2_000_000


class Lacking(Exception):
    """README lacks what the page cites."""


def numbered(text):
    """The lists (1) .., (2) .., in a text, or 1. .., 2. .., a line each: each in its order from 1."""
    lists = []
    text = re.sub(r"^(\d)\. ", r"(\1) ", text, flags=re.M)
    for number, words in re.findall(r"\((\d)\)\s+(.*?)(?=\(\d\)\s|\Z)", text, re.S):
        if number == "1":
            lists.append([])
        if lists and int(number) == len(lists[-1]) + 1:
            lists[-1].append(words)
    return lists


def sentence(words):
    """What a number says: up to the next number or the end of the sentence, on one line."""
    words = re.split(r"\n\s*\n", words)[0]
    words = re.sub(r"\s+", " ", words).strip()
    return re.split(r"[.;](?= |$)", words)[0].removesuffix(" -").removesuffix(" and").strip(" -,")


def cited():
    """The words by which premises.js finds a premise."""
    return re.findall(r'^const [A-Z]+ = "(.*)";', (HERE / "premises.js").read_text(), re.M)


def premises(readme):
    """The premises of the promise, as README numbers them: "(1) ..", "(2) ..". Each that premises.js cites is there
    once."""
    lists = [[sentence(it) for it in words] for words in numbered(readme)]
    wanted = cited()
    for found in lists:
        if all(sum(words in it for it in found) == 1 for words in wanted):
            return [f"({number}) {it}" for number, it in enumerate(found, 1)]
    words = ", ".join(f"“{it}”" for it in wanted)
    raise Lacking(f"README has no numbered premises, (1) to the last, in which each of these stands once: {words}")


def main():
    module, readme, page = (pathlib.Path(it) for it in sys.argv[1:])
    text = (HERE / "page.html").read_text()
    scripts = "\n".join((HERE / f"{it}.js").read_text() for it in SCRIPTS)
    for mark, it in (
        ("/*COLORS*/", (HERE / "colors.css").read_text()),
        ("/*CSS*/", (HERE / "page.css").read_text()),
        ("/*LADDER*/", (HERE / "ladder.css").read_text()),
        ("/*SCRIPTS*/", scripts),
        ("/*BYTES*/0", str(module.stat().st_size)),
        ("/*PREMISES*/[]", json.dumps(premises(readme.read_text()))),
        ("/*MODULE*/", base64.b64encode(module.read_bytes()).decode()),
    ):
        assert text.count(mark) == 1, mark
        text = text.replace(mark, it)
    assert len(text.encode()) < MOST_BYTES, "the page has 2 MB or more"
    page.write_text(text)


if __name__ == "__main__":
    try:
        main()
    except Lacking as why:
        sys.exit(f"assemble.py: {why}")

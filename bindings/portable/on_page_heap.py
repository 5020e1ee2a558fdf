#!/usr/bin/env python3
"""Makes a copy of crates/knifesilver whose memory is a module's host's: on_page_heap.py CRATE COPY

WebAssembly has no `Global`; `PageHeap` of page/crates stands in its place, in the sources and in the proofs that name
the allocator. It stops where a file names `Global` in a form that it does not know."""

import pathlib
import re
import sys

IN_SOURCES = (
    ("use std::alloc::Global;", "use page_heap::PageHeap as Global;"),
    ("use std::alloc::{AllocError, Global};", "use page_heap::PageHeap as Global;\nuse std::alloc::AllocError;"),
)
HEAP = "Rattle.page_heap"
IN_PROOFS = (
    ("Rattle.std.specs.declared.alloc.Global.{Global}", f"{HEAP}.specs.declared.PageHeap.{{PageHeap as Global}}"),
    ("Rattle.std.specs.contracts.impls.GlobalAllocator.TheImpl", f"{HEAP}.specs.contracts.PageHeapAllocator.TheImpl"),
    ("Rattle.std.specs.contracts.alloc.Global as", f"{HEAP}.specs.contracts.PageHeap as"),
    ("Rattle.std.proofs.alloc.Global.", f"{HEAP}.proofs.PageHeap."),
    ("Rattle.std.proofs.Crossing.{frees}", f"{HEAP}.proofs.PageHeapAllocator.TheSendSync.FreesAnywhere.{{frees}}"),
)
# Types whose allocator is `Global` where none is named.
TYPES = re.compile(r"(?<![\w:])(Path|Request|Report|MapStore)(?=[,>)]|$)|(?<=Vec<u8)(?=>)")
OF_TYPES = re.compile(r"^\s*(//|use |ghost |ensures|requires)|=> ")
KNOWN = re.compile(r"page_heap|alloc: Global|<[^<>]*\bGlobal\b[^<>]*>|\(a : Global\)|→ Global →|PageHeap")


def named(found):
    return f"{found[1]}<Global>" if found[1] else ", Global"


def with_allocator(line):
    return line if OF_TYPES.search(line) else TYPES.sub(named, line.rstrip("\n")) + "\n"


def made(path, text):
    is_source = path.suffix == ".rt"
    for old, new in IN_SOURCES if is_source else IN_PROOFS:
        text = text.replace(old, new)
    if is_source:
        text = "".join(with_allocator(line) for line in text.splitlines(keepends=True))
    for line in text.splitlines():
        if re.search(r"\bGlobal(Allocator)?\b", line) and not KNOWN.search(line):
            sys.exit(f"{path}: an unknown form: {line}")
    return text


def main():
    crate, copy = (pathlib.Path(it) for it in sys.argv[1:])
    for part in ("src", "specs", "proofs"):
        for path in sorted((crate / part).rglob("*")):
            if path.is_file():
                to = copy / path.relative_to(crate)
                to.parent.mkdir(parents=True, exist_ok=True)
                to.write_text(made(path, path.read_text("utf-8")), "utf-8")


main()

#!/usr/bin/env python3
"""Puts the translated module, what it has of its host and the calls of knifesilver.h into one file of C:
put_together.py FOLDER TRANSLATED OUT.c, where TRANSLATED.c and TRANSLATED.h are what wasm2c wrote."""

import pathlib
import re
import sys

RUNTIME_HEADER = pathlib.Path("/usr/include/wasm-rt.h")
GLUE = ("glue.c", "glue_names.c")
HEAD = """/* knifesilver-portable.c: the library for any C compiler (C11), also of 32 bits. Compile this one file beside
 * knifesilver.h, and link it in the place of libknifesilver.a. It is written by a script (bindings/portable/build): the
 * library as a module of WebAssembly, which wasm2c translated. What that script proves is the module; the way from
 * there to this file is not. Each end has a memory of its own, which it takes by calloc and realloc. */
#define WASM_RT_MEMCHECK_SIGNAL_HANDLER 0
#define WASM_RT_USE_STACK_DEPTH_COUNT 0
#ifdef __BYTE_ORDER__
#define WABT_BIG_ENDIAN (__BYTE_ORDER__ == __ORDER_BIG_ENDIAN__)
#endif
/* Where bytes stand. With the most significant byte first a memory is turned round, so that numbers are as the
 * processor has them. */
#if WABT_BIG_ENDIAN
#define BYTES_AT(m, at, len) ((m)->data + (m)->size - (at) - (len))
#else
#define BYTES_AT(m, at, len) ((m)->data + (at))
#endif
"""
# wasm2c 1.0.32 doesn't turn these two round.
TURNED = (
    ("memset(mem->data + d, val, n);", "memset(BYTES_AT(mem, d, n), val, n);"),
    ("memmove(dest->data + dest_addr, src->data + src_addr, n);",
     "memmove(BYTES_AT(dest, dest_addr, n), BYTES_AT(src, src_addr, n), n);"),
)


def plain(text):
    """Without headers that stand above or are not of the standard, and without the state that all instances share: the
    module has no table, so it needs none of it."""
    text = re.sub(r'^#include "[^"]*"\n', "", text, flags=re.M)
    text = re.sub(r"^  assert\((wasm_rt_is_initialized\(\)|s_module_initialized)\);\n", "", text, flags=re.M)
    return text.replace("#include <alloca.h>\n", "")


def turned(text):
    for old, new in TURNED:
        if text.count(old) != 1:
            sys.exit(f"put_together: wasm2c wrote no `{old}`: it is another version")
        text = text.replace(old, new)
    return text


def main():
    folder, translated, out = (pathlib.Path(it) for it in sys.argv[1:])
    glue = [(folder / name).read_text() for name in GLUE]
    parts = [HEAD, RUNTIME_HEADER.read_text(), plain(translated.with_suffix(".h").read_text())]
    parts += [(folder / "runtime.c").read_text(), turned(plain(translated.with_suffix(".c").read_text())), *glue]
    out.write_text("\n".join(parts))


main()

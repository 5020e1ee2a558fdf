"""What crosses to C and to Rust stands in three places: the library's source, the C header, the Rust crate's raw.rs.

`differences` compares its calls with their parameters, its structs with the order of their fields, and its numbers.
`sizes` writes assertions of sizes and offsets for both compilers. `unnoticed` tries the comparison with wrong
declarations. No compiler compares the three by itself."""

import pathlib
import re

HERE = pathlib.Path(__file__).resolve().parent
TOP = HERE.parent
HEADER = "bindings/include/knifesilver.h"
RAW = "bindings/rust/src/raw.rs"
RAW_EXCHANGE = "bindings/rust/src/raw_exchange.rs"
LIBRARY = "crates/knifesilver/src/"
TYPES = "crates/coap_types/src/"
CODEC = "crates/coap_codec/src/"
# The exports of the exchanges, and their header, which takes in the other one.
EXCHANGE = "crates/knifesilver_exchange/src/"
EXCHANGE_HEADER = "bindings/include/knifesilver_exchange.h"

# The types that cross: as the library has them; in C, in Rust, and how many bytes each has (each target has 64 bits).
PLAIN = {
    "u8": ("uint8_t", "u8", 1), "u16": ("uint16_t", "u16", 2), "u32": ("uint32_t", "u32", 4),
    "u64": ("uint64_t", "u64", 8), "i32": ("int32_t", "i32", 4), "usize": ("size_t", "usize", 8),
    "bool": ("bool", "bool", 1),
}
IN_C = {rattle: c for rattle, (c, _, _) in PLAIN.items()}
RUST_OF = {"void": "c_void", "char": "c_char", **{c: rust for c, rust, _ in PLAIN.values()}}
POINTER = "*mut ()"
POINTER_LEN = 8
WRAPPERS = ("ks_server", "ks_client", "ks_names")
EXCHANGE_WRAPPERS = ("ks_answerer", "ks_asker", "ks_fetch", "ks_upload", "ks_assembly")
# Answers and kinds of the exchanges that refuse nothing.
EXCHANGE_ANSWERS = ("KS_READY", "KS_JOINED", "KS_AGAIN", "KS_RESPONSE", "KS_NOTIFICATION")
# Parameters that are lent as text, where others are bytes.
TEXTS = {("ks_server_applied", "room"), ("ks_server_paths", "room"), ("ks_peek", "room")}


def read_all():
    """The texts that are compared, by file."""
    files = [HEADER, EXCHANGE_HEADER, RAW, RAW_EXCHANGE]
    for folder in (LIBRARY, EXCHANGE, TYPES, CODEC):
        files += sorted(str(file.relative_to(TOP)) for file in (TOP / folder).glob("**/*.rt"))
    return {file: (TOP / file).read_text() for file in files}


def spaced(text):
    return re.sub(r"\s+", " ", text).strip()


def uncommented(text):
    return re.sub(r"/\*.*?\*/|//[^\n]*", " ", text, flags=re.S)


def snake(name):
    """KsAddress is ks_address."""
    return re.sub(r"(?<!^)(?=[A-Z])", "_", name).lower()


def crossed(call, name, kind):
    """The parameters in C of a parameter of an export, as pairs of type and name."""
    if kind == "Global":
        return []
    if kind == "&mut KsHandle":
        return [(f"ks_{call.split('_')[1]} *", name)]
    if kind in ("&[u8]", "&mut [u8]"):
        const = "" if "mut" in kind else "const "
        text = name == "path" or (call, name) in TEXTS
        return [(f"{const}{'char' if text else 'void'} *", name), ("size_t", f"{name}_len")]
    slice_of = re.fullmatch(r"&\[(Ks\w+|u16)\]", kind)
    if slice_of:
        of = IN_C.get(slice_of[1]) or snake(slice_of[1])
        return [(f"const {of} *", name), ("size_t", f"{name}_len")]
    pointer = re.fullmatch(r"&(mut )?(\w+)", kind)
    if pointer:
        to = IN_C.get(pointer[2]) or snake(pointer[2])
        return [(f"{'' if pointer[1] else 'const '}{to} *", name)]
    return [(IN_C[kind], name)]


EXPORT = r'pub extern "C" fn (\w+)\((.*?)\)\s*(?:->\s*(\w+))?\s*(?:ensures|\{)'
STRUCT = r"#\[repr\(C\)\]\s*(?:#\[[^\]]*\]\s*)*pub struct (%s) \{(.*?)\n\}"


def exports(texts, library=LIBRARY):
    """The library's exports and their structs, as the header should declare them."""
    calls, structs = {}, {}
    for file, text in texts.items():
        if not file.startswith(library):
            continue
        text = uncommented(text)
        for call, params, result in re.findall(EXPORT, text, re.S):
            given = [it.split(":") for it in spaced(params).rstrip(",").split(", ") if it]
            flat = [it for name, kind in given for it in crossed(call, name.strip(), kind.strip())]
            calls[call] = (IN_C[result] if result else "void", flat)
        for name, fields in re.findall(STRUCT % r"Ks\w+", text, re.S):
            # (the allocator has no bytes, and a ghost field neither)
            pairs = re.findall(r"^\s*(?:pub )?(\w+): ([^\n]+),$", fields, re.M)
            structs[snake(name)] = [(field, kind) for field, kind in pairs if kind != "Global"]
    return calls, structs


def c_field(name, kind):
    array = re.fullmatch(r"\[(\w+); (\d+)\]", kind)
    if array:
        return f"{IN_C[array[1]]} {name}[{array[2]}]"
    if kind == POINTER:
        return f"void *{name}"
    return f"{IN_C.get(kind) or snake(kind)} {name}"


def header(texts, file=HEADER):
    text = uncommented(texts[file])
    calls, structs = {}, {}
    for result, call, params in re.findall(r"^(\w+) (ks_\w+)\((.*?)\);", text, re.M | re.S):
        given = [] if params == "void" else params.split(",")
        flat = [re.fullmatch(r"(.*?[ *])(\w+)", spaced(it)).groups() for it in given]
        calls[call] = (result, [(kind.strip(), name) for kind, name in flat])
    for fields, name in re.findall(r"typedef struct \{(.*?)\} (ks_\w+);", text, re.S):
        structs[name] = [spaced(it) for it in fields.split(";") if it.strip()]
    return calls, structs


def rust_field(kind):
    if kind == POINTER:
        return "*mut c_void"
    return kind if kind in PLAIN or kind.startswith("[") else snake(kind)


def in_rust(kind):
    pointer = re.fullmatch(r"(const )?(\w+) \*", kind)
    if pointer:
        return f"*{'const' if pointer[1] else 'mut'} {RUST_OF.get(pointer[2], pointer[2])}"
    return RUST_OF[kind]


def raw(texts, file=RAW):
    text = uncommented(texts[file])
    calls, structs = {}, {}
    for call, params, result in re.findall(r"^    fn (ks_\w+)\((.*?)\)(?: -> (\w+))?;", text, re.M):
        calls[call] = (result or None, [tuple(it.split(": ")[::-1]) for it in params.split(", ") if it])
    for name, fields in re.findall(STRUCT % r"ks_\w+", text, re.S):
        structs[name] = re.findall(r"(?:pub )?(\w+): ([^\n]+),", fields)
    return calls, structs


def compared(texts):
    """What is compared: its name, what is found, and what is wanted."""
    (calls, structs), (c_calls, c_structs), (r_calls, r_structs) = exports(texts), header(texts), raw(texts)
    yield "calls of the header", sorted(c_calls), sorted(calls)
    yield "calls of raw.rs", sorted(r_calls), sorted(calls)
    for call, (result, params) in calls.items():
        yield f"{call} in the header", c_calls.get(call), (result, params)
        rust = (None if result == "void" else RUST_OF[result], [(in_rust(kind), name) for kind, name in params])
        yield f"{call} in raw.rs", r_calls.get(call), rust
    yield "structs of the header", sorted(set(c_structs) - set(WRAPPERS)), sorted(structs)
    yield "structs of raw.rs", sorted(set(r_structs) - set(WRAPPERS)), sorted(structs)
    for name, fields in structs.items():
        yield f"{name} in the header", c_structs.get(name), [c_field(field, kind) for field, kind in fields]
        yield f"{name} in raw.rs", r_structs.get(name), [(field, rust_field(kind)) for field, kind in fields]
    for name in WRAPPERS:
        yield name, (c_structs.get(name), r_structs.get(name)), (["ks_handle handle"], [("handle", "ks_handle")])


def exchange_exports(texts):
    """The exports of the exchanges and their structs, by their names in C (the other header has a ks_request)."""
    calls, structs = exports(texts, EXCHANGE)
    calls = {call: (result, [(kind.replace("ks_request *", "ks_request_told *"), name) for kind, name in params])
             for call, (result, params) in calls.items()}
    return calls, {"ks_request_told" if name == "ks_request" else name: fields for name, fields in structs.items()}


def compared_exchange(texts):
    """The same of the exchanges, some of whose structs stand in the other header and in raw.rs."""
    (calls, structs), (c_calls, c_structs) = exchange_exports(texts), header(texts, EXCHANGE_HEADER)
    r_calls, r_structs = raw(texts, RAW_EXCHANGE)
    others, r_others = header(texts)[1], raw(texts)[1]
    yield "calls of the header of the exchanges", sorted(c_calls), sorted(calls)
    yield "calls of raw_exchange.rs", sorted(r_calls), sorted(calls)
    for call, (result, params) in calls.items():
        yield f"{call} in the header", c_calls.get(call), (result, params)
        rust = (None if result == "void" else RUST_OF[result], [(in_rust(kind), name) for kind, name in params])
        yield f"{call} in raw_exchange.rs", r_calls.get(call), rust
    for name, fields in structs.items():
        shown, r_shown = c_structs.get(name) or others.get(name), r_structs.get(name) or r_others.get(name)
        yield f"{name} in the header", shown, [c_field(field, kind) for field, kind in fields]
        yield f"{name} in raw_exchange.rs", r_shown, [(field, rust_field(kind)) for field, kind in fields]
    for name in EXCHANGE_WRAPPERS:
        yield name, (c_structs.get(name), r_structs.get(name)), (["ks_handle handle"], [("handle", "ks_handle")])


def exchange_numbers(texts):
    """Where numbers of the exchanges differ, or one is taken already."""
    ours, theirs = header_numbers(texts[EXCHANGE_HEADER])[0], header_numbers(texts[HEADER])[0]
    found = {"KS_READY": number_in(texts[EXCHANGE + "answerer/turns.rt"], "READY")}
    for name in ("JOINED", "AGAIN"):
        found["KS_" + name] = number_in(texts[EXCHANGE + "blocks/fetching.rt"], name)
    numbers = r"^(?:pub\(crate\) )?const (\w+): (?:i32|u8) = (\d+);"
    for name, n in re.findall(numbers, texts[EXCHANGE + "numbers.rt"], re.M):
        # (a Timeout, a Reset and NoResponse are kinds of a report)
        if "KS_" + name not in theirs:
            found["KS_" + name] = int(n)
        elif theirs["KS_" + name] != int(n):
            yield f"KS_{name} is {theirs['KS_' + name]} in the header, and {n} in the library of the exchanges"
    for name, n in re.findall(r"^pub\(crate\) const (\w+): i32 = (-?\d+);", texts[EXCHANGE + "answers.rt"], re.M):
        name = "KS_" + OTHER_NAMES.get(name, name)
        if name[3:] not in NOT_IN_C and theirs.get(name) != int(n):
            yield f"{name} is {theirs.get(name)} in the header, and {n} in the library of the exchanges"
    for name in sorted(ours.keys() | found.keys()):
        if ours.get(name) != found.get(name):
            yield f"{name} is {ours.get(name)} in the header, and {found.get(name)} in the library of the exchanges"
    for name, n in raw_numbers(texts, RAW_EXCHANGE):
        if ours.get(name) != n:
            yield f"{name} is {n} in raw_exchange.rs, and {ours.get(name)} in the header"
    taken = {n for name, n in theirs.items() if name in header_numbers(texts[HEADER])[1]}
    for name, n in ours.items():
        if name not in EXCHANGE_ANSWERS and (n in taken or list(ours.values()).count(n) > 1):
            yield f"{name} is {n}, which another refusal is"


# ---- Numbers ---------------------------------------------------------------------------------------------------------

# Names of the library that are others in C; and those of answers that no call gives, which C doesn't have.
OTHER_NAMES = {"NOTHING": "OK", "REPORT_DONE": "SUCCESS"}
NOT_IN_C = {"TOO_LONG", "SET_MEMORY", "CALL_MEMORY"}
REFUSALS = r"ks_\w+_refusal|ks_fault|ks_would"
ENUM = r"enum (\w*)\s*\{(.*?)\}"


def header_numbers(text):
    """Each number of the header by its name, and the names of those that refuse."""
    text, numbers, refusals = uncommented(text), {}, []
    for name, body in re.findall(ENUM, text, re.S):
        pairs = [(it, int(n)) for it, n in re.findall(r"(KS_\w+) = (-?\d+)", body)]
        numbers.update(pairs)
        if not name or re.fullmatch(REFUSALS, name):
            refusals += [it for it, _ in pairs if it not in ("KS_OK", "KS_DONE")]
    for name, n in re.findall(r"#define (KS_\w+) \(?(-?\d+)u?\)?", text):
        numbers[name] = int(n)
    return numbers, refusals


def raw_numbers(texts, file):
    """The numbers of a file of the Rust crate, by their names."""
    return [(name, int(n)) for name, n in re.findall(r"^pub const (KS_\w+): \w+ = (-?\d+);", texts[file], re.M)]


def number_in(text, name):
    return int(re.search(rf"\bconst {name}: \w+ = (-?[\d_]+);", text)[1].replace("_", ""))


def library_numbers(texts):
    """Each number of the library that C has, by its name in C."""
    found = {}
    for file in ("answers.rt", "numbers.rt"):
        for name, n in re.findall(r"^(?:pub\(crate\) )?const (\w+): i32 = (-?\d+);", texts[LIBRARY + file], re.M):
            if name not in NOT_IN_C:
                found["KS_" + OTHER_NAMES.get(name, name)] = int(n)
    reports = texts[LIBRARY + "client/reports.rt"]
    for name, n in re.findall(r"^        Report::(\w+)(?:\(.*?\))? => (\d+),", reports, re.M):
        name = snake(name).upper()
        found["KS_" + OTHER_NAMES.get("REPORT_" + name, name)] = int(n)
    peek = texts[LIBRARY + "peek.rt"]
    for name, n in re.findall(r"^        Kind::(\w+) => (\d),", peek, re.M):
        found["KS_" + name.upper()] = int(n)
    found["KS_TYPE_HIDDEN"] = number_in(peek, "NO_KIND")
    found["KS_NO_FORMAT"] = number_in(texts[LIBRARY + "crossing.rt"], "NO_FORMAT")
    found["KS_VERSION"] = number_in(texts[LIBRARY + "version.rt"], "VERSION")
    found["KS_DATAGRAM_ROOM"] = number_in(texts[TYPES + "limits.rt"], "MAX_MESSAGE_LEN")
    path = texts[TYPES + "path.rt"]
    # (each segment behind a slash, and each of its bytes in three)
    found["KS_PATH_ROOM"] = number_in(path, "MAX_SEGMENTS") * (1 + 3 * number_in(path, "MAX_SEGMENT_LEN"))
    head, token = texts[CODEC + "head.rt"], texts[TYPES + "token.rt"]
    found["KS_REFUSAL_ROOM"] = number_in(head, "HEADER_LEN") + number_in(token, "MAX_TOKEN_LEN")
    found["KS_KEY_ROOM"] = number_in(texts[LIBRARY + "names/peer_key.rt"], "KEY_ROOM")
    # (RFC 7252, section 12.1.1)
    found.update({"KS_GET": 1, "KS_POST": 2, "KS_PUT": 3, "KS_DELETE": 4})
    return found


def number_faults(texts):
    """Where numbers of the three differ, or two refusals have one."""
    (numbers, refusals), wanted = header_numbers(texts[HEADER]), library_numbers(texts)
    for name in sorted(numbers.keys() | wanted.keys()):
        if numbers.get(name) != wanted.get(name):
            yield f"{name} is {numbers.get(name)} in the header, and {wanted.get(name)} in the library"
    for name, n in raw_numbers(texts, RAW):
        if numbers.get(name) != n:
            yield f"{name} is {n} in raw.rs, and {numbers.get(name)} in the header"
    owners = {0: "KS_OK", 1: "KS_DONE"}
    for name, n in [(it, numbers[it]) for it in refusals]:
        owner = owners.setdefault(n, name)
        if owner != name:
            yield f"{name} and {owner} are both {n}"
    texts_of = dict(re.findall(r'case (KS_\w+): return "([^"]+)";', texts[HEADER]))
    if sorted(texts_of) != sorted(["KS_OK", "KS_DONE", *refusals]):
        yield f"ks_answer_text: {sorted(set(texts_of) ^ {'KS_OK', 'KS_DONE', *refusals})}"
    if len(set(texts_of.values())) != len(texts_of):
        yield "ks_answer_text says the same of two answers"


def differences(texts):
    """Where the three differ, a line each."""
    pairs = [*compared(texts), *compared_exchange(texts)]
    found = [f"{what}: {is_}, not {wanted}" for what, is_, wanted in pairs if is_ != wanted]
    return found + list(number_faults(texts)) + list(exchange_numbers(texts))


# ---- Sizes -----------------------------------------------------------------------------------------------------------

def layout(structs, kind):
    """How many bytes a type has, and of which number its place is a multiple."""
    array = re.fullmatch(r"\[(\w+); (\d+)\]", kind)
    if array:
        size, align = layout(structs, array[1])
        return size * int(array[2]), align
    if kind in PLAIN or kind == POINTER:
        size = POINTER_LEN if kind == POINTER else PLAIN[kind][2]
        return size, size
    places, size, align = placed(structs, structs[snake(kind)])
    return size, align


def placed(structs, fields):
    """Where C puts each field, how many bytes the struct has, and of which number its place is a multiple."""
    places, end, most = [], 0, 1
    for name, kind in fields:
        size, align = layout(structs, kind)
        end = -(-end // align) * align
        places.append((name, end))
        end, most = end + size, max(most, align)
    return places, -(-end // most) * most, most


def sizes(texts):
    """Assertions, in C and in Rust, that each struct has the size of the library's, and each field its place."""
    structs, in_c, in_rust_ = exports(texts)[1], [], []
    more = {name: fields for name, fields in exchange_exports(texts)[1].items() if name not in structs}
    structs = {**structs, **more}
    for name, fields in structs.items():
        file = "raw_exchange" if name in more else "raw"
        places, size, align = placed(structs, fields)
        in_c.append((f"sizeof ({name}) == {size}", f"_Alignof ({name}) == {align}"))
        in_rust_.append((f"size_of::<{file}::{name}>() == {size}", f"align_of::<{file}::{name}>() == {align}"))
        for field, place in places:
            in_c.append((f"offsetof ({name}, {field}) == {place}",))
            # (the handle's fields are private there)
            if name != "ks_handle":
                in_rust_.append((f"offset_of!({file}::{name}, {field}) == {place}",))
    for file, names in (("raw", WRAPPERS), ("raw_exchange", EXCHANGE_WRAPPERS)):
        for name in names:
            size = placed(structs, structs["ks_handle"])[1]
            in_c.append((f"sizeof ({name}) == {size}",))
            in_rust_.append((f"size_of::<{file}::{name}>() == {size}",))
    c = [f'_Static_assert({it}, "{it}");' for them in in_c for it in them]
    rust = [f"const _: () = assert!({it});" for them in in_rust_ for it in them]
    return "\n".join(['#include "knifesilver_exchange.h"', *c, ""]), "\n".join([
        "#![allow(dead_code)]", f'#[path = "{TOP / RAW}"]', "mod raw;",
        f'#[path = "{TOP / RAW_EXCHANGE}"]', "mod raw_exchange;",
        "use std::mem::{align_of, offset_of, size_of};", *rust, ""])


# ---- Wrong declarations ----------------------------------------------------------------------------------------------

# A file, and what is put in the place of what: `differences` has to name each.
WRONG = (
    (LIBRARY + "version.rt", "VERSION: u32 = ", "VERSION: u32 = 1"),
    (LIBRARY + "peek.rt", "Kind::Ack => 2", "Kind::Ack => 3", "Kind::Rst => 3", "Kind::Rst => 2"),
    (HEADER, "uint8_t ip[4]; uint16_t port;", "uint16_t port; uint8_t ip[4];"),
    (HEADER, "KS_PLAIN_FULL = 49", "KS_PLAIN_FULL = 48"),
    (HEADER, "KS_SET_TOO_LARGE = 18", "KS_SET_TOO_LARGE = 1"),
    (HEADER, "KS_TIMEOUT = 8", "KS_TIMEOUT = 9"),
    (HEADER, "#define KS_PATH_ROOM 12256", "#define KS_PATH_ROOM 4096"),
    (HEADER, "case KS_CANCEL_UNKNOWN:", "case KS_CANCEL_QUEUE_FULL:"),
    (HEADER, "ks_server_due(ks_server *handle, uint64_t *at)", "ks_server_due(ks_server *handle, uint32_t *at)"),
    (HEADER, "KS_NAMES_FULL = 96", "KS_NAMES_FULL = 49"),
    (HEADER, "#define KS_KEY_ROOM 60", "#define KS_KEY_ROOM 61"),
    (HEADER, "bool this_network, ", "uint32_t this_network, "),
    (RAW, "places: u32, this_network: bool,", "places: u64, this_network: bool,"),
    (EXCHANGE_HEADER, "KS_ANSWER_GIVEN = 113", "KS_ANSWER_GIVEN = 112"),
    (EXCHANGE_HEADER, "uint64_t delay_ms);", "uint32_t delay_ms);"),
    (EXCHANGE + "crossing.rt", "pub id: u16,", "pub id: u32,"),
    (EXCHANGE_HEADER, "size_t value_at;", "uint32_t value_at;"),
    (EXCHANGE + "option_walk.rt", "pub end: usize,", "pub end: u32,"),
    (RAW_EXCHANGE, "pub most_remembered: usize,", "pub most_remembered: u32,"),
    (EXCHANGE_HEADER, "KS_ASK_NO_IDS = 122", "KS_ASK_NO_IDS = 116"),
    (EXCHANGE_HEADER, "#define KS_JOINED 3", "#define KS_JOINED 1"),
    (EXCHANGE + "numbers.rt", "TIMEOUT: u8 = 8", "TIMEOUT: u8 = 9"),
    (RAW, "KS_FAULT_SHORT: i32 = 81", "KS_FAULT_SHORT: i32 = 1"),
    (RAW, "pub body_limit: u32,", "pub body_limit: u64,"),
    (RAW_EXCHANGE, "KS_ANSWER_GIVEN: i32 = 113", "KS_ANSWER_GIVEN: i32 = 112"),
    (RAW_EXCHANGE, "pub token_len: u8,", "pub token_len: u16,"),
    (RAW_EXCHANGE, "delay_ms: u64) -> i32;", "delay_ms: u32) -> i32;"),
)


# Two numbers, or two fields, of one file that are swapped: `check --declarations` is red on a copy with each.
SWAPPED = (
    (HEADER, "KS_TIMEOUT = 8", "KS_TIMEOUT = 9", "KS_RESET = 9", "KS_RESET = 8"),
    (HEADER, "KS_CANCEL_UNKNOWN = 57", "KS_CANCEL_UNKNOWN = 58", "KS_CANCEL_QUEUE_FULL = 58",
     "KS_CANCEL_QUEUE_FULL = 57"),
    (RAW, "KS_FAULT_SHORT: i32 = 81", "KS_FAULT_SHORT: i32 = 82", "KS_FAULT_VERSION: i32 = 82",
     "KS_FAULT_VERSION: i32 = 81"),
    (RAW_EXCHANGE, "KS_ANSWER_NOT_ASKED: i32 = 112", "KS_ANSWER_NOT_ASKED: i32 = 113", "KS_ANSWER_GIVEN: i32 = 113",
     "KS_ANSWER_GIVEN: i32 = 112"),
    (LIBRARY + "config.rt", "body_limit: u32,", "remembered: u32,", "remembered: u32,", "body_limit: u32,"),
    (LIBRARY + "answers.rt", "NOT_LIVE: i32 = -1", "NOT_LIVE: i32 = -2", "NO_MEMORY: i32 = -2", "NO_MEMORY: i32 = -1"),
)


def changed(text, changes):
    """A text with these changes, each of what stands there to what is put in its place; None where that isn't there."""
    for old, new in zip(changes[::2], changes[1::2]):
        if old not in text:
            return None
        # (a mark, so that what was changed isn't changed back)
        text = text.replace(old, "\0".join(new), 1)
    return text.replace("\0", "")


def unnoticed(texts):
    """The wrong declarations that `differences` says nothing of."""
    for file, *changes in WRONG + SWAPPED:
        text = changed(texts[file], changes)
        if text is None:
            yield f"{file} has none of {changes[::2]}"
        elif not differences({**texts, file: text}):
            yield f"{changes[1]!r} in {file}"

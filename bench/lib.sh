#!/bin/sh
# What the scripts of bench/ share. Each stands in a folder beside this file, and begins with
#
#   . "$(dirname -- "$(readlink -f -- "$0")")/../lib.sh"
#
# Then `bench` is its folder, `top` the repository, and `scratch` a folder outside of it, which is removed in the end.
set -eu

bench=$(CDPATH='' cd -- "$(dirname -- "$(readlink -f -- "$0")")" && pwd -P)
top=$(dirname -- "$(dirname -- "$bench")")
scratch=$(mktemp -d)
trap 'rm -rf -- "$scratch"' EXIT
trap 'exit 1' HUP INT TERM

say() {
    printf 'bench: %s\n' "$*" >&2
}

# Runs a command without a word, and prints what it said where it fails.
quietly() {
    if ! "$@" >"$scratch/log" 2>&1; then
        cat "$scratch/log" >&2
        say "failed: $*"
        exit 1
    fi
}

# need COMMAND..: ends with status 2 where one of them is missing.
need() {
    for command; do
        if ! command -v "$command" >/dev/null; then
            say "the command $command is not on the PATH (README.md says what is needed)"
            exit 2
        fi
    done
}

# sources_of CRATE..: copies these crates of the repository into the scratch workspace.
sources_of() {
    for crate; do
        mkdir -p "$scratch/crates/$crate"
        for part in src specs proofs; do
            [ ! -d "$top/crates/$crate/$part" ] || cp -Rp "$top/crates/$crate/$part" "$scratch/crates/$crate"
        done
        grep -E "^${crate}[ :]" "$top/crates.txt" >>"$scratch/crates.txt"
    done
}

# crates_of CRATE..: the same with the libraries that are built of them. (What else earlier checks kept is gigabytes,
# and rt finds it where it is.)
crates_of() {
    sources_of "$@"
    for crate; do
        if [ -d "$top/crates/$crate/out/rlib" ]; then
            mkdir "$scratch/crates/$crate/out"
            cp -Rp "$top/crates/$crate/out/rlib" "$scratch/crates/$crate/out"
        fi
    done
}

# static_library CRATE..: proves and builds the script's library.rt.in over these crates and crates of the toolchain.
static_library() {
    mkdir -p "$scratch/crates/coap_bench/src"
    cp "$bench/library.rt.in" "$scratch/crates/coap_bench/src/lib.rt"
    echo "coap_bench staticlib: $*" >>"$scratch/crates.txt"
    say 'proving and building the static library: a minute or some'
    say 'where a crate that it stands on has not been checked here, it takes longer'
    (cd "$scratch/crates/coap_bench" && quietly rt lib)
}

# rust_program [FILE..]: tests and builds the program in the script's rust/, over that library, with these files beside
# its own; `program` names it then.
rust_program() {
    toolchain=$(dirname -- "$(rt doc)")
    export COAP_BENCH_LIBRARY="$scratch/crates/coap_bench/out"
    export COAP_BENCH_C_PARTS="$toolchain/c"
    export CARGO_TARGET_DIR="$scratch/target"
    mkdir -p "$scratch/bench/own"
    cp -R "$top/bench/common" "$scratch/bench"
    cp -R "$bench/rust" "$scratch/bench/own"
    for file; do
        cp "$file" "$scratch/bench/own/rust/src"
    done
    say 'building the Rust program, and testing that what it compares agrees'
    (cd "$scratch/bench/own/rust" && quietly cargo test --release --offline && quietly cargo build --release --offline)
    program=$CARGO_TARGET_DIR/release/coap_bench
}

# print_kept LENGTH..: the table of what a remembered message takes of memory, with replies of these lengths.
print_kept() {
    say 'measuring memory: 1,048,576 replies of over 1,000 bytes take 1.3 GB'
    printf '\n| remembered | bytes of a reply | allocated, bytes each | resident, bytes each | most, bytes each |\n'
    printf '|---:|---:|---:|---:|---:|\n'
    for count in 4096 1048576; do
        for reply; do
            "$program" keep "$count" "$reply"
        done
    done
}

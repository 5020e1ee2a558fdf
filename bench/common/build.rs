//! Links the static library that a script of `bench/` made of what is proved, and what it calls of C.

use std::env;

/// Where the static library lies.
const LIBRARY: &str = "COAP_BENCH_LIBRARY";
/// Where the toolchain's C parts lie.
const C_PARTS: &str = "COAP_BENCH_C_PARTS";

fn main() {
    for variable in [LIBRARY, C_PARTS] {
        println!("cargo::rerun-if-env-changed={variable}");
        let folder = env::var(variable).expect("bench/lib.sh sets the folders to link from");
        println!("cargo::rustc-link-search=native={folder}");
    }
    for library in ["coap_bench", "libc_c", "os_c"] {
        println!("cargo::rustc-link-lib=static={library}");
    }
}

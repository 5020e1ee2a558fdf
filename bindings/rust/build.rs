//! Links `libknifesilver.a`, which `bindings/build` puts into `bindings/out/lib`, and `bindings/build --prefix DIR` into `DIR/lib`:
//! then `KNIFESILVER_LIB` names that folder. Where the archive isn't there, it says so and what to do; with the feature `stub`
//! it links nothing then, so that the crate can be checked and documented.

use std::{env, path::PathBuf, process};

fn main() {
    println!("cargo::rerun-if-env-changed=KNIFESILVER_LIB");
    let here = PathBuf::from(env::var("CARGO_MANIFEST_DIR").expect("cargo sets it"));
    let lib = env::var("KNIFESILVER_LIB").map_or(here.join("../out/lib"), PathBuf::from);
    let archive = lib.join("libknifesilver.a");
    println!("cargo::rerun-if-changed={}", archive.display());
    if !archive.is_file() && env::var_os("CARGO_FEATURE_STUB").is_some() {
        return;
    }
    if !archive.is_file() {
        eprintln!("knifesilver: there is no {}", archive.display());
        eprintln!("knifesilver: run bindings/build --prefix DIR, and set KNIFESILVER_LIB to DIR/lib");
        process::exit(1);
    }
    println!("cargo::rustc-link-search=native={}", lib.display());
    println!("cargo::rustc-link-lib=static=knifesilver");
}

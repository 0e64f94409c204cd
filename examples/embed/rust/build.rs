//! Links the static library, which `tools/library` builds. MATCHCHECK_LIBRARY is another folder that has it.
use std::{env, path::PathBuf};

fn main() {
    println!("cargo::rerun-if-env-changed=MATCHCHECK_LIBRARY");
    let here = PathBuf::from(env::var_os("CARGO_MANIFEST_DIR").expect("cargo tells its folder"));
    let folder = env::var_os("MATCHCHECK_LIBRARY")
        .map(PathBuf::from)
        .unwrap_or_else(|| here.join("../../../crates/matchcheck_c/out"));
    println!("cargo::rerun-if-changed={}", folder.join("libmatchcheck_c.a").display());
    println!("cargo::rustc-link-search=native={}", folder.display());
    println!("cargo::rustc-link-lib=static=matchcheck_c");
}

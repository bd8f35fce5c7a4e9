//! Links the library that ZQ_LIBRARY names, if any. Without it the second program stands alone.

use std::{env, fs};

fn main() {
    println!("cargo::rerun-if-env-changed=ZQ_LIBRARY");
    println!("cargo::rustc-check-cfg=cfg(linked)");
    let Some(path) = env::var_os("ZQ_LIBRARY") else {
        return;
    };
    let path = fs::canonicalize(&path)
        .unwrap_or_else(|why| panic!("ZQ_LIBRARY names {}: {why}", path.display()));
    println!("cargo::rerun-if-changed={}", path.display());
    println!("cargo::rustc-link-arg-bins={}", path.display());
    println!("cargo::rustc-cfg=linked");
}

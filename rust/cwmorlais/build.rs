//! Finds the proved library: the folder that `CWMORLAIS_LIB` names, else the one that `./library`
//! at the root of the repository fills.

use std::env;
use std::path::{Path, PathBuf};

fn main() {
    println!("cargo::rerun-if-env-changed=CWMORLAIS_LIB");
    let folder = env::var_os("CWMORLAIS_LIB").map_or_else(usual, PathBuf::from);
    let archive = folder.join("libcwmorlais.a");
    println!("cargo::rerun-if-changed={}", archive.display());
    if !archive.is_file() {
        println!(
            "cargo::error=there is no {}: run ./library first, or set CWMORLAIS_LIB",
            archive.display()
        );
        return;
    }
    println!("cargo::rustc-link-search=native={}", folder.display());
    println!("cargo::rustc-link-lib=static=cwmorlais");
}

fn usual() -> PathBuf {
    Path::new(env!("CARGO_MANIFEST_DIR")).join("../../target/native")
}

//! Links the proved library: libratmanoep.a in the folder RATMANOEP_LIB, or in crates/ratmanoep/out of the repository.

use std::env;
use std::path::PathBuf;
use std::process::exit;

const ARCHIVE: &str = "libratmanoep.a";

fn folder() -> PathBuf {
    match env::var_os("RATMANOEP_LIB") {
        Some(folder) => PathBuf::from(folder),
        None => PathBuf::from(env::var_os("CARGO_MANIFEST_DIR").unwrap_or_default()).join("../crates/ratmanoep/out"),
    }
}

/// Cargo prints the line and stops.
fn stop(what: &str) -> ! {
    println!("cargo::error={what}");
    exit(0)
}

fn main() {
    println!("cargo::rerun-if-env-changed=RATMANOEP_LIB");
    let target = |key: &str| env::var(key).unwrap_or_default();
    if target("CARGO_CFG_TARGET_ARCH") != "x86_64" || target("CARGO_CFG_TARGET_OS") != "linux" {
        stop("the proved library is for x86-64 Linux alone");
    }
    let archive = folder().join(ARCHIVE);
    if !archive.is_file() {
        stop(&format!(
            "{} is missing; `rt lib` in crates/ratmanoep makes it, or RATMANOEP_LIB names its folder",
            archive.display()
        ));
    }
    println!("cargo::rerun-if-changed={}", archive.display());
    println!("cargo::rustc-link-search=native={}", folder().display());
    println!("cargo::rustc-link-lib=static=ratmanoep");
}

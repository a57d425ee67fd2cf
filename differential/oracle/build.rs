//! Finds the original xbm.rs and writes a copy with one line appended, which opens its private parts.

use std::env;
use std::fs;
use std::path::{Path, PathBuf};

/// The repository's root, seen from this package.
const ROOT: &str = "../..";

/// Where the original lies beside the repository, seen from its root.
const BESIDE: &str = "../shared/docs/src/src/xbm.rs";

fn main() {
    println!("cargo::rustc-check-cfg=cfg(has_original)");
    println!("cargo::rerun-if-env-changed=XBM_RS");
    println!("cargo::rerun-if-env-changed=CI");
    println!("cargo::rerun-if-changed=build.rs");

    let package = PathBuf::from(env::var_os("CARGO_MANIFEST_DIR").unwrap());
    let out = PathBuf::from(env::var_os("OUT_DIR").unwrap());
    // A relative path counts from the repository's root.
    let given = env::var_os("XBM_RS").unwrap_or(BESIDE.into());
    let original = package.join(ROOT).join(given);

    let Ok(text) = fs::read_to_string(&original) else {
        let shown = original.display();
        if env::var_os("CI").is_some() {
            println!("cargo::error=the original xbm.rs is not at {shown}: set XBM_RS to its path");
        } else {
            println!(
                "cargo::warning=the original xbm.rs is not at {shown}: set XBM_RS to its path"
            );
            println!("cargo::warning=nothing can be compared with it; the tests that need it are skipped");
        }
        return;
    };

    println!("cargo::rerun-if-changed={}", original.display());
    let copy = out.join("xbm.rs");
    let opened = format!("{text}\n{}", module("exposed", &package.join("src/exposed.rs")));
    fs::write(&copy, opened).unwrap();
    fs::write(out.join("original.rs"), module("original", &copy)).unwrap();
    println!("cargo::rustc-cfg=has_original");
    println!("cargo::metadata=present=1");
}

/// The declaration of a module whose text stands in the file given.
fn module(name: &str, file: &Path) -> String {
    format!("#[path = {file:?}]\npub mod {name};\n")
}

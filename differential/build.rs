//! Links the proved reader's static library where it is found, and says so plainly where it is not.

use std::path::PathBuf;
use std::{env, fs};

/// The repository's root, seen from this package.
const ROOT: &str = "..";

/// Where the library is written, seen from the repository's root.
const LIBRARY_DIR: &str = "crates/xbm_c/out";

fn main() {
    println!("cargo::rustc-check-cfg=cfg(has_original)");
    println!("cargo::rustc-check-cfg=cfg(has_library)");
    println!("cargo::rerun-if-env-changed=XBM_LIB_DIR");
    println!("cargo::rerun-if-changed=build.rs");

    // Told by the oracle's build script.
    if env::var_os("DEP_XBM_ORIGINAL_PRESENT").is_some() {
        println!("cargo::rustc-cfg=has_original");
    }

    // A relative path counts from the repository's root.
    let package = PathBuf::from(env::var_os("CARGO_MANIFEST_DIR").unwrap());
    let given = env::var_os("XBM_LIB_DIR").unwrap_or(LIBRARY_DIR.into());
    let dir = package.join(ROOT).join(given);
    let library = dir.join("libxbm_c.a");
    println!("cargo::rerun-if-changed={}", library.display());
    if let Ok(made) = fs::metadata(&library).and_then(|about| about.modified()) {
        println!("cargo::rustc-link-search=native={}", dir.display());
        println!("cargo::rustc-link-lib=static=xbm_c");
        println!("cargo::rustc-cfg=has_library");
        // The programs ask at each run whether this is still the library, and newer than its sources.
        println!("cargo::rustc-env=XBM_LIBRARY={}", library.display());
        println!("cargo::rustc-env=XBM_LIBRARY_MADE={made:?}");
    } else {
        let shown = library.display();
        println!("cargo::warning=the proved reader is not at {shown}");
        println!(
            "cargo::warning=make it with `rt lib` in crates/xbm_c, or set XBM_LIB_DIR to its folder"
        );
        println!("cargo::warning=until then `compare` and `bench` only say that it is missing");
    }
}

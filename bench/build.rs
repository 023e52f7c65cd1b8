//! Links the proved solver's static library, unless the feature `standin` puts
//! the plain solver in its place. That of the counts, which `tests/scans.rs`
//! links, is only watched. For the feature `copies` the linker puts the
//! functions of `src/copies.rs` in place of the C library's.

use std::env;
use std::path::Path;

/// The Rattle crate whose static library has the functions `panel_run_text`,
/// `panel_values`, `panel_saved` and `panel_resumed`.
const LIBRARY: &str = "panel_c";

/// The Rattle crate whose static library has the function `panel_scans`.
const COUNTS: &str = "counting";

fn main() {
    println!("cargo::rerun-if-changed=build.rs");
    if env::var_os("CARGO_FEATURE_COPIES").is_some() {
        for name in ["memcpy", "memmove", "memset"] {
            println!("cargo::rustc-link-arg-bins=-Wl,--wrap={name}");
        }
    }
    if env::var_os("CARGO_FEATURE_STANDIN").is_some() {
        return;
    }
    let package = env::var("CARGO_MANIFEST_DIR").expect("cargo sets it");
    let folder = Path::new(&package).join("../target/staticlib");
    let archive = folder.join(format!("lib{LIBRARY}.a"));
    println!("cargo::rerun-if-changed={}", archive.display());
    if !archive.exists() {
        println!(
            "cargo::error=there is no {}: write it with `.ci/build {LIBRARY}` at the top of \
             the repository, or build with `--features standin`",
            archive.display()
        );
        return;
    }
    let counts = folder.join(format!("lib{COUNTS}.a"));
    if counts.exists() {
        println!("cargo::rerun-if-changed={}", counts.display());
    }
    println!("cargo::rustc-link-search=native={}", folder.display());
    println!("cargo::rustc-link-lib=static={LIBRARY}");
}

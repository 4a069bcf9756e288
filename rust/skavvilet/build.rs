//! Finds libhost.a, the proved library: in SKAVVILET_LIB_DIR, else in the repository's
//! target/staticlib, where `.ci/library` writes it.

use std::path::PathBuf;
use std::{env, fs};

const VARIABLE: &str = "SKAVVILET_LIB_DIR";

fn main() {
    println!("cargo:rerun-if-env-changed={VARIABLE}");
    let own = PathBuf::from(env::var_os("CARGO_MANIFEST_DIR").expect("cargo sets it"));
    let folder = match env::var_os(VARIABLE) {
        Some(folder) => PathBuf::from(folder),
        None => own.join("../../target/staticlib"),
    };
    let library = folder.join("libhost.a");
    println!("cargo:rerun-if-changed={}", library.display());
    match fs::canonicalize(&folder) {
        Ok(folder) if library.is_file() => {
            println!("cargo:rustc-link-search=native={}", folder.display());
        }
        // `cargo check` and `cargo doc` need no library; linking will fail with this above it.
        _ => println!(
            "cargo:warning=no {}: run `.ci/library`, or set {VARIABLE}",
            library.display()
        ),
    }
    println!("cargo:rustc-link-lib=static=host");
}

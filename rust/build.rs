//! Links libhoglidra.a from `HOGLIDRA_LIB_DIR`, or from where `make archive` leaves it.

use std::env;
use std::path::Path;

fn main() {
    println!("cargo::rerun-if-env-changed=HOGLIDRA_LIB_DIR");
    let chosen = env::var_os("HOGLIDRA_LIB_DIR").unwrap_or_else(|| "../target".into());
    let directory = Path::new(env!("CARGO_MANIFEST_DIR")).join(chosen);
    let archive = directory.join("libhoglidra.a");
    println!("cargo::rerun-if-changed={}", archive.display());
    if !archive.is_file() {
        println!(
            "cargo::error=no {}: `make archive` at the repository's root makes it",
            archive.display()
        );
        return;
    }
    println!("cargo::rustc-link-search=native={}", directory.display());
    println!("cargo::rustc-link-lib=static=hoglidra");
}

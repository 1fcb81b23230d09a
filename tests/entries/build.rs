//! Links the archive `liblafindry.a`. It is looked for in the folder that
//! LAFINDRY_ARCHIVE_DIR names, else in `target/staticlib`; both are taken from
//! the root of the repository unless absolute.

use std::path::Path;

fn main() {
    println!("cargo:rerun-if-env-changed=LAFINDRY_ARCHIVE_DIR");
    let named = std::env::var("LAFINDRY_ARCHIVE_DIR").unwrap_or("target/staticlib".to_string());
    let package = std::env::var("CARGO_MANIFEST_DIR").expect("cargo names the package's folder");
    let folder = Path::new(&package).join("../..").join(named);
    let archive = folder.join("liblafindry.a");
    println!("cargo:rerun-if-changed={}", archive.display());
    if !archive.exists() {
        eprintln!("{} is missing: build it first, or set LAFINDRY_ARCHIVE_DIR", archive.display());
        std::process::exit(1);
    }
    println!("cargo:rustc-link-search=native={}", folder.display());
    println!("cargo:rustc-link-lib=static=lafindry");
}

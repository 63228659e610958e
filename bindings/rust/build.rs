//! Links `libhouse.a` from the folder `$TRIMTHUEL_LIB`, or from where `scripts/library` writes it in this repository.

use std::env;
use std::path::{Path, PathBuf};
use std::process::ExitCode;

fn folder() -> PathBuf {
    let built = concat!(env!("CARGO_MANIFEST_DIR"), "/../../target/staticlib");
    env::var_os("TRIMTHUEL_LIB").map_or_else(|| Path::new(built).into(), PathBuf::from)
}

fn main() -> ExitCode {
    let folder = folder();
    let library = folder.join("libhouse.a");
    println!("cargo:rerun-if-changed=build.rs");
    println!("cargo:rerun-if-env-changed=TRIMTHUEL_LIB");
    println!("cargo:rerun-if-changed={}", library.display());
    if !library.is_file() {
        eprintln!(
            "{} is missing: run `scripts/library` in the repository's folder, or set TRIMTHUEL_LIB to the folder that has libhouse.a",
            library.display()
        );
        return ExitCode::FAILURE;
    }
    println!("cargo:rustc-link-search=native={}", folder.display());
    println!("cargo:rustc-link-lib=static=house");
    ExitCode::SUCCESS
}

//! Tells cargo where the proved library's archive is.

use std::env;
use std::path::PathBuf;

/// Names the archive's folder in place of the repository's own `target/archive`.
const FOLDER: &str = "LOAFAWNING_STATICLIB";

fn main() {
    println!("cargo:rerun-if-env-changed={FOLDER}");
    let folder = match env::var_os(FOLDER) {
        Some(folder) => PathBuf::from(folder),
        None => PathBuf::from(env!("CARGO_MANIFEST_DIR")).join("../../target/archive"),
    };
    let archive = folder.join("libloafawning.a");
    println!("cargo:rerun-if-changed={}", archive.display());
    if !archive.is_file() {
        eprintln!(
            "There is no {}. Make it with `./archive`, or name its folder in {FOLDER}.",
            archive.display()
        );
        std::process::exit(1);
    }
    let folder = folder
        .canonicalize()
        .expect("the archive's folder is there");
    println!("cargo:rustc-link-search=native={}", folder.display());
    println!("cargo:rustc-link-lib=static=loafawning");
}

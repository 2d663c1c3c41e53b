//! Finds the static library that `tools/library.sh` writes.

use std::env;
use std::fs;
use std::path::PathBuf;
use std::process;

/// Names another folder in which the library stands.
const FOLDER_VARIABLE: &str = "ENONKASSE_LIBRARY";

/// From this manifest.
const FOLDER: &str = "../../target/staticlib";

/// The object that holds the exported functions.
const OBJECT: &[u8] = b"host_c.o";

fn main() {
    println!("cargo:rerun-if-env-changed={}", FOLDER_VARIABLE);
    let folder = match env::var_os(FOLDER_VARIABLE) {
        Some(folder) => PathBuf::from(folder),
        None => {
            let manifest = env::var_os("CARGO_MANIFEST_DIR").expect("cargo says where it is");
            PathBuf::from(manifest).join(FOLDER)
        }
    };
    let archive = folder.join("libhost.a");
    println!("cargo:rerun-if-changed={}", archive.display());
    let bytes = fs::read(&archive).unwrap_or_default();
    if !bytes.windows(OBJECT.len()).any(|part| part == OBJECT) {
        eprintln!("{} is not there, or not whole: tools/library.sh makes it", archive.display());
        process::exit(1);
    }
    println!("cargo:rustc-link-search=native={}", folder.display());
    println!("cargo:rustc-link-lib=static=host");
}

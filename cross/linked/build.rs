//! Links `libhanuzak.a`, which `./run cells` builds below build/; `HANUZAK_ARCHIVE_DIR` names another folder.

use std::env;
use std::path::PathBuf;

const VARIABLE: &str = "HANUZAK_ARCHIVE_DIR";

fn main() {
    let here = PathBuf::from(env::var_os("CARGO_MANIFEST_DIR").unwrap_or_default());
    let folder = match env::var_os(VARIABLE) {
        Some(folder) => PathBuf::from(folder),
        None => here.join("../../build"),
    };
    let archive = folder.join("libhanuzak.a");
    println!("cargo::rerun-if-env-changed={VARIABLE}");
    println!("cargo::rerun-if-changed={}", archive.display());
    if !archive.is_file() {
        let place = archive.display();
        println!("cargo::error={place} is not there: run `./run cells </dev/null` at the top, or say in {VARIABLE} where it is");
        return;
    }
    println!("cargo::rustc-link-search=native={}", folder.display());
    println!("cargo::rustc-link-lib=static=hanuzak");
}

//! Links the static library of the proved engine, and the engine without check 2 beside it.

use std::path::{Path, PathBuf};
use std::{env, process};

/// Another library than the one that tools/archive.py puts in target/staticlib.
const VARIABLE: &str = "FALTXIGOR_LIBRARY";

/// The engine without check 2, an archive of its own in the same folder.
const UNCHECKED: &str = "libunchecked.a";

fn main() {
    println!("cargo:rerun-if-env-changed={VARIABLE}");
    let root = Path::new(env!("CARGO_MANIFEST_DIR")).join("../..");
    let library = match env::var_os(VARIABLE) {
        Some(path) => PathBuf::from(path),
        None => root.join("target/staticlib/liblibrary.a"),
    };
    link(&library.with_file_name(UNCHECKED));
    link(&library);
}

fn link(archive: &Path) {
    let archive = archive.canonicalize().unwrap_or_else(|_| missing(archive));
    let name = archive.file_stem().and_then(|stem| stem.to_str()?.strip_prefix("lib"));
    let (Some(folder), Some(name)) = (archive.parent(), name) else { missing(&archive) };
    println!("cargo:rerun-if-changed={}", archive.display());
    println!("cargo:rustc-link-search=native={}", folder.display());
    println!("cargo:rustc-link-lib=static={name}");
}

fn missing(archive: &Path) -> ! {
    eprintln!("no static library at {}", archive.display());
    eprintln!("build it with `./test library unchecked` at the root,");
    eprintln!("or set {VARIABLE} to the path of a lib*.a that has {UNCHECKED} beside it");
    process::exit(1)
}

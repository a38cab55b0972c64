//! Says where the engine's static archive lies, if the feature `engine` asks for it, and writes `plain` and `replay` with
//! the faults of `faults/` as switches, if the feature `faults` does.

#[path = "build/switches.rs"]
mod switches;

use std::env;
use std::path::PathBuf;

/// A folder that has `libc_api.a`, in place of the repository's own.
const FOLDER: &str = "RAPYHEO_ARCHIVE_DIR";

fn link_engine() {
    println!("cargo:rerun-if-env-changed={FOLDER}");
    let folder = match env::var_os(FOLDER) {
        Some(folder) => PathBuf::from(folder),
        None => PathBuf::from(env!("CARGO_MANIFEST_DIR")).join("../target/staticlib"),
    };
    let folder = folder.display();
    println!("cargo:rerun-if-changed={folder}/libc_api.a");
    println!("cargo:rustc-link-search=native={folder}");
    println!("cargo:rustc-link-lib=static=c_api");
}

fn main() {
    println!("cargo:rerun-if-changed=build.rs");
    println!("cargo:rerun-if-changed=build");
    if env::var_os("CARGO_FEATURE_ENGINE").is_some() {
        link_engine();
    }
    if env::var_os("CARGO_FEATURE_FAULTS").is_some() {
        for folder in ["faults", "src/plain", "src/replay"] {
            println!("cargo:rerun-if-changed={folder}");
        }
        let out = PathBuf::from(env::var_os("OUT_DIR").expect("cargo sets it"));
        switches::write(&out);
    }
}

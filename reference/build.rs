//! Finds the archive of the proved library and has it linked.

use std::env;
use std::path::PathBuf;
use std::process::exit;

fn main() {
    println!("cargo:rerun-if-changed=build.rs");
    println!("cargo:rerun-if-env-changed=RT_STATICLIB_DIR");
    if env::var_os("CARGO_FEATURE_PROVED").is_none() {
        return;
    }

    let here = PathBuf::from(env::var_os("CARGO_MANIFEST_DIR").expect("cargo sets it"));
    let folder = match env::var_os("RT_STATICLIB_DIR") {
        Some(folder) => here.join(folder),
        None => here.join("../target/staticlib"),
    };
    let archive = folder.join("libbinding.a");
    println!("cargo:rerun-if-changed={}", archive.display());
    if !archive.is_file() {
        eprintln!("The proved library is not at {}.", archive.display());
        eprintln!("Run `./build-library` at the root of the repository to make it,");
        eprintln!("or name the folder that has libbinding.a in RT_STATICLIB_DIR.");
        eprintln!(
            "`cargo test --release --offline --no-default-features` does without the library."
        );
        exit(1);
    }
    println!("cargo:rustc-link-search=native={}", folder.display());
    println!("cargo:rustc-link-lib=static=binding");
}

//! Finds the archive and has it linked: in the folder that `CALLPLAN_DIR` names, in `dist` at the root of the repository,
//! or where the `callplan.pc` of an installed library says that it is.

use std::collections::HashMap;
use std::env;
use std::fs;
use std::path::{Path, PathBuf};
use std::process::exit;

/// Where pkg-config looks after the folders of `PKG_CONFIG_PATH`, unless `PKG_CONFIG_LIBDIR` names others.
const USUAL_FOLDERS: &str = "/usr/local/lib/x86_64-linux-gnu/pkgconfig:/usr/local/lib64/pkgconfig:/usr/local/lib/pkgconfig:\
    /usr/local/share/pkgconfig:/usr/lib/x86_64-linux-gnu/pkgconfig:/usr/lib64/pkgconfig:/usr/lib/pkgconfig:/usr/share/pkgconfig";

fn main() {
    println!("cargo:rerun-if-changed=build.rs");
    for name in ["CALLPLAN_DIR", "PKG_CONFIG_PATH", "PKG_CONFIG_LIBDIR"] {
        println!("cargo:rerun-if-env-changed={name}");
    }
    let here = PathBuf::from(env::var_os("CARGO_MANIFEST_DIR").expect("cargo sets it"));
    let folder = match env::var_os("CALLPLAN_DIR") {
        Some(folder) if PathBuf::from(&folder).is_relative() => {
            eprintln!("CALLPLAN_DIR is relative, {folder:?}: name the folder from the root on.");
            exit(1);
        }
        Some(folder) => PathBuf::from(folder),
        None => {
            let dist = here.join("../../dist");
            println!(
                "cargo:rerun-if-changed={}",
                dist.join("libcallplan.a").display()
            );
            if has_archive(&dist) {
                dist
            } else {
                installed().unwrap_or(dist)
            }
        }
    };
    let archive = folder.join("libcallplan.a");
    println!("cargo:rerun-if-changed={}", archive.display());
    if !has_archive(&folder) {
        eprintln!("The archive is not at {}.", archive.display());
        eprintln!("Run ./build-library at the root of the repository to make it,");
        eprintln!("name the folder that has libcallplan.a in CALLPLAN_DIR,");
        eprintln!("or name that of an installed callplan.pc in PKG_CONFIG_PATH.");
        exit(1);
    }
    println!("cargo:rustc-link-search=native={}", folder.display());
    println!("cargo:rustc-link-lib=static=callplan");
}

fn has_archive(folder: &Path) -> bool {
    folder.join("libcallplan.a").is_file()
}

/// The folder of an installed archive: the `libdir` of the first `callplan.pc` that there is, in the order of pkg-config.
fn installed() -> Option<PathBuf> {
    let named = env::var_os("PKG_CONFIG_PATH").unwrap_or_default();
    let usual = env::var_os("PKG_CONFIG_LIBDIR").unwrap_or_else(|| USUAL_FOLDERS.into());
    env::split_paths(&named)
        .chain(env::split_paths(&usual))
        .filter(|folder| folder.is_absolute())
        .find_map(|folder| library_folder(&folder))
}

/// The `libdir` of the `callplan.pc` in a folder: lines NAME=VALUE, in which `${NAME}` stands for a value above it.
fn library_folder(folder: &Path) -> Option<PathBuf> {
    let page = fs::read_to_string(folder.join("callplan.pc")).ok()?;
    println!(
        "cargo:rerun-if-changed={}",
        folder.join("callplan.pc").display()
    );
    let mut values = HashMap::from([("pcfiledir".to_string(), folder.to_str()?.to_string())]);
    for (name, value) in page.lines().filter_map(|line| line.split_once('=')) {
        let mut value = value.trim().to_string();
        for (known, meaning) in &values {
            value = value.replace(&format!("${{{known}}}"), meaning);
        }
        values.insert(name.trim().to_string(), value);
    }
    values.remove("libdir").map(PathBuf::from)
}

//! Links Cakirotu's static library, the first of these that is named or there:
//! - what CAKIROTU_LIB names: its folder, or an archive with any name that has the same functions,
//! - in the repository `tools/made abi`'s, and no other, so that nothing older is linked there,
//! - that of the prefix in which `make install` put these sources,
//! - that of the folder that pkg-config names.

use std::env;
use std::path::{Path, PathBuf};
use std::process::Command;

/// The archive as `tools/made abi` names it, and as `make install` does.
const NAMES: [&str; 2] = ["libabi.a", "libcakirotu.a"];

fn main() {
    println!("cargo:rerun-if-changed=build.rs");
    for name in ["CAKIROTU_LIB", "PKG_CONFIG_PATH", "PKG_CONFIG_LIBDIR"] {
        println!("cargo:rerun-if-env-changed={name}");
    }
    if env::var("CARGO_CFG_TARGET_ARCH").as_deref() != Ok("x86_64") {
        stop("the library is for x86-64 alone");
    }
    let archive = archive();
    println!("cargo:rerun-if-changed={}", archive.display());
    if !archive.is_file() {
        stop(&format!("there is no {}; `tools/made abi` makes it, and CAKIROTU_LIB names its folder", archive.display()));
    }
    println!("cargo:rustc-link-search=native={}", archive.parent().unwrap().display());
    println!("cargo:rustc-link-lib=static:+verbatim={}", archive.file_name().unwrap().to_str().unwrap());
}

fn archive() -> PathBuf {
    let here = PathBuf::from(env::var_os("CARGO_MANIFEST_DIR").unwrap());
    match env::var_os("CAKIROTU_LIB") {
        Some(path) if !path.is_empty() => named(PathBuf::from(path)),
        _ if here.join("../c/cakirotu.h").is_file() => here.join("../../target/staticlib").join(NAMES[0]),
        _ => installed(&here),
    }
}

/// An archive, or the one in a folder.
fn named(path: PathBuf) -> PathBuf {
    if path.extension() == Some("a".as_ref()) {
        return path;
    }
    let [made, installed] = NAMES.map(|name| path.join(name));
    if installed.is_file() && !made.is_file() {
        installed
    } else {
        made
    }
}

/// These sources are in share/cakirotu/rust of the prefix, unless they were copied.
fn installed(here: &Path) -> PathBuf {
    let beside = here.join("../../../lib").join(NAMES[1]);
    if beside.is_file() {
        beside
    } else {
        told_folder().join(NAMES[1])
    }
}

fn told_folder() -> PathBuf {
    let told = Command::new("pkg-config").args(["--variable=libdir", "cakirotu"]).output();
    match told {
        Ok(told) if told.status.success() => PathBuf::from(String::from_utf8_lossy(&told.stdout).trim()),
        _ => stop("no library is found: CAKIROTU_LIB names its folder, or PKG_CONFIG_PATH that of cakirotu.pc"),
    }
}

fn stop(why: &str) -> ! {
    eprintln!("cakirotu: {why}");
    std::process::exit(1);
}

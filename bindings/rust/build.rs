//! Finds the planner's archive and links it. `ZULAGBEMI_LIB_DIR` names a folder with a built `libzulagbemi.a`, as
//! `bindings/c/install.sh` installs it; without it `bindings/archive.sh` proves and builds the planner with `rt`, the
//! command of the Rattle toolchain.

use std::ffi::OsStr;
use std::path::{Path, PathBuf};
use std::process::Command;
use std::{env, fs};

/// Proves the planner in the repository that this crate stands in, and puts the archive into cargo's own folder.
fn prove(bindings: &Path) -> PathBuf {
    let folder = PathBuf::from(env::var_os("OUT_DIR").expect("cargo names OUT_DIR"));
    let script = bindings.join("archive.sh");
    assert!(
        script.is_file(),
        "outside its repository this crate needs ZULAGBEMI_LIB_DIR to name a folder with libzulagbemi.a"
    );
    let ran = Command::new("bash").arg(&script).arg(&folder).output();
    let done = ran.unwrap_or_else(|error| panic!("bash {}: {error}", script.display()));
    assert!(done.status.success(), "{}:\n{}", script.display(), String::from_utf8_lossy(&done.stderr));
    for part in ["archive.sh", "../crates", "../crates.txt"] {
        println!("cargo::rerun-if-changed={}", bindings.join(part).display());
    }
    folder
}

/// The folder that ZULAGBEMI_LIB_DIR names. Where a pkg-config file was installed with the archive, it is of this crate's
/// version.
fn named(folder: &OsStr) -> PathBuf {
    let found = fs::canonicalize(folder).unwrap_or_else(|error| panic!("ZULAGBEMI_LIB_DIR, {folder:?}: {error}"));
    println!("cargo::rerun-if-changed={}", found.join("libzulagbemi.a").display());
    let installed = found.join("pkgconfig/zulagbemi.pc");
    if let Ok(said) = fs::read_to_string(&installed) {
        let version = concat!("Version: ", env!("CARGO_PKG_VERSION"));
        assert!(said.lines().any(|line| line == version), "{} does not say {version:?}", installed.display());
    }
    found
}

fn main() {
    println!("cargo::rerun-if-changed=build.rs");
    println!("cargo::rerun-if-env-changed=ZULAGBEMI_LIB_DIR");
    let folder = match env::var_os("ZULAGBEMI_LIB_DIR").filter(|folder| !folder.is_empty()) {
        Some(folder) => named(&folder),
        None => prove(&Path::new(env!("CARGO_MANIFEST_DIR")).join("..")),
    };
    let archive = folder.join("libzulagbemi.a");
    assert!(archive.is_file(), "{} is not there", archive.display());
    println!("cargo::rustc-link-search=native={}", folder.display());
    println!("cargo::rustc-link-lib=static=zulagbemi");
    // for this crate's own tests, and for the build scripts of crates that use this one
    println!("cargo::rustc-env=ZULAGBEMI_LINKED={}", folder.display());
    println!("cargo::metadata=lib_dir={}", folder.display());
}

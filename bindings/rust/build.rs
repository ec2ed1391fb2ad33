//! Finds the library, and links its archive or, where only that is there, the shared library.
//!
//! It is looked for in the folder `MODINFO_LIB_DIR`; if that isn't set, in the folder `lib` of this crate, in the
//! folder `build` of the repository, and where pkg-config says. Nothing is needed for `cargo check` and `cargo doc`,
//! so a library that is missing is a warning here, and an error when a program is linked.

use std::env;
use std::path::{Path, PathBuf};
use std::process::Command;

const ARCHIVE: &str = "libmodinfo.a";
const SHARED: &str = "libmodinfo.so";

fn main() {
    for variable in ["MODINFO_LIB_DIR", "PKG_CONFIG_LIBDIR", "PKG_CONFIG_PATH"] {
        println!("cargo:rerun-if-env-changed={variable}");
    }
    let folders = folders();
    for folder in &folders {
        println!("cargo:rerun-if-changed={}", folder.join(ARCHIVE).display());
    }
    let found = folders
        .iter()
        .find_map(|folder| kind(folder).map(|kind| (folder, kind)));
    if let Some((folder, kind)) = found {
        println!("cargo:rustc-link-search=native={}", folder.display());
        println!("cargo:rustc-link-lib={kind}=modinfo");
    } else {
        println!("cargo:rustc-link-lib=static=modinfo");
        println!("cargo:warning={}", missing(&folders));
    }
}

/// The folders that may have the library, in the order of the search.
fn folders() -> Vec<PathBuf> {
    if let Some(folder) = env::var_os("MODINFO_LIB_DIR").filter(|folder| !folder.is_empty()) {
        return vec![folder.into()];
    }
    let here =
        PathBuf::from(env::var_os("CARGO_MANIFEST_DIR").expect("cargo sets CARGO_MANIFEST_DIR"));
    let mut folders = vec![here.join("lib"), here.join("../../build")];
    folders.extend(installed());
    folders
}

/// The folder that pkg-config names. A library for another machine than this isn't looked for there.
fn installed() -> Option<PathBuf> {
    if env::var_os("HOST") != env::var_os("TARGET") {
        return None;
    }
    let words = ["--variable=libdir", "modinfo"];
    let output = Command::new("pkg-config").args(words).output().ok()?;
    let folder = String::from_utf8(output.stdout).ok()?;
    (output.status.success() && !folder.trim().is_empty()).then(|| folder.trim().into())
}

fn kind(folder: &Path) -> Option<&'static str> {
    if folder.join(ARCHIVE).is_file() {
        Some("static")
    } else if folder.join(SHARED).is_file() {
        Some("dylib")
    } else {
        None
    }
}

fn missing(folders: &[PathBuf]) -> String {
    let folders: Vec<_> = folders
        .iter()
        .map(|folder| folder.display().to_string())
        .collect();
    format!(
        "{ARCHIVE} isn't in {}: set MODINFO_LIB_DIR to its folder, install the package libmodinfo-dev, or run \
         tools/build_library in the repository of modinfo",
        folders.join(" or ")
    )
}

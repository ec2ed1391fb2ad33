//! Programs over the crate, built where the tests are, so that the crates below this one are compiled once.

use std::fs;
use std::path::{Path, PathBuf};
use std::process::Command;

/// The folder of the crate.
pub fn here() -> &'static Path {
    Path::new(env!("CARGO_MANIFEST_DIR"))
}

/// A new folder for files of a test.
pub fn room(name: &str) -> PathBuf {
    let folder = Path::new(env!("CARGO_TARGET_TMPDIR")).join(name);
    let _ = fs::remove_dir_all(&folder);
    fs::create_dir_all(&folder).expect("a folder");
    folder
}

/// Writes a file, and the folder that it is in.
pub fn write(path: &Path, text: &str) {
    fs::create_dir_all(path.parent().expect("a folder")).expect("a folder");
    fs::write(path, text).expect("a file");
}

/// Writes a program over the crate that is in another folder.
pub fn write_program(folder: &Path, modinfo: &Path, source: &str) {
    let name = folder.file_name().expect("a name");
    let manifest = format!(
        "[package]\nname = {name:?}\nversion = \"0.1.0\"\nedition = \"2021\"\n\n[dependencies]\nmodinfo = {{ path = {modinfo:?} }}\n\n[workspace]\n"
    );
    write(&folder.join("Cargo.toml"), &manifest);
    write(&folder.join("src/main.rs"), source);
}

/// Cargo with these words, in a folder.
pub fn cargo(folder: &Path, words: &[&str]) -> Command {
    let tests = Path::new(env!("CARGO_TARGET_TMPDIR"));
    let mut cargo = Command::new(env!("CARGO"));
    cargo
        .args(words)
        .args(["--offline", "--target-dir"])
        .arg(tests.parent().expect("the folder of builds"))
        .current_dir(folder);
    cargo
}

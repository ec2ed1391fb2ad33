//! Where the crate finds the library: each in a copy of the crate, in a folder of its own.

use crate::program::{cargo, here, room, write, write_program};
use std::env;
use std::fs;
use std::path::{Path, PathBuf};
use std::process::{Command, Output};
use std::sync::{Mutex, PoisonError};

/// The folder with the library that these tests are linked with.
fn library() -> PathBuf {
    match env::var_os("MODINFO_LIB_DIR").filter(|folder| !folder.is_empty()) {
        Some(folder) => folder.into(),
        None => here().join("../../build"),
    }
}

/// One room builds and runs its program at a time.
static BUILDING: Mutex<()> = Mutex::new(());

/// A copy of the crate, and a program over it that prints the library's version.
struct Room(PathBuf);

impl Room {
    fn new(name: &str) -> Room {
        let room = room(name);
        let files = ["Cargo.toml", "build.rs", "MOVING.md", "README.md"];
        copy_files(here(), &room.join("modinfo"), &files);
        let sources = names(&here().join("src"));
        let sources: Vec<_> = sources.iter().map(String::as_str).collect();
        copy_files(&here().join("src"), &room.join("modinfo/src"), &sources);
        write_program(
            &room.join("program"),
            Path::new("../modinfo"),
            "fn main() {\n    print!(\"{} {}\", modinfo::version(), modinfo::analyze_json(b\"\").unwrap_err().fault());\n}\n",
        );
        Room(room)
    }

    fn cargo(&self, folder: &str, words: &[&str], environment: &[(&str, &Path)]) -> Output {
        let _building = BUILDING.lock().unwrap_or_else(PoisonError::into_inner);
        cargo(&self.0.join(folder), words)
            .env_remove("MODINFO_LIB_DIR")
            .env("PKG_CONFIG_LIBDIR", self.0.join("none"))
            .env("PKG_CONFIG_PATH", self.0.join("pkgconfig"))
            .envs(environment.iter().copied())
            .output()
            .expect("cargo")
    }

    fn runs(&self, environment: &[(&str, &Path)]) {
        let output = self.cargo("program", &["run"], environment);
        let printed = String::from_utf8_lossy(&output.stdout);
        let wanted = format!("{} Json", env!("CARGO_PKG_VERSION"));
        assert_eq!(
            printed,
            wanted,
            "{}",
            String::from_utf8_lossy(&output.stderr)
        );
    }
}

fn names(folder: &Path) -> Vec<String> {
    let entries = fs::read_dir(folder).expect("a folder");
    entries
        .map(|entry| {
            entry
                .expect("an entry")
                .file_name()
                .into_string()
                .expect("a name in UTF-8")
        })
        .collect()
}

fn copy_files(from: &Path, to: &Path, names: &[&str]) {
    fs::create_dir_all(to).expect("a folder");
    for name in names {
        fs::copy(from.join(name), to.join(name)).unwrap_or_else(|error| panic!("{name}: {error}"));
    }
}

#[test]
fn a_folder_that_the_environment_names() {
    Room::new("environment").runs(&[("MODINFO_LIB_DIR", &library())]);
}

#[test]
fn a_folder_of_the_crate() {
    let room = Room::new("own");
    copy_files(&library(), &room.0.join("modinfo/lib"), &["libmodinfo.a"]);
    room.runs(&[]);
}

/// Runs make_crate over the library in a folder.
fn make_crate(words: &[&str], library: &Path, to: &Path) -> Output {
    Command::new(here().join("make_crate"))
        .args(words)
        .arg(to)
        .env("MODINFO_LIB_DIR", library)
        .env_remove("MODINFO_UNCHECKED")
        .output()
        .expect("make_crate")
}

/// The folder of what is unpacked from the file that make_crate made in a folder.
fn unpack(folder: &Path) -> PathBuf {
    let file = format!("modinfo-{}.crate", env!("CARGO_PKG_VERSION"));
    let unpacked = Command::new("tar")
        .args(["-xzf", &file])
        .current_dir(folder)
        .status();
    assert!(unpacked.expect("tar").success());
    folder.join(file.trim_end_matches(".crate"))
}

/// What make_crate makes, unpacked in the place of the copy.
#[test]
fn the_crate_as_one_file() {
    let room = Room::new("file");
    let library = fs::canonicalize(library()).expect("a library");
    let made = make_crate(&["--unchecked"], &library, &room.0);
    assert!(
        made.status.success(),
        "{}",
        String::from_utf8_lossy(&made.stderr)
    );
    fs::remove_dir_all(room.0.join("modinfo")).expect("the copy");
    fs::rename(unpack(&room.0), room.0.join("modinfo")).expect("a crate");
    room.runs(&[]);
}

/// By its stamp, and without one. The file for pkg-config is in place of the stamp where the library is installed.
#[test]
fn a_library_that_is_not_proved() {
    let room = room("stamps");
    let library = room.join("library");
    write(&library.join("libmodinfo.a"), "!<arch>\n");
    let sum = "f0a17a43c74d2fe5474fa2fd29c8f14799e777d7d75a2cc4d11c20a6e7b161c5";
    let places = [
        ("none", "", 1),
        (
            "libmodinfo.a.origin",
            "unchecked\nsources 0123\nfile SUM\n",
            1,
        ),
        ("libmodinfo.a.origin", "proved\nsources 0123\nfile 0\n", 1),
        ("libmodinfo.a.origin", "proved\nsources 0123\nfile SUM\n", 0),
        ("pkgconfig/modinfo.pc", "build=unchecked\nsources=0123\n", 1),
        ("pkgconfig/modinfo.pc", "build=proved\nsources=0123\n", 0),
    ];
    for (name, stamp, status) in places {
        write(&library.join(name), &stamp.replace("SUM", sum));
        let made = make_crate(&[], &library, &room);
        let errors = String::from_utf8_lossy(&made.stderr);
        assert_eq!(made.status.code(), Some(status), "{stamp}{errors}");
        assert_eq!(errors.contains("isn't proved"), status == 1, "{errors}");
        let made = make_crate(&["--unchecked"], &library, &room);
        assert!(made.status.success());
        let manifest = fs::read_to_string(unpack(&room).join("Cargo.toml")).expect("Cargo.toml");
        let is_unchecked = manifest.contains("This build is unchecked: nothing is proved of it.\"");
        assert_eq!(is_unchecked, status == 1, "{manifest}");
        let build = if status == 0 { "proved" } else { "unchecked" };
        assert!(manifest.contains(&format!(
            "[package.metadata.modinfo]\nbuild = \"{build}\"\n"
        )));
        fs::remove_file(library.join(name)).expect("the stamp");
    }
}

#[test]
fn a_folder_that_pkg_config_names() {
    if Command::new("pkg-config")
        .arg("--version")
        .output()
        .is_err()
    {
        eprintln!("pkg-config isn't on the path, so this isn't tested");
        return;
    }
    let room = Room::new("pkg-config");
    copy_files(&library(), &room.0.join("somewhere"), &["libmodinfo.a"]);
    let libdir = room.0.join("somewhere");
    write(
        &room.0.join("pkgconfig/modinfo.pc"),
        &format!(
            "libdir={}\nName: modinfo\nDescription: modinfo\nVersion: 0.1.0\n",
            libdir.display()
        ),
    );
    room.runs(&[]);
}

#[test]
fn a_folder_with_the_shared_library_alone() {
    let room = Room::new("shared");
    let folder = room.0.join("somewhere");
    copy_files(&library(), &folder, &["libmodinfo.so"]);
    fs::copy(folder.join("libmodinfo.so"), folder.join("libmodinfo.so.0")).expect("a copy");
    room.runs(&[("MODINFO_LIB_DIR", &folder), ("LD_LIBRARY_PATH", &folder)]);
}

#[test]
fn no_library() {
    let room = Room::new("none");
    for words in [&["doc", "--no-deps"][..], &["check"]] {
        let output = room.cargo("modinfo", words, &[]);
        let errors = String::from_utf8_lossy(&output.stderr);
        assert!(output.status.success(), "{errors}");
        assert!(
            errors.contains("set MODINFO_LIB_DIR to its folder"),
            "{errors}"
        );
    }
    let output = room.cargo("program", &["build"], &[]);
    let errors = String::from_utf8_lossy(&output.stderr);
    assert!(!output.status.success());
    assert!(
        errors.contains("set MODINFO_LIB_DIR to its folder"),
        "{errors}"
    );
}

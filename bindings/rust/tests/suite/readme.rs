//! The program of the README, in a folder of its own, that in examples/, and the job in examples/ of the repository.

use crate::program::{cargo, here, room, write, write_program};
use crate::repository::root;
use std::fs;
use std::path::Path;

const README: &str = include_str!("../../README.md");

/// What is in the first block that begins so.
fn block(beginning: &str) -> &'static str {
    let (_, from) = README.split_once(beginning).expect(beginning);
    from.split_once("```").expect("its end").0
}

/// The status, and what a program in a folder prints on each stream.
fn run(folder: &Path, words: &[&str]) -> (bool, String, String) {
    let run = cargo(folder, &["run", "--quiet"]).args(words).output();
    let run = run.expect("cargo");
    let text = |bytes| String::from_utf8(bytes).expect("UTF-8");
    (run.status.success(), text(run.stdout), text(run.stderr))
}

#[test]
fn the_example_prints_what_the_readme_says() {
    let folder = room("readme");
    write_program(&folder, here(), block("```rust\n"));
    let wanted = block("```text\n").to_owned();
    assert_eq!(run(&folder, &[]), (true, wanted, String::new()));
}

/// The program in examples/, on a file of the repository's examples and on one with a syntax error.
#[test]
fn the_example_of_files() {
    let broken = room("broken").join("broken.js");
    write(&broken, "let a = ;");
    let good = root().join("examples/messages.js");
    let (good, broken) = (good.display().to_string(), broken.display().to_string());
    let wanted = fs::read_to_string(root().join("examples/messages.out.json"));
    let printed = format!("{good}: {}", wanted.expect("an output"));
    let fault = format!(
        "{broken}: Syntax at /source at line 1, column 9 (offset 8): expected an expression\n"
    );
    let words = ["--example", "dependencies", &good, &broken];
    assert_eq!(run(here(), &words), (false, printed, fault));
}

/// Over the sources among the repository's examples, and over files with faults.
#[test]
fn the_job() {
    let job = fs::read_to_string(root().join("examples/job/job.rs")).expect("the job");
    let folder = room("job");
    write_program(&folder, here(), &job);
    let examples = fs::canonicalize(root().join("examples")).expect("the examples");
    let names = fs::read_dir(&examples).expect("the examples").map(|entry| {
        let name = entry.expect("an entry").file_name();
        format!("examples/{}", name.into_string().expect("UTF-8"))
    });
    let mut names: Vec<_> = names
        .filter(|name| name.ends_with('s') && name.contains('.'))
        .collect();
    names.sort_by(|one, other| other.cmp(one));
    std::os::unix::fs::symlink(&examples, folder.join("examples")).expect("a link");
    let words: Vec<_> = ["--"]
        .into_iter()
        .chain(names.iter().map(String::as_str))
        .collect();
    let wanted = fs::read_to_string(examples.join("job/expected")).expect("a table");
    assert_eq!(run(&folder, &words), (true, wanted, String::new()));
    write(
        &folder.join("a.ts"),
        "import('a/b'); import(`${x}`); import '@c/d/e'; import 'https:f';",
    );
    write(&folder.join("b.ts"), "let a = ;");
    let (has_passed, table, errors) = run(&folder, &["--", "b.ts", "a.ts", "c.ts"]);
    assert_eq!(
        (has_passed, table.as_str()),
        (false, "1 @c/d\n1 a\n\na.ts\n")
    );
    let errors: Vec<_> = errors
        .lines()
        .filter_map(|line| line.split_once(": "))
        .collect();
    assert_eq!(
        errors.iter().map(|error| error.0).collect::<Vec<_>>(),
        ["b.ts", "c.ts"]
    );
    assert!(
        errors[0]
            .1
            .starts_with("Syntax at /source at line 1, column 9"),
        "{errors:?}"
    );
}

//! The test cases and examples of one document, many documents at once.

use crate::repository::{examples, test_cases, Call};
use modinfo::{answer_lines, Command};
use std::thread;

const COMMANDS: [(&str, Command); 6] = [
    ("analyze", Command::Analyze),
    ("convert", Command::Convert),
    ("reach", Command::Reach),
    ("check", Command::Check),
    ("check convert", Command::CheckConvert),
    ("check reach", Command::CheckReach),
];

/// The calls of a command whose document is one line.
fn calls_of(command: &str) -> Vec<Call> {
    let calls = examples().into_iter().chain(test_cases());
    calls
        .filter(|call| call.command == command && !call.document.contains(&b'\n'))
        .collect()
}

fn documents_of(calls: &[Call]) -> Vec<u8> {
    let documents: Vec<_> = calls.iter().map(|call| &call.document[..]).collect();
    documents.join(&b'\n')
}

/// What is printed for the calls of a command, by the test cases.
fn wanted_of(command: &str, calls: &[Call]) -> String {
    let line = |call: &Call| match &call.wanted {
        Ok(report) if command.starts_with("check") => format!("{report}\n"),
        Ok(answer) => format!("{{\"answer\":{answer}}}\n"),
        Err(fault) => format!("{{\"fault\":\"{fault}\"}}\n"),
    };
    calls.iter().map(line).collect()
}

#[test]
fn each_document_has_its_line() {
    for (name, command) in COMMANDS {
        let calls = calls_of(name);
        assert!(calls.len() > 1, "{name}");
        let lines = answer_lines(command, &documents_of(&calls));
        assert_eq!(lines, Ok(wanted_of(name, &calls)), "{name}");
    }
}

#[test]
fn threads_side_by_side() {
    let calls = calls_of("analyze");
    thread::scope(|scope| {
        for part in calls.chunks(calls.len() / 4 + 1) {
            scope.spawn(move || {
                let lines = answer_lines(Command::Analyze, &documents_of(part));
                assert_eq!(lines, Ok(wanted_of("analyze", part)));
            });
        }
    });
}

#[test]
fn no_line_and_an_empty_one() {
    let lines = |documents: &[u8]| answer_lines(Command::Convert, documents);
    assert_eq!(lines(b""), Ok(String::new()));
    assert_eq!(lines(b"\n"), Ok("{\"fault\":\"Json\"}\n".to_owned()));
    assert_eq!(
        lines(b"1\n\n2"),
        Ok("{\"answer\":1}\n{\"fault\":\"Json\"}\n{\"answer\":2}\n".to_owned())
    );
}

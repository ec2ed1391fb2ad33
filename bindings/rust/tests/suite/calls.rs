//! The examples and the test cases, one by one and in many threads at once.

use crate::repository::{blocks, examples, field, root, test_cases};
use modinfo::{
    analyze_estree, analyze_estree_json, analyze_json, check, check_convert, check_convert_json,
    check_estree_json, check_json, check_reach, check_reach_json, convert, convert_json, reach,
    reach_json, Fault, Report,
};
use serde_json::Value;
use std::collections::BTreeSet;
use std::sync::Barrier;
use std::{fs, thread};

#[test]
fn each_example_has_its_answer() {
    let examples = examples();
    for command in ["analyze", "convert", "reach"] {
        assert!(
            examples.iter().any(|example| example.command == command),
            "{command}"
        );
    }
    examples.iter().for_each(|example| example.check());
}

#[test]
fn each_example_is_valid() {
    for example in examples() {
        let check = match example.command.as_str() {
            "convert" => check_convert,
            "reach" => check_reach,
            _ => check,
        };
        let report = check(&example.document).expect("a report");
        assert!(report.is_valid(), "{}", example.name);
        assert_eq!(report.as_fault(), None);
        match report {
            Report::Valid(report) => assert_eq!((report.warnings.len(), report.more), (0, None)),
            Report::Invalid(report) => panic!("{}: {report:?}", example.name),
        }
    }
}

#[test]
fn each_test_case_has_its_answer() {
    test_cases().iter().for_each(|case| case.check());
}

#[test]
fn the_test_cases_have_each_fault_but_those_of_memory_and_defects() {
    let faults: BTreeSet<String> = test_cases()
        .iter()
        .filter_map(|case| case.answer().err())
        .inspect(|fault| assert!(!matches!(fault, Fault::Unknown(_)), "{fault}"))
        .map(|fault| fault.to_string())
        .collect();
    let source = include_str!("../../src/fault.rs");
    let (_, lines) = source.split_once("faults! {").expect("the list");
    let (lines, _) = lines.split_once('}').expect("its end");
    let lines = lines
        .lines()
        .filter_map(|line| line.trim().strip_suffix(','));
    let names = lines.filter(|name| name.bytes().all(|byte| byte.is_ascii_alphabetic()));
    assert_eq!(
        faults,
        names
            .filter(|name| !matches!(*name, "OutOfMemory" | "Defect"))
            .map(str::to_owned)
            .collect()
    );
}

#[test]
fn eight_threads_at_once() {
    let calls: Vec<_> = examples().into_iter().chain(test_cases()).collect();
    let together = Barrier::new(8);
    thread::scope(|scope| {
        for number in 0..8 {
            let (calls, together) = (&calls, &together);
            scope.spawn(move || {
                together.wait();
                let (ahead, first) = calls.split_at(number * 37);
                first.iter().chain(ahead).for_each(|call| call.check());
            });
        }
    });
}

#[test]
fn an_answer_longer_than_its_document() {
    let types = format!("./{}.d.ts", "t".repeat(2000));
    let comment = format!(" @ts-types='{types}'");
    let start = comment.len() + 3;
    let import = format!(
        r#"{{"kind":"ImportDecl","range":[{start},{start}],"src":{{"value":"a","range":[{start},{start}]}}}}"#
    );
    let imports = vec![import; 200].join(",");
    let document = format!(
        r#"{{"specifier":"file:///a.ts","mediaType":"TypeScript","source":"//{comment}\n",
        "program":{{"range":[{start},{start}],"body":[{imports}]}},
        "leading":[{{"pos":{start},"comments":[{{"kind":"line","range":[0,{}],"text":"{comment}"}}]}}]}}"#,
        start - 1
    );
    let answer = analyze_json(document.as_bytes()).expect("an answer");
    assert_eq!(answer.matches(&types).count(), 200);
    assert!(answer.len() > 10 * document.len());
    assert!(answer.ends_with('}'));
}

#[test]
fn an_empty_document_is_no_json() {
    assert_eq!(analyze_json(b"").map_err(Fault::from), Err(Fault::Json));
}

#[test]
fn bytes_that_are_no_utf_8() {
    for document in [
        &b"\xff"[..],
        b"{\"source\":\"\xff\"}",
        b"{\"source\":\"\xed\xa0\x80\"}",
    ] {
        assert_eq!(
            analyze_json(document).map_err(Fault::from),
            Err(Fault::Input)
        );
    }
}

#[test]
fn the_version_is_the_program_s() {
    let text = fs::read_to_string(root().join("crates/test_replay/data/program.rows"))
        .expect("the test cases");
    let cases = blocks(&text);
    let case = cases
        .iter()
        .find(|case| field(case, "call").as_deref() == Some("serve --version"));
    let printed = case.and_then(|case| field(case, "output"));
    assert_eq!(
        printed,
        Some(format!("modinfo {}", env!("CARGO_PKG_VERSION")))
    );
    assert_eq!(modinfo::version().to_string(), env!("CARGO_PKG_VERSION"));
}

#[test]
fn a_fault_is_an_error() {
    let fault: Box<dyn std::error::Error + Send + Sync> = Box::new(Fault::Tree);
    assert_eq!(fault.to_string(), "Tree");
}

#[test]
fn an_error_has_the_report_on_its_document() {
    let document = br#"{"specifier":"file:///a.js","mediaType":"JavaScript","source":"","program":{"range":[0,16],"body":[]}}"#;
    let error = analyze_json(document).expect_err("a fault");
    assert_eq!(error.fault(), &Fault::RangeOutside);
    assert_eq!(error.report_json(), check_json(document).ok().as_deref());
    let report = check(document).expect("a report");
    assert_eq!(error.report(), report.as_fault());
    // The report is read once.
    let (first, second) = (error.pointer().expect("a pointer"), error.pointer());
    assert!(std::ptr::eq(first, second.expect("a pointer")));
    assert_eq!(
        error.to_string(),
        "RangeOutside at /program/range (bytes 0 to 16): expected an end of at most 0, the source's length"
    );
    let error: Box<dyn std::error::Error + Send + Sync> = Box::new(error);
    assert!(error.to_string().lines().count() == 1);
}

#[test]
fn the_report_in_an_error_is_that_of_the_command() {
    for case in test_cases().into_iter().filter(|case| case.wanted.is_err()) {
        let (error, report) = match case.command.as_str() {
            "analyze" => (analyze_json(&case.document), check_json(&case.document)),
            "analyze --estree" => (
                analyze_estree_json(&case.document),
                check_estree_json(&case.document),
            ),
            "convert" => (
                convert_json(&case.document),
                check_convert_json(&case.document),
            ),
            "reach" => (reach_json(&case.document), check_reach_json(&case.document)),
            _ => continue,
        };
        let error = error.expect_err(&case.name);
        let report = report.expect("a report");
        assert_eq!(error.report_json(), Some(&*report), "{}", case.name);
        // As serde reads it.
        let read: Report = serde_json::from_str(&report).expect(&report);
        assert_eq!(error.report(), read.as_fault(), "{}", case.name);
        assert!(
            error.to_string().starts_with(error.fault().name()),
            "{error}"
        );
    }
}

/// The values of the answers, as serde reads them from the texts.
#[test]
fn answers_as_values() {
    let mut count = 0;
    for case in test_cases().into_iter().chain(examples()) {
        let wanted: Value = match &case.wanted {
            Ok(wanted) => serde_json::from_str(wanted).expect("JSON"),
            Err(_) => continue,
        };
        let found = match case.command.as_str() {
            "convert" => convert(&case.document).expect(&case.name),
            "reach" => reach(&case.document).expect(&case.name).into(),
            "analyze --estree" => {
                let info = analyze_estree(&case.document).expect(&case.name);
                serde_json::to_value(info).expect("JSON")
            }
            "check convert" => {
                serde_json::to_value(check_convert(&case.document).expect(&case.name))
                    .expect("JSON")
            }
            _ => continue,
        };
        assert_eq!(found, wanted, "{}", case.name);
        count += 1;
    }
    assert!(count > 100, "{count}");
}

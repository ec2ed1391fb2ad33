//! The types of documents and reports: each test case is read and written back.

use crate::repository::{examples, test_cases};
use modinfo::{
    analyze, analyze_json, check, ByteRange, DocumentNode, Fault, ImportPhase, MediaType,
    ModuleDocument, ModuleInfo, NodeKind, ProgramTree, Report, StringLiteral,
};
use serde_json::Value;

#[test]
fn each_valid_document_has_the_same_answer_when_it_is_written_back() {
    let mut count = 0;
    for call in examples().into_iter().chain(test_cases()) {
        // serde refuses a key with a member that nothing reads.
        if call.name == "key_that_is_a_name" {
            continue;
        }
        if let ("analyze", Ok(wanted)) = (call.command.as_str(), &call.wanted) {
            // The reader of documents lets the last of equal members count, and serde refuses them.
            let value: Value = serde_json::from_slice(&call.document).expect("JSON");
            let document: ModuleDocument = serde_json::from_value(value)
                .unwrap_or_else(|error| panic!("{}: {error}", call.name));
            let info: ModuleInfo = serde_json::from_str(wanted).expect("information");
            assert_eq!(analyze(&document), Ok(info), "{}", call.name);
            let json = serde_json::to_vec(&document).expect("JSON");
            assert_eq!(analyze_json(&json).as_ref(), Ok(wanted), "{}", call.name);
            count += 1;
        }
    }
    assert!(count > 100, "{count}");
}

#[test]
fn each_report_is_read_and_written_back() {
    let (mut valid, mut invalid) = (0, 0);
    for call in test_cases() {
        if let (true, Ok(wanted)) = (call.command.starts_with("check"), &call.wanted) {
            let report: Report = serde_json::from_str(wanted)
                .unwrap_or_else(|error| panic!("{}: {error}", call.name));
            match &report {
                Report::Valid(_) => valid += 1,
                Report::Invalid(fault) => {
                    assert!(!matches!(fault.fault, Fault::Unknown(_)), "{}", call.name);
                    invalid += 1;
                }
            }
            let json: Value = serde_json::from_str(wanted).expect("JSON");
            assert_eq!(
                serde_json::to_value(report).ok(),
                Some(json),
                "{}",
                call.name
            );
        }
    }
    assert!(valid > 5 && invalid > 100, "{valid} {invalid}");
}

/// The document of `import "./b.ts";`, whose import ends after so many bytes.
fn import(end: usize) -> ModuleDocument {
    let import = NodeKind::ImportDecl {
        type_only: false,
        phase: ImportPhase::Evaluation,
        src: StringLiteral {
            value: "./b.ts".into(),
            range: ByteRange { start: 7, end: 15 },
        },
        has_specifiers: false,
        has_with: false,
    };
    let range = ByteRange { start: 0, end };
    ModuleDocument {
        specifier: "file:///b.ts".to_owned(),
        media_type: MediaType::TypeScript,
        source: r#"import "./b.ts";"#.to_owned(),
        program: ProgramTree {
            range: ByteRange { start: 0, end: 16 },
            body: vec![DocumentNode {
                range,
                children: vec![],
                kind: import,
            }],
            shebang: false,
        },
        leading: vec![],
        trailing: vec![],
    }
}

#[test]
fn a_document_that_is_made_in_code() {
    let info = analyze(&import(16)).expect("information");
    let wanted = r#"{"dependencies":[{"kind":"import","sideEffect":true,"specifier":"./b.ts","specifierRange":[[0,7],[0,15]],"type":"static"}]}"#;
    assert_eq!(serde_json::from_str(wanted).ok(), Some(info));
}

#[test]
fn the_parts_of_an_error() {
    let error = analyze(&import(99)).expect_err("a fault");
    assert_eq!(error.name(), "RangeOutside");
    assert_eq!(error.pointer(), Some("/program/body/0/range"));
    assert_eq!((error.range(), error.offset()), (Some(0..99), Some(0)));
    assert_eq!(error.position(), None);
    let expected = "an end of at most 16, the source's length";
    assert_eq!(error.expected(), Some(expected));
    let error = analyze_json(b"{\n ]").expect_err("no JSON");
    assert_eq!((error.pointer(), error.range()), (None, None));
    assert_eq!(error.offset(), Some(3));
    assert_eq!(error.position(), Some(modinfo::Position::new(1, 1)));
    assert!(check(b"{\n ]").is_ok());
}

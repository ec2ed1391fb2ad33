//! The types of what `analyze` returns: what is found in each example and test case, and in generated documents, is read and
//! written back.

use crate::repository::{examples, root, test_cases, Call};
use modinfo::{
    DependencyDescriptor, DynamicArgument, DynamicDependencyKind, DynamicTemplatePart,
    ImportAttribute, ImportAttributes, JsDocImportInfo, ModuleInfo, Position, PositionRange,
    SpecifierWithRange, StaticDependencyDescriptor, StaticDependencyKind, TypeScriptReference,
    TypeScriptTypesResolutionMode,
};
use std::process::Command;

fn read(json: &str) -> ModuleInfo {
    serde_json::from_str(json).unwrap_or_else(|error| panic!("{error}: {json}"))
}

/// The JSON with its keys in their order, as the library writes it.
fn written(info: &ModuleInfo) -> String {
    serde_json::to_value(info).expect("JSON").to_string()
}

fn range(start: usize, end: usize) -> PositionRange {
    let place = |character| Position { line: 0, character };
    PositionRange {
        start: place(start),
        end: place(end),
    }
}

/// Reads and writes back the answers to documents of `analyze`, and returns how many there are.
fn written_back(calls: Vec<Call>) -> usize {
    let mut count = 0;
    for call in calls.iter().filter(|call| call.command == "analyze") {
        call.check();
        if let Ok(line) = &call.wanted {
            assert_eq!(&written(&read(line)), line, "{}", call.name);
            count += 1;
        }
    }
    count
}

#[test]
fn each_example_is_read_and_written_back() {
    assert!(written_back(examples()) > 10);
}

#[test]
fn each_test_case_is_read_and_written_back() {
    assert!(written_back(test_cases()) > 100);
}

#[test]
fn generated_documents_are_read_and_written_back() {
    let generated = Command::new("/usr/bin/python3")
        .arg(root().join("bindings/tests/generated_documents.py"))
        .arg("1000")
        .output()
        .expect("python3");
    let documents = String::from_utf8(generated.stdout).expect("UTF-8");
    assert_eq!(documents.lines().count(), 1000);
    for document in documents.lines() {
        let line = modinfo::analyze_json(document.as_bytes()).expect(document);
        assert_eq!(written(&read(&line)), line);
    }
}

#[test]
fn a_static_dependency() {
    let line = r#"{"dependencies":[{"importAttributes":{"known":{"a":null,"type":"json"}},"kind":"importType","sideEffect":true,"specifier":"./b","specifierRange":[[0,7],[0,12]],"type":"static","typesSpecifier":{"range":[[0,1],[0,4]],"text":"c"}}]}"#;
    let values = [
        ("a".to_owned(), ImportAttribute::Unknown),
        ("type".to_owned(), ImportAttribute::Known("json".to_owned())),
    ];
    let dependency = StaticDependencyDescriptor {
        kind: StaticDependencyKind::ImportType,
        types_specifier: Some(SpecifierWithRange {
            text: "c".to_owned(),
            range: range(1, 4),
        }),
        specifier: "./b".to_owned(),
        specifier_range: range(7, 12),
        is_side_effect: true,
        import_attributes: ImportAttributes::Known(values.into_iter().collect()),
    };
    assert_eq!(dependency.import_attributes.get("type"), Some("json"));
    assert_eq!(dependency.import_attributes.get("a"), None);
    let info = ModuleInfo {
        dependencies: vec![dependency.into()],
        ..ModuleInfo::default()
    };
    assert_eq!(read(line), info);
    assert_eq!(written(&info), line);
}

#[test]
fn dynamic_dependencies() {
    let line = r#"{"dependencies":[{"argument":[{"type":"string","value":"./"},{"type":"expr"}],"argumentRange":[[0,7],[0,14]],"importAttributes":"unknown","type":"dynamic"},{"argument":"a","argumentRange":[[0,7],[0,10]],"kind":"require","type":"dynamic"},{"argumentRange":[[0,7],[0,8]],"type":"dynamic"}]}"#;
    let info = read(line);
    let found: Vec<_> = info
        .dependencies
        .iter()
        .map(|each| each.as_dynamic().expect("a call"))
        .map(|call| (call.kind, call.argument.clone()))
        .collect();
    let parts = vec![
        DynamicTemplatePart::String {
            value: "./".to_owned(),
        },
        DynamicTemplatePart::Expr,
    ];
    let wanted = [
        (
            DynamicDependencyKind::Import,
            DynamicArgument::Template(parts),
        ),
        (
            DynamicDependencyKind::Require,
            DynamicArgument::String("a".to_owned()),
        ),
        (DynamicDependencyKind::Import, DynamicArgument::Expr),
    ];
    assert_eq!(found, wanted);
    let attributes: Vec<_> = info
        .dependencies
        .iter()
        .map(DependencyDescriptor::import_attributes)
        .collect();
    let none = &ImportAttributes::None;
    assert_eq!(attributes, [&ImportAttributes::Unknown, none, none]);
    assert_eq!(written(&info), line);
}

#[test]
fn references_and_imports_of_comments() {
    let line = r#"{"jsdocImports":[{"range":[[0,1],[0,4]],"resolutionMode":"import","text":"a"}],"script":true,"tsReferences":[{"range":[[0,1],[0,4]],"text":"b","type":"path"},{"range":[[0,1],[0,4]],"resolutionMode":"require","text":"c","type":"types"},{"range":[[0,1],[0,4]],"text":"d","type":"types"}]}"#;
    let specifier = |text: &str| SpecifierWithRange {
        text: text.to_owned(),
        range: range(1, 4),
    };
    let info = ModuleInfo {
        is_script: true,
        ts_references: vec![
            TypeScriptReference::Path(specifier("b")),
            TypeScriptReference::Types {
                specifier: specifier("c"),
                resolution_mode: Some(TypeScriptTypesResolutionMode::Require),
            },
            TypeScriptReference::Types {
                specifier: specifier("d"),
                resolution_mode: None,
            },
        ],
        jsdoc_imports: vec![JsDocImportInfo {
            specifier: specifier("a"),
            resolution_mode: Some(TypeScriptTypesResolutionMode::Import),
        }],
        ..ModuleInfo::default()
    };
    assert_eq!(read(line), info);
    assert_eq!(written(&info), line);
}

#[test]
fn what_is_left_out_and_what_is_ignored() {
    assert_eq!(written(&ModuleInfo::default()), "{}");
    assert_eq!(read(r#"{"later":[1.5]}"#), ModuleInfo::default());
    let null =
        r#"{"dependencies":[{"argument":null,"argumentRange":[[0,0],[0,0]],"type":"dynamic"}]}"#;
    assert!(read(null).dependencies[0]
        .as_dynamic()
        .expect("a call")
        .argument
        .is_expr());
    for wrong in [
        r#"{"script":null}"#,
        r#"{"dependencies":[{"type":"static"}]}"#,
        r#"{"sourceMapUrl":{"text":"a","range":[[0,0]]}}"#,
        r#"{"sourceMapUrl":{"text":"a","range":[[0,0],[0,-1]]}}"#,
        r#"{"sourceMapUrl":{"text":"a","range":[[0,0],[0,0],[0,0]]}}"#,
    ] {
        assert!(
            serde_json::from_str::<ModuleInfo>(wrong).is_err(),
            "{wrong}"
        );
    }
}

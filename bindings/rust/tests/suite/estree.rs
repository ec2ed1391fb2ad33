//! Documents with the tree of a parser.

use modinfo::{
    analyze_estree, analyze_estree_json, answer_lines, check_estree, check_estree_json, Command,
    Fault,
};

const INFO: &str = r#"{"dependencies":[{"kind":"import","sideEffect":true,"specifier":"./b.js","specifierRange":[[1,34],[1,42]],"type":"static","typesSpecifier":{"range":[[1,13],[1,23]],"text":"./b.d.ts"}}]}"#;

/// The document of a text of two lines. Its offsets are `more` above those in UTF-16 units.
fn document(unit: &str, more: usize) -> String {
    let [first, start, end] = [5, 6, 32].map(|offset| offset + more);
    let [import, import_end, literal, literal_end] = [33, 49, 40, 48].map(|offset| offset + more);
    [
        r#"{"specifier":"file:///a.mjs","mediaType":"Mjs","#,
        r#""source":"// 😀\n/* @ts-types=\"./b.d.ts\" */ import \"./b.js\";","#,
        &format!(r#""offsets":"{unit}","comments":[{{"start":0,"end":{first}}},"#),
        &format!(r#"{{"range":[{start},{end}]}}],"program":{{"type":"Program","body":["#),
        &format!(r#"{{"type":"ImportDeclaration","start":{import},"end":{import_end},"#),
        &format!(r#""source":{{"type":"Literal","range":[{literal},{literal_end}],"#),
        r#""value":"./b.js"}}]}}"#,
    ]
    .concat()
}

#[test]
fn a_tree_by_utf_16_units_and_by_bytes() {
    for document in [document("utf16", 0), document("utf8", 2)] {
        let info = analyze_estree_json(document.as_bytes());
        assert_eq!(info.as_deref(), Ok(INFO));
        let info = analyze_estree(document.as_bytes()).expect("information");
        assert_eq!(serde_json::from_str(INFO).ok(), Some(info));
        let report = check_estree_json(document.as_bytes());
        assert_eq!(report.as_deref(), Ok(r#"{"valid":true}"#));
    }
}

#[test]
fn a_tree_of_another_text_has_a_range_and_no_pointer() {
    let document = document("utf8", 99);
    let error = analyze_estree(document.as_bytes()).expect_err("a fault");
    assert_eq!(error.fault(), &Fault::RangeOutside);
    let report = check_estree(document.as_bytes()).expect("a report");
    assert_eq!(error.report(), report.as_fault());
    assert!(
        error.to_string().starts_with("RangeOutside (bytes "),
        "{error}"
    );
}

#[test]
fn a_tree_of_another_form_has_a_pointer() {
    let document = document("utf32", 0);
    let error = analyze_estree(document.as_bytes()).expect_err("a fault");
    assert!(
        error.to_string().starts_with("Tree at /offsets: "),
        "{error}"
    );
}

#[test]
fn lines() {
    let documents = [document("utf16", 0), "{}".to_owned(), document("utf8", 99)].join("\n");
    let lines = answer_lines(Command::AnalyzeEstree, documents.as_bytes());
    let answer = format!("{{\"answer\":{INFO}}}\n");
    let faults = "{\"fault\":\"Tree\"}\n{\"fault\":\"RangeOutside\"}\n";
    assert_eq!(lines, Ok(answer + faults));
    let reports = answer_lines(Command::CheckEstree, documents.as_bytes()).expect("reports");
    let wanted = documents
        .lines()
        .map(|line| check_estree_json(line.as_bytes()));
    assert!(
        reports.lines().map(str::to_owned).map(Ok).eq(wanted),
        "{reports}"
    );
}

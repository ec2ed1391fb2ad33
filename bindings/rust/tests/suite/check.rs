//! A report of each kind.

use modinfo::{
    analyze_json, check_convert_json, check_json, check_reach_json, convert_json, reach_json,
    Error, Fault,
};

type Check = fn(&[u8]) -> Result<String, Fault>;
type Command = fn(&[u8]) -> Result<String, Error>;

/// Each command's check, and the command itself.
const ANALYZE: (Check, Command) = (check_json, analyze_json);
const CONVERT: (Check, Command) = (check_convert_json, convert_json);
const REACH: (Check, Command) = (check_reach_json, reach_json);

/// A module with one import, a line comment or neither, as its tree and comments have it.
fn document(specifier: &str, source: &str, program: &str, leading: &str) -> String {
    format!(
        r#"{{"specifier":"{specifier}","mediaType":"TypeScript","source":"{source}","program":{program},"leading":[{leading}]}}"#
    )
}

/// The same, where its import has these members too.
fn import(members: &str) -> String {
    let program = format!(
        r#"{{"range":[0,16],"body":[{{"kind":"ImportDecl","src":{{"value":"./b.ts","range":[7,15]}},{members}}}]}}"#
    );
    document("file:///a.ts", "import './b.ts';", &program, "")
}

/// A document of nothing but a line comment, with these filed.
fn comments(filed: &[(&str, &str)]) -> String {
    let filed: Vec<_> = filed
        .iter()
        .map(|(range, text)| format!(r#"{{"kind":"line","range":{range},"text":"{text}"}}"#))
        .collect();
    let leading = format!(r#"{{"pos":3,"comments":[{}]}}"#, filed.join(","));
    document(
        "file:///a.ts",
        "//b",
        r#"{"range":[3,3],"body":[]}"#,
        &leading,
    )
}

/// A command, a document of it, and the fault of its report, without what was expected.
fn faults() -> Vec<((Check, Command), Vec<u8>, &'static str)> {
    let of_program = |program| document("file:///a.ts", "é", program, "").into_bytes();
    let of_import = |members| import(members).into_bytes();
    let of_comments = |filed| comments(filed).into_bytes();
    vec![
        (
            ANALYZE,
            b"{\"gr\xc3\xb6\xc3\x9fe\":\"\xff\"}".to_vec(),
            r#""Input","at":{"line":0,"column":10,"offset":12}"#,
        ),
        (
            ANALYZE,
            "{\n \"größe\": 1,\n \"ä\": ]\n}".into(),
            r#""Json","at":{"line":2,"column":6,"offset":24}"#,
        ),
        (
            ANALYZE,
            b"".to_vec(),
            r#""Json","at":{"line":0,"column":0,"offset":0}"#,
        ),
        (ANALYZE, b"{}".to_vec(), r#""Tree","pointer":"""#),
        (
            ANALYZE,
            of_import(r#""range":[0]"#),
            r#""Tree","pointer":"/program/body/0/range""#,
        ),
        (
            ANALYZE,
            document("./a.ts", "", r#"{"range":[0,0],"body":[]}"#, "").into(),
            r#""Specifier","pointer":"/specifier""#,
        ),
        (
            ANALYZE,
            of_program(r#"{"range":[2,0],"body":[]}"#),
            r#""RangeReversed","pointer":"/program/range","range":[2,0]"#,
        ),
        (
            ANALYZE,
            of_import(r#""range":[0,99]"#),
            r#""RangeOutside","pointer":"/program/body/0/range","range":[0,99]"#,
        ),
        (
            ANALYZE,
            of_program(r#"{"range":[1,2],"body":[]}"#),
            r#""RangeOffBoundary","pointer":"/program/range","range":[1,2]"#,
        ),
        (
            ANALYZE,
            of_comments(&[("[0,3]", "a")]),
            r#""CommentText","pointer":"/leading/0/comments/0","range":[0,3]"#,
        ),
        (
            ANALYZE,
            of_comments(&[("[0,3]", "b"), ("[0,2]", "")]),
            r#""CommentsOverlap","pointer":"/leading/0/comments/1","other":"/leading/0/comments/0","range":[0,2]"#,
        ),
        (
            ANALYZE,
            of_import(r#""range":[0,16],"hasWith":true"#),
            r#""Shape","pointer":"/program/body/0","range":[0,16]"#,
        ),
        (
            CONVERT,
            br#"{"a/b":[0,0.5]}"#.to_vec(),
            r#""Float","pointer":"/a~1b/1""#,
        ),
        (
            CONVERT,
            br#"{"dependencies":[{"leadingComments":[{"range":[[0,18446744073709551615],[0,0]],"text":"@deno-types=a"}]}]}"#.to_vec(),
            r#""ColumnOverflow","pointer":"/dependencies/0/leadingComments/0/range/0/1""#,
        ),
        (
            REACH,
            br#"{"root":"a","modules":{"~":{"script":1}}}"#.to_vec(),
            r#""Shape","pointer":"/modules/~0/script""#,
        ),
    ]
}

#[test]
fn a_document_with_a_fault() {
    for ((check, command), document, wanted) in faults() {
        let report = check(&document).expect("a report");
        let expected = report.strip_prefix(&format!(r#"{{"fault":{wanted},"expected":""#));
        assert!(
            expected.map_or(false, |text| text.len() > 2 && text.ends_with("\"}")),
            "{report}"
        );
        let error = command(&document).expect_err("a fault");
        let fault = error.fault();
        assert!(
            report.starts_with(&format!(r#"{{"fault":"{fault}""#)),
            "{report}"
        );
    }
}

#[test]
fn what_was_expected() {
    assert_eq!(
        check_json(import(r#""range":[0,99]"#).as_bytes()).as_deref(),
        Ok(
            r#"{"fault":"RangeOutside","pointer":"/program/body/0/range","range":[0,99],"expected":"an end of at most 16, the source's length"}"#
        )
    );
}

#[test]
fn warnings() {
    let valid = import(r#""range":[0,16]"#);
    assert_eq!(
        check_json(valid.as_bytes()).as_deref(),
        Ok(r#"{"valid":true}"#)
    );
    let unread = import(r#""range":[0,16],"child":[]"#);
    assert_eq!(
        check_json(unread.as_bytes()).as_deref(),
        Ok(
            r#"{"valid":true,"warnings":[{"pointer":"/program/body/0/child","says":"nothing reads a member of this name here"}]}"#
        )
    );
    let many: Vec<_> = (0..103)
        .map(|number| format!(r#","child{number}":0"#))
        .collect();
    let many = many.concat();
    let report =
        check_json(import(&format!(r#""range":[0,16]{many}"#)).as_bytes()).expect("a report");
    assert!(
        report.starts_with(r#"{"valid":true,"warnings":[{"#) && report.ends_with(r#"],"more":3}"#)
    );
    assert_eq!(report.matches("\"says\":").count(), 100);
}

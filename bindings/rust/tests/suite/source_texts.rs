//! Source texts: those of the examples, and those of the test cases with a document of `analyze --source`.

use crate::repository::{blocks, field, root};
use modinfo::{check_source, check_source_json, module_info, module_info_json};
use modinfo::{Fault, MediaType, ModuleInfo};
use modinfo::{Position, Url};
use serde_json::Value;
use std::fs;

fn url(text: &str) -> Url {
    Url::parse(text).expect(text)
}

/// The parts of a document of `analyze --source`. `None` if it has none.
fn parts_of(document: &str) -> Option<(String, Url, Option<MediaType>)> {
    let value: Value = serde_json::from_str(document).ok()?;
    let media_type = match value.get("mediaType") {
        Some(name) => Some(serde_json::from_value(name.clone()).ok()?),
        None => None,
    };
    let specifier = Url::parse(value.get("specifier")?.as_str()?).ok()?;
    Some((
        value.get("source")?.as_str()?.to_owned(),
        specifier,
        media_type,
    ))
}

/// The trees of the examples are those of other parsers, and the outputs were written by hand.
#[test]
fn each_example_has_its_answer() {
    let folder = root().join("examples");
    let mut count = 0;
    for entry in fs::read_dir(&folder).expect("the examples") {
        let path = entry.expect("an entry").path();
        let name = path.file_name().and_then(|name| name.to_str());
        let name = name.expect("a name in UTF-8");
        let stem = name.split('.').next().expect("a stem");
        let wanted = folder.join(format!("{stem}.out.json"));
        let document = folder.join(format!("{stem}.json"));
        if name.ends_with(".json") || !wanted.exists() {
            continue;
        }
        let document = fs::read_to_string(document).expect("a document");
        let (text, specifier, media_type) = parts_of(&document).expect("its parts");
        assert_eq!(
            text,
            fs::read_to_string(&path).expect("a source"),
            "{path:?}"
        );
        let wanted = fs::read_to_string(wanted).expect("an output");
        let wanted = wanted.trim_end();
        let read: ModuleInfo = serde_json::from_str(wanted).expect("information");
        assert_eq!(
            module_info_json(&text, &specifier, media_type).as_deref(),
            Ok(wanted)
        );
        assert_eq!(
            module_info(&text, &specifier, None).as_ref(),
            Ok(&read),
            "{path:?}"
        );
        let valid = r#"{"valid":true}"#.to_owned();
        assert_eq!(check_source_json(&text, &specifier, media_type), Ok(valid));
        count += 1;
    }
    assert!(count > 10, "{count}");
}

#[test]
fn each_test_case_has_its_answer() {
    let rows = fs::read_to_string(root().join("crates/test_replay/data/program.rows"));
    let mut count = 0;
    for case in blocks(&rows.expect("the test cases")) {
        if field(&case, "call").as_deref() != Some("serve analyze --source") {
            continue;
        }
        let document = field(&case, "input").expect("a document");
        if let Some((text, specifier, media_type)) = parts_of(&document) {
            let answer = module_info_json(&text, &specifier, media_type);
            let wanted = match field(&case, "errors") {
                Some(fault) => Err(fault.trim_start_matches("modinfo: ").to_owned()),
                None => Ok(field(&case, "output").expect("an output")),
            };
            assert_eq!(answer.map_err(|error| error.name().to_owned()), wanted);
            count += 1;
        }
    }
    assert!(count > 1, "{count}");
}

/// acorn 8 reports `Unterminated string constant (1:7)` and `Unexpected token (2:8)` for the first two, with lines
/// from one; TypeScript reports the second at the same place.
#[test]
fn where_a_syntax_error_is() {
    for (text, position, offset) in [
        ("import \"a", Position::new(0, 7), 7),
        ("let a;\nlet b = ;", Position::new(1, 8), 15),
        ("let größe;\nlet b = ;", Position::new(1, 8), 21),
    ] {
        let error = module_info(text, &url("file:///a.js"), None).expect_err(text);
        assert_eq!(
            (error.fault(), error.name()),
            (&Fault::Syntax, "Syntax"),
            "{text}"
        );
        assert_eq!(error.position(), Some(position), "{text}");
        assert_eq!(error.offset(), Some(offset), "{text}");
        assert_eq!(error.pointer(), Some("/source"), "{text}");
        assert_eq!(error.range(), None, "{text}");
        let report = check_source(text, &url("file:///a.js"), None).expect("a report");
        assert_eq!(error.report(), report.as_fault());
        let line = format!(
            "Syntax at /source at line {}, column {} (",
            position.line + 1,
            position.character + 1
        );
        assert!(error.to_string().starts_with(&line), "{error}");
    }
}

#[test]
fn a_media_type_counts_before_that_of_the_specifier() {
    let text = "let x: import('./b.ts').T;";
    assert!(module_info(text, &url("file:///a.ts"), None).is_ok());
    assert!(module_info(text, &url("file:///a"), Some(MediaType::TypeScript)).is_ok());
    let error = module_info(text, &url("file:///a.ts"), Some(MediaType::JavaScript));
    assert_eq!(error.expect_err("types").fault(), &Fault::Syntax);
}

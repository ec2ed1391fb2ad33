//! Media types: which one a specifier has, and their numbers.

use crate::repository::{blocks, field, root};
use modinfo::{MediaType, TypeScriptTypesResolutionMode, Url};
use std::fs;
use std::path::Path;

/// The lines `answer MEDIATYPE URL` of the test cases.
fn answers() -> Vec<(MediaType, String)> {
    let rows = fs::read_to_string(root().join("crates/test_replay/data/specifiers.rows"));
    let cases = blocks(&rows.expect("the test cases"));
    let lines = cases.iter().filter_map(|case| field(case, "answer"));
    let lines: Vec<String> = lines.collect();
    lines
        .iter()
        .flat_map(|lines| lines.lines())
        .map(|line| {
            let (name, url) = line.split_once(' ').expect("a media type and a URL");
            (named(name), url.to_owned())
        })
        .collect()
}

fn named(name: &str) -> MediaType {
    serde_json::from_str(&format!("{name:?}")).expect(name)
}

#[test]
fn the_media_type_of_each_specifier() {
    let answers = answers();
    assert!(answers.len() > 30);
    for (wanted, text) in answers {
        let url = Url::parse(&text).expect(&text);
        assert_eq!(MediaType::from_specifier(&url), wanted, "{text}");
        // The path of a folder has a name too.
        let is_path = url.as_str() == format!("file://{}", url.path());
        if is_path && !url.path().ends_with('/') {
            assert_eq!(
                MediaType::from_path(Path::new(url.path())),
                wanted,
                "{text}"
            );
        }
    }
}

#[test]
fn the_numbers_are_those_of_the_header() {
    let header = fs::read_to_string(root().join("include/modinfo.h")).expect("the header");
    let names = "JavaScript Jsx Mjs Cjs TypeScript Mts Cts Dts Dmts Dcts Tsx Json Other";
    for name in names.split(' ') {
        let line = format!(
            "    MODINFO_{} = {}",
            name.to_uppercase(),
            named(name) as u8
        );
        let is_there = header
            .lines()
            .any(|each| each.trim_end_matches(',') == line);
        assert!(is_there, "{line}");
        assert_eq!(named(name).to_string(), name);
        assert_eq!(name.parse(), Ok(named(name)));
        assert_eq!(named(name).is_jsx(), ["Jsx", "Tsx"].contains(&name));
    }
}

#[test]
fn other_texts_are_no_media_types() {
    for text in ["", "typescript", "TypeScript ", "ts", "a.ts", "Css"] {
        let error = text.parse::<MediaType>().expect_err(text);
        assert_eq!(error.to_string(), "the name of no media type");
    }
}

#[test]
fn media_types_with_types() {
    let rows = fs::read_to_string(root().join("crates/test_replay/data/media_types.rows"));
    let mut count = 0;
    for case in blocks(&rows.expect("the test cases")) {
        let answer = field(&case, "answer").expect("an answer");
        let (name, kind) = answer.split_once(' ').expect("a media type and its kind");
        assert_eq!(named(name).is_typed(), kind == "typed", "{name}");
        count += 1;
    }
    assert_eq!(count, 13);
}

#[test]
fn resolution_modes() {
    use TypeScriptTypesResolutionMode::{Import, Require};
    assert_eq!(
        TypeScriptTypesResolutionMode::from_str("import"),
        Some(Import)
    );
    assert_eq!(
        TypeScriptTypesResolutionMode::from_str("require"),
        Some(Require)
    );
    assert_eq!(TypeScriptTypesResolutionMode::from_str("Import"), None);
    assert_eq!(Import.as_deno_graph(), modinfo::ResolutionMode::Import);
    assert_eq!(Require.as_deno_graph(), modinfo::ResolutionMode::Require);
}

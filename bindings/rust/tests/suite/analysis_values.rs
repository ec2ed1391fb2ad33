//! The cases of deno_graph's tests of its file `analysis.rs`: values that are made by their fields, and the JSON of each.

use modinfo as deno_graph;

use deno_graph::analysis::{
    find_source_mapping_url, is_comment_triple_slash_reference, module_graph_1_to_2,
    DependencyDescriptor, DynamicArgument, DynamicDependencyDescriptor, DynamicDependencyKind,
    DynamicTemplatePart, ImportAttribute, ImportAttributes, JsDocImportInfo, ModuleInfo,
    SpecifierWithRange, StaticDependencyDescriptor, StaticDependencyKind, TypeScriptReference,
    TypeScriptTypesResolutionMode,
};
use deno_graph::{Position, PositionRange};
use serde::de::DeserializeOwned;
use serde::Serialize;
use serde_json::{json, Value};
use std::fmt::Debug;

#[track_caller]
fn is_json<T: DeserializeOwned + Serialize + Debug + Eq>(value: &T, wanted: Value) {
    assert_eq!(serde_json::to_value(value).expect("JSON"), wanted);
    assert_eq!(
        &serde_json::from_value::<T>(wanted).expect("a value"),
        value
    );
}

fn at(line: usize, character: usize) -> Position {
    Position { line, character }
}

fn named(text: &str) -> SpecifierWithRange {
    SpecifierWithRange {
        text: text.to_string(),
        range: PositionRange {
            start: Position::zeroed(),
            end: Position::zeroed(),
        },
    }
}

fn empty() -> ModuleInfo {
    ModuleInfo {
        is_script: false,
        dependencies: Vec::new(),
        ts_references: Vec::new(),
        self_types_specifier: None,
        jsx_import_source: None,
        jsx_import_source_types: None,
        jsdoc_imports: Vec::new(),
        source_map_url: None,
    }
}

fn with_dependencies(dependencies: Vec<DependencyDescriptor>) -> ModuleInfo {
    ModuleInfo {
        dependencies,
        ..empty()
    }
}

fn static_dependency(kind: StaticDependencyKind) -> StaticDependencyDescriptor {
    StaticDependencyDescriptor {
        kind,
        types_specifier: None,
        specifier: "./b.js".to_string(),
        specifier_range: PositionRange {
            start: at(2, 3),
            end: at(2, 11),
        },
        is_side_effect: false,
        import_attributes: ImportAttributes::None,
    }
}

fn dynamic_dependency(
    kind: DynamicDependencyKind,
    argument: DynamicArgument,
) -> DynamicDependencyDescriptor {
    DynamicDependencyDescriptor {
        kind,
        types_specifier: None,
        argument,
        argument_range: PositionRange {
            start: at(4, 0),
            end: at(5, 1),
        },
        import_attributes: ImportAttributes::None,
    }
}

fn text(value: &str) -> DynamicArgument {
    DynamicArgument::String(value.to_string())
}

fn known(value: Option<&str>) -> ImportAttribute {
    value.map_or(ImportAttribute::Unknown, |value| {
        ImportAttribute::Known(value.to_string())
    })
}

fn attributes<const N: usize>(values: [(&str, Option<&str>); N]) -> ImportAttributes {
    let values = values.map(|(key, value)| (key.to_string(), known(value)));
    ImportAttributes::Known(values.into())
}

#[test]
fn nothing() {
    is_json(&empty(), json!({}));
    assert_eq!(empty(), ModuleInfo::default());
}

#[test]
fn dependencies_of_a_script() {
    let mut with_types = static_dependency(StaticDependencyKind::ImportEquals);
    with_types.types_specifier = Some(named("./b.d.ts"));
    let mut with_attributes = dynamic_dependency(DynamicDependencyKind::Import, text("./c.js"));
    with_attributes.import_attributes =
        attributes([("z", None), ("type", Some("json")), ("a", None)]);
    let info = ModuleInfo {
        is_script: true,
        ..with_dependencies(vec![
            with_types.into(),
            with_attributes.into(),
            dynamic_dependency(DynamicDependencyKind::Require, text("./d.js")).into(),
        ])
    };
    let wanted = json!({"script": true, "dependencies": [
        {"type": "static", "kind": "importEquals", "specifier": "./b.js", "specifierRange": [[2, 3], [2, 11]],
            "typesSpecifier": {"text": "./b.d.ts", "range": [[0, 0], [0, 0]]}},
        {"type": "dynamic", "argument": "./c.js", "argumentRange": [[4, 0], [5, 1]],
            "importAttributes": {"known": {"a": null, "type": "json", "z": null}}},
        {"type": "dynamic", "kind": "require", "argument": "./d.js", "argumentRange": [[4, 0], [5, 1]]},
    ]});
    is_json(&info, wanted);
}

/// The text is the same for equal values, in whatever order the attributes are given.
#[test]
fn the_text_is_stable() {
    let keys = ["a", "b", "c", "d", "e", "f", "g", "h"];
    let texts: Vec<String> = (0..keys.len())
        .map(|first| {
            let mut dependency = static_dependency(StaticDependencyKind::Import);
            let values = keys.iter().cycle().skip(first).take(keys.len());
            let values = values.map(|key| ((*key).to_string(), known(None)));
            dependency.import_attributes = ImportAttributes::Known(values.collect());
            serde_json::to_string(&with_dependencies(vec![dependency.into()])).expect("JSON")
        })
        .collect();
    assert!(texts.iter().all(|each| *each == texts[0]), "{texts:?}");
    assert!(texts[0].contains(r#"{"a":null,"b":null,"c":null,"d":null,"#));
}

#[test]
fn references() {
    let types = |text, resolution_mode| TypeScriptReference::Types {
        specifier: named(text),
        resolution_mode,
    };
    let info = ModuleInfo {
        ts_references: vec![
            TypeScriptReference::Path(named("./a.d.ts")),
            types("b", None),
            types("c", Some(TypeScriptTypesResolutionMode::Require)),
            types("d", Some(TypeScriptTypesResolutionMode::Import)),
        ],
        ..empty()
    };
    let range = json!([[0, 0], [0, 0]]);
    let wanted = json!({"tsReferences": [
        {"type": "path", "text": "./a.d.ts", "range": range},
        {"type": "types", "text": "b", "range": range},
        {"type": "types", "text": "c", "range": range, "resolutionMode": "require"},
        {"type": "types", "text": "d", "range": range, "resolutionMode": "import"},
    ]});
    is_json(&info, wanted);
}

/// A function that sets a member, and the name of the member in JSON.
type Member = (fn(&mut ModuleInfo, SpecifierWithRange), &'static str);

#[test]
fn members_that_name_one_module() {
    let members: [Member; 4] = [
        (
            |info, named| info.self_types_specifier = Some(named),
            "selfTypesSpecifier",
        ),
        (
            |info, named| info.jsx_import_source = Some(named),
            "jsxImportSource",
        ),
        (
            |info, named| info.jsx_import_source_types = Some(named),
            "jsxImportSourceTypes",
        ),
        (
            |info, named| info.source_map_url = Some(named),
            "sourceMapUrl",
        ),
    ];
    for (set, name) in members {
        let mut info = empty();
        set(&mut info, named("./e"));
        is_json(
            &info,
            json!({ name: {"text": "./e", "range": [[0, 0], [0, 0]]} }),
        );
    }
}

#[test]
fn imports_of_jsdoc() {
    let import = |text, resolution_mode| JsDocImportInfo {
        specifier: named(text),
        resolution_mode,
    };
    let info = ModuleInfo {
        jsdoc_imports: vec![
            import("f", None),
            import("g", Some(TypeScriptTypesResolutionMode::Import)),
            import("h", Some(TypeScriptTypesResolutionMode::Require)),
        ],
        ..empty()
    };
    let range = json!([[0, 0], [0, 0]]);
    let wanted = json!({"jsdocImports": [
        {"text": "f", "range": range},
        {"text": "g", "range": range, "resolutionMode": "import"},
        {"text": "h", "range": range, "resolutionMode": "require"},
    ]});
    is_json(&info, wanted);
}

#[test]
fn static_descriptors() {
    let mut dependency = static_dependency(StaticDependencyKind::ExportEquals);
    dependency.import_attributes = ImportAttributes::Unknown;
    let mut wanted = json!({"type": "static", "kind": "exportEquals", "specifier": "./b.js",
        "specifierRange": [[2, 3], [2, 11]], "importAttributes": "unknown"});
    dependency.is_side_effect = true;
    wanted["sideEffect"] = true.into();
    is_json(
        &DependencyDescriptor::Static(dependency.clone()),
        wanted.clone(),
    );
    dependency.is_side_effect = false;
    dependency.types_specifier = Some(named("./i.d.ts"));
    wanted
        .as_object_mut()
        .expect("an object")
        .remove("sideEffect");
    wanted["typesSpecifier"] = json!({"text": "./i.d.ts", "range": [[0, 0], [0, 0]]});
    is_json(&DependencyDescriptor::Static(dependency), wanted);
    let source = static_dependency(StaticDependencyKind::ImportSource);
    let wanted = json!({"type": "static", "kind": "importSource", "specifier": "./b.js",
        "specifierRange": [[2, 3], [2, 11]]});
    is_json(&DependencyDescriptor::Static(source), wanted);
}

#[test]
fn dynamic_descriptors() {
    let mut dependency = dynamic_dependency(DynamicDependencyKind::Import, DynamicArgument::Expr);
    dependency.import_attributes = ImportAttributes::Unknown;
    dependency.types_specifier = Some(named("./j.d.ts"));
    let range = json!([[4, 0], [5, 1]]);
    let wanted = json!({"type": "dynamic", "argumentRange": range, "importAttributes": "unknown",
        "typesSpecifier": {"text": "./j.d.ts", "range": [[0, 0], [0, 0]]}});
    is_json(&DependencyDescriptor::Dynamic(dependency), wanted);
    let mut dependency = dynamic_dependency(DynamicDependencyKind::Import, text("k"));
    dependency.import_attributes = ImportAttributes::Unknown;
    let wanted = json!({"type": "dynamic", "argument": "k", "argumentRange": range, "importAttributes": "unknown"});
    is_json(&DependencyDescriptor::Dynamic(dependency), wanted);
    let source = dynamic_dependency(DynamicDependencyKind::ImportSource, text("k"));
    let wanted =
        json!({"type": "dynamic", "kind": "importSource", "argument": "k", "argumentRange": range});
    is_json(&DependencyDescriptor::Dynamic(source), wanted);
}

#[test]
fn arguments() {
    is_json(&text("l"), json!("l"));
    let part = DynamicTemplatePart::String {
        value: "l".to_string(),
    };
    let template = DynamicArgument::Template(vec![part, DynamicTemplatePart::Expr]);
    is_json(
        &template,
        json!([{"type": "string", "value": "l"}, {"type": "expr"}]),
    );
    let unknown = DynamicArgument::Template(vec![DynamicTemplatePart::Expr]);
    let arguments = [unknown, DynamicArgument::Expr, template, text("")];
    assert_eq!(
        arguments.map(|argument| argument.is_unknown()),
        [true, true, false, false]
    );
}

#[test]
fn attributes_of_imports() {
    is_json(&ImportAttributes::Unknown, json!("unknown"));
    is_json(
        &attributes([("type", None)]),
        json!({"known": {"type": null}}),
    );
    is_json(
        &attributes([("type", Some("css"))]),
        json!({"known": {"type": "css"}}),
    );
}

#[track_caller]
fn is_stored(mut stored: Value, wanted: &ModuleInfo) {
    module_graph_1_to_2(&mut stored);
    assert_eq!(
        &serde_json::from_value::<ModuleInfo>(stored).expect("information"),
        wanted
    );
}

#[test]
fn information_of_version_1() {
    let range = json!([[2, 3], [2, 11]]);
    let dependency = static_dependency(StaticDependencyKind::Import);
    let mut json =
        json!({"type": "static", "kind": "import", "specifier": "./b.js", "specifierRange": range});
    is_stored(
        json!({"dependencies": [json]}),
        &with_dependencies(vec![dependency.clone().into()]),
    );
    // The specifier of the comment, with its quotes, is 14 characters after the comment's two slashes.
    let comment = json!({"text": " @deno-types='./b.d.ts'", "range": [[1, 4], [1, 29]]});
    json["leadingComments"] = json!([comment]);
    let types = SpecifierWithRange {
        text: "./b.d.ts".to_string(),
        range: PositionRange {
            start: at(1, 19),
            end: at(1, 29),
        },
    };
    let with_types = StaticDependencyDescriptor {
        types_specifier: Some(types),
        ..dependency
    };
    is_stored(
        json!({"dependencies": [json]}),
        &with_dependencies(vec![with_types.into()]),
    );
    let source = static_dependency(StaticDependencyKind::ImportSource);
    let json = json!({"type": "static", "kind": "importSource", "specifier": "./b.js", "specifierRange": range});
    is_stored(
        json!({"dependencies": [json]}),
        &with_dependencies(vec![source.into()]),
    );
    let source = dynamic_dependency(DynamicDependencyKind::ImportSource, text("./b.js"));
    let json = json!({"type": "dynamic", "kind": "importSource", "argument": "./b.js",
        "argumentRange": [[4, 0], [5, 1]]});
    is_stored(
        json!({"dependencies": [json]}),
        &with_dependencies(vec![source.into()]),
    );
}

#[test]
fn urls_of_source_maps() {
    for (comment, url) in [
        ("# sourceMappingURL=m.js.map", "m.js.map"),
        ("@ sourceMappingURL=m.js.map", "m.js.map"),
        ("# SourcemappingUrl=m.js.map", "m.js.map"),
        ("#sourceMappingURL=m.js.map", "m.js.map"),
        ("# \t sourceMappingURL \n =  m.js.map rest", "m.js.map"),
        ("# sourceMappingURL=m.js.map?n=1#o", "m.js.map?n=1#o"),
        (
            "# sourceMappingURL=data:application/json;base64,e30=",
            "data:application/json;base64,e30=",
        ),
        ("# sourceMappingURL=../../ä/m.js.map", "../../ä/m.js.map"),
        ("# sourceMappingURL=*/", "*/"),
    ] {
        let found = find_source_mapping_url(comment).expect(comment);
        let start = comment.find(url).expect(url);
        assert_eq!(
            (found.as_str(), found.range()),
            (url, start..start + url.len()),
            "{comment}"
        );
        assert_eq!((found.start(), found.end()), (start, start + url.len()));
    }
    for comment in [
        "sourceMappingURL=m.js.map",
        "/ sourceMappingURL=m.js.map",
        "# sourceMappingURL",
        "# sourceMappingURL= ",
    ] {
        assert_eq!(find_source_mapping_url(comment), None, "{comment}");
    }
}

/// By the pattern `(?i)^/\s*<reference\s.*?/>`.
#[test]
fn comments_that_are_references() {
    for comment in [
        "/ <reference path='./a.d.ts' />",
        "/<REFERENCE lib=\"es2015\"/> rest",
        "/\t<reference  />",
        "/ <reference no-default-lib='true'/>",
    ] {
        assert!(is_comment_triple_slash_reference(comment), "{comment}");
    }
    for comment in [
        "",
        " <reference path='./a.d.ts' />",
        "/ <references path='./a.d.ts' />",
        "/ <reference/>",
        "/ <reference path='./a.d.ts' >",
        "/ <reference",
        "// <reference path='./a.d.ts' />",
        "/ <reference \n />",
    ] {
        assert!(!is_comment_triple_slash_reference(comment), "{comment}");
    }
}

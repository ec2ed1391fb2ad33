//! The cases of deno_graph's tests of its file `ast/mod.rs`: source texts, and what is found in each.

use modinfo as deno_graph;

use crate::moving::ready;
use deno_graph::analysis::{
    DynamicArgument, ImportAttributes, JsDocImportInfo, ModuleAnalyzer, ModuleInfo,
    SpecifierWithRange, StaticDependencyKind, TypeScriptReference, TypeScriptTypesResolutionMode,
};
use deno_graph::ast::{
    CapturingEsParser, CapturingModuleAnalyzer, DefaultEsParser, DefaultModuleAnalyzer,
    DefaultParsedSourceStore, EsParser, ParseOptions, ParsedSource, ParsedSourceStore,
    ParserModuleAnalyzer,
};
use deno_graph::{Fault, MediaType, ModuleSpecifier, PositionRange};
use std::cell::Cell;
use std::rc::Rc;

fn url(text: &str) -> ModuleSpecifier {
    ModuleSpecifier::parse(text).expect("a URL")
}

/// What the parser of the library returns for a text.
#[track_caller]
fn parsed(specifier: &str, text: &str) -> ParsedSource {
    let specifier = url(specifier);
    let options = ParseOptions {
        specifier: &specifier,
        source: text.into(),
        media_type: MediaType::from_specifier(&specifier),
        scope_analysis: false,
    };
    DefaultEsParser.parse_program(options).expect("a source")
}

/// The part of the text at a range.
fn part(source: &ParsedSource, range: PositionRange) -> &str {
    let text_info = source.text_info_lazy();
    text_info.range_text(&range.as_source_range(text_info))
}

#[track_caller]
fn is_at(source: &ParsedSource, found: Option<&SpecifierWithRange>, text: &str, spelled: &str) {
    let found = found.expect(text);
    assert_eq!(
        (found.text.as_str(), part(source, found.range)),
        (text, spelled)
    );
}

fn info(specifier: &str, text: &str) -> ModuleInfo {
    ParserModuleAnalyzer::module_info(&parsed(specifier, text))
}

const PAGE: &str = r#"/// <reference path="./page.d.ts" />
/// <reference types='node' />
// @jsxImportSource a-line-comment-does-not-count
/* @jsxImportSource preact */
// @jsxImportSourceTypes neither-does-this
/** @jsxImportSourceTypes @types/preact */
import {
  render,
} from "https://example.com/render.ts";
export * from './parts.ts';
import type { Props } from "./props.ts";

// the last comment counts
// @deno-types="./quoted.d.ts"
import quoted from "quoted";

// @deno-types=./bare.d.ts
import bare from "bare";

// @deno-types="./hidden.d.ts"
// and this one is the last
import hidden from "hidden";

const late = import("./late.ts");
const typed = await /* @deno-types="./typed.d.ts" */ import("typed");
"#;

#[test]
fn a_page_with_all_comments() {
    let source = parsed("file:///page.tsx", PAGE);
    let info = ParserModuleAnalyzer::module_info(&source);
    let specifiers: Vec<_> = info
        .dependencies
        .iter()
        .map(|each| match (each.as_static(), each.as_dynamic()) {
            (Some(found), _) => part(&source, found.specifier_range),
            (_, Some(found)) => part(&source, found.argument_range),
            _ => unreachable!(),
        })
        .collect();
    let wanted = [
        r#""https://example.com/render.ts""#,
        "'./parts.ts'",
        r#""./props.ts""#,
        r#""quoted""#,
        r#""bare""#,
        r#""hidden""#,
        r#""./late.ts""#,
        r#""typed""#,
    ];
    assert_eq!(specifiers, wanted);
    let types = |number: usize| {
        let dependency = &info.dependencies[number];
        match dependency.as_static() {
            Some(found) => found.types_specifier.as_ref(),
            None => dependency
                .as_dynamic()
                .expect("a call")
                .types_specifier
                .as_ref(),
        }
    };
    is_at(&source, types(3), "./quoted.d.ts", r#""./quoted.d.ts""#);
    is_at(&source, types(4), "./bare.d.ts", "./bare.d.ts");
    assert_eq!((types(2), types(5), types(6)), (None, None, None));
    is_at(&source, types(7), "./typed.d.ts", r#""./typed.d.ts""#);
    match &info.ts_references[..] {
        [TypeScriptReference::Path(path), TypeScriptReference::Types {
            specifier,
            resolution_mode: None,
        }] => {
            is_at(&source, Some(path), "./page.d.ts", r#""./page.d.ts""#);
            is_at(&source, Some(specifier), "node", "'node'");
        }
        others => panic!("{others:?}"),
    }
    is_at(&source, info.jsx_import_source.as_ref(), "preact", "preact");
    is_at(
        &source,
        info.jsx_import_source_types.as_ref(),
        "@types/preact",
        "@types/preact",
    );
    assert_eq!(info.self_types_specifier, None);
}

#[test]
fn modes_of_references() {
    let text = "/// <reference types='a' resolution-mode='require' />\n\
        /// <reference types='b' resolution-mode=\"import\" />\n\
        /// <reference types='c' resolution-mode='other' />\n";
    let found: Vec<_> = info("file:///a.mts", text)
        .ts_references
        .into_iter()
        .map(|reference| match reference {
            TypeScriptReference::Types {
                specifier,
                resolution_mode,
            } => (specifier.text, resolution_mode),
            TypeScriptReference::Path(path) => panic!("{path:?}"),
        })
        .collect();
    let wanted = [
        ("a", Some(TypeScriptTypesResolutionMode::Require)),
        ("b", Some(TypeScriptTypesResolutionMode::Import)),
        ("c", None),
    ];
    assert_eq!(found, wanted.map(|(text, mode)| (text.to_string(), mode)));
}

#[test]
fn each_form_of_a_declaration() {
    use StaticDependencyKind::{Export, ExportType, Import, ImportType};
    let text = "import * as a from './a.ts';\nimport './b.ts';\nimport { c } from './c.ts';\nimport d from './d.ts';\n\
        import e, { f } from './e.ts';\nconst g = await import('./g.ts');\nexport * from './h.ts';\n\
        export { i } from './i.ts';\nimport type { j } from './j.d.ts';\nexport type { k } from './k.d.ts';\n";
    let source = parsed("file:///a.ts", text);
    let info = ParserModuleAnalyzer::module_info(&source);
    let found: Vec<_> = info
        .dependencies
        .iter()
        .filter_map(|each| each.as_static())
        .map(|each| {
            (
                each.kind,
                each.specifier.as_str(),
                part(&source, each.specifier_range),
                each.is_side_effect,
            )
        })
        .collect();
    let wanted = [
        (Import, "./a.ts", "'./a.ts'", false),
        (Import, "./b.ts", "'./b.ts'", true),
        (Import, "./c.ts", "'./c.ts'", false),
        (Import, "./d.ts", "'./d.ts'", false),
        (Import, "./e.ts", "'./e.ts'", false),
        (Export, "./h.ts", "'./h.ts'", false),
        (Export, "./i.ts", "'./i.ts'", false),
        (ImportType, "./j.d.ts", "'./j.d.ts'", false),
        (ExportType, "./k.d.ts", "'./k.d.ts'", false),
    ];
    assert_eq!(found, wanted);
    assert_eq!(info.dependencies.len(), 10);
    assert!(!info.is_script);
}

#[test]
fn types_of_the_module_itself() {
    let source = parsed(
        "file:///a.js",
        "\n  // @ts-self-types=\"./a.d.ts\"\n\n  import './b.js';\n",
    );
    let info = ParserModuleAnalyzer::module_info(&source);
    is_at(
        &source,
        info.self_types_specifier.as_ref(),
        "./a.d.ts",
        "\"./a.d.ts\"",
    );
    assert_eq!(info.dependencies.len(), 1);
    let dependency = &info.dependencies[0];
    let found = dependency.as_static().expect("an import");
    assert_eq!(
        (
            found.specifier.as_str(),
            part(&source, found.specifier_range)
        ),
        ("./b.js", "'./b.js'")
    );
}

#[test]
fn attributes_by_both_keywords() {
    for keyword in ["with", "assert"] {
        let text = format!(
            "import a from './a.json' {keyword} {{ type: 'json' }};\nimport('./b.json', {{ {keyword}: {{ type: 'json' }} }});"
        );
        let info = info("file:///a.ts", &text);
        let attributes: Vec<&ImportAttributes> = info
            .dependencies
            .iter()
            .map(|each| each.import_attributes())
            .collect();
        assert_eq!(attributes.len(), 2, "{keyword}");
        assert!(
            attributes
                .iter()
                .all(|each| each.get("type") == Some("json")),
            "{keyword}"
        );
        let argument = &info.dependencies[1].as_dynamic().expect("a call").argument;
        assert_eq!(argument, &DynamicArgument::String("./b.json".to_string()));
    }
}

/// The text of each JSDoc import, as it is spelled, with its mode.
fn jsdoc(text: &str) -> Vec<(String, Option<TypeScriptTypesResolutionMode>)> {
    let source = parsed("file:///a.js", text);
    let imports = ParserModuleAnalyzer::module_info(&source).jsdoc_imports;
    let found = imports.iter().map(
        |JsDocImportInfo {
             specifier,
             resolution_mode,
         }| {
            let spelled = part(&source, specifier.range);
            assert_eq!(
                spelled.get(1..spelled.len() - 1),
                Some(specifier.text.as_str())
            );
            (spelled.to_string(), *resolution_mode)
        },
    );
    found.collect()
}

#[test]
fn imports_in_jsdoc_comments() {
    use TypeScriptTypesResolutionMode::Require;
    let text = "/** @module */\n/** Text.\n * @type {import('./a.js').A}\n */\nconst a = 1;\n\
        /**\n * @param {import(\"./b.js\").B} b\n * @returns {import('./c.js')}\n */\nfunction f(b) {}\n\
        /** @type {Set<import('./d.js', { with: { 'resolution-mode': 'require' } }).D>} */\nconst d = new Set();\n\
        /** @import { E } from \"./e.ts\" */\n/** @import * as f from './f.ts' */\n\
        /** @import g from './g.ts' with { \"resolution-mode\": \"require\" } */\n";
    assert!(info("file:///a.js", text).is_script);
    let wanted = [
        ("'./a.js'", None),
        ("\"./b.js\"", None),
        ("'./c.js'", None),
        ("'./d.js'", Some(Require)),
        ("\"./e.ts\"", None),
        ("'./f.ts'", None),
        ("'./g.ts'", Some(Require)),
    ];
    assert_eq!(
        jsdoc(text),
        wanted.map(|(text, mode)| (text.to_string(), mode))
    );
}

/// An import inside two braces is found once.
#[test]
fn an_import_in_a_type_of_a_type() {
    let text = "/** @param {A & { b: import('./b.js').B }} a */\nfunction f(a) {}\n";
    assert_eq!(jsdoc(text), [("'./b.js'".to_string(), None)]);
}

#[test]
fn declarations_of_jsdoc() {
    use TypeScriptTypesResolutionMode::{Import, Require};
    for (declaration, mode) in [
        ("@import { A } from \"./a.ts\"", None),
        ("@import { A, \"b\" as c, 'd' as e } from './a.ts'", None),
        ("@import * as a from './a.ts'", None),
        ("@import *as a from'./a.ts'", None),
        ("@import a from './a.ts'", None),
        (
            "@import { A } from './a.ts' with { 'resolution-mode': 'import' }",
            Some(Import),
        ),
        (
            "@import a from './a.ts' with { 'resolution-mode': \"require\" }",
            Some(Require),
        ),
        (
            "@import a from './a.ts' with { type: 'b', 'resolution-mode': 'require' }",
            Some(Require),
        ),
    ] {
        let found = jsdoc(&format!("/** {declaration} */"));
        assert_eq!(found.len(), 1, "{declaration}");
        assert_eq!(found[0].1, mode, "{declaration}");
    }
    for mixed in ["@import a from \"./a.ts'", "@import a from './a.ts\""] {
        assert_eq!(jsdoc(&format!("/** {mixed} */")), [], "{mixed}");
    }
}

#[test]
fn types_of_jsdoc() {
    use TypeScriptTypesResolutionMode::{Import, Require};
    for (braces, mode) in [
        ("{ import('./a.js') }", None),
        ("{ A<import('./a.js')> }", None),
        (
            "{A<import('./a.js', { with: { 'resolution-mode': 'require' } }).B>}",
            Some(Require),
        ),
        (
            "{import(\"a\", { with: { type: 'b', 'resolution-mode': 'import' } })}",
            Some(Import),
        ),
    ] {
        let found = jsdoc(&format!("/** @type {braces} */"));
        assert_eq!(found.len(), 1, "{braces}");
        assert_eq!(found[0].1, mode, "{braces}");
    }
    assert_eq!(jsdoc("/** { * // … a } */"), []);
}

#[test]
fn equals_of_typescript() {
    let info = info(
        "file:///a.ts",
        "export import a = require('./a.js');\nimport b = require('./b.js');\n",
    );
    let kinds: Vec<_> = info
        .dependencies
        .iter()
        .filter_map(|each| Some(each.as_static()?.kind))
        .collect();
    assert_eq!(
        kinds,
        [
            StaticDependencyKind::ExportEquals,
            StaticDependencyKind::ImportEquals
        ]
    );
    assert!(info.is_script);
}

#[test]
fn comments_after_a_line_for_the_shell() {
    let text = "#!/usr/bin/env deno\n/// <reference path='./a.d.ts' />\n/* @jsxImportSource preact */\nexport {};\n";
    let specifier = url("file:///a.tsx");
    let info = ready(DefaultModuleAnalyzer.analyze(&specifier, text.into(), MediaType::Tsx))
        .expect("information");
    let json = r#"{"tsReferences":[{"type":"path","text":"./a.d.ts","range":[[1,20],[1,30]]}],
        "jsxImportSource":{"text":"preact","range":[[2,20],[2,26]]}}"#;
    assert_eq!(info, serde_json::from_str(json).expect("information"));
}

#[test]
fn urls_of_source_maps() {
    let specifier = url("file:///a.js");
    for (text, wanted) in [
        (
            "export {};\n//# sourceMappingURL=a.js.map\n\n// after it\n",
            Some(("a.js.map", (1, 21), (1, 29))),
        ),
        (
            "a();\n//@ sourceMappingURL=b.map\n",
            Some(("b.map", (1, 21), (1, 26))),
        ),
        (
            "a();\n//# sourceMappingURL=data:application/json;base64,e30=",
            Some(("data:application/json;base64,e30=", (1, 21), (1, 54))),
        ),
        ("export {};\n", None),
        ("export {};\n//# sourceMappingURL=a.js.map\na();\n", None),
    ] {
        let info =
            ready(DefaultModuleAnalyzer.analyze(&specifier, text.into(), MediaType::JavaScript));
        let found = info.expect("information").source_map_url;
        let found = found.as_ref().map(|found| {
            let [start, end] =
                [found.range.start, found.range.end].map(|each| (each.line, each.character));
            (found.text.as_str(), start, end)
        });
        assert_eq!(found, wanted, "{text}");
    }
}

/// A parser that counts its calls.
#[derive(Clone, Default)]
struct Counting(Rc<Cell<usize>>);

impl EsParser for Counting {
    fn parse_program(&self, options: ParseOptions<'_>) -> Result<ParsedSource, deno_graph::Error> {
        self.0.set(self.0.get() + 1);
        DefaultEsParser.parse_program(options)
    }
}

#[test]
fn a_text_is_parsed_once() {
    let parser = Counting::default();
    let analyzer = CapturingModuleAnalyzer::new(Some(Box::new(parser.clone())), None);
    let specifier = url("file:///a.ts");
    let analyze =
        |text: &str, media_type| ready(analyzer.analyze(&specifier, text.into(), media_type));
    let first = analyze("import './b.ts';", MediaType::TypeScript).expect("information");
    assert_eq!(
        analyze("import './b.ts';", MediaType::TypeScript),
        Ok(first.clone())
    );
    assert_eq!(parser.0.get(), 1);
    for (text, media_type) in [
        ("import './c.ts';", MediaType::TypeScript),
        ("import './c.ts';", MediaType::Tsx),
    ] {
        let before = parser.0.get();
        assert_ne!(analyze(text, media_type), Ok(first.clone()));
        assert_eq!(parser.0.get(), before + 1);
    }
    let kept = analyzer.get_parsed_source(&specifier).expect("a source");
    assert_eq!(
        (kept.media_type(), &**kept.text(), kept.specifier()),
        (MediaType::Tsx, "import './c.ts';", &specifier)
    );
    let error = analyze("let a = ;", MediaType::Tsx).expect_err("a syntax error");
    assert_eq!(error.fault(), &Fault::Syntax);
    let options = ParseOptions {
        specifier: &specifier,
        source: kept.text().clone(),
        media_type: MediaType::Tsx,
        scope_analysis: true,
    };
    let before = parser.0.get();
    assert!(analyzer.parse_program(options.clone()).is_ok() && parser.0.get() == before);
    assert!(analyzer.remove_parsed_source(&specifier).is_some());
    assert!(analyzer
        .get_scope_analysis_parsed_source(&specifier)
        .is_none());
    assert!(analyzer
        .set_parsed_source(specifier.clone(), kept)
        .is_none());
    assert!(
        analyzer
            .as_capturing_parser()
            .parse_program(options)
            .is_ok()
            && parser.0.get() == before
    );
}

#[test]
fn a_store_of_ones_own() {
    let store = DefaultParsedSourceStore::default();
    let specifier = url("file:///a.js");
    let parser = CapturingEsParser::new(None, &store);
    let analyzer = ParserModuleAnalyzer::new(&parser);
    let info = analyzer
        .analyze_sync(&specifier, "import './b.js';".into(), MediaType::JavaScript)
        .expect("information");
    let kept = store.get_parsed_source(&specifier).expect("a source");
    assert_eq!(ParserModuleAnalyzer::module_info(&kept), info);
    assert_eq!(
        ParserModuleAnalyzer::default().analyze_sync(
            &specifier,
            kept.text().clone(),
            kept.media_type()
        ),
        Ok(info)
    );
}

//! A program over `deno_graph` after the move: only the name of the crate has changed.

use modinfo as deno_graph;

use crate::repository::{blocks, field, root};
use async_trait::async_trait;
use deno_graph::analysis::{
    module_graph_1_to_2, DependencyDescriptor, ImportAttribute, ImportAttributes, ModuleAnalyzer,
    ModuleInfo, TypeScriptTypesResolutionMode,
};
use deno_graph::ast::DefaultModuleAnalyzer;
use deno_graph::source::ResolutionMode;
use deno_graph::{MediaType, ModuleSpecifier, Position, PositionRange};
use serde_json::{json, Value};
use std::cell::RefCell;
use std::collections::{BTreeMap, HashMap};
use std::fs;
use std::future::Future;
use std::pin::Pin;
use std::sync::Arc;
use std::task::{Context, Poll, Wake, Waker};

/// An analyzer that keeps the JSON of what it has analyzed.
#[derive(Default)]
struct Keeping<'a> {
    inner: Option<&'a dyn ModuleAnalyzer>,
    kept: RefCell<HashMap<ModuleSpecifier, String>>,
}

#[async_trait(?Send)]
impl ModuleAnalyzer for Keeping<'_> {
    async fn analyze(
        &self,
        specifier: &ModuleSpecifier,
        source: Arc<str>,
        media_type: MediaType,
    ) -> Result<ModuleInfo, deno_graph::Error> {
        let kept = self.kept.borrow().get(specifier).cloned();
        if let Some(json) = kept {
            return Ok(serde_json::from_str(&json).expect("information"));
        }
        let inner = self.inner.unwrap_or_default();
        let info = inner.analyze(specifier, source, media_type).await?;
        let json = serde_json::to_string(&info).expect("JSON");
        self.kept.borrow_mut().insert(specifier.clone(), json);
        Ok(info)
    }
}

struct Idle;

impl Wake for Idle {
    fn wake(self: Arc<Self>) {}
}

/// The value of a future that never waits.
pub fn ready<T>(mut future: Pin<Box<dyn Future<Output = T> + '_>>) -> T {
    let waker = Waker::from(Arc::new(Idle));
    match future.as_mut().poll(&mut Context::from_waker(&waker)) {
        Poll::Ready(value) => value,
        Poll::Pending => panic!("the future waits"),
    }
}

fn example(name: &str) -> String {
    fs::read_to_string(root().join("examples").join(name)).expect(name)
}

#[test]
fn analyzers() {
    let specifier = ModuleSpecifier::parse("file:///page.tsx").expect("a URL");
    let media_type = MediaType::from_specifier(&specifier);
    assert_eq!(media_type, MediaType::Tsx);
    let wanted: ModuleInfo = serde_json::from_str(&example("page.out.json")).expect("information");
    let inner = DefaultModuleAnalyzer;
    let keeping = Keeping {
        inner: Some(&inner),
        ..Keeping::default()
    };
    let source: Arc<str> = example("page.tsx").into();
    let analyzers: [&dyn ModuleAnalyzer; 3] =
        [<&dyn ModuleAnalyzer>::default(), &keeping, &keeping];
    for analyzer in analyzers {
        let info = ready(analyzer.analyze(&specifier, source.clone(), media_type));
        assert_eq!(info.as_ref(), Ok(&wanted));
    }
    assert_eq!(keeping.kept.borrow().len(), 1);
    let error = ready(keeping.analyze(&specifier, "let a = ;".into(), media_type));
    assert_eq!(error, Ok(wanted), "what is kept isn't analyzed again");
    let other = ModuleSpecifier::parse("file:///other.ts").expect("a URL");
    let error = ready(keeping.analyze(&other, "let a = ;".into(), media_type));
    assert_eq!(
        error.expect_err("a fault").position(),
        Some(Position::new(0, 8))
    );
}

#[test]
fn stored_information() {
    let rows = fs::read_to_string(root().join("crates/test_replay/data/conversion.rows"));
    let mut count = 0;
    for case in blocks(&rows.expect("the test cases")) {
        if field(&case, "call").as_deref() == Some("module_graph_1_to_2") {
            let input = field(&case, "input").expect("an input");
            let mut value: Value = serde_json::from_str(&input).expect("JSON");
            module_graph_1_to_2(&mut value);
            let answer = field(&case, "answer").expect("an answer");
            // The name of a fault is no JSON.
            if let Ok(wanted) = serde_json::from_str::<Value>(&answer) {
                assert_eq!(value, wanted, "{input}");
                count += 1;
            }
        }
    }
    assert!(count > 10, "{count}");
}

/// Asserts that a dependency stays as it is where its comment has this range.
fn expect_no_conversion(range: Value) {
    let comment = json!({"text": " @deno-types=\"./a.d.ts\"", "range": range});
    let mut value = json!({"dependencies": [{"leadingComments": [comment]}]});
    let before = value.clone();
    module_graph_1_to_2(&mut value);
    assert_eq!(value, before);
}

#[test]
fn a_column_that_is_too_large() {
    expect_no_conversion(json!([[0, u64::MAX], [0, 25]]));
}

/// Numbers that aren't whole are of no consequence outside the positions.
#[test]
fn stored_information_with_floats() {
    let comment =
        json!({"text": " @deno-types=\"./a.d.ts\"", "range": [[0, 0], [0, 25]], "x": 0.5});
    let mut value = json!({"y": 0.5, "dependencies": [{"z": 0.5, "leadingComments": [comment]}]});
    module_graph_1_to_2(&mut value);
    let types = json!({"text": "./a.d.ts", "range": [[0, 15], [0, 25]]});
    let wanted = json!({"y": 0.5, "dependencies": [{"z": 0.5, "typesSpecifier": types}]});
    assert_eq!(value, wanted);
    expect_no_conversion(json!([[0, 0.5], [0, 25]]));
}

#[test]
fn values() {
    let known = |value: &str| {
        let value = ImportAttribute::Known(value.to_owned());
        ImportAttributes::Known(BTreeMap::from([("type".to_owned(), value)]))
    };
    for asset in ["text", "bytes", "css"] {
        assert!(known(asset).has_asset(), "{asset}");
    }
    assert!(!known("json").has_asset());
    assert!(!ImportAttributes::None.has_asset() && !ImportAttributes::Unknown.has_asset());
    let range = PositionRange::zeroed();
    assert_eq!(
        (range.start, range.end),
        (Position::zeroed(), Position::new(0, 0))
    );
    assert!(range.includes(Position::zeroed()) && !range.includes(Position::new(0, 1)));
    let mode = TypeScriptTypesResolutionMode::from_str("require").expect("a mode");
    assert_eq!(mode.as_deno_graph(), ResolutionMode::Require);
}

#[test]
fn the_json_of_descriptors() {
    let json = r#"{"type":"dynamic","argument":"./a.js","argumentRange":[[0,7],[0,15]]}"#;
    let descriptor: DependencyDescriptor = serde_json::from_str(json).expect("a dependency");
    assert!(descriptor.as_dynamic().is_some() && descriptor.import_attributes().is_none());
    assert_eq!(serde_json::to_string(&descriptor).expect("JSON"), json);
}

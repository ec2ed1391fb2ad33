#![doc = include_str!("../README.md")]
#![deny(unsafe_code)]
#![warn(missing_docs)]

mod analyzer;
mod answer;
mod command;
mod comments;
mod document;
mod documents;
mod error;
mod fault;
#[allow(unsafe_code)]
mod ffi;
mod information;
mod media_type;
mod module_info;
mod parsed_source;
mod parser;
mod report;
mod report_line;
mod source_text;
mod stored;
mod version;

pub use analyzer::{
    CapturingModuleAnalyzer, DefaultModuleAnalyzer, ModuleAnalyzer, ModuleSpecifier,
    ParserModuleAnalyzer,
};
pub use command::Command;
pub use comments::Match;
pub use document::*;
pub use documents::{
    analyze, analyze_estree, analyze_estree_json, analyze_json, answer_lines, check, check_convert,
    check_convert_json, check_estree, check_estree_json, check_json, check_reach, check_reach_json,
    convert, convert_json, reach, reach_json,
};
pub use error::Error;
pub use fault::Fault;
pub use information::ResolutionMode;
pub use media_type::{MediaType, UnknownMediaType};
pub use module_info::*;
pub use parsed_source::{ParsedSource, SourceTextInfo};
pub use report::*;
pub use source_text::{check_source, check_source_json, module_info, module_info_json};
pub use stored::module_graph_1_to_2;
pub use url::Url;
pub use version::Version;

#[doc = include_str!("../MOVING.md")]
pub mod moving {}

/// Names of the module `deno_graph::analysis`, at their paths there.
pub mod analysis {
    pub use crate::comments::{find_source_mapping_url, is_comment_triple_slash_reference};
    pub use crate::{
        module_graph_1_to_2, DependencyDescriptor, DynamicArgument, DynamicDependencyDescriptor,
        DynamicDependencyKind, DynamicTemplatePart, ImportAttribute, ImportAttributes,
        JsDocImportInfo, ModuleAnalyzer, ModuleInfo, SpecifierWithRange,
        StaticDependencyDescriptor, StaticDependencyKind, TypeScriptReference,
        TypeScriptTypesResolutionMode,
    };
}

/// Names of the module `deno_graph::ast`, at their paths there.
pub mod ast {
    pub use crate::parser::{
        CapturingEsParser, DefaultEsParser, DefaultParsedSourceStore, EsParser, ParseOptions,
        ParsedSourceStore,
    };
    pub use crate::{
        CapturingModuleAnalyzer, DefaultModuleAnalyzer, ParsedSource, ParserModuleAnalyzer,
        SourceTextInfo,
    };
}

/// Names of the module `deno_graph::source`, at their paths there.
pub mod source {
    pub use crate::ResolutionMode;
}

/// Returns the version of the library that is linked.
#[must_use]
pub fn version() -> Version {
    Version::from_number(ffi::version())
}

/// Later versions may add variants and fields, so a `match` needs an arm `_`, and a struct isn't built by its fields.
///
/// ```compile_fail,E0004
/// fn is_import(mode: modinfo::ResolutionMode) -> bool {
///     match mode {
///         modinfo::ResolutionMode::Import => true,
///         modinfo::ResolutionMode::Require => false,
///     }
/// }
/// ```
///
/// ```compile_fail,E0639
/// let place = modinfo::TextPlace { line: 0, column: 0, offset: 0 };
/// ```
#[cfg(doctest)]
struct MayGrow;

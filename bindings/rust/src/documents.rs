//! Functions of documents: their answers, and the reports on them.

use crate::answer::{answer, answer_or_report, json, lines, value};
use crate::command::Command;
use crate::document::ModuleDocument;
use crate::error::Error;
use crate::fault::Fault;
use crate::ffi::{self, Call};
use crate::module_info::ModuleInfo;
use crate::report::Report;
use serde_json::Value;

/// Returns what a module depends on, from its source, tree and comments.
///
/// # Errors
///
/// The fault for which the document is refused, with the report on it.
pub fn analyze(document: &ModuleDocument) -> Result<ModuleInfo, Error> {
    Ok(value(&analyze_json(&json(document)?)?)?)
}

/// Like [`analyze`], but reads and returns JSON: that of a [`ModuleDocument`], and of its `ModuleInfo`.
///
/// # Errors
///
/// Those of [`analyze`].
pub fn analyze_json(document: &[u8]) -> Result<String, Error> {
    answer_or_report(
        Call::Document(ffi::ANALYZE, document),
        Call::Document(ffi::CHECK, document),
    )
}

/// Returns what a module depends on, from its source and the tree of a parser, as ESTree describes it.
/// `docs/ESTREE.md` of the repository describes the document.
///
/// ```
/// let document = r#"{"specifier":"file:///a.mjs","mediaType":"Mjs","source":"import 'a'","offsets":"utf8",
///     "program":{"type":"Program","body":[{"type":"ImportDeclaration","start":0,"end":10,
///     "source":{"type":"Literal","start":7,"end":10,"value":"a"}}]}}"#;
/// let info = modinfo::analyze_estree(document.as_bytes())?;
/// assert_eq!(info.dependencies[0].as_static().unwrap().specifier, "a");
/// # Ok::<(), modinfo::Error>(())
/// ```
///
/// # Errors
///
/// The fault for which the document is refused, with the report on it.
pub fn analyze_estree(document: &[u8]) -> Result<ModuleInfo, Error> {
    Ok(value(&analyze_estree_json(document)?)?)
}

/// Like [`analyze_estree`], but returns the JSON of the `ModuleInfo`.
///
/// # Errors
///
/// Those of [`analyze_estree`].
pub fn analyze_estree_json(document: &[u8]) -> Result<String, Error> {
    answer_or_report(
        Call::Document(ffi::ANALYZE_ESTREE, document),
        Call::Document(ffi::CHECK_ESTREE, document),
    )
}

/// Returns the information of one module in version 2, from that which version 1 stored. Any other JSON
/// stays as it is.
///
/// # Errors
///
/// The fault for which the document is refused, with the report on it.
pub fn convert(document: &[u8]) -> Result<Value, Error> {
    Ok(value(&convert_json(document)?)?)
}

/// Like [`convert`], but returns JSON.
///
/// # Errors
///
/// Those of [`convert`].
pub fn convert_json(document: &[u8]) -> Result<String, Error> {
    answer_or_report(
        Call::Document(ffi::CONVERT, document),
        Call::Document(ffi::CHECK_CONVERT, document),
    )
}

/// Returns the keys that a root reaches among modules, ascending. The document is
/// `{"root":KEY,"modules":{KEY:INFO ..}}`.
///
/// ```
/// let document = r#"{"root":"a:b","modules":{"a:b":{},"a:c":{}}}"#;
/// assert_eq!(modinfo::reach(document.as_bytes())?, ["a:b"]);
/// # Ok::<(), modinfo::Error>(())
/// ```
///
/// # Errors
///
/// The fault for which the document is refused, with the report on it.
pub fn reach(document: &[u8]) -> Result<Vec<String>, Error> {
    Ok(value(&reach_json(document)?)?)
}

/// Like [`reach`], but returns the keys as a JSON array.
///
/// # Errors
///
/// Those of [`reach`].
pub fn reach_json(document: &[u8]) -> Result<String, Error> {
    answer_or_report(
        Call::Document(ffi::REACH, document),
        Call::Document(ffi::CHECK_REACH, document),
    )
}

/// Declares the check of a document, and the same with its JSON.
macro_rules! checks {
    ($(#[$meaning:meta])* $name:ident, $json:ident, $function:ident) => {
        $(#[$meaning])*
        ///
        /// # Errors
        ///
        /// [`Fault::OutOfMemory`] alone. A document with a fault has a report too.
        pub fn $name(document: &[u8]) -> Result<Report, Fault> {
            value(&$json(document)?)
        }

        #[doc = concat!("Like [`", stringify!($name), "`], but returns the JSON of the report.")]
        ///
        /// # Errors
        ///
        /// [`Fault::OutOfMemory`] alone.
        pub fn $json(document: &[u8]) -> Result<String, Fault> {
            answer(Call::Document(ffi::$function, document))
        }
    };
}

checks! {
    /// Returns the report on a document of [`analyze_json`]: what is wrong with it and where, or that it is valid,
    /// with warnings.
    check, check_json, CHECK
}

checks! {
    /// Returns the report on a document of [`analyze_estree`]. Where the tree doesn't fit the source, the report has
    /// the range in bytes of UTF-8, and no pointer.
    check_estree, check_estree_json, CHECK_ESTREE
}

checks! {
    /// Returns the report on a document of [`convert`].
    check_convert, check_convert_json, CHECK_CONVERT
}

checks! {
    /// Returns the report on a document of [`reach`].
    check_reach, check_reach_json, CHECK_REACH
}

/// Returns a line for each line of `documents`, in the same order, each with its line feed. Each line of
/// `documents` is a document of the command, and the last one needs no line feed. A line of the result is
/// `{"answer":ANSWER}` or `{"fault":NAME}`, for a check the report or `{"fault":"OutOfMemory"}`.
///
/// Calls may run in many threads at once, which gain most where each call has some hundred kilobytes.
///
/// # Errors
///
/// [`Fault::OutOfMemory`] alone. A document with a fault has a line too.
pub fn answer_lines(command: Command, documents: &[u8]) -> Result<String, Fault> {
    lines(Call::Lines(command as u8, documents))
}

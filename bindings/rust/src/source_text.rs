//! Functions of source texts.

use crate::answer::{answer, answer_or_report, value};
use crate::error::Error;
use crate::fault::Fault;
use crate::ffi::{self, Call, TextFunction};
use crate::media_type::MediaType;
use crate::module_info::ModuleInfo;
use crate::report::Report;
use url::Url;

/// Returns what a source text of JavaScript or TypeScript depends on. Without a media type, the specifier's counts
/// ([`MediaType::from_specifier`]).
///
/// ```
/// let specifier = modinfo::Url::parse("file:///a.ts").unwrap();
/// let info = modinfo::module_info("import './b.ts';", &specifier, None)?;
/// assert_eq!(info.dependencies[0].as_static().unwrap().specifier, "./b.ts");
/// # Ok::<(), modinfo::Error>(())
/// ```
///
/// # Errors
///
/// [`Fault::Syntax`] if the text has a syntax error, with its position and what was expected there;
/// [`Fault::OutOfMemory`] if an allocation of the library fails.
pub fn module_info(
    text: &str,
    specifier: &Url,
    media_type: Option<MediaType>,
) -> Result<ModuleInfo, Error> {
    Ok(value(&module_info_json(text, specifier, media_type)?)?)
}

/// Like [`module_info`], but returns the JSON of the `ModuleInfo`.
///
/// # Errors
///
/// Those of [`module_info`]. [`Fault::OutOfMemory`] also if an allocation of the crate fails.
pub fn module_info_json(
    text: &str,
    specifier: &Url,
    media_type: Option<MediaType>,
) -> Result<String, Error> {
    answer_or_report(
        call(ffi::ANALYZE_SOURCE, text, specifier, media_type),
        call(ffi::CHECK_SOURCE, text, specifier, media_type),
    )
}

/// Returns the report on a source text. Its pointer leads into the document of `modinfo analyze --source` that has
/// this text: `/source` for a syntax error.
///
/// # Errors
///
/// [`Fault::OutOfMemory`] alone. A text with a fault has a report too.
pub fn check_source(
    text: &str,
    specifier: &Url,
    media_type: Option<MediaType>,
) -> Result<Report, Fault> {
    value(&check_source_json(text, specifier, media_type)?)
}

/// Like [`check_source`], but returns the JSON of the report.
///
/// # Errors
///
/// [`Fault::OutOfMemory`] alone.
pub fn check_source_json(
    text: &str,
    specifier: &Url,
    media_type: Option<MediaType>,
) -> Result<String, Fault> {
    answer(call(ffi::CHECK_SOURCE, text, specifier, media_type))
}

fn call<'i>(
    function: TextFunction,
    text: &'i str,
    specifier: &'i Url,
    media_type: Option<MediaType>,
) -> Call<'i> {
    Call::Text(
        function,
        text,
        specifier.as_str(),
        media_type.map_or(0, |named| named as u8),
    )
}

//! Parsers, and stores of what they return, by the interfaces of `deno_graph`.

use crate::analyzer::ModuleSpecifier;
use crate::error::Error;
use crate::media_type::MediaType;
use crate::parsed_source::ParsedSource;
use crate::source_text::module_info;
use std::cell::RefCell;
use std::collections::HashMap;
use std::sync::Arc;

/// What a parser parses.
#[derive(Clone, Debug)]
pub struct ParseOptions<'a> {
    /// The specifier.
    pub specifier: &'a ModuleSpecifier,
    /// The text.
    pub source: Arc<str>,
    /// The media type.
    pub media_type: MediaType,
    /// Makes no difference here: no parser of this crate analyzes scopes.
    pub scope_analysis: bool,
}

/// Parses source texts.
pub trait EsParser {
    /// Parses a source text.
    ///
    /// # Errors
    ///
    /// Of [`DefaultEsParser`] those of [`module_info`](crate::module_info()).
    fn parse_program(&self, options: ParseOptions<'_>) -> Result<ParsedSource, Error>;
}

/// The parser of the library.
#[derive(Clone, Copy, Debug, Default)]
pub struct DefaultEsParser;

impl EsParser for DefaultEsParser {
    fn parse_program(&self, options: ParseOptions<'_>) -> Result<ParsedSource, Error> {
        let ParseOptions {
            specifier,
            source,
            media_type,
            ..
        } = options;
        let info = module_info(&source, specifier, Some(media_type))?;
        Ok(ParsedSource::new(
            specifier.clone(),
            source,
            media_type,
            info,
        ))
    }
}

/// Keeps what was parsed, by specifiers.
pub trait ParsedSourceStore {
    /// Keeps a source, and returns the one that it replaces.
    fn set_parsed_source(
        &self,
        specifier: ModuleSpecifier,
        parsed_source: ParsedSource,
    ) -> Option<ParsedSource>;

    /// Returns the source of a specifier.
    fn get_parsed_source(&self, specifier: &ModuleSpecifier) -> Option<ParsedSource>;

    /// Returns the source of a specifier, and keeps it no longer.
    fn remove_parsed_source(&self, specifier: &ModuleSpecifier) -> Option<ParsedSource>;

    /// Returns the source of a specifier, for a caller that asks for an analysis of scopes, which no source has here.
    fn get_scope_analysis_parsed_source(&self, specifier: &ModuleSpecifier)
        -> Option<ParsedSource>;
}

/// A store for one thread.
#[derive(Debug, Default)]
pub struct DefaultParsedSourceStore {
    store: RefCell<HashMap<ModuleSpecifier, ParsedSource>>,
}

impl ParsedSourceStore for DefaultParsedSourceStore {
    fn set_parsed_source(
        &self,
        specifier: ModuleSpecifier,
        parsed_source: ParsedSource,
    ) -> Option<ParsedSource> {
        self.store.borrow_mut().insert(specifier, parsed_source)
    }

    fn get_parsed_source(&self, specifier: &ModuleSpecifier) -> Option<ParsedSource> {
        self.store.borrow().get(specifier).cloned()
    }

    fn remove_parsed_source(&self, specifier: &ModuleSpecifier) -> Option<ParsedSource> {
        self.store.borrow_mut().remove(specifier)
    }

    fn get_scope_analysis_parsed_source(
        &self,
        specifier: &ModuleSpecifier,
    ) -> Option<ParsedSource> {
        self.get_parsed_source(specifier)
    }
}

/// A parser that looks in a store first, and keeps there what it parses.
#[derive(Clone, Copy)]
pub struct CapturingEsParser<'a> {
    parser: Option<&'a dyn EsParser>,
    store: &'a dyn ParsedSourceStore,
}

impl<'a> CapturingEsParser<'a> {
    /// Takes a parser, [`DefaultEsParser`] where there is none, and a store.
    #[must_use]
    pub fn new(
        parser: Option<&'a dyn EsParser>,
        store: &'a dyn ParsedSourceStore,
    ) -> CapturingEsParser<'a> {
        CapturingEsParser { parser, store }
    }

    /// The source in the store, if it has this text and media type.
    fn kept(&self, options: &ParseOptions<'_>) -> Option<ParsedSource> {
        let found = if options.scope_analysis {
            self.store
                .get_scope_analysis_parsed_source(options.specifier)
        } else {
            self.store.get_parsed_source(options.specifier)
        };
        found.filter(|kept| {
            kept.media_type() == options.media_type && *kept.text() == options.source
        })
    }
}

impl EsParser for CapturingEsParser<'_> {
    fn parse_program(&self, options: ParseOptions<'_>) -> Result<ParsedSource, Error> {
        if let Some(kept) = self.kept(&options) {
            return Ok(kept);
        }
        let specifier = options.specifier.clone();
        let parsed_source = self
            .parser
            .unwrap_or(&DefaultEsParser)
            .parse_program(options)?;
        self.store
            .set_parsed_source(specifier, parsed_source.clone());
        Ok(parsed_source)
    }
}

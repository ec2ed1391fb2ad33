//! The interface by which `deno_graph` asks for the information on a module, and its analyzers.

use crate::error::Error;
use crate::media_type::MediaType;
use crate::module_info::ModuleInfo;
use crate::parsed_source::ParsedSource;
use crate::parser::{
    CapturingEsParser, DefaultEsParser, DefaultParsedSourceStore, EsParser, ParseOptions,
    ParsedSourceStore,
};
use std::future::{ready, Future};
use std::pin::Pin;
use std::sync::Arc;
use url::Url;

/// The specifier of a module: an absolute URL.
pub type ModuleSpecifier = Url;

/// What an analyzer returns: a future of the information.
type Analyzed<'a> = Pin<Box<dyn Future<Output = Result<ModuleInfo, Error>> + 'a>>;

/// Returns the information on a module, from its text.
///
/// The method is that which `#[async_trait(?Send)]` makes of
///
/// ```text
/// async fn analyze(&self, specifier: &ModuleSpecifier, source: Arc<str>, media_type: MediaType)
///     -> Result<ModuleInfo, Error>;
/// ```
///
/// so that an implementation may be written as an `async fn` below this attribute.
pub trait ModuleAnalyzer {
    /// Analyzes a module.
    fn analyze<'life0, 'life1, 'async_trait>(
        &'life0 self,
        specifier: &'life1 ModuleSpecifier,
        source: Arc<str>,
        media_type: MediaType,
    ) -> Pin<Box<dyn Future<Output = Result<ModuleInfo, Error>> + 'async_trait>>
    where
        'life0: 'async_trait,
        'life1: 'async_trait,
        Self: 'async_trait;
}

/// The default is [`DefaultModuleAnalyzer`].
impl<'a> Default for &'a dyn ModuleAnalyzer {
    fn default() -> &'a dyn ModuleAnalyzer {
        &DefaultModuleAnalyzer
    }
}

/// Implements [`ModuleAnalyzer`] by a method `analyze_sync`. The future is ready at once: the call runs, and never
/// waits, when [`analyze`](ModuleAnalyzer::analyze) is called.
macro_rules! analyzes_at_once {
    ($analyzer:ty) => {
        impl ModuleAnalyzer for $analyzer {
            fn analyze<'life0, 'life1, 'async_trait>(
                &'life0 self,
                specifier: &'life1 ModuleSpecifier,
                source: Arc<str>,
                media_type: MediaType,
            ) -> Analyzed<'async_trait>
            where
                'life0: 'async_trait,
                'life1: 'async_trait,
                Self: 'async_trait,
            {
                Box::pin(ready(self.analyze_sync(specifier, source, media_type)))
            }
        }
    };
}

/// An analyzer that calls [`module_info`](crate::module_info()). Its future is ready at once.
#[derive(Clone, Copy, Debug, Default)]
pub struct DefaultModuleAnalyzer;

impl DefaultModuleAnalyzer {
    /// Analyzes a module, without a future.
    ///
    /// # Errors
    ///
    /// Those of [`module_info`](crate::module_info()).
    pub fn analyze_sync(
        &self,
        specifier: &ModuleSpecifier,
        source: Arc<str>,
        media_type: MediaType,
    ) -> Result<ModuleInfo, Error> {
        ParserModuleAnalyzer::default().analyze_sync(specifier, source, media_type)
    }
}

analyzes_at_once!(DefaultModuleAnalyzer);

/// An analyzer that asks a parser, whose [`ParsedSource`] has the information.
#[derive(Clone, Copy)]
pub struct ParserModuleAnalyzer<'a> {
    parser: &'a dyn EsParser,
}

impl<'a> ParserModuleAnalyzer<'a> {
    /// Takes a parser.
    #[must_use]
    pub fn new(parser: &'a dyn EsParser) -> ParserModuleAnalyzer<'a> {
        ParserModuleAnalyzer { parser }
    }

    /// The information on a text that was parsed.
    #[must_use]
    pub fn module_info(parsed_source: &ParsedSource) -> ModuleInfo {
        parsed_source.info().clone()
    }

    /// Analyzes a module, without a future.
    ///
    /// # Errors
    ///
    /// Those of the parser.
    pub fn analyze_sync(
        &self,
        specifier: &ModuleSpecifier,
        source: Arc<str>,
        media_type: MediaType,
    ) -> Result<ModuleInfo, Error> {
        let parsed_source = self.parser.parse_program(ParseOptions {
            specifier,
            source,
            media_type,
            scope_analysis: false,
        })?;
        Ok(ParserModuleAnalyzer::module_info(&parsed_source))
    }
}

/// With [`DefaultEsParser`].
impl Default for ParserModuleAnalyzer<'_> {
    fn default() -> Self {
        ParserModuleAnalyzer::new(&DefaultEsParser)
    }
}

analyzes_at_once!(ParserModuleAnalyzer<'_>);

/// An analyzer, parser and store in one, which parses no text again that it has in its store.
pub struct CapturingModuleAnalyzer {
    parser: Box<dyn EsParser>,
    store: Box<dyn ParsedSourceStore>,
}

impl CapturingModuleAnalyzer {
    /// Takes a parser and a store, [`DefaultEsParser`] and [`DefaultParsedSourceStore`] where there is none.
    #[must_use]
    pub fn new(
        parser: Option<Box<dyn EsParser>>,
        store: Option<Box<dyn ParsedSourceStore>>,
    ) -> CapturingModuleAnalyzer {
        CapturingModuleAnalyzer {
            parser: parser.unwrap_or_else(|| Box::new(DefaultEsParser)),
            store: store.unwrap_or_else(|| Box::<DefaultParsedSourceStore>::default()),
        }
    }

    /// A parser that looks in the store first.
    #[must_use]
    pub fn as_capturing_parser(&self) -> CapturingEsParser<'_> {
        CapturingEsParser::new(Some(&*self.parser), &*self.store)
    }

    /// Analyzes a module, without a future.
    ///
    /// # Errors
    ///
    /// Those of the parser.
    pub fn analyze_sync(
        &self,
        specifier: &ModuleSpecifier,
        source: Arc<str>,
        media_type: MediaType,
    ) -> Result<ModuleInfo, Error> {
        ParserModuleAnalyzer::new(self).analyze_sync(specifier, source, media_type)
    }
}

impl Default for CapturingModuleAnalyzer {
    fn default() -> CapturingModuleAnalyzer {
        CapturingModuleAnalyzer::new(None, None)
    }
}

analyzes_at_once!(CapturingModuleAnalyzer);

impl EsParser for CapturingModuleAnalyzer {
    fn parse_program(&self, options: ParseOptions<'_>) -> Result<ParsedSource, Error> {
        self.as_capturing_parser().parse_program(options)
    }
}

impl ParsedSourceStore for CapturingModuleAnalyzer {
    fn set_parsed_source(
        &self,
        specifier: ModuleSpecifier,
        parsed_source: ParsedSource,
    ) -> Option<ParsedSource> {
        self.store.set_parsed_source(specifier, parsed_source)
    }

    fn get_parsed_source(&self, specifier: &ModuleSpecifier) -> Option<ParsedSource> {
        self.store.get_parsed_source(specifier)
    }

    fn remove_parsed_source(&self, specifier: &ModuleSpecifier) -> Option<ParsedSource> {
        self.store.remove_parsed_source(specifier)
    }

    fn get_scope_analysis_parsed_source(
        &self,
        specifier: &ModuleSpecifier,
    ) -> Option<ParsedSource> {
        self.store.get_scope_analysis_parsed_source(specifier)
    }
}

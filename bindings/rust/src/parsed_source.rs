//! What a parser returns: a text without a syntax error, and what it depends on.

use crate::analyzer::ModuleSpecifier;
use crate::document::ByteRange;
use crate::media_type::MediaType;
use crate::module_info::{ModuleInfo, Position};
use std::sync::Arc;

/// A source text that was parsed. A clone shares the text and the information.
///
/// It has no tree: the library drops the tree when it has the information.
#[derive(Clone, Debug)]
pub struct ParsedSource(Arc<Parsed>);

#[derive(Debug)]
struct Parsed {
    specifier: ModuleSpecifier,
    media_type: MediaType,
    text_info: SourceTextInfo,
    info: ModuleInfo,
}

impl ParsedSource {
    pub(crate) fn new(
        specifier: ModuleSpecifier,
        text: Arc<str>,
        media_type: MediaType,
        info: ModuleInfo,
    ) -> ParsedSource {
        ParsedSource(Arc::new(Parsed {
            specifier,
            media_type,
            text_info: SourceTextInfo(text),
            info,
        }))
    }

    /// The specifier.
    #[must_use]
    pub fn specifier(&self) -> &ModuleSpecifier {
        &self.0.specifier
    }

    /// The media type.
    #[must_use]
    pub fn media_type(&self) -> MediaType {
        self.0.media_type
    }

    /// The text.
    #[must_use]
    pub fn text(&self) -> &Arc<str> {
        &self.0.text_info.0
    }

    /// The text with its positions.
    #[must_use]
    pub fn text_info_lazy(&self) -> &SourceTextInfo {
        &self.0.text_info
    }

    pub(crate) fn info(&self) -> &ModuleInfo {
        &self.0.info
    }
}

/// A text, in which a position and a range are looked up.
#[derive(Clone, Debug)]
pub struct SourceTextInfo(Arc<str>);

impl SourceTextInfo {
    /// Takes a text.
    #[must_use]
    pub fn new(text: Arc<str>) -> SourceTextInfo {
        SourceTextInfo(text)
    }

    /// The text.
    #[must_use]
    pub fn text_str(&self) -> &str {
        &self.0
    }

    /// The part of the text in a range of bytes.
    ///
    /// # Panics
    ///
    /// If the text doesn't have the range, or one end is inside a character.
    #[must_use]
    pub fn range_text(&self, range: &ByteRange) -> &str {
        &self.0[range.start..range.end]
    }

    /// The offset of a position in bytes: the end of the line, or of the text, where it has no such character, or line.
    #[must_use]
    pub fn loc_to_source_pos(&self, position: Position) -> usize {
        let text = self.text_str();
        let mut start = 0;
        for _ in 0..position.line {
            match text[start..].find('\n') {
                Some(at) => start += at + 1,
                None => return text.len(),
            }
        }
        let line = text[start..].split('\n').next().unwrap_or_default();
        let before = line.char_indices().nth(position.character);
        start + before.map_or(line.len(), |(at, _)| at)
    }
}

#[cfg(test)]
mod tests {
    use super::SourceTextInfo;
    use crate::module_info::{Position, PositionRange};

    #[test]
    fn offsets_of_positions() {
        let text = SourceTextInfo::new("aé\r\n\n𝒳b".into());
        for (line, character, offset) in [
            (0, 0, 0),
            (0, 1, 1),
            (0, 2, 3),
            (0, 3, 4),
            (0, 9, 4),
            (1, 0, 5),
            (1, 1, 5),
            (2, 0, 6),
            (2, 1, 10),
            (2, 2, 11),
            (2, 9, 11),
            (9, 0, 11),
        ] {
            let position = Position::new(line, character);
            assert_eq!(text.loc_to_source_pos(position), offset, "{position:?}");
        }
        let range = PositionRange {
            start: Position::new(0, 1),
            end: Position::new(2, 1),
        };
        assert_eq!(text.range_text(&range.as_source_range(&text)), "é\r\n\n𝒳");
        assert_eq!(text.text_str().len(), 11);
    }
}

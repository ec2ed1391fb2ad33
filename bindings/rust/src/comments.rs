//! What the library finds in the text of one comment.

use crate::document::{
    ByteRange, CommentKind, DocumentComment, FiledComments, ModuleDocument, ProgramTree,
};
use crate::documents::analyze;
use crate::media_type::MediaType;
use crate::module_info::ModuleInfo;
use crate::parsed_source::SourceTextInfo;
use std::ops::Range;

/// A part of a text, as a match of the crate `regex` is.
#[derive(Clone, Copy, Debug, PartialEq, Eq)]
pub struct Match<'t> {
    text: &'t str,
    start: usize,
    end: usize,
}

impl<'t> Match<'t> {
    /// The part.
    #[must_use]
    pub fn as_str(&self) -> &'t str {
        &self.text[self.range()]
    }

    /// Where it is in the text, in bytes.
    #[must_use]
    pub fn range(&self) -> Range<usize> {
        self.start..self.end
    }

    /// Where it starts.
    #[must_use]
    pub fn start(&self) -> usize {
        self.start
    }

    /// Where it ends.
    #[must_use]
    pub fn end(&self) -> usize {
        self.end
    }
}

/// Finds the URL in the text of a comment with `sourceMappingURL`, without the comment's delimiters. `None` also if an
/// allocation fails.
#[must_use]
pub fn find_source_mapping_url(text: &str) -> Option<Match<'_>> {
    let document = document(CommentKind::Block, text);
    let range = analyze(&document).ok()?.source_map_url?.range;
    let found = range.as_source_range(&SourceTextInfo::new(document.source.into()));
    Some(Match {
        text,
        start: found.start - DELIMITER,
        end: found.end - DELIMITER,
    })
}

/// Whether the text of a comment, after its `//`, is that of a triple-slash reference: `/ <reference .. />`. `false`
/// also if an allocation fails.
#[must_use]
pub fn is_comment_triple_slash_reference(comment_text: &str) -> bool {
    // Only a reference with a path or types is found. Neither is looked for inside the brackets alone.
    let document = document(CommentKind::Line, &format!("{comment_text} path=''"));
    analyze(&document).map_or(false, |info: ModuleInfo| !info.ts_references.is_empty())
}

/// The length of `//`, and of `/*`.
const DELIMITER: usize = 2;

/// A module of nothing but a comment, which is at its head and at its end.
fn document(kind: CommentKind, text: &str) -> ModuleDocument {
    let source = match kind {
        CommentKind::Line => format!("//{text}"),
        CommentKind::Block => format!("/*{text}*/"),
    };
    let end = source.len();
    let filed = FiledComments {
        pos: end,
        comments: vec![DocumentComment {
            kind,
            range: ByteRange { start: 0, end },
            text: text.to_owned(),
        }],
    };
    ModuleDocument {
        specifier: "file:///a.js".to_owned(),
        media_type: MediaType::JavaScript,
        source,
        program: ProgramTree {
            range: ByteRange { start: end, end },
            body: Vec::new(),
            shebang: false,
        },
        leading: vec![filed.clone()],
        trailing: vec![filed],
    }
}

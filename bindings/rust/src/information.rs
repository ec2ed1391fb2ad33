//! What the generated types are made with, and their methods.

use crate::document::{ByteRange, JsString};
use crate::module_info::{
    DependencyDescriptor, DynamicArgument, DynamicDependencyDescriptor, DynamicTemplatePart,
    ImportAttribute, ImportAttributes, Position, PositionRange, StaticDependencyDescriptor,
    TypeScriptTypesResolutionMode,
};
use crate::parsed_source::SourceTextInfo;
use crate::report::{FaultReport, Report};

/// Defines a struct of two fields that is an array in JSON.
macro_rules! pair {
    ($(#[$meaning:meta])* $name:ident { $first:ident: $one:ty, $second:ident: $other:ty }) => {
        $(#[$meaning])*
        #[derive(Clone, Copy, Debug, Default, PartialEq, Eq, PartialOrd, Ord, Hash)]
        pub struct $name {
            #[doc = concat!("The ", stringify!($first), ".")]
            pub $first: $one,
            #[doc = concat!("The ", stringify!($second), ".")]
            pub $second: $other,
        }

        impl serde::Serialize for $name {
            fn serialize<S: serde::Serializer>(&self, serializer: S) -> Result<S::Ok, S::Error> {
                (self.$first, self.$second).serialize(serializer)
            }
        }

        impl<'de> serde::Deserialize<'de> for $name {
            fn deserialize<D: serde::Deserializer<'de>>(deserializer: D) -> Result<Self, D::Error> {
                let ($first, $second) = serde::Deserialize::deserialize(deserializer)?;
                Ok($name { $first, $second })
            }
        }
    };
}

pub(crate) use pair;

/// Whether a member is left out of the JSON.
pub(crate) fn is_default<T: Default + PartialEq>(value: &T) -> bool {
    *value == T::default()
}

impl DependencyDescriptor {
    /// The dependency if a declaration or a type names it.
    #[must_use]
    pub fn as_static(&self) -> Option<&StaticDependencyDescriptor> {
        match self {
            DependencyDescriptor::Static(dependency) => Some(dependency),
            DependencyDescriptor::Dynamic(_) => None,
        }
    }

    /// The dependency if it is one of a call.
    #[must_use]
    pub fn as_dynamic(&self) -> Option<&DynamicDependencyDescriptor> {
        match self {
            DependencyDescriptor::Static(_) => None,
            DependencyDescriptor::Dynamic(dependency) => Some(dependency),
        }
    }

    /// The attributes of either kind of dependency.
    #[must_use]
    pub fn import_attributes(&self) -> &ImportAttributes {
        match self {
            DependencyDescriptor::Static(dependency) => &dependency.import_attributes,
            DependencyDescriptor::Dynamic(dependency) => &dependency.import_attributes,
        }
    }
}

impl From<StaticDependencyDescriptor> for DependencyDescriptor {
    fn from(dependency: StaticDependencyDescriptor) -> Self {
        DependencyDescriptor::Static(dependency)
    }
}

impl From<DynamicDependencyDescriptor> for DependencyDescriptor {
    fn from(dependency: DynamicDependencyDescriptor) -> Self {
        DependencyDescriptor::Dynamic(dependency)
    }
}

impl ImportAttributes {
    /// Whether there are no attributes.
    #[must_use]
    pub fn is_none(&self) -> bool {
        *self == ImportAttributes::None
    }

    /// Whether the known `type` is one of an asset: `text`, `bytes` or `css`.
    #[must_use]
    pub fn has_asset(&self) -> bool {
        matches!(self.get("type"), Some("text" | "bytes" | "css"))
    }

    /// The value of a key, if it is known.
    #[must_use]
    pub fn get(&self, key: &str) -> Option<&str> {
        match self {
            ImportAttributes::Known(values) => match values.get(key)? {
                ImportAttribute::Known(value) => Some(value),
                ImportAttribute::Unknown => None,
            },
            _ => None,
        }
    }
}

impl DynamicArgument {
    /// Whether the argument has neither a text nor parts, as that of `import(x)`.
    #[must_use]
    pub fn is_expr(&self) -> bool {
        *self == DynamicArgument::Expr
    }

    /// Whether nothing is known of the argument: that of `import(x)`, and that of ``import(`${x}`)``, which has one
    /// part.
    #[must_use]
    pub fn is_unknown(&self) -> bool {
        match self {
            DynamicArgument::Expr => true,
            DynamicArgument::String(_) => false,
            DynamicArgument::Template(parts) => {
                parts.iter().all(|part| *part == DynamicTemplatePart::Expr)
            }
        }
    }
}

impl Position {
    /// The position on a line, at a character; both count from zero.
    #[must_use]
    pub const fn new(line: usize, character: usize) -> Position {
        Position { line, character }
    }

    /// The first position of a text.
    #[must_use]
    pub const fn zeroed() -> Position {
        Position::new(0, 0)
    }
}

impl PositionRange {
    /// The empty range at the first position of a text.
    #[must_use]
    pub const fn zeroed() -> PositionRange {
        PositionRange {
            start: Position::zeroed(),
            end: Position::zeroed(),
        }
    }

    /// The range of bytes in a text that has the positions, up to its end.
    #[must_use]
    pub fn as_source_range(&self, text_info: &SourceTextInfo) -> ByteRange {
        ByteRange {
            start: text_info.loc_to_source_pos(self.start),
            end: text_info.loc_to_source_pos(self.end),
        }
    }

    /// Whether a position is in the range or at its end.
    #[must_use]
    pub fn includes(&self, position: Position) -> bool {
        self.start <= position && position <= self.end
    }
}

/// Whether a specifier is resolved as `import` or as `require` resolves.
#[derive(Clone, Copy, Debug, PartialEq, Eq, Hash)]
#[non_exhaustive]
pub enum ResolutionMode {
    /// As `import` does.
    Import,
    /// As `require` does.
    Require,
}

impl TypeScriptTypesResolutionMode {
    /// The mode that `import` or `require` names. `None` for any other text.
    #[allow(clippy::should_implement_trait)]
    #[must_use]
    pub fn from_str(text: &str) -> Option<TypeScriptTypesResolutionMode> {
        match text {
            "import" => Some(TypeScriptTypesResolutionMode::Import),
            "require" => Some(TypeScriptTypesResolutionMode::Require),
            _ => None,
        }
    }

    /// The mode of the same name.
    #[must_use]
    pub fn as_deno_graph(&self) -> ResolutionMode {
        match self {
            TypeScriptTypesResolutionMode::Import => ResolutionMode::Import,
            TypeScriptTypesResolutionMode::Require => ResolutionMode::Require,
        }
    }
}

impl Report {
    /// Whether the command takes the document.
    #[must_use]
    pub fn is_valid(&self) -> bool {
        matches!(self, Report::Valid(_))
    }

    /// The fault for which the document is refused, and where it is.
    #[must_use]
    pub fn as_fault(&self) -> Option<&FaultReport> {
        match self {
            Report::Valid(_) => None,
            Report::Invalid(report) => Some(report),
        }
    }
}

impl From<&str> for JsString {
    fn from(text: &str) -> JsString {
        JsString::Text(text.to_owned())
    }
}

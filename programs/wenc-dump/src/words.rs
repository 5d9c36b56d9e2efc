//! Words for sections and for counts.

use std::fmt::{self, Display};
use wenc::{ComponentSectionId, SectionId};

/// Returns the word for a section of a component; `None` if its id is above 11.
pub fn section(id: u8) -> Option<&'static str> {
    Some(match ComponentSectionId::try_from(id).ok()? {
        ComponentSectionId::CoreCustom => "custom",
        ComponentSectionId::CoreModule => "core module",
        ComponentSectionId::CoreInstance => "core instance",
        ComponentSectionId::CoreType => "core type",
        ComponentSectionId::Component => "component",
        ComponentSectionId::Instance => "instance",
        ComponentSectionId::Alias => "alias",
        ComponentSectionId::Type => "type",
        ComponentSectionId::CanonicalFunction => "canonical function",
        ComponentSectionId::Start => "start",
        ComponentSectionId::Import => "import",
        ComponentSectionId::Export => "export",
    })
}

/// Returns the word for a section of a core module; `None` if its id is above 13.
pub fn core_section(id: u8) -> Option<&'static str> {
    Some(match SectionId::try_from(id).ok()? {
        SectionId::Custom => "custom",
        SectionId::Type => "type",
        SectionId::Import => "import",
        SectionId::Function => "function",
        SectionId::Table => "table",
        SectionId::Memory => "memory",
        SectionId::Global => "global",
        SectionId::Export => "export",
        SectionId::Start => "start",
        SectionId::Element => "element",
        SectionId::Code => "code",
        SectionId::Data => "data",
        SectionId::DataCount => "data count",
        SectionId::Tag => "tag",
    })
}

/// A number of things: "1 byte", "2 bytes".
pub struct Counted<'a>(pub usize, pub &'a str);

impl Display for Counted<'_> {
    fn fmt(&self, f: &mut fmt::Formatter<'_>) -> fmt::Result {
        let Self(count, word) = self;
        write!(f, "{count} {word}{}", if *count == 1 { "" } else { "s" })
    }
}

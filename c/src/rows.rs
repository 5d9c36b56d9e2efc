//! What a call writes about a section or an item that it read.

use crate::arguments::{Name, Text};
use crate::numbers;
use core::ops::Range;
use core::ptr;
use wenc::view::{ItemView, NameView};
use wenc::{Alias, SectionReader};

/// `wenc_listed_section`: a section that was read.
#[derive(Clone, Copy)]
#[repr(C)]
pub struct SectionRow {
    pub place: usize,
    pub len: usize,
    pub content: usize,
    pub items: usize,
    pub id: u32,
}

impl SectionRow {
    /// Describes a section of a component.
    pub(crate) fn new(section: &SectionReader<'_>) -> Self {
        let row = Self::unread(section.range(), section.raw().data.len(), section.id());
        Self { items: usize::try_from(section.count()).unwrap_or(usize::MAX), ..row }
    }

    /// Describes a section with this many bytes of content, whose items aren't counted.
    pub(crate) fn unread(range: Range<usize>, content: usize, id: u8) -> Self {
        let (place, len) = (range.start, range.len());
        Self { place, len, content: range.end - content, items: 0, id: id.into() }
    }
}

/// `wenc_listed_item`: an item that was read.
#[derive(Clone, Copy)]
#[repr(C)]
pub struct ItemRow {
    pub index: u64,
    pub place: usize,
    pub len: usize,
    pub name: Name,
    pub bytes: *const u8,
    pub bytes_len: usize,
    pub section: u32,
    pub space: u32,
    pub indices: u32,
    pub reference: u32,
    pub of: u32,
    pub alias: u32,
    pub kind: u32,
    pub item: u32,
    pub count: u32,
}

impl ItemRow {
    /// Describes an item of a section with this id, at these byte offsets in the component.
    pub(crate) fn new(section: u32, range: Range<usize>, item: ItemView<'_>) -> Self {
        let mut row = Self::of_section(section, range);
        if let Some((space, indices)) = item.defined_indices() {
            (row.space, row.indices) = (numbers::of_space(space), indices);
        }
        match item {
            ItemView::Module(bytes) | ItemView::Component(bytes) => row.set_bytes(bytes),
            ItemView::Custom { name, data } => {
                row.name.name = Text::new(name);
                row.set_bytes(data);
            }
            ItemView::Import { name, ty } => {
                row.name = Name::new(name);
                (row.reference, row.of) = numbers::of_type_ref(ty);
            }
            ItemView::Export { name, kind, index, ty } => {
                row.name = Name::new(name);
                (row.kind, row.item) = (numbers::of_kind(kind), index);
                (row.reference, row.of) = ty.map_or((0, 0), numbers::of_type_ref);
            }
            ItemView::Alias(alias) => row.set_alias(alias),
            _ => {}
        }
        row
    }

    /// Describes an item of which only the section and the byte offsets are known.
    fn of_section(section: u32, range: Range<usize>) -> Self {
        Self {
            index: 0,
            place: range.start,
            len: range.len(),
            name: Name::NONE,
            bytes: ptr::null(),
            bytes_len: 0,
            section,
            space: numbers::NO_SPACE,
            indices: 0,
            reference: 0,
            of: 0,
            alias: 0,
            kind: 0,
            item: 0,
            count: 0,
        }
    }

    fn set_bytes(&mut self, bytes: &[u8]) {
        (self.bytes, self.bytes_len) = (at_of(bytes), bytes.len());
    }

    fn set_alias(&mut self, alias: Alias<'_>) {
        self.alias = numbers::of_alias(&alias);
        match alias {
            Alias::InstanceExport { instance, kind, name } => {
                self.name.name = Text::new(name);
                (self.kind, self.item) = (numbers::of_kind(kind), instance);
            }
            Alias::CoreInstanceExport { instance, kind, name } => {
                self.name.name = Text::new(name);
                (self.kind, self.item) = (numbers::of_core_kind(kind), instance);
            }
            Alias::Outer { kind, count, index } => {
                (self.kind, self.item) = (numbers::of_outer_kind(kind), index);
                self.count = count;
            }
        }
    }
}

/// Returns a pointer to the bytes: to `""` if there are none.
fn at_of(bytes: &[u8]) -> *const u8 {
    if bytes.is_empty() { c"".as_ptr().cast() } else { bytes.as_ptr() }
}

impl Text {
    pub fn new(text: &str) -> Self {
        Self::of_bytes(text.as_bytes())
    }

    pub fn of_bytes(bytes: &[u8]) -> Self {
        Self { at: at_of(bytes), len: bytes.len() }
    }
}

impl Name {
    pub const NONE: Self = Self {
        name: Text::NONE,
        implements: Text::NONE,
        version_suffix: Text::NONE,
        external_id: Text::NONE,
    };

    fn new(name: NameView<'_>) -> Self {
        let option = |text: Option<&str>| text.map_or(Text::NONE, Text::new);
        Self {
            name: Text::new(name.name),
            implements: option(name.implements),
            version_suffix: option(name.version_suffix),
            external_id: option(name.external_id),
        }
    }
}

//! The imports, the exports and the start of a core module.

use crate::proved::wenc_read::{Expected, Refusal, u32_of};
use crate::proved::wenc_view::View;
use crate::read_error::{Cause, Part, ReadError};
use crate::tree::CoreEntityType;
use crate::{CoreSection, ExportKind, SectionId};
use core::iter::FusedIterator;
use core::ops::Range;

/// An item of a core module.
///
/// Needs the feature `walk`.
#[derive(Clone, Debug, PartialEq, Eq, Hash)]
#[non_exhaustive]
pub struct CoreItem<'a> {
    /// Its byte offsets in the module.
    pub range: Range<usize>,
    /// What it is, borrowed from the module's bytes.
    pub view: CoreItemView<'a>,
}

/// What an item of a core module is, which borrows from the module (WebAssembly 3.0, binary format, "Import
/// Section", "Export Section" and "Start Section").
///
/// Needs the feature `walk`.
#[derive(Clone, Copy, Debug, PartialEq, Eq, Hash)]
#[non_exhaustive]
pub enum CoreItemView<'a> {
    /// An import.
    Import {
        /// The name of the module that it is imported from.
        module: &'a str,
        /// Its name in that module.
        name: &'a str,
        /// Its type.
        ty: CoreEntityType,
    },
    /// An export.
    Export {
        /// Its name.
        name: &'a str,
        /// The kind of the exported item.
        kind: ExportKind,
        /// The index of the exported item, among those of its kind.
        index: u32,
    },
    /// The function that is called at instantiation.
    Start {
        /// Its index.
        function: u32,
    },
}

impl<'a> CoreItemView<'a> {
    /// Reads the first item of a section of this kind. Returns it and the bytes after it.
    #[inline(always)]
    fn first(kind: SectionId, bytes: &'a [u8]) -> Result<(Self, &'a [u8]), Refusal> {
        Ok(match kind {
            SectionId::Import => {
                let ((module, name, ty), rest) = View::view_of(bytes)?;
                (Self::Import { module, name, ty }, rest)
            }
            SectionId::Export => {
                // Exports are encoded as those of a core instance.
                let ((name, kind, index), rest) = View::view_of(bytes)?;
                (Self::Export { name, kind, index }, rest)
            }
            SectionId::Start => {
                let (function, rest) = u32_of(bytes)?;
                (Self::Start { function }, rest)
            }
            _ => return Err(Refusal::at(bytes, Expected::End)),
        })
    }
}

impl<'a> CoreSection<'a> {
    /// Returns the number of items that the section states; a start is one. Returns `None` for a
    /// custom section, for an id above 13, and if the count can't be read.
    pub fn count(&self) -> Option<u32> {
        match self.kind()? {
            SectionId::Custom => None,
            SectionId::Start => Some(1),
            _ => u32_of(self.data).ok().map(|(count, _)| count),
        }
    }

    /// Returns the imports, the exports or the start. For sections of other items, only the count
    /// is read; it is an error if the bytes are too few for it.
    ///
    /// ```
    /// use wenc::tree::CoreEntityType;
    /// use wenc::view::CoreItemView;
    /// use wenc::{Cause, CoreSections, Part, ReadError};
    ///
    /// // two imports, of which the second ends too early
    /// let module = b"\0asm\x01\0\0\0\x02\x0a\x02\x01m\x01f\0\x05\x01m\x01";
    /// let imports = CoreSections::new(module)?.next().unwrap()?;
    /// assert_eq!(imports.count(), Some(2));
    ///
    /// let mut items = imports.items();
    /// let item = items.next().unwrap()?;
    /// assert_eq!(item.range, 11..17);
    /// let ty = CoreEntityType::Function(5);
    /// assert_eq!(item.view, CoreItemView::Import { module: "m", name: "f", ty });
    ///
    /// let error = items.next().unwrap().unwrap_err();
    /// assert_eq!((error.offset, error.part), (17, Part::Item(1)));
    /// assert_eq!(error.cause, Cause::Few { place: 20, needed: 1, len: 0 });
    /// assert_eq!(items.next(), None);
    /// # Ok::<(), ReadError>(())
    /// ```
    pub fn items(&self) -> CoreItems<'a> {
        let kind = self.kind();
        let (left, rest) = match kind {
            Some(SectionId::Start) => (Ok(1), self.data),
            kind => match u32_of(self.data) {
                // the number of data segments isn't a count of items here
                Ok((_, rest)) if kind == Some(SectionId::DataCount) => (Ok(0), rest),
                Ok((count, rest)) => (Ok(count), rest),
                Err(refusal) => (Err(refusal), self.data),
            },
        };
        let is_read = |kind: &SectionId| match kind {
            SectionId::Custom => false,
            SectionId::Import | SectionId::Export | SectionId::Start => true,
            // no items, or more than there are bytes
            _ => left.map_or(true, |left| left == 0 || left as usize > rest.len()),
        };
        let section = (self.range.start, self.id);
        CoreItems {
            section,
            kind: kind.filter(is_read),
            left,
            number: 0,
            rest,
            end: self.range.end,
        }
    }
}

/// An iterator over the items of a section of a core module. It ends after an error.
///
/// Needs the feature `walk`.
#[derive(Clone, Debug)]
#[must_use = "nothing is read before it is iterated over"]
pub struct CoreItems<'a> {
    /// The byte offset and the id of the section.
    section: (usize, u8),
    /// The kind of the section; `None` if none of it is read, and after an error.
    kind: Option<SectionId>,
    /// The number of items that follow, as stated by the section, or why none is stated.
    left: Result<u32, Refusal>,
    /// The number of items returned so far.
    number: u32,
    rest: &'a [u8],
    /// The byte offset of the section's end.
    end: usize,
}

impl<'a> CoreItems<'a> {
    /// Returns why a part can't be read.
    fn bad(&self, part: Part, refusal: Refusal) -> ReadError {
        let start = self.end - self.rest.len();
        let cause = Cause::new(self.rest, self.rest.len(), refusal).moved(start);
        ReadError::in_module(self.section, (part, start), cause)
    }

    /// Returns the next item, with its byte offsets.
    #[inline(always)]
    fn take(&mut self, kind: SectionId) -> Option<<Self as Iterator>::Item> {
        let place = self.end - self.rest.len();
        let left = match self.left {
            Ok(0) if self.rest.is_empty() => return None,
            Ok(0) => {
                let refusal = Refusal::at(self.rest, Expected::End);
                return Some(Err(self.bad(Part::Rest, refusal)));
            }
            Ok(left) => left,
            Err(refusal) => return Some(Err(self.bad(Part::Count, refusal))),
        };
        match CoreItemView::first(kind, self.rest) {
            Ok((view, rest)) => {
                (self.left, self.number, self.rest) = (Ok(left - 1), self.number + 1, rest);
                Some(Ok(CoreItem { range: place..self.end - rest.len(), view }))
            }
            Err(refusal) => {
                // of a section of other items the count exceeds the bytes
                let refusal = match refusal.expected {
                    Expected::End => Refusal::at(self.rest, Expected::Bytes(left)),
                    _ => refusal,
                };
                Some(Err(self.bad(Part::Item(self.number), refusal)))
            }
        }
    }
}

/// # Errors
///
/// [`ReadError`] if the count or an item can't be read, or if bytes follow the last item.
impl<'a> Iterator for CoreItems<'a> {
    type Item = Result<CoreItem<'a>, ReadError>;

    fn next(&mut self) -> Option<Self::Item> {
        let kind = self.kind?;
        let next = self.take(kind);
        if !matches!(next, Some(Ok(_))) {
            self.kind = None;
        }
        next
    }

    #[inline]
    fn size_hint(&self) -> (usize, Option<usize>) {
        let left = self.kind.map_or(Ok(0), |_| self.left).map_or(1, |left| left as usize);
        // after the last one there may be bytes, which are an error
        let len = left.saturating_add(self.kind.map_or(0, |_| self.rest.len().min(1)));
        (len.min(1), Some(len))
    }
}

impl FusedIterator for CoreItems<'_> {}

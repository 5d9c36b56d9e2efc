//! A core module section by section.

use crate::cursor::parts_in;
use crate::proved::wenc_list::{behind_module_header, part_of};
use crate::proved::wenc_view::text_of;
use crate::read_error::{Cause, Format, ReadError};
use crate::{RawSection, SectionId};
use core::iter::FusedIterator;
use core::ops::Range;

/// A section of a core module (WebAssembly 3.0, binary format, "Sections").
///
/// Needs the feature `walk`.
#[derive(Clone, Debug, PartialEq, Eq, Hash)]
pub struct CoreSection<'a> {
    /// Its id.
    pub id: u8,
    /// The name of a custom section; `None` for every other section.
    pub name: Option<&'a str>,
    /// Its content after the size; for a custom section, the bytes after the name.
    pub data: &'a [u8],
    /// Its bytes in the module, from its id to the end of its content.
    pub range: Range<usize>,
}

impl CoreSection<'_> {
    /// Returns the section's id as a [`SectionId`]; `None` for an id above 13.
    pub fn kind(&self) -> Option<SectionId> {
        self.id.try_into().ok()
    }
}

/// The sections of a core module, in order (WebAssembly 3.0, binary format, "Modules"). Their
/// contents aren't read, except for the names of custom sections, and their order isn't checked.
///
/// Needs the feature `walk`.
///
/// The iterator ends after an error.
///
/// ```
/// use wenc::{Cause, CoreSections, ReadError, SectionId};
///
/// let module = b"\0asm\x01\0\0\0\x01\x04\x01\x60\0\0\0\x03\x01x\x07\x0a";
/// let mut sections = CoreSections::new(module)?;
///
/// let types = sections.next().unwrap()?;
/// assert_eq!((types.kind(), types.range), (Some(SectionId::Type), 8..14));
/// let custom = sections.next().unwrap()?;
/// assert_eq!((custom.name, custom.data), (Some("x"), &[7][..]));
///
/// let error = sections.next().unwrap().unwrap_err();
/// assert_eq!((error.offset, error.cause), (19, Cause::Few { place: 20, needed: 1, len: 0 }));
/// assert_eq!(sections.next(), None);
/// # Ok::<(), ReadError>(())
/// ```
#[derive(Clone, Debug)]
#[must_use = "nothing is read before it is iterated over"]
pub struct CoreSections<'a> {
    module: &'a [u8],
    rest: &'a [u8],
}

impl<'a> CoreSections<'a> {
    /// Returns the sections of the core module with these bytes.
    ///
    /// # Errors
    ///
    /// [`Part::Header`](crate::Part::Header) if the bytes don't begin with the header of a core
    /// module.
    #[doc(alias = "parse")]
    pub fn new(module: &'a [u8]) -> Result<Self, ReadError> {
        let rest = behind_module_header(module)
            .ok_or_else(|| ReadError::header(Format::Module, 0, module))?;
        Ok(Self { module, rest })
    }

    /// Returns the next section as its id and the bytes after its size, with its byte offsets,
    /// without reading its content; `None` at the end, after an error, and if there is no id or no
    /// size within bounds. A clone made before an error can continue past a custom section without
    /// a name.
    ///
    /// ```
    /// use wenc::{CoreSections, Part, RawSection, ReadError};
    ///
    /// // a custom section without a name
    /// let mut sections = CoreSections::new(b"\0asm\x01\0\0\0\0\x01\x07")?;
    /// let mut clone = sections.clone();
    /// let error = sections.next().unwrap().unwrap_err();
    /// assert_eq!((error.offset, error.part), (8, Part::Section));
    /// assert_eq!(sections.next_raw(), None);
    ///
    /// assert_eq!(clone.next_raw(), Some((8..11, RawSection { id: 0, data: &[7] })));
    /// assert_eq!(clone.next(), None);
    /// # Ok::<(), ReadError>(())
    /// ```
    pub fn next_raw(&mut self) -> Option<(Range<usize>, RawSection<'a>)> {
        let place = self.offset();
        let ((id, data), rest) = part_of(self.rest).ok()?;
        self.rest = rest;
        Some((place..self.offset(), RawSection { id, data }))
    }

    /// Reads the first section of what is left. Returns it and the bytes after it.
    fn first(&self) -> Result<(CoreSection<'a>, &'a [u8]), Cause> {
        let cause = |end, refusal| Cause::new(self.module, end, refusal);
        let part = part_of(self.rest).map_err(|refusal| match self.rest.first() {
            Some(&id) if SectionId::try_from(id).is_err() => Cause::core_id(self.offset(), id),
            _ => cause(self.module.len(), refusal),
        });
        let ((id, content), rest) = part?;
        let range = self.offset()..self.module.len() - rest.len();
        let (name, data) = if id == SectionId::Custom.into() {
            let text = text_of(content).map_err(|refusal| cause(range.end, refusal));
            let (name, data) = text?;
            (Some(name), data)
        } else {
            (None, content)
        };
        Ok((CoreSection { id, name, data, range }, rest))
    }

    /// Returns the byte offset of what is left.
    fn offset(&self) -> usize {
        self.module.len() - self.rest.len()
    }
}

impl<'a> Iterator for CoreSections<'a> {
    type Item = Result<CoreSection<'a>, ReadError>;

    fn next(&mut self) -> Option<Self::Item> {
        if self.rest.is_empty() {
            return None;
        }
        let (place, first) = (self.offset(), self.first());
        self.rest = first.as_ref().map_or(&[], |(_, rest)| rest);
        let places = (place, self.module.len());
        let error = |cause| ReadError::frame(Format::Module, self.module, places, cause);
        Some(first.map(|(section, _)| section).map_err(error))
    }

    #[inline]
    fn size_hint(&self) -> (usize, Option<usize>) {
        parts_in(self.rest.len())
    }
}

impl FusedIterator for CoreSections<'_> {}

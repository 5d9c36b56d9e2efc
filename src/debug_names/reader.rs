//! Reading debug names one by one.

use crate::cursor::parts_in;
use crate::proved::wenc_list::{ItemName, Names, names_in, part_of};
use crate::proved::wenc_view::View;
use crate::read_error::{Cause, Format, ReadError};
use crate::tree::Space;
use core::iter::FusedIterator;

/// A debug name.
///
/// Needs the feature `walk`.
#[derive(Clone, Copy, Debug, PartialEq, Eq, Hash)]
pub struct DebugName<'a> {
    /// The space and the index of the item; `None` for the component itself.
    pub item: Option<(Space, u32)>,
    /// Its name.
    pub name: &'a str,
}

/// An iterator over the debug names that a custom section `component-name` contains ([component
/// model, binary format, "Name Section"][names]), in their order. If something is named twice, the
/// first name is kept by [`DebugNames`](super::DebugNames). The names borrow from the section, and
/// nothing is allocated. It ends after an error.
///
/// Needs the feature `walk`.
///
/// [names]: https://github.com/WebAssembly/component-model/blob/main/design/mvp/Binary.md#name-section
///
/// ```
/// use wenc::tree::Space;
/// use wenc::{Cause, DebugName, NamesReader};
///
/// // the names of the component and of a function, and a subsection without a size
/// let mut names = NamesReader::new(b"\0\x02\x01c\x01\x05\x01\x01\0\x01g\x02");
/// assert_eq!(names.next(), Some(Ok(DebugName { item: None, name: "c" })));
/// assert_eq!(names.next(), Some(Ok(DebugName { item: Some((Space::Funcs, 0)), name: "g" })));
/// let cause = Cause::Few { place: 12, needed: 1, len: 0 };
/// let error = names.next().unwrap().unwrap_err();
/// assert_eq!((error.offset, error.cause), (11, cause));
/// assert_eq!(names.next(), None);
/// ```
#[derive(Clone, Debug)]
#[must_use = "nothing is read before it is iterated over"]
pub struct NamesReader<'a> {
    data: &'a [u8],
    /// The bytes that are left; `None` after an error.
    rest: Option<&'a [u8]>,
    /// The space of the subsection that is being read, and the number of its names that are left.
    within: Option<(Space, u32)>,
}

impl<'a> NamesReader<'a> {
    /// Returns the names in the data of a section, which follow its own name.
    #[doc(alias = "parse")]
    pub fn new(data: &'a [u8]) -> Self {
        Self { data, rest: Some(data), within: None }
    }

    /// Returns the names from this byte offset of the data on, or `None` if it exceeds the number
    /// of bytes. A subsection begins there or, with `within`, a name inside a subsection, given as
    /// the subsection's space and the number of its names that are left. [`left`](Self::left)
    /// returns both. From any other offset on, other names are read, or an error is returned.
    pub fn at(data: &'a [u8], place: usize, within: Option<(Space, u32)>) -> Option<Self> {
        let within = within.filter(|(_, left)| *left > 0);
        Some(Self { data, rest: Some(data.get(place..)?), within })
    }

    /// Returns the position of the next name, as [`at`](Self::at) takes it; `None` after an error.
    ///
    /// ```
    /// use wenc::NamesReader;
    /// use wenc::tree::Space;
    ///
    /// // the names of two functions
    /// let data = b"\x01\x08\x01\x02\0\x01f\x01\x01g";
    /// let mut names = NamesReader::new(data);
    /// assert_eq!(names.next().expect("a name")?.name, "f");
    /// let (place, within) = names.left().expect("no error");
    /// assert_eq!((place, within), (7, Some((Space::Funcs, 1))));
    ///
    /// let mut names = NamesReader::at(data, place, within).expect("it is within");
    /// assert_eq!(names.next().expect("a name")?.name, "g");
    /// assert_eq!(names.left(), Some((10, None)));
    /// # Ok::<(), wenc::ReadError>(())
    /// ```
    pub fn left(&self) -> Option<(usize, Option<(Space, u32)>)> {
        Some((self.data.len() - self.rest?.len(), self.within))
    }

    /// Takes the next name from `rest`. Empty subsections and those with unknown ids are skipped.
    #[inline(always)]
    fn take(&mut self, rest: &mut &'a [u8]) -> Result<Option<DebugName<'a>>, Cause> {
        let data = self.data;
        let cause = |behind: &[u8]| {
            let end = data.len() - behind.len();
            move |refusal| Cause::new(data, end, refusal)
        };
        loop {
            if let Some((space, left)) = self.within {
                let (ItemName { index, name }, behind) =
                    ItemName::view_of(rest).map_err(cause(&[]))?;
                *rest = behind;
                self.within = (left > 1).then_some((space, left - 1));
                return Ok(Some(DebugName { item: Some((space, index)), name }));
            }
            if rest.is_empty() {
                return Ok(None);
            }
            let ((id, content), behind) = part_of(rest).map_err(cause(&[]))?;
            match names_in(id, content).map_err(cause(behind))? {
                Names::Items(space, names) if names.left > 0 => {
                    self.within = Some((space, names.left));
                    // From its first name on, to the end of the subsection.
                    let place = self.data.len() - behind.len() - names.bytes.len();
                    *rest = &self.data[place..];
                }
                Names::Component(name) => {
                    *rest = behind;
                    return Ok(Some(DebugName { item: None, name }));
                }
                Names::Items(..) | Names::Raw(..) => *rest = behind,
            }
        }
    }
}

/// # Errors
///
/// [`ReadError`] if a subsection can't be read, before any of its names.
impl<'a> Iterator for NamesReader<'a> {
    type Item = Result<DebugName<'a>, ReadError>;

    fn next(&mut self) -> Option<Self::Item> {
        let mut rest = self.rest.take()?;
        match self.take(&mut rest) {
            Ok(name) => {
                self.rest = Some(rest);
                name.map(Ok)
            }
            Err(cause) => {
                let place = self.data.len() - rest.len();
                let places = (place, self.data.len());
                Some(Err(ReadError::frame(Format::Names, self.data, places, cause)))
            }
        }
    }

    #[inline]
    fn size_hint(&self) -> (usize, Option<usize>) {
        (0, parts_in(self.rest.map_or(0, <[u8]>::len)).1)
    }
}

impl FusedIterator for NamesReader<'_> {}

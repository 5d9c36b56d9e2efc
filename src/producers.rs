//! Reading a producers section.

use crate::ReadError;
use crate::proved::wenc_list::{ProducersPart, ProducersParts};
use crate::proved::wenc_read::Refusal;
use core::fmt;
use core::iter::FusedIterator;

/// A tool that produced a module or a component.
///
/// Needs the feature `walk`.
#[derive(Clone, Copy, Debug, PartialEq, Eq, Hash)]
pub struct Producer<'a> {
    /// The field that lists it, such as `processed-by`.
    pub field: &'a str,
    /// Its name.
    pub name: &'a str,
    /// Its version, which may be empty.
    pub version: &'a str,
}

/// An iterator over the tools that a custom section `producers` lists ([tool conventions,
/// "Producers Section"][producers]). It ends after an error.
///
/// Needs the feature `walk`.
///
/// [producers]: https://github.com/WebAssembly/tool-conventions/blob/main/ProducersSection.md
///
/// ```
/// use wenc::view::ItemView;
/// use wenc::{Producer, ProducersReader, Sections};
///
/// let component =
///     b"\0asm\x0d\0\x01\0\x00\x1f\x09producers\x01\x08language\x01\x04Rust\x042024";
/// let item = Sections::new(component)?.items().next().expect("an item")?;
/// let ItemView::Custom { name: ProducersReader::SECTION, data } = item.view else {
///     panic!("they are producers")
/// };
/// let mut tools = ProducersReader::new(data);
/// let rust = Producer { field: "language", name: "Rust", version: "2024" };
/// assert_eq!(tools.next(), Some(Ok(rust)));
/// assert_eq!(tools.next(), None);
/// # Ok::<(), wenc::ReadError>(())
/// ```
#[derive(Clone)]
#[must_use = "nothing is read before it is iterated over"]
pub struct ProducersReader<'a> {
    data: &'a [u8],
    /// The field of the next tool.
    field: &'a str,
    /// The parts that are left, or why there are none; `None` at the end and after an error.
    parts: Option<Result<ProducersParts<'a>, Refusal>>,
}

impl<'a> ProducersReader<'a> {
    /// The name of the custom section.
    pub const SECTION: &'static str = "producers";

    /// Returns the tools in the data of a section with this name.
    #[doc(alias = "parse")]
    pub fn new(data: &'a [u8]) -> Self {
        Self { data, field: "", parts: Some(ProducersParts::new(data)) }
    }
}

/// # Errors
///
/// [`ReadError`] if a field or a tool can't be read, or if bytes follow the last one.
impl<'a> Iterator for ProducersReader<'a> {
    type Item = Result<Producer<'a>, ReadError>;

    fn next(&mut self) -> Option<Self::Item> {
        let mut parts = match self.parts.take()? {
            Ok(parts) => parts,
            Err(refusal) => return Some(Err(ReadError::of_producers(self.data, 0, refusal))),
        };
        loop {
            match parts.next() {
                Ok(Some(ProducersPart::Field(name))) => self.field = name,
                Ok(Some(ProducersPart::Tool(name, version))) => {
                    self.parts = Some(Ok(parts));
                    return Some(Ok(Producer { field: self.field, name, version }));
                }
                Ok(None) => return None,
                Err(refusal) => {
                    let place = self.data.len() - parts.rest.len();
                    return Some(Err(ReadError::of_producers(self.data, place, refusal)));
                }
            }
        }
    }

    #[inline]
    fn size_hint(&self) -> (usize, Option<usize>) {
        let rest = self.parts.as_ref().map(|parts| parts.as_ref().map_or(0, |of| of.rest.len()));
        // 32 bits: half of a length.
        (0, Some(rest.map_or(0, |rest| rest / 2 + 1)))
    }
}

impl FusedIterator for ProducersReader<'_> {}

impl fmt::Debug for ProducersReader<'_> {
    #[inline]
    fn fmt(&self, f: &mut fmt::Formatter<'_>) -> fmt::Result {
        f.debug_struct("ProducersReader").field("field", &self.field).finish_non_exhaustive()
    }
}

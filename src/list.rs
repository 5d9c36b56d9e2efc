//! Listing a component.

use crate::ReadError;
use crate::proved::wenc_list::list_or_refusal;
use crate::shim::alloc::Global;

pub use crate::proved::wenc_list::ListedSection;
/// A component that was read, with its items as owned values.
///
/// ```
/// use wenc::tree::ItemTree;
/// use wenc::{Listing, ReadError, list};
///
/// /// Returns the names of the imports.
/// fn imports(listing: Listing) -> Vec<String> {
///     let items = listing.sections.into_iter().flat_map(|section| section.items);
///     items.filter_map(|item| match item {
///         ItemTree::Import { name, .. } => Some(name.name),
///         _ => None,
///     }).collect()
/// }
///
/// let component = b"\0asm\x0d\0\x01\0\x07\x05\x01\x40\0\x01\0\x0a\x06\x01\0\x01f\x01\0";
/// assert_eq!(imports(list(component)?), ["f"]);
/// # Ok::<(), ReadError>(())
/// ```
pub use crate::proved::wenc_list::Listing;

/// Reads a component. Returns its sections with their items and byte offsets ([component model,
/// binary format, "Component Definitions"][definitions]). The bytes have at most one reading, and
/// this is it. Core modules and nested components are returned as bytes, which aren't read.
///
/// Needs the feature `tree`.
///
/// Besides what this crate encodes, it accepts numbers that are padded to at most 5 bytes (10 for
/// 64-bit ones), padded type indices among value types, a nullable abstract reference as its heap
/// type's byte, `func` and `extern` in the long form of such a reference, and names of imports and
/// exports that begin with `01`.
///
/// The opcodes of some canonical functions, such as `thread.suspend-to`, have moved between
/// releases: in components of older and newer tools these may be read as other functions, without
/// an error (`docs/FORMAT.md`, "Where the public standard differs").
///
/// A listing takes up to 184 bytes of memory for each byte of the component on a 64-bit machine:
/// the most if each section has one empty item. A walk over [`Sections`](crate::Sections) takes
/// none.
///
/// # Errors
///
/// The error of the first part that can't be read, or [`NoMemory`](crate::Cause::NoMemory) if
/// an allocation fails. A count that the bytes can't fill reserves nothing.
///
/// [definitions]: https://github.com/WebAssembly/component-model/blob/main/design/mvp/Binary.md#component-definitions
///
/// ```
/// use wenc::tree::ItemTree;
/// use wenc::{Cause, ComponentTypeRef, ReadError, list};
///
/// let bytes = b"\0asm\x0d\0\x01\0\x07\x05\x01\x40\0\x01\0\x0a\x06\x01\0\x01f\x01\0";
/// let listing = list(bytes)?;
/// assert_eq!(listing.sections.len(), 2);
/// let section = &listing.sections[1];
/// assert_eq!((section.id, section.place), (10, 15));
/// let name = "f".into();
/// assert_eq!(section.items[0], ItemTree::Import { name, ty: ComponentTypeRef::Func(0) });
///
/// let error = list(&bytes[..13]).unwrap_err();
/// assert_eq!((error.offset, error.cause), (8, Cause::Few { place: 10, needed: 5, len: 3 }));
/// # Ok::<(), ReadError>(())
/// ```
#[doc(alias = "parse")]
pub fn list(bytes: &[u8]) -> Result<Listing, ReadError> {
    list_or_refusal(Global, bytes).map_err(|refusal| ReadError::of_list(bytes, refusal))
}

//! The lister and other readers: what they return for worked and for damaged components, the state
//! after a failed call, and what `build` makes. `tests/reading` has the others.

pub mod built;
#[cfg(feature = "tree")]
mod causes;
#[cfg(feature = "tree")]
mod changed;
#[cfg(feature = "tree")]
mod damaged;
#[cfg(feature = "tree")]
mod expected;
mod failed;
mod read;
mod refusals;
#[cfg(feature = "tree")]
#[path = "../common/sections.rs"]
mod sections;

#[cfg(feature = "tree")]
use crate::proved::wenc_list::{ListFault, ListRefusal, list_or_refusal};
#[cfg(feature = "tree")]
use crate::shim::alloc::Global;
#[cfg(feature = "tree")]
use crate::{Cause, Part};
use std::vec::Vec;

/// A component with these sections.
fn component(sections: &[u8]) -> Vec<u8> {
    [b"\0asm\x0d\0\x01\0", sections].concat()
}

/// The fault that the proved lister returns where the facade returns this error.
#[cfg(feature = "tree")]
fn proved_fault(error: crate::ReadError) -> ListFault {
    let place = error.section;
    match (error.part, error.cause) {
        (_, Cause::NoMemory) => ListFault::Memory,
        (_, Cause::Deep { .. }) => ListFault::TooDeep { place },
        (Part::Header, _) => ListFault::NotAComponent { place },
        (Part::Section, _) => ListFault::BadSection { place },
        _ => ListFault::BadItem { place },
    }
}

/// Reads the component as a listing and as borrowed items: they are the same, or both end with the
/// same error, which is returned once. It is that of the proved lister.
#[cfg(feature = "tree")]
#[track_caller]
fn read(bytes: &[u8]) -> Result<crate::Listing, crate::ReadError> {
    let listing = crate::list(bytes);
    let fault = list_or_refusal(Global, bytes).err().map(ListRefusal::fault);
    assert_eq!(listing.as_ref().err().copied().map(proved_fault), fault, "{bytes:x?}");
    let Ok(sections) = crate::Sections::new(bytes) else { return listing };
    let mut views = sections.items();
    let (mut items, mut fault) = (Vec::new(), None);
    for view in views.by_ref() {
        match view {
            Ok(item) => items.push(item.view.to_tree()),
            Err(error) => fault = Some(error),
        }
    }
    assert!(views.next().is_none());
    match &listing {
        Ok(listing) => assert!(
            fault.is_none() && listing.sections.iter().flat_map(|of| &of.items).eq(&items),
            "{bytes:x?}"
        ),
        Err(other) => assert_eq!(fault.as_ref(), Some(other), "{bytes:x?}"),
    }
    listing
}

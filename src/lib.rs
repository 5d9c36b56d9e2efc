//! Writes and reads WebAssembly components. The code is proved as Rattle and compiled as Rust.
//!
//! The names and signatures are those of the component layer of `wasm-encoder` 0.263.0. A program
//! that builds components with `wasm_encoder::ComponentBuilder`, or section by section, changes its
//! `use` line:
//!
//! ```
//! use wenc::{ComponentBuilder, ComponentExportKind, ExportKind, PrimitiveValType};
//!
//! /// Wraps a core module that exports a function "run" in a component that exports it too.
//! fn wrapped(module: &[u8]) -> Vec<u8> {
//!     let mut builder = ComponentBuilder::default();
//!     let module = builder.core_module_raw(None, module);
//!     let instance = builder.core_instantiate(None, module, []);
//!     let core_run = builder.core_alias_export(None, instance, "run", ExportKind::Func);
//!     let (ty, mut function) = builder.type_function(None);
//!     function.params([("n", PrimitiveValType::U32)]).result(None);
//!     let run = builder.lift_func(None, core_run, ty, []);
//!     builder.export("run", ComponentExportKind::Func, run, None);
//!     builder.finish()
//! }
//!
//! // The module exports "run", a function that takes a number.
//! let module = b"\0asm\x01\0\0\0\x01\x05\x01\x60\x01\x7f\0\x03\x02\x01\0\
//!     \x07\x07\x01\x03run\0\0\x0a\x04\x01\x02\0\x0b";
//! assert_eq!(
//!     wrapped(module)[8 + 2 + module.len()..],
//!     *b"\x02\x04\x01\0\0\0\x06\x09\x01\0\0\x01\0\x03run\
//!        \x07\x08\x01\x40\x01\x01n\x79\x01\0\x08\x06\x01\0\0\0\0\0\x0b\x09\x01\0\x03run\x01\0\0",
//! );
//! ```
//!
//! With the feature `walk`, [`Sections`] reads a component section by section, and item by item
//! into values of [`view`], without allocating; a section can be written again byte for byte
//! ([`SectionReader`]), and [`Walk`] enters nested components and finds indices
//! that are out of range. With the feature `scope`, [`scope`] has what each index means, through
//! aliases, exports and instances. With the feature `tree`, [`list`] reads
//! a component into values of [`tree`], from which `tree::build` builds it again, and a section can
//! be written item by item ([`ItemSection`]). To renumber what was read, `ItemTree::indices_mut`
//! visits each index that an item contains.
//!
//! # What is proved
//!
//! The proofs are of the sources in `crates/`, from which this crate is made: a call that succeeds
//! adds exactly the item that was passed, and returns that item's index in its space. A call that
//! fails changes nothing, except that an encoder may leave its type unfinished. Unless one of them
//! is a raw custom section, the added items in their order are the only reading of the finished
//! bytes, and `list` returns that reading.
//!
//! That the Rust code does the same rests on the eraser, which removes the contracts (`build`,
//! checked by `tests/honest`), on the replacement of Rattle's standard library (`src/shim`), on
//! equal tokens meaning the same in both languages, and on rustc. The calls with upstream's names
//! are a layer of plain Rust that passes values on and contains no byte of the format.
//!
//! # Errors
//!
//! A call with upstream's name panics if it fails. Each such call has a form with `try_` in front,
//! which returns an [`Error`]:
//!
//! ```
//! use wenc::{ComponentBuilder, ComponentTypeRef, Error, PrimitiveValType};
//!
//! let mut builder = ComponentBuilder::default();
//! builder.start(7, vec![], u32::MAX);
//! let byte = ComponentTypeRef::Value(PrimitiveValType::U8.into());
//! assert_eq!(builder.try_import("v", byte), Err(Error::TooMany));
//! assert_eq!(builder.value_count(), u32::MAX);
//! ```
//!
//! An encoder that is dropped before its last call leaves its parent unfinished: calls that add to
//! the parent or take it fail until `discard_unfinished`. The same can happen when an iterator, a
//! name or an `Into` of the caller panics during a call; otherwise the receiver is unchanged.
//! Finished output never contains a partial item.
//!
//! # The standard
//!
//! Documentation cites the [binary format][binary] and the [explainer][explainer] of the component
//! model, and [WebAssembly 3.0][core].
//!
//! [binary]: https://github.com/WebAssembly/component-model/blob/main/design/mvp/Binary.md
//! [explainer]: https://github.com/WebAssembly/component-model/blob/main/design/mvp/Explainer.md
//! [core]: https://webassembly.github.io/spec/core/
//!
//! # Features
//!
//! The crate is `no_std` and needs `alloc`. Its features are off by default, since each makes it
//! take longer to compile:
//!
//! - `walk` adds the reading of components, whose items borrow from its bytes: [`Sections`],
//!   [`CoreSections`], [`DebugNames`], [`ProducersReader`], [`view`], and the types of [`tree`]
//!   that borrowed and owned items share: `Node`, `Space`, `Scope`, `IndexCounts` and core types.
//! - `scope` adds what indices mean, to `walk`: [`scope`].
//! - `wit` adds worlds as WIT, to `scope`: `wit`.
//! - `tree` adds items that own what they contain, to `walk`: [`list`], [`ItemSection`], the other
//!   types of [`tree`], and the calls that take or return them.
// Without the features there is nothing to link to but their description.
#![cfg_attr(not(feature = "tree"), doc = "")]
#![cfg_attr(not(feature = "tree"), doc = "[`list`]: #features")]
#![cfg_attr(not(feature = "tree"), doc = "[`ItemSection`]: #features")]
#![cfg_attr(not(feature = "walk"), doc = "[`Sections`]: #features")]
#![cfg_attr(not(feature = "walk"), doc = "[`SectionReader`]: #features")]
#![cfg_attr(not(feature = "walk"), doc = "[`Walk`]: #features")]
#![cfg_attr(not(feature = "walk"), doc = "[`CoreSections`]: #features")]
#![cfg_attr(not(feature = "walk"), doc = "[`DebugNames`]: #features")]
#![cfg_attr(not(feature = "walk"), doc = "[`ProducersReader`]: #features")]
#![cfg_attr(not(feature = "scope"), doc = "[`scope`]: #features")]
#![cfg_attr(not(feature = "walk"), doc = "[`tree`]: #features")]
#![cfg_attr(not(feature = "walk"), doc = "[`view`]: #features")]
// The documentation of `walk` links to types of `tree`.
#![cfg_attr(
    all(feature = "walk", not(feature = "tree")),
    allow(rustdoc::broken_intra_doc_links, rustdoc::private_intra_doc_links)
)]
// Names the feature of each item where docs.rs builds this.
#![cfg_attr(docsrs, feature(doc_cfg))]
#![no_std]
#![forbid(unsafe_code)]
#![deny(missing_docs)]
#![warn(clippy::missing_errors_doc, clippy::missing_panics_doc)]
#![cfg_attr(not(test), warn(clippy::disallowed_methods))]

extern crate alloc;
#[cfg(test)]
extern crate std;

mod adapters;
mod collections;
mod component;
mod core;
#[cfg(feature = "walk")]
mod core_items;
#[cfg(feature = "walk")]
mod core_sections;
#[cfg(feature = "walk")]
mod cursor;
#[cfg(feature = "walk")]
mod debug_names;
mod encode;
mod encoders;
mod eq_by_bytes;
mod error;
#[cfg(feature = "tree")]
mod list;
#[cfg(feature = "walk")]
mod producers;
mod proved;
mod raw;
#[cfg(feature = "walk")]
mod read_error;
#[cfg(feature = "walk")]
mod rewrite;
#[cfg(feature = "scope")]
pub mod scope;
// Without `tree`, parts of it aren't used.
#[cfg_attr(not(feature = "tree"), allow(dead_code, unused_imports))]
// It reserves memory before it calls what would abort.
#[allow(clippy::disallowed_methods)]
mod shim;
#[cfg(feature = "walk")]
pub mod tree;
mod twins;
#[cfg(feature = "walk")]
pub mod view;
#[cfg(feature = "wit")]
pub mod wit;

pub use self::core::*;
pub use component::*;
#[cfg(feature = "walk")]
pub use core_items::{CoreItem, CoreItems};
#[cfg(feature = "walk")]
pub use core_sections::{CoreSection, CoreSections};
#[cfg(feature = "walk")]
pub use cursor::{
    CountedWalk, Item, Items, OutOfRange, SectionReader, Sections, Step, Unread, Walk,
};
#[cfg(feature = "walk")]
pub use debug_names::{DebugName, DebugNames, NamesReader};
pub use encode::{Encode, encoding_size};
pub use error::{Error, Unsupported};
#[cfg(feature = "tree")]
pub use list::{ListedSection, Listing, list};
#[cfg(feature = "walk")]
pub use producers::{Producer, ProducersReader};
pub use raw::RawSection;
#[cfg(feature = "walk")]
pub use read_error::{Bytes, Cause, First, Format, Found, Part, ReadError};
#[cfg(feature = "tree")]
pub use rewrite::ItemSection;
#[cfg(feature = "walk")]
pub use rewrite::SectionItem;

/// What was proved of the sources in `crates/`: by which logic and which kits, the number of
/// functions with a proof (without those of a `derive`), the number of edits of the code that the
/// prover rejected, and a SHA-256 digest of each crate's `src`, `specs`, `proofs` and `must-fail`.
///
/// A digest is that of the lines that `sha256sum` prints for a folder's files, in the order of
/// their paths. A test of this package, `tests/honest/proof.rs`, computes and compares the digests
/// of the sources that it has.
///
/// ```
/// assert!(wenc::PROOF.starts_with("logic: "));
/// ```
pub const PROOF: &str = include_str!("../PROOF");

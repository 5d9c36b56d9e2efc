//! The builder.

// The documentation lists the calls in the order of these modules, the most used first. The blank
// lines keep rustfmt from sorting the modules.
mod life;

mod definitions;

mod type_items;

mod functions;

mod instances;

#[cfg(feature = "tree")]
mod commands;

mod counts;

mod builtins;

use crate::proved::wasm_encoder as proved;

/// Builds a component call by call; each call that adds an item returns the item's index
/// ([component model, binary format, "Component Definitions"][definitions]). Adjacent items of one
/// kind share a section.
///
/// Each call has two forms: the one with upstream's name panics if it fails, and the one with
/// `try_` in front returns an [`Error`](crate::Error). A call that fails changes nothing, except
/// that an encoder's may leave its type unfinished. Every call can fail with
/// [`NoMemory`](crate::Error::NoMemory); with [`TooMany`](crate::Error::TooMany) or
/// [`TooLarge`](crate::Error::TooLarge) if a count, an index space or a list would exceed
/// 4294967295 members, or a string or a section 4294967295 bytes; and with
/// [`Unfinished`](crate::Error::Unfinished) while a type isn't ended by its encoder. Other errors
/// are listed per method.
///
/// If your iterator panics during a call, the builder is unchanged, or unfinished until
/// [`discard_unfinished`](Self::discard_unfinished).
///
/// Neither the indices nor the validity of the component are checked.
///
/// ```
/// use wenc::{ComponentBuilder, ComponentExportKind, ComponentTypeRef, PrimitiveValType};
///
/// let mut builder = ComponentBuilder::default();
/// let (ty, mut function) = builder.type_function(None);
/// function.params([("n", PrimitiveValType::U32)]).result(None);
/// let f = builder.import("f", ComponentTypeRef::Func(ty));
/// let g = builder.export("g", ComponentExportKind::Func, f, None);
/// assert_eq!((ty, f, g), (0, 0, 1));
/// assert_eq!(
///     builder.finish(),
///     b"\0asm\x0d\0\x01\0\
///       \x07\x08\x01\x40\x01\x01n\x79\x01\0\x0a\x06\x01\0\x01f\x01\0\x0b\x07\x01\0\x01g\x01\0\0",
/// );
/// ```
///
/// [`finish`](Self::finish) consumes it:
///
/// ```compile_fail
/// let mut builder = wenc::ComponentBuilder::default();
/// builder.finish();
/// builder.append_names();
/// ```
///
/// [definitions]: https://github.com/WebAssembly/component-model/blob/main/design/mvp/Binary.md#component-definitions
pub struct ComponentBuilder(proved::ComponentBuilder);

//! Makes one component from two: the first exports what the second imports, and the result exports
//! what the second does:
//!
//! ```sh
//! cargo run -r --features walk --example compose -- PROVIDER CONSUMER OUT
//! ```
//!
//! The provider imports nothing, and exports all that the consumer imports, under the same names.
//! These are functions and interfaces of plain values: an exported resource would also need its
//! type exported before it.

use wenc::view::{ItemView, NameView};
use wenc::{ComponentBuilder, ComponentExportKind as Kind, ReadError, Sections};

/// The names and the kinds of what a component imports, and of what it exports.
#[derive(Default)]
struct World<'a> {
    imports: Vec<(NameView<'a>, Kind)>,
    exports: Vec<(NameView<'a>, Kind)>,
}

impl<'a> World<'a> {
    fn of(component: &'a [u8]) -> Result<Self, ReadError> {
        let mut world = Self::default();
        for item in Sections::new(component)?.items() {
            match item?.view {
                ItemView::Import { name, ty } => world.imports.push((name, ty.kind())),
                ItemView::Export { name, kind, .. } => world.exports.push((name, kind)),
                _ => {}
            }
        }
        Ok(world)
    }
}

/// Returns the component of both, or why they don't fit together.
pub fn compose(provider: &[u8], consumer: &[u8]) -> Result<Vec<u8>, String> {
    let world = |component| World::of(component).map_err(|error| error.to_string());
    let (provided, consumed) = (world(provider)?, world(consumer)?);
    if let Some((import, _)) = provided.imports.first() {
        return Err(format!("the provider imports {}", import.name));
    }

    let mut builder = ComponentBuilder::default();
    let component = builder.component_raw(Some("provider"), provider);
    let nothing: [(&str, Kind, u32); 0] = [];
    let provider = builder.instantiate(Some("provider"), component, nothing);

    let mut arguments = Vec::new();
    for (name, kind) in consumed.imports {
        let text = name.name;
        if !provided.exports.contains(&(name, kind)) {
            return Err(format!("nothing provides {text}"));
        }
        arguments.push((text, kind, builder.alias_export(provider, text, kind)));
    }
    let component = builder.component_raw(Some("consumer"), consumer);
    let consumer = builder.instantiate(Some("consumer"), component, arguments);

    for (name, kind) in consumed.exports {
        let index = builder.alias_export(consumer, name.name, kind);
        builder.export(name, kind, index, None);
    }
    Ok(builder.finish())
}

#[allow(dead_code)]
fn main() -> Result<(), String> {
    let arguments: Vec<String> = std::env::args().skip(1).collect();
    let [provider, consumer, out] = arguments.as_slice() else {
        return Err("compose PROVIDER CONSUMER OUT".into());
    };
    let read = |path| std::fs::read(path).map_err(|error| format!("{path}: {error}"));
    let composed = compose(&read(provider)?, &read(consumer)?);
    let composed = composed.map_err(|error| format!("{provider} and {consumer}: {error}"))?;
    std::fs::write(out, composed).map_err(|error| format!("{out}: {error}"))
}

#[cfg(test)]
mod tests {
    use super::*;

    /// An empty instance that is exported as `i`.
    const PROVIDER: &[u8] = b"\0asm\x0d\0\x01\0\x05\x03\x01\x01\0\x0b\x07\x01\0\x01i\x05\0\0";
    /// Exports as `j` what it imports as `i`, an instance that needn't export anything.
    const CONSUMER: &[u8] = b"\0asm\x0d\0\x01\0\x07\x03\x01\x42\0\x0a\x06\x01\0\x01i\x05\0\
        \x0b\x07\x01\0\x01j\x05\0\0";

    #[test]
    fn what_is_imported_is_provided() {
        let composed = [
            b"\0asm\x0d\0\x01\0\x04\x16",
            PROVIDER,
            b"\x05\x04\x01\0\0\0\x06\x06\x01\x05\0\0\x01i\x04\x1e",
            CONSUMER,
            b"\x05\x08\x01\0\x01\x01\x01i\x05\x01\x06\x06\x01\x05\0\x02\x01j",
            b"\x0b\x07\x01\0\x01j\x05\x03\0",
        ];
        assert_eq!(compose(PROVIDER, CONSUMER), Ok(composed.concat()));
    }

    #[test]
    fn missing_imports_are_errors() {
        assert_eq!(compose(CONSUMER, PROVIDER), Err("the provider imports i".into()));
        let empty = b"\0asm\x0d\0\x01\0";
        assert_eq!(compose(empty, CONSUMER), Err("nothing provides i".into()));
        assert_eq!(
            compose(b"", CONSUMER),
            Err("no component's header at 0x0: found nothing".into())
        );
    }
}

//! Removes the custom sections of a component, such as debug names and producers:
//!
//! ```sh
//! cargo run -r --features walk --example strip -- COMPONENT OUT
//! ```
//!
//! Nested components lose theirs too; everything else stays the same byte for byte. A `Walk` enters
//! nested components, and the other sections are appended to a `Component` for each.

use std::mem;
use wenc::{
    Component, ComponentSectionId, NestedComponentBytes, Part, ReadError, Step, Unread, Walk,
};

/// The maximum nesting depth of components: each is copied into the one around it.
const LIMIT: usize = 100;

/// Returns the component without custom sections, or why its sections can't be read.
pub fn strip(bytes: &[u8]) -> Result<Vec<u8>, ReadError> {
    let left_out = [ComponentSectionId::CoreCustom, ComponentSectionId::Component].map(u8::from);
    let (mut innermost, mut around) = (Component::new(), Vec::new());
    for step in Walk::new(bytes, LIMIT)? {
        match step {
            Step::Section(section) if !left_out.contains(&section.id()) => {
                innermost.section(&section);
            }
            Step::Enter(_) => around.push(mem::take(&mut innermost)),
            Step::Leave => {
                let nested = mem::replace(&mut innermost, around.pop().expect("it was entered"));
                innermost.section(&NestedComponentBytes(&nested.finish()));
            }
            // the section is copied as it is
            Step::Unread(Unread { error, .. })
                if !matches!(error.part, Part::Item(_) | Part::Rest) =>
            {
                return Err(error);
            }
            _ => {}
        }
    }
    Ok(innermost.finish())
}

#[allow(dead_code)]
fn main() -> Result<(), String> {
    let arguments: Vec<String> = std::env::args().skip(1).collect();
    let [component, out] = arguments.as_slice() else {
        return Err("strip COMPONENT OUT".into());
    };
    let bytes = std::fs::read(component).map_err(|error| format!("{component}: {error}"))?;
    let stripped = strip(&bytes).map_err(|fault| format!("{component}: {fault}"))?;
    std::fs::write(out, stripped).map_err(|error| format!("{out}: {error}"))
}

#[cfg(test)]
mod tests {
    use super::*;
    use wenc::Cause;

    #[test]
    fn custom_sections_are_left_out() {
        let import = b"\x07\x05\x01\x40\0\x01\0\x0a\x06\x01\0\x01f\x01\0";
        let nested = b"\x04\x0d\0asm\x0d\0\x01\0\0\x03\x01x\x07";
        let custom = b"\0\x04\x01y\x08\x09";
        let bytes = [b"\0asm\x0d\0\x01\0", &custom[..], import, custom, nested, custom].concat();
        let stripped = [b"\0asm\x0d\0\x01\0", &import[..], b"\x04\x08\0asm\x0d\0\x01\0"].concat();
        assert_eq!(strip(&bytes), Ok(stripped.clone()));
        assert_eq!(strip(&stripped), Ok(stripped));
        let cause = Cause::Few { place: 9, needed: 1, len: 0 };
        let error = strip(&bytes[..9]).unwrap_err();
        assert_eq!((error.offset, error.cause), (8, cause));
    }

    #[test]
    fn other_sections_are_copied() {
        let header = b"\0asm\x0d\0\x01\0";
        let module = [b"\x01\xc8\x01", [7; 200].as_slice()].concat();
        // The size has one byte of padding.
        let padded = b"\x0a\x86\0\x01\0\x01f\x01\0";
        let bytes = [header, module.as_slice(), b"\0\x02\x01y", padded].concat();
        assert_eq!(strip(&bytes), Ok([header, module.as_slice(), padded].concat()));
    }
}

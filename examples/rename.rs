//! Renames an import of a component:
//!
//! ```sh
//! cargo run -r --features tree --example rename -- COMPONENT OLD NEW OUT
//! ```
//!
//! Everything else stays the same byte for byte, including padded numbers: only the import, and the
//! size and the count of its section, are encoded again. The new name isn't checked.

use std::error::Error;
use wenc::view::{ItemView, NameView};
use wenc::{Component, ComponentSectionId, ItemSection, SectionReader, Sections};

/// Returns the section with an import renamed, or `None` if it has none of the old name.
fn with_renamed(
    section: SectionReader<'_>,
    component: &[u8],
    old: &str,
    new: &str,
) -> Result<Option<ItemSection>, Box<dyn Error>> {
    if section.id() != u8::from(ComponentSectionId::Import) {
        return Ok(None);
    }
    let mut imports = ItemSection::new(section.id());
    let mut is_renamed = false;
    for item in section.items() {
        let item = item?;
        match item.view {
            ItemView::Import { name, ty } if name.name == old => {
                let name = NameView { name: new, ..name };
                imports.item(&ItemView::Import { name, ty })?;
                is_renamed = true;
            }
            _ => {
                imports.raw(&component[item.range])?;
            }
        }
    }
    Ok(is_renamed.then_some(imports))
}

/// Returns the component with the import renamed, or why it can't be.
pub fn rename(component: &[u8], old: &str, new: &str) -> Result<Vec<u8>, Box<dyn Error>> {
    let mut renamed = Component::new();
    let mut is_found = false;
    for section in Sections::new(component)? {
        let section = section?;
        match with_renamed(section, component, old, new)? {
            Some(imports) => {
                renamed.section(&imports);
                is_found = true;
            }
            None => {
                renamed.section(&section);
            }
        }
    }
    if is_found {
        Ok(renamed.finish())
    } else {
        Err(format!("nothing is imported as {old}").into())
    }
}

#[allow(dead_code)]
fn main() -> Result<(), String> {
    let arguments: Vec<String> = std::env::args().skip(1).collect();
    let [component, old, new, out] = arguments.as_slice() else {
        return Err("rename COMPONENT OLD NEW OUT".into());
    };
    let bytes = std::fs::read(component).map_err(|error| format!("{component}: {error}"))?;
    let renamed = rename(&bytes, old, new).map_err(|error| format!("{component}: {error}"))?;
    std::fs::write(out, renamed).map_err(|error| format!("{out}: {error}"))
}

#[cfg(test)]
mod tests {
    use super::*;

    #[test]
    fn everything_but_the_import_is_unchanged() {
        let header = b"\0asm\x0d\0\x01\0";
        // A resource `a`, and a `b` equal to it, by a padded index; both sizes are padded.
        let imports = b"\x0a\x8d\0\x02\0\x01a\x03\x01\0\x01b\x03\0\x80\0";
        let renamed = b"\x0a\x10\x02\0\x04file\x03\x01\0\x01b\x03\0\x80\0";
        let others = b"\x0a\x88\0\x01\0\x01c\x03\0\x80\0\x0b\x87\0\x01\0\x01a\x03\0\0";
        let component = [header, &imports[..], others].concat();
        let wanted = [header, &renamed[..], others].concat();
        assert_eq!(rename(&component, "a", "file").unwrap(), wanted);
        let refused = rename(&component, "d", "file").unwrap_err();
        assert_eq!(refused.to_string(), "nothing is imported as d");
        let refused = rename(&component[..9], "a", "file").unwrap_err();
        assert_eq!(refused.to_string(), "bad section at 0x8: the bytes end at 0x9");
    }
}

//! Prints the imports and the types of a component that nothing in it uses:
//!
//! ```sh
//! cargo run -r --features scope --example unused -- COMPONENT
//! ```

use std::error::Error;
use wenc::scope::{Definitions, Meaning};
use wenc::view::ItemView;

/// Returns a line for each.
pub fn unused(bytes: &[u8]) -> Result<String, Box<dyn Error>> {
    let definitions = Definitions::new(bytes, 100)?;
    let all = definitions.instances();
    let mut text = String::new();
    for of in all.component().definitions() {
        let Meaning::Item(ItemView::Import { .. } | ItemView::Type(_) | ItemView::CoreType(_)) =
            of.meaning()
        else {
            continue;
        };
        // types of a recursion group may use one another
        let is_used = !all.users(of)?.all(|user| user == of);
        if let (Some(space), Some(index), false) = (of.space(), of.index(), is_used) {
            let name = of.name().map_or(String::new(), |name| format!(", import {name:?}"));
            text += &format!("{space} {index} at {:#x}{name}\n", of.place());
        }
    }
    Ok(text)
}

#[allow(dead_code)]
fn main() -> Result<(), Box<dyn Error>> {
    let file = std::env::args().nth(1).ok_or("unused COMPONENT")?;
    print!("{}", unused(&std::fs::read(file)?)?);
    Ok(())
}

#[cfg(test)]
#[test]
fn what_nothing_uses_is_found() {
    // three types, of which an import and an outer alias in a component use two, and two imports,
    // one of which is exported
    let component = b"\0asm\x0d\0\x01\0\x07\x08\x03\x40\0\x01\0\x79\x70\x79\
        \x0a\x0b\x02\0\x01f\x01\0\0\x01g\x01\0\
        \x04\x0f\0asm\x0d\0\x01\0\x06\x05\x01\x03\x02\x01\x02\
        \x0b\x07\x01\0\x01h\x01\x01\0";
    let found = unused(component).expect("it is read");
    assert_eq!(found, "type 1 at 0xf\nfunc 0 at 0x15, import \"f\"\n");
}

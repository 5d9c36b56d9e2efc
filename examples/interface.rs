//! Prints what a component imports and exports, with the types of functions, and indented what its
//! instances export:
//!
//! ```sh
//! cargo run -r --features scope --example interface -- COMPONENT
//! ```
//!
//! `wenc-dump --wit` prints a whole world.

use wenc::ComponentValType as Val;
use wenc::scope::{Definitions, Meaning, Scope, ScopeFault};
use wenc::tree::{Node, Space};
use wenc::view::{DefinedView as Defined, ItemView, TypeView};

/// The maximum depth of what is printed, and its maximum length in bytes.
const LIMITS: (usize, usize) = (100, 1 << 20);

/// Adds a type: its name, or its kind and the types in it.
fn value(text: &mut String, scope: Scope, ty: Val, depth: usize) -> Result<(), ScopeFault> {
    let index = match ty {
        Val::Primitive(ty) => {
            *text += &format!(" {ty}");
            return Ok(());
        }
        Val::Type(index) => index,
    };
    let mut ty = scope.get(Space::Types, index)?;
    while let (None, Some(target)) = (ty.name(), ty.target()?) {
        ty = target;
    }
    let Meaning::Item(ItemView::Type(TypeView::Defined(defined))) = ty.meaning() else {
        *text += &format!(" {}", ty.name().unwrap_or("resource"));
        return Ok(());
    };
    let types: Vec<Val> = match defined {
        _ if depth > LIMITS.0 || text.len() > LIMITS.1 => vec![],
        Defined::Primitive(ty) => vec![ty.into()],
        Defined::Record(fields) => fields.map(|(_, ty)| ty).collect(),
        Defined::Variant(cases) => cases.filter_map(|case| case.ty).collect(),
        Defined::Tuple(types) => types.collect(),
        Defined::List(ty) | Defined::Option(ty) => vec![ty],
        Defined::FixedLengthList { element, .. } => vec![element],
        Defined::Map { key, value } => vec![key, value],
        Defined::Result { ok, err } => ok.into_iter().chain(err).collect(),
        Defined::Future(ty) | Defined::Stream(ty) => ty.into_iter().collect(),
        Defined::Own(index) | Defined::Borrow(index) => vec![Val::Type(index)],
        Defined::Flags(_) | Defined::Enum(_) => vec![],
    };
    let (Node::Variant(kind, _) | Node::Struct(kind, _)) = defined.node() else { return Ok(()) };
    *text += &format!(" {kind}");
    types.into_iter().try_for_each(|of| value(text, ty.scope(), of, depth + 1))
}

/// Adds what a component imports and exports, or what an instance exports, each in a line.
fn add(text: &mut String, scope: Scope, depth: usize) -> Result<(), ScopeFault> {
    for (of, name) in scope.definitions().filter_map(|of| Some((of, of.name()?))) {
        let is_import = matches!(of.meaning(), Meaning::Item(ItemView::Import { .. }));
        if depth > LIMITS.0 || text.len() > LIMITS.1 || depth > 0 && is_import {
            continue;
        }
        let space = of.space().map_or(String::new(), |space| space.to_string());
        *text += &format!("{:1$}{space} {name}", "", 2 * depth);
        let ty = of.ty()?.map(|ty| (ty.scope(), ty.meaning()));
        if let Some((scope, Meaning::Item(ItemView::Type(TypeView::Func { params, result, .. })))) =
            ty
        {
            params.map(|(_, ty)| ty).try_for_each(|ty| value(text, scope, ty, 0))?;
            *text += " ->";
            result.into_iter().try_for_each(|ty| value(text, scope, ty, 0))?;
        }
        *text += "\n";
        if let Some(exports) = of.exports()? {
            add(text, exports, depth + 1)?;
        }
    }
    Ok(())
}

#[allow(dead_code)]
fn main() -> Result<(), String> {
    let file = std::env::args().nth(1).ok_or("interface COMPONENT")?;
    let bytes = std::fs::read(&file).map_err(|error| format!("{file}: {error}"))?;
    let all = Definitions::new(&bytes, LIMITS.0).map_err(|fault| format!("{file}: {fault}"))?;
    let all = all.instances();
    let mut text = String::new();
    let added = add(&mut text, all.component(), 0).map_err(|fault| format!("{file}: {fault}"));
    print!("{text}");
    added
}

#[cfg(test)]
#[test]
fn what_is_imported_and_exported_is_added() {
    // an instance with a function from a list of `u32` to a resource, which is exported again
    let component = b"\0asm\x0d\0\x01\0\
        \x07\x1d\x01\x42\x05\x04\0\x01r\x03\x01\x01\x69\0\x01\x70\x79\
        \x01\x40\x01\x01a\x02\0\x01\x04\0\x01f\x01\x03\
        \x0a\x06\x01\0\x01i\x05\0\x06\x06\x01\x01\0\0\x01f\x0b\x07\x01\0\x01g\x01\0\0";
    let (all, mut text) = (Definitions::new(component, 0).expect("it is read"), String::new());
    let all = all.instances();
    assert_eq!(add(&mut text, all.component(), 0), Ok(()));
    let expected = "\
instance i
  type r
  func f List u32 -> Own r
func g List u32 -> Own r
";
    assert_eq!(text, expected);
}

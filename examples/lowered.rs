//! Prints which imports of a component its core modules are given, through all instances of the
//! components in it:
//!
//! ```sh
//! cargo run -r --features scope --example lowered -- COMPONENT
//! ```

use std::error::Error;
use std::iter;
use wenc::scope::{Definitions, Meaning, Scope, ScopeFault};
use wenc::tree::Space;
use wenc::view::{CanonView, InstanceView, ItemView};

/// The maximum length of what is printed, in bytes.
const LIMIT: usize = 1 << 20;

/// Adds a line for each lowered function: the byte offset where it is lowered, and the names of an
/// import and of the exports from there to the function.
fn add(text: &mut String, scope: Scope) -> Result<(), ScopeFault> {
    for of in scope.definitions().take_while(|_| text.len() < LIMIT).collect::<Vec<_>>() {
        match of.meaning() {
            Meaning::Item(ItemView::Canon(CanonView::Lower { func, .. })) => {
                let function = of.scope().resolve(Space::Funcs, func)?;
                let path = iter::successors(Some(function), |of| of.instance());
                let mut names: Vec<_> = path.filter_map(|of| of.name()).collect();
                names.reverse();
                let from = if function.origin()?.is_some() { "" } else { "no import: " };
                *text += &format!("{:#x} {from}{}\n", of.place(), names.join(" / "));
            }
            Meaning::Item(ItemView::Instance(InstanceView::Instantiate { .. })) => {
                of.exports()?.map_or(Ok(()), |scope| add(text, scope))?;
            }
            _ => {}
        }
    }
    Ok(())
}

/// Returns these lines.
pub fn lowered(bytes: &[u8]) -> Result<String, Box<dyn Error>> {
    let (definitions, mut text) = (Definitions::new(bytes, 100)?, String::new());
    add(&mut text, definitions.instances().component())?;
    Ok(text)
}

#[allow(dead_code)]
fn main() -> Result<(), Box<dyn Error>> {
    let file = std::env::args().nth(1).ok_or("lowered COMPONENT")?;
    print!("{}", lowered(&std::fs::read(file)?)?);
    Ok(())
}

#[cfg(test)]
#[test]
fn imports_are_found_through_instances() {
    use wenc::*;
    // a component that lowers an import, instantiated with a function of an imported instance
    let mut inner = ComponentBuilder::default();
    let (ty, mut function) = inner.type_function(None);
    function.params([("n", PrimitiveValType::U32)]).result(None);
    let f = inner.import("f", ComponentTypeRef::Func(ty));
    inner.lower_func(None, f, []);
    let mut ty = InstanceType::new();
    let (func, mut function) = ty.type_function();
    function.params([("n", PrimitiveValType::U32)]).result(None);
    ty.export("g", ComponentTypeRef::Func(func));
    let mut outer = ComponentBuilder::default();
    let ty = outer.type_instance(None, &ty);
    let import = outer.import("a:b/c", ComponentTypeRef::Instance(ty));
    let g = outer.alias_export(import, "g", ComponentExportKind::Func);
    let inner = outer.component(None, inner);
    outer.instantiate(None, inner, [("f", ComponentExportKind::Func, g)]);
    let text = lowered(&outer.finish()).expect("it is followed");
    assert!(text.ends_with(" a:b/c / g\n") && text.lines().count() == 1, "{text}");
}

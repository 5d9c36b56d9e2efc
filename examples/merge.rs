//! Makes one component with the items of two:
//!
//! ```sh
//! cargo run -r --features tree --example merge -- ONE OTHER OUT
//! ```
//!
//! The items of the second follow those of the first, and their indices are changed to those in the
//! merged component. What both import under one name is imported once, and the second uses the
//! import of the first: whether the types agree is left to a validator. It is an error if both
//! export the same name. Debug names are kept, except that of the second component itself.

use wenc::tree::{Command, IndexCounts, IndexUse, ItemTree, NameTree, Scope, Space, build};
use wenc::{ComponentExportKind as Kind, ComponentNameSection, DebugNames, Sections};

/// The maximum nesting depth of components.
const LIMIT: usize = 100;

/// The indices of a component's items, in it and in the merged component.
#[derive(Default)]
struct Moved {
    /// The first index of each item in both, by the number of their space.
    firsts: [Vec<(u64, u64)>; 13],
    counts: IndexCounts,
}

/// Returns the next index in a space. It is known, as all items are read.
fn next(counts: &IndexCounts, space: Space) -> u64 {
    counts.of(space).unwrap_or(u64::MAX)
}

impl Moved {
    /// Adds the next indices in a space, which begin at `to` in the merged component.
    fn define(&mut self, space: Space, count: u32, to: u64) {
        self.firsts[space.number()].push((next(&self.counts, space), to));
        self.counts.define(Some((space, count)));
    }

    /// Returns the index in the merged component. In a valid component each index is defined.
    fn index(&self, space: Space, index: u32) -> u32 {
        let firsts = &self.firsts[space.number()];
        let after = firsts.partition_point(|(first, _)| *first <= index.into());
        after.checked_sub(1).map_or(index, |at| {
            let (first, to) = firsts[at];
            u32::try_from(to + u64::from(index) - first).unwrap_or(u32::MAX)
        })
    }

    fn renumber(&self, used: IndexUse<'_>) {
        if used.scope == Scope::Component(0) {
            *used.index = self.index(used.space, *used.index);
        }
    }
}

/// The items merged so far.
#[derive(Default)]
struct Merged {
    commands: Vec<Command>,
    counts: IndexCounts,
    imports: Vec<(NameTree, Kind, u64)>,
    exports: Vec<NameTree>,
    names: DebugNames,
}

impl Merged {
    /// Adds the items of a component.
    fn add(&mut self, component: &[u8]) -> Result<(), String> {
        let sections = Sections::new(component).map_err(|error| error.to_string())?;
        let names = DebugNames::of(component);
        let mut moved = Moved::default();
        for item in sections.items() {
            let item = item.map_err(|error| error.to_string())?;
            self.add_item(item.view.to_tree(), &mut moved)?;
        }
        for (space, index, name) in names.iter() {
            let index = moved.index(space, index);
            if self.names.get(space, index).is_none() {
                self.names.insert(space, index, name);
            }
        }
        if let (None, Some(name)) = (self.names.component(), names.component()) {
            self.names.set_component(name);
        }
        Ok(())
    }

    fn add_item(&mut self, mut item: ItemTree, moved: &mut Moved) -> Result<(), String> {
        match &item {
            // the names of both are written at the end
            ItemTree::Custom { name, .. } if **name == *DebugNames::SECTION => return Ok(()),
            ItemTree::Import { name, ty } => {
                let (kind, space) = (ty.kind(), Space::from(ty.kind()));
                let mut imports = self.imports.iter();
                if let Some((.., index)) = imports.find(|of| of.0 == *name && of.1 == kind) {
                    moved.define(space, 1, *index);
                    return Ok(());
                }
                self.imports.push((name.clone(), kind, next(&self.counts, space)));
            }
            ItemTree::Export { name, .. } if self.exports.contains(name) => {
                return Err(format!("both export {}", &*name.name));
            }
            ItemTree::Export { name, .. } => self.exports.push(name.clone()),
            _ => {}
        }
        if let Some((space, count)) = item.defined_indices() {
            moved.define(space, count, next(&self.counts, space));
            self.counts.define(Some((space, count)));
        }
        item.indices_mut(|used| moved.renumber(used));
        let nested = item.outer_indices_mut(LIMIT, |used| moved.renumber(used));
        nested.map_err(|fault| fault.to_string())?;
        self.commands.push(item.into());
        Ok(())
    }

    /// Returns the merged component.
    fn finish(mut self) -> Result<Vec<u8>, String> {
        let names = ComponentNameSection::from(&self.names);
        if !names.is_empty() {
            let data = names.as_custom().data.into_owned();
            self.commands.push(Command::Custom { name: DebugNames::SECTION.into(), data });
        }
        let built = build(&self.commands).map_err(|error| error.to_string())?;
        for answer in built.answers {
            answer.map_err(|error| error.to_string())?;
        }
        Ok(built.bytes)
    }
}

/// Returns the component with the items of both, or what is wrong with them.
pub fn merge(one: &[u8], other: &[u8]) -> Result<Vec<u8>, String> {
    let mut merged = Merged::default();
    merged.add(one)?;
    merged.add(other)?;
    merged.finish()
}

#[allow(dead_code)]
fn main() -> Result<(), String> {
    let arguments: Vec<String> = std::env::args().skip(1).collect();
    let [one, other, out] = arguments.as_slice() else {
        return Err("merge ONE OTHER OUT".into());
    };
    let read = |path| std::fs::read(path).map_err(|error| format!("{path}: {error}"));
    let merged = merge(&read(one)?, &read(other)?);
    let merged = merged.map_err(|error| format!("{one} and {other}: {error}"))?;
    std::fs::write(out, merged).map_err(|error| format!("{out}: {error}"))
}

#[cfg(test)]
mod tests {
    use super::*;

    /// Returns a component with these sections.
    fn component(sections: &[&[u8]]) -> Vec<u8> {
        [&[&b"\0asm\x0d\0\x01\0"[..]], sections].concat().concat()
    }

    /// A function type, and an import with this name.
    const F: &[u8] = b"\x07\x05\x01\x40\0\x01\0\x0a\x06\x01\0\x01f\x01\0";
    const G: &[u8] = b"\x07\x05\x01\x43\0\x01\0\x0a\x06\x01\0\x01g\x01\0";
    /// Debug names of the component and of its function 0.
    const NAMED_A: &[u8] = b"\0\x1a\x0ecomponent-name\0\x02\x01a\x01\x05\x01\x01\0\x01x";
    const NAMED_B: &[u8] = b"\0\x1a\x0ecomponent-name\0\x02\x01b\x01\x05\x01\x01\0\x01y";

    #[test]
    fn items_follow_one_another() {
        let one = component(&[NAMED_A, F]);
        let other = component(&[G, NAMED_B, b"\x0b\x07\x01\0\x01h\x01\0\0"]);
        let merged = component(&[
            F,
            b"\x07\x05\x01\x43\0\x01\0\x0a\x06\x01\0\x01g\x01\x01",
            b"\x0b\x07\x01\0\x01h\x01\x01\0",
            b"\0\x1d\x0ecomponent-name\0\x02\x01a\x01\x08\x01\x02\0\x01x\x01\x01y",
        ]);
        assert_eq!(merge(&one, &other), Ok(merged));
    }

    #[test]
    fn what_both_import_is_imported_once() {
        let one = component(&[F, b"\x07\x02\x01\x7f\x0a\x06\x01\0\x01g\x01\0"]);
        // of the imports `i` and `f`, the second is the first of the other component
        let two = b"\x07\x06\x02\x7f\x40\0\x01\0\x0a\x0b\x02\0\x01i\x01\x01\0\x01f\x01\x01";
        let lower = |i, f| [&b"\x08\x09\x02\x01\0"[..], &[i], b"\0\x01\0", &[f], b"\0"].concat();
        let other = component(&[two, &lower(0, 1)]);
        let expected = component(&[
            F,
            b"\x07\x02\x01\x7f\x0a\x06\x01\0\x01g\x01\0",
            b"\x07\x06\x02\x7f\x40\0\x01\0\x0a\x06\x01\0\x01i\x01\x03",
            &lower(2, 0),
        ]);
        assert_eq!(merge(&one, &other), Ok(expected));
        // an import of another kind isn't the same
        let instance = component(&[b"\x07\x03\x01\x42\0\x0a\x06\x01\0\x01f\x05\0"]);
        let expected = component(&[F, b"\x07\x03\x01\x42\0\x0a\x06\x01\0\x01f\x05\x01"]);
        assert_eq!(merge(&component(&[F]), &instance), Ok(expected));
    }

    /// A nested component with an outer alias of a type, and one of a type two components further
    /// out.
    #[test]
    fn nested_components_refer_to_the_same() {
        let nested = |ty| {
            let alias = [b"\x06\x09\x02\x03\x02\x01", &[ty][..], b"\x03\x02\x02\x07"].concat();
            let component = component(&[&alias]);
            [&[0x04, u8::try_from(component.len()).expect("it is short")], &component[..]].concat()
        };
        let other = component(&[G, &nested(0)]);
        let import = b"\x07\x05\x01\x43\0\x01\0\x0a\x06\x01\0\x01g\x01\x01";
        let merged = component(&[F, import, &nested(1)]);
        assert_eq!(merge(&component(&[F]), &other), Ok(merged));
    }

    /// Each type of a recursion group has an index, and may refer to itself.
    #[test]
    fn recursion_groups_have_an_index_for_each_type() {
        let group = |own| [&b"\x4e\x02\x5e\x64"[..], &[own], b"\0\x5f\0"].concat();
        let section =
            |own, of| [&b"\x03\x0d\x02"[..], &group(own), b"\x5e\x64", &[of], b"\0"].concat();
        let one = component(&[&section(0, 1)]);
        let both = [&b"\x03\x19\x04"[..], &section(0, 1)[3..], &section(3, 4)[3..]].concat();
        assert_eq!(merge(&one, &one), Ok(component(&[&both])));
    }

    #[test]
    fn faults_are_errors() {
        let export = component(&[F, b"\x0b\x07\x01\0\x01h\x01\0\0"]);
        assert_eq!(merge(&export, &export), Err("both export h".into()));
        assert_eq!(merge(b"", &export), Err("no component's header at 0x0: found nothing".into()));
        let start = component(&[b"\x09\x07\0\0\xff\xff\xff\xff\x0f"]);
        assert_eq!(merge(&start, &start), Err("too many".into()));
        let nested = component(&[b"\x04\x01\0"]);
        let fault = "no component's header at 0x0: found other bytes: 00";
        assert_eq!(merge(&nested, &start), Err(fault.into()));
    }
}

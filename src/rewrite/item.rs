//! The encoding of an item.

use crate::proved::wasm_encoder::{
    ComponentExportSection, ComponentImportSection, ComponentStartSection, CustomSection,
};
use crate::proved::wenc_base::{Encode, Fault, Verbatim};
use crate::shim::alloc::Global;
use crate::tree::ItemTree;
use alloc::vec::Vec;

/// An item as its section has it.
pub(super) struct Item<'a>(pub &'a ItemTree);

impl Encode for Item<'_> {
    fn encode(&self, sink: &mut Vec<u8>) -> Result<(), Fault> {
        match self.0 {
            ItemTree::Module(bytes) | ItemTree::Component(bytes) => bytes.as_slice().encode(sink),
            ItemTree::CoreInstance(tree) => tree.encode(sink),
            ItemTree::CoreType(tree) => tree.encode(sink),
            ItemTree::Instance(tree) => tree.encode(sink),
            ItemTree::Alias(tree) => tree.as_alias().encode(sink),
            ItemTree::Type(tree) => tree.encode(sink),
            ItemTree::Canon(tree) => tree.encode(sink),
            ItemTree::Start { function, args, results } => {
                let (function_index, results) = (*function, *results);
                let args = args.as_slice();
                ComponentStartSection { function_index, args, results }.encode(sink)
            }
            ItemTree::Import { name, ty } => {
                let mut imports = ComponentImportSection::new(Global);
                imports.import(name.as_name(), *ty)?;
                Verbatim(imports.into_holder().as_slice()).encode(sink)
            }
            ItemTree::Export { name, kind, index, ty } => {
                let mut exports = ComponentExportSection::new(Global);
                exports.export(name.as_name(), *kind, *index, *ty)?;
                Verbatim(exports.into_holder().as_slice()).encode(sink)
            }
            ItemTree::Custom { name, data } => CustomSection { name, data }.encode(sink),
        }
    }
}

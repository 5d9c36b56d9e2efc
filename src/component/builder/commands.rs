//! Building by commands.

use crate::Error;
use crate::SectionItem;
use crate::component::ComponentBuilder;
use crate::proved::wasm_encoder::CustomSection;
use crate::proved::wasm_encoder::command::run;
use crate::proved::wenc_base::Fault;
use crate::shim::alloc::Global;
use crate::tree::{Command, ItemTree};
use crate::twins::twins;

/// Commands, and items that were read.
impl ComponentBuilder {
    twins! {
        /// Adds an item that was read, optionally with a debug name, encoded in its shortest form.
        /// Returns the item's index, that of the first value of a start, and `None` for a custom
        /// section. An import, an export and a builtin have their own debug name, and a start and a
        /// custom section have none: the one that is passed isn't used.
        ///
        /// Needs the feature `tree`.
        ///
        /// ```
        /// use wenc::{ComponentBuilder, Sections};
        ///
        /// let component = b"\0asm\x0d\0\x01\0\x07\x05\x01\x40\0\x01\0\x0a\x06\x01\0\x01f\x01\0";
        /// let mut builder = ComponentBuilder::default();
        /// for item in Sections::new(component)?.items() {
        ///     assert_eq!(builder.item(None, &item?.view), Some(0));
        /// }
        /// assert_eq!(builder.finish(), component);
        /// # Ok::<(), wenc::ReadError>(())
        /// ```
        fn item | try_item(
            &mut self,
            debug_name: Option<&str>,
            item: &impl SectionItem,
        ) -> Option<u32> {
            self.or_unchanged(|builder| {
                item.with_tree(|item| Ok(builder.tree(debug_name, item)?))
            })
        }
    }

    /// Adds an item. A type that can't be encoded is left unfinished.
    fn tree(&mut self, name: Option<&str>, item: &ItemTree) -> Result<Option<u32>, Fault> {
        let builder = &mut self.0;
        let added = match item {
            ItemTree::Module(bytes) => builder.core_module_raw(name, bytes),
            ItemTree::CoreInstance(instance) => builder.core_instance_tree(name, instance),
            ItemTree::CoreType(ty) => {
                let (index, encoder) = builder.core_type(name)?;
                encoder.tree(ty).map(|()| index)
            }
            ItemTree::Component(bytes) => builder.component_raw(name, bytes),
            ItemTree::Instance(instance) => builder.instance_tree(name, instance),
            ItemTree::Alias(alias) => builder.alias(name, alias.as_alias()),
            ItemTree::Type(ty) => {
                let (index, encoder) = builder.ty(name)?;
                encoder.tree(ty).map(|()| index)
            }
            ItemTree::Canon(canon) => builder.canonical_tree(name, canon),
            ItemTree::Start { function, args, results } => builder.start(*function, args, *results),
            ItemTree::Import { name, ty } => builder.import(name.as_name(), *ty),
            ItemTree::Export { name, kind, index, ty } => {
                builder.export(name.as_name(), *kind, *index, *ty)
            }
            ItemTree::Custom { name, data } => {
                return builder.custom_section(&CustomSection { name, data }).map(|()| None);
            }
        };
        added.map(Some)
    }

    /// Makes the call that a command describes. Returns the index of the item that it adds, or
    /// `None` for a custom section and for names. An item that [`list`](crate::list) returns
    /// becomes a command by `From`; [`build`](crate::tree::build) runs commands on a new builder.
    ///
    /// Needs the feature `tree`.
    ///
    /// # Errors
    ///
    /// The error of that call; for a nested component, the first error of its commands. The builder
    /// is unchanged, since a type that can't be encoded is discarded.
    ///
    /// ```
    /// use wenc::tree::Command;
    /// use wenc::{ComponentBuilder, ComponentExportKind, ComponentTypeRef, TypeBounds};
    ///
    /// let mut builder = ComponentBuilder::default();
    /// let file = builder.import("file", ComponentTypeRef::Type(TypeBounds::SubResource));
    /// let export = Command::Export {
    ///     name: "handle".into(),
    ///     kind: ComponentExportKind::Type,
    ///     index: file,
    ///     ty: None,
    /// };
    /// assert_eq!(builder.command(&export)?, Some(1));
    /// assert_eq!(
    ///     builder.finish()[8..],
    ///     *b"\x0a\x09\x01\0\x04file\x03\x01\x0b\x0c\x01\0\x06handle\x03\0\0",
    /// );
    /// # Ok::<(), wenc::Error>(())
    /// ```
    pub fn command(&mut self, command: &Command) -> Result<Option<u32>, Error> {
        self.or_unchanged(|builder| Ok(run(command, Global, &mut builder.0)??))
    }

    /// Adds an item. If that fails, discards the type that it leaves unfinished.
    fn or_unchanged(
        &mut self,
        add: impl FnOnce(&mut Self) -> Result<Option<u32>, Error>,
    ) -> Result<Option<u32>, Error> {
        let was_finished = self.is_finished();
        let added = add(self);
        if added.is_err() && was_finished {
            self.discard_unfinished();
        }
        added
    }
}

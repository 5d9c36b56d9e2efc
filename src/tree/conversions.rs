//! Conversions between trees and the arguments of builders and sections.

use super::{AliasTree, Command, NameOptions, NameTree};
use crate::{Alias, ComponentExternName, ProducersSection};
use alloc::borrow::Cow;
use alloc::string::String;

/// Makes the command that adds the section to a component.
///
/// # Panics
///
/// Panics if an allocation fails.
///
/// ```
/// use wenc::ProducersSection;
/// use wenc::tree::{Command, build};
///
/// let producers = ProducersSection::new();
/// assert_eq!(build(&[Command::from(&producers)])?.bytes[8..], *b"\x00\x0b\x09producers\x00");
/// # Ok::<(), wenc::Error>(())
/// ```
impl From<&ProducersSection> for Command {
    #[inline]
    fn from(section: &ProducersSection) -> Self {
        let command = crate::proved::wasm_encoder::producers_command(super::Global, &section.0);
        crate::error::or_panic(command)
    }
}

impl<'a> From<&'a AliasTree> for Alias<'a> {
    #[inline]
    fn from(alias: &'a AliasTree) -> Self {
        alias.as_alias()
    }
}

impl<'a> From<&'a NameTree> for ComponentExternName<'a> {
    #[inline]
    fn from(name: &'a NameTree) -> Self {
        fn borrowed(text: &Option<String>) -> Option<Cow<'_, str>> {
            text.as_deref().map(Cow::Borrowed)
        }
        let options = name.options.as_deref();
        Self {
            name: Cow::Borrowed(&name.name),
            implements: options.and_then(|options| borrowed(&options.implements)),
            version_suffix: options.and_then(|options| borrowed(&options.version_suffix)),
            external_id: options.and_then(|options| borrowed(&options.external_id)),
        }
    }
}

/// The texts are moved, not copied.
impl From<NameTree> for ComponentExternName<'_> {
    #[inline]
    fn from(NameTree { name, options }: NameTree) -> Self {
        fn owned<'a>(text: Option<String>) -> Option<Cow<'a, str>> {
            text.map(Cow::Owned)
        }
        let mut made = Self::from(name);
        if let Some(options) = options {
            let NameOptions { implements, version_suffix, external_id } = options.into_inner();
            made.implements = owned(implements);
            made.version_suffix = owned(version_suffix);
            made.external_id = owned(external_id);
        }
        made
    }
}

impl From<Alias<'_>> for AliasTree {
    #[inline]
    fn from(alias: Alias<'_>) -> Self {
        match alias {
            Alias::InstanceExport { instance, kind, name } => {
                Self::InstanceExport { instance, kind, name: name.into() }
            }
            Alias::CoreInstanceExport { instance, kind, name } => {
                Self::CoreInstanceExport { instance, kind, name: name.into() }
            }
            Alias::Outer { kind, count, index } => Self::Outer { kind, count, index },
        }
    }
}

impl From<ComponentExternName<'_>> for NameTree {
    #[inline]
    fn from(name: ComponentExternName<'_>) -> Self {
        let ComponentExternName { name, implements, version_suffix, external_id } = name;
        let [implements, version_suffix, external_id] =
            [implements, version_suffix, external_id].map(|option| option.map(String::from));
        let options = NameOptions { implements, version_suffix, external_id };
        let has_none = matches!(
            options,
            NameOptions { implements: None, version_suffix: None, external_id: None }
        );
        Self { name: name.into(), options: if has_none { None } else { Some(options.into()) } }
    }
}

impl From<&str> for NameTree {
    #[inline]
    fn from(name: &str) -> Self {
        String::from(name).into()
    }
}

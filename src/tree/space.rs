//! The list of index spaces.

use super::Space;
use crate::ComponentSectionId;
use core::fmt;

impl Space {
    /// All index spaces, each at its [`number`](Self::number).
    ///
    /// ```
    /// use wenc::tree::Space;
    ///
    /// assert_eq!(Space::ALL[Space::Types.number()], Space::Types);
    /// ```
    pub const ALL: [Self; 13] = [
        Self::CoreModules,
        Self::CoreFuncs,
        Self::CoreTypes,
        Self::CoreMemories,
        Self::CoreTables,
        Self::CoreInstances,
        Self::CoreTags,
        Self::CoreGlobals,
        Self::Funcs,
        Self::Instances,
        Self::Values,
        Self::Components,
        Self::Types,
    ];
}

impl ComponentSectionId {
    /// Returns the spaces in which items of such a section define indices.
    pub(crate) const fn spaces(self) -> &'static [Space] {
        match self {
            Self::CoreCustom => &[],
            Self::CoreModule => &[Space::CoreModules],
            Self::CoreInstance => &[Space::CoreInstances],
            Self::CoreType => &[Space::CoreTypes],
            Self::Component => &[Space::Components],
            Self::Instance => &[Space::Instances],
            Self::Alias => &[
                Space::CoreModules,
                Space::CoreFuncs,
                Space::CoreTypes,
                Space::CoreMemories,
                Space::CoreTables,
                Space::CoreTags,
                Space::CoreGlobals,
                Space::Funcs,
                Space::Instances,
                Space::Values,
                Space::Components,
                Space::Types,
            ],
            Self::Type => &[Space::Types],
            Self::CanonicalFunction => &[Space::CoreFuncs, Space::Funcs],
            Self::Start => &[Space::Values],
            Self::Import | Self::Export => &[
                Space::CoreModules,
                Space::Funcs,
                Space::Instances,
                Space::Values,
                Space::Components,
                Space::Types,
            ],
        }
    }
}

/// The sort of what is in the space, as the standard's text format writes it: `core module`,
/// `func`.
impl fmt::Display for Space {
    #[inline]
    fn fmt(&self, f: &mut fmt::Formatter<'_>) -> fmt::Result {
        f.pad(match self {
            Self::CoreModules => "core module",
            Self::CoreFuncs => "core func",
            Self::CoreTypes => "core type",
            Self::CoreMemories => "core memory",
            Self::CoreTables => "core table",
            Self::CoreInstances => "core instance",
            Self::CoreTags => "core tag",
            Self::CoreGlobals => "core global",
            Self::Funcs => "func",
            Self::Instances => "instance",
            Self::Values => "value",
            Self::Components => "component",
            Self::Types => "type",
        })
    }
}

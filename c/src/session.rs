//! What handles own, and the calls that several kinds of sessions accept.

use crate::arguments::known;
use crate::listing::Listed;
use crate::{CallError, Result, Status};
use alloc::vec::Vec;
use wenc::tree::Space;
use wenc::view::ItemView;
use wenc::{
    Alias, CanonicalFunctionSection, Component, ComponentAliasSection, ComponentBuilder,
    ComponentCoreTypeEncoder, ComponentExportSection, ComponentExternName, ComponentImportSection,
    ComponentInstanceSection, ComponentNameSection, ComponentOuterAliasKind, ComponentSection,
    ComponentType, ComponentTypeEncoder, ComponentTypeRef, ComponentTypeSection, CoreTypeEncoder,
    CoreTypeSection, Error, InstanceSection, InstanceType, ModuleType,
};

/// What a handle owns.
pub(crate) enum Session {
    /// A component, item by item.
    Building(ComponentBuilder),
    /// A component, section by section.
    ByHand(Component),
    /// The bytes of a component.
    Finished(Vec<u8>),
    // declared types
    ComponentType(ComponentType),
    InstanceType(InstanceType),
    ModuleType(ModuleType),
    // sections
    CoreInstances(InstanceSection),
    CoreTypes(CoreTypeSection),
    Instances(ComponentInstanceSection),
    Aliases(ComponentAliasSection),
    Types(ComponentTypeSection),
    Functions(CanonicalFunctionSection),
    Imports(ComponentImportSection),
    Exports(ComponentExportSection),
    Names(ComponentNameSection),
    /// A component that was read.
    Listed(Listed),
}

/// Adds to a section, and returns how many items it had before.
macro_rules! counted {
    ($section:ident => $call:expr) => {{
        let index = $section.len();
        $call?;
        Ok(index)
    }};
}

pub(crate) use counted;

/// Declares an item in the type of a component or of an instance, and returns its index, or 0 if
/// such items aren't counted.
macro_rules! declared {
    ($session:ident, $space:expr, |$to:ident| $call:expr) => {
        match $session {
            Self::ComponentType($to) => declared!($to, $space, $call),
            Self::InstanceType($to) => declared!($to, $space, $call),
            _ => Err($session.wrong_handle()),
        }
    };
    ($to:ident, $space:expr, $call:expr) => {{
        let index = $space.and_then(|space| $to.count(space)).unwrap_or(0);
        $call?;
        Ok(index)
    }};
}

impl Session {
    /// Returns why this session doesn't accept the call.
    pub(crate) fn wrong_handle(&self) -> CallError {
        let status = match self {
            Self::Finished(_) => Status::Finished,
            _ => Status::BadArgument,
        };
        CallError::from(status).of(c"handle")
    }

    /// Checks a debug name: only items of a builder may have one.
    pub(crate) fn take_name(&self, debug_name: Option<&str>) -> Result<()> {
        match (self, debug_name) {
            (Self::Building(_), _) | (_, None) => Ok(()),
            (Self::Finished(_), _) => Err(self.wrong_handle()),
            _ => Err(CallError::bad(c"debug_name")),
        }
    }

    pub(crate) fn builder(&mut self) -> Result<&mut ComponentBuilder> {
        match self {
            Self::Building(builder) => Ok(builder),
            _ => Err(self.wrong_handle()),
        }
    }

    pub(crate) fn import(
        &mut self,
        name: ComponentExternName<'_>,
        ty: ComponentTypeRef,
    ) -> Result<u32> {
        match self {
            Self::Building(builder) => Ok(builder.try_import(name, ty)?),
            Self::ComponentType(to) => {
                declared!(to, Some(Space::from(ty.kind())), to.try_import(name, ty))
            }
            Self::Imports(section) => counted!(section => section.try_import(name, ty)),
            _ => Err(self.wrong_handle()),
        }
    }

    /// Declares an export.
    pub(crate) fn declare(
        &mut self,
        name: ComponentExternName<'_>,
        ty: ComponentTypeRef,
    ) -> Result<u32> {
        declared!(self, Some(Space::from(ty.kind())), |to| to.try_export(name, ty))
    }

    pub(crate) fn alias(&mut self, debug_name: Option<&str>, alias: Alias<'_>) -> Result<u32> {
        match self {
            Self::Building(builder) => Ok(builder.try_alias(debug_name, alias)?),
            Self::Aliases(section) => counted!(section => section.try_alias(alias)),
            Self::ModuleType(to) => match alias {
                Alias::Outer { kind: ComponentOuterAliasKind::CoreType, count, index } => {
                    Ok(to.try_alias_core_type(count, index)?)
                }
                _ => Err(CallError::bad(c"kind")),
            },
            _ => {
                let space = ItemView::Alias(alias).defined_indices().map(|(space, _)| space);
                declared!(self, space, |to| to.try_alias(alias))
            }
        }
    }

    /// Adds a type, which is written by its encoder.
    pub(crate) fn ty(
        &mut self,
        debug_name: Option<&str>,
        write: impl FnOnce(ComponentTypeEncoder<'_>) -> Result<(), Error>,
    ) -> Result<u32> {
        let (index, encoder) = match self {
            Self::Building(to) => to.try_ty(debug_name)?,
            Self::ComponentType(to) => (to.type_count(), to.try_ty()?),
            Self::InstanceType(to) => (to.type_count(), to.try_ty()?),
            Self::Types(to) => (to.len(), to.try_ty()?),
            _ => return Err(self.wrong_handle()),
        };
        let written = write(encoder);
        self.settled(written, index)
    }

    /// Adds a core type that isn't the type of a module, as [`ty`](Self::ty) does.
    pub(crate) fn core_type(
        &mut self,
        debug_name: Option<&str>,
        write: impl FnOnce(CoreTypeEncoder<'_>) -> Result<(), Error>,
    ) -> Result<u32> {
        let (index, encoder) = match self {
            Self::ModuleType(to) => (to.type_count(), to.try_ty()?),
            _ => {
                let (index, encoder) = self.begun_core_type(debug_name)?;
                (index, encoder.core())
            }
        };
        let written = write(encoder);
        self.settled(written, index)
    }

    /// Adds the type of a module, as a core type.
    pub(crate) fn module_type(&mut self, debug_name: Option<&str>, ty: &ModuleType) -> Result<u32> {
        let (index, encoder) = self.begun_core_type(debug_name)?;
        let written = encoder.try_module(ty);
        self.settled(written, index)
    }

    #[inline(always)]
    fn begun_core_type(
        &mut self,
        debug_name: Option<&str>,
    ) -> Result<(u32, ComponentCoreTypeEncoder<'_>)> {
        Ok(match self {
            Self::Building(to) => to.try_core_type(debug_name)?,
            Self::ComponentType(to) => (to.core_type_count(), to.try_core_type()?),
            Self::InstanceType(to) => (to.core_type_count(), to.try_core_type()?),
            Self::CoreTypes(to) => (to.len(), to.try_ty()?),
            _ => return Err(self.wrong_handle()),
        })
    }

    /// Returns the index of a type that an encoder wrote, or discards the type if that failed.
    #[inline]
    fn settled(&mut self, written: Result<(), Error>, index: u32) -> Result<u32> {
        written.map(|()| index).map_err(|error| self.discarded(error))
    }

    #[cold]
    fn discarded(&mut self, error: Error) -> CallError {
        match self {
            Self::Building(to) => to.discard_unfinished(),
            Self::ComponentType(to) => to.discard_unfinished(),
            Self::InstanceType(to) => to.discard_unfinished(),
            Self::ModuleType(to) => to.discard_unfinished(),
            Self::CoreTypes(to) => to.discard_unfinished(),
            Self::Types(to) => to.discard_unfinished(),
            _ => false,
        };
        error.into()
    }

    /// Appends a section to a component that is made section by section. Sections have no indices.
    pub(crate) fn append(&mut self, section: &impl ComponentSection) -> Result<u32> {
        match self {
            Self::ByHand(component) => Ok(component.try_section(section).map(|_| 0)?),
            _ => Err(self.wrong_handle()),
        }
    }

    /// Returns the number of items in an index space.
    pub(crate) fn count(&self, space: Space) -> Result<u32> {
        let count = match (self, space) {
            (Self::Building(builder), _) => Some(builder.count(space)),
            (Self::ModuleType(ty), _) => (space == Space::CoreTypes).then(|| ty.type_count()),
            (Self::ComponentType(ty), _) => ty.count(space),
            (Self::InstanceType(ty), _) => ty.count(space),
            (Self::Listed(listed), _) => return listed.count(space),
            _ => return Err(self.wrong_handle()),
        };
        known(c"space", count)
    }

    /// Returns the number of members of a section or a type, or of sections of a component that was
    /// read.
    pub(crate) fn len(&self) -> Result<usize> {
        let len = match self {
            Self::ComponentType(ty) => ty.len(),
            Self::InstanceType(ty) => ty.len(),
            Self::CoreInstances(section) => section.len(),
            Self::CoreTypes(section) => section.len(),
            Self::Instances(section) => section.len(),
            Self::Aliases(section) => section.len(),
            Self::Types(section) => section.len(),
            Self::Functions(section) => section.len(),
            Self::Imports(section) => section.len(),
            Self::Exports(section) => section.len(),
            Self::Listed(listed) => return Ok(listed.len()),
            _ => return Err(self.wrong_handle()),
        };
        Ok(usize::try_from(len).map_err(|_| Status::TooLarge)?)
    }
}

//! What a definition is.

use super::entry::{Form, Role};
use crate::tree::{Scope, Space, UsedIndex, defined_in_module, space_of};
use crate::view::{
    CanonView, ComponentDeclView, ComponentDecls, CoreInstanceView, CoreTypeView, InstanceDeclView,
    InstanceDecls, InstanceView, ItemView, ListOf, ModuleDeclView, NameView, TypeView,
};
use crate::{
    Alias, ComponentExportKind, ComponentSectionId, ComponentTypeRef, ExportKind, ModuleArg,
    TypeBounds,
};
use core::fmt;

/// What a [`Definition`](super::Definition) is.
///
/// Needs the feature `scope`.
///
/// ```
/// use wenc::scope::{Definitions, Meaning};
/// use wenc::tree::Space;
/// use wenc::view::{ItemView, TypeView};
///
/// // a type of instances, which declares a resource, and an import of such an instance
/// let component = b"\0asm\x0d\0\x01\0\x07\x09\x01\x42\x01\x04\0\x01r\x03\x01\
///     \x0a\x06\x01\0\x01i\x05\0";
/// let definitions = Definitions::new(component, 100)?;
/// let instances = definitions.instances();
/// let import = instances.component().get(Space::Instances, 0)?;
/// assert!(matches!(import.meaning(), Meaning::Item(ItemView::Import { .. })));
/// let ty = import.ty()?.expect("it has one");
/// assert!(matches!(ty.meaning(), Meaning::Item(ItemView::Type(TypeView::Instance(_)))));
/// for declared in ty.inner().expect("it has a scope").definitions() {
///     let Meaning::Declared { name, .. } = declared.meaning() else { panic!("it is an export") };
///     assert_eq!(name.name, "r");
/// }
/// # Ok::<(), Box<dyn std::error::Error>>(())
/// ```
#[derive(Clone, Copy)]
#[non_exhaustive]
pub enum Meaning<'a> {
    /// An item of a component; or a type, a core type, an alias or an import that a component type
    /// or an instance type declares, as that item.
    Item(ItemView<'a>),
    /// An export that a component type or an instance type declares.
    Declared {
        /// Its name.
        name: NameView<'a>,
        /// Its type.
        ty: ComponentTypeRef,
    },
    /// A declaration of a module type.
    Module(ModuleDeclView<'a>),
    /// An argument of a component's instantiation: an item by the name of an import.
    Argument {
        /// The name of the import.
        name: &'a str,
        /// The kind of the item.
        kind: ComponentExportKind,
        /// The index of the item.
        index: u32,
    },
    /// An argument of a core module's instantiation.
    CoreArgument {
        /// The name of the module to import from.
        name: &'a str,
        /// The core instance.
        argument: ModuleArg,
    },
    /// Items of a section from a byte offset on that can't be read (see
    /// [`Definitions::past_faults`](super::Definitions::past_faults)).
    Unread {
        /// The section; `None` for what may be items of any: a section whose id or size can't be
        /// read.
        section: Option<ComponentSectionId>,
        /// The number of items that the section states, if they are canonical functions.
        count: u32,
        /// Whether they are known to be as many core functions.
        is_known: bool,
    },
    /// An export in the list of a core instance. One in the list of an instance is an
    /// [`Item`](Self::Item).
    CoreExport {
        /// Its name.
        name: &'a str,
        /// The kind of the core item.
        kind: ExportKind,
        /// The index of the core item.
        index: u32,
    },
}

impl fmt::Debug for Meaning<'_> {
    #[inline]
    fn fmt(&self, f: &mut fmt::Formatter<'_>) -> fmt::Result {
        match self {
            Self::Item(item) => f.debug_tuple("Item").field(item).finish(),
            Self::Declared { name, ty } => {
                f.debug_struct("Declared").field("name", name).field("ty", ty).finish()
            }
            Self::Module(decl) => f.debug_tuple("Module").field(decl).finish(),
            Self::Argument { name, kind, index } => {
                let mut shown = f.debug_struct("Argument");
                shown.field("name", name).field("kind", kind).field("index", index).finish()
            }
            Self::CoreArgument { name, argument } => {
                let mut shown = f.debug_struct("CoreArgument");
                shown.field("name", name).field("argument", argument).finish()
            }
            Self::Unread { section, count, is_known } => {
                let mut shown = f.debug_struct("Unread");
                shown.field("section", section).field("count", count);
                shown.field("is_known", is_known).finish()
            }
            Self::CoreExport { name, kind, index } => {
                let mut shown = f.debug_struct("CoreExport");
                shown.field("name", name).field("kind", kind).field("index", index).finish()
            }
        }
    }
}

impl PartialEq for Meaning<'_> {
    #[inline]
    fn eq(&self, other: &Self) -> bool {
        match (*self, *other) {
            (Self::Item(item), Self::Item(other)) => item == other,
            (Self::Declared { name, ty }, Self::Declared { name: other, ty: of }) => {
                (name, ty) == (other, of)
            }
            (Self::Module(decl), Self::Module(other)) => decl == other,
            (
                Self::Argument { name, kind, index },
                Self::Argument { name: other, kind: of, index: at },
            ) => (name, kind, index) == (other, of, at),
            (
                Self::CoreArgument { name, argument },
                Self::CoreArgument { name: other, argument: of },
            ) => (name, argument) == (other, of),
            (
                Self::Unread { section, count, is_known },
                Self::Unread { section: other, count: of, is_known: known },
            ) => (section, count, is_known) == (other, of, known),
            (
                Self::CoreExport { name, kind, index },
                Self::CoreExport { name: other, kind: of, index: at },
            ) => (name, kind, index) == (other, of, at),
            _ => false,
        }
    }
}

impl Eq for Meaning<'_> {}

/// What a definition is the same as.
pub(super) enum Same<'a> {
    /// The definition with this index, this many scopes further out.
    Index(u32, Space, u32),
    /// An export of the instance with this space and index.
    Export((Space, u32), &'a str, Space),
}

impl<'a> Meaning<'a> {
    /// Returns the space in which it defines indices, and their number.
    pub(super) fn defined(&self) -> Option<(Space, u32)> {
        match self {
            Self::Item(item) => item.defined_indices(),
            Self::Declared { ty, .. } => Some((ty.kind().into(), 1)),
            Self::Module(decl) => defined_in_module(decl),
            _ => None,
        }
    }

    /// Returns the index space of its kind.
    pub(super) fn space(&self) -> Option<Space> {
        match self {
            Self::Argument { kind, .. } => Some((*kind).into()),
            Self::CoreArgument { argument: ModuleArg::Instance(_), .. } => {
                Some(Space::CoreInstances)
            }
            Self::CoreExport { kind, .. } => Some((*kind).into()),
            Self::Module(ModuleDeclView::Export { ty, .. }) => space_of(ty),
            _ => self.defined().map(|(space, _)| space),
        }
    }

    /// Returns the name of an import or an export, also of a declared one, or of an argument.
    pub(super) fn name(&self) -> Option<&'a str> {
        match *self {
            Self::Item(ItemView::Export { name, .. } | ItemView::Import { name, .. })
            | Self::Declared { name, .. } => Some(name.name),
            Self::Module(ModuleDeclView::Export { name, .. })
            | Self::Argument { name, .. }
            | Self::CoreArgument { name, .. }
            | Self::CoreExport { name, .. } => Some(name),
            _ => None,
        }
    }

    /// Returns what it is.
    pub(super) fn role(&self) -> Role {
        match self {
            Self::Item(ItemView::Import { .. }) => Role::Import,
            Self::Declared { .. } => Role::Declared,
            Self::Item(ItemView::Export { .. }) if self.is_ascribed() => Role::Ascribed,
            Self::Item(ItemView::Alias(
                Alias::InstanceExport { .. } | Alias::CoreInstanceExport { .. },
            )) => Role::Alias,
            Self::Module(ModuleDeclView::Export { .. }) => Role::ModuleExport,
            _ if self.name().is_some() || self.same().is_some() => Role::Linked,
            Self::Item(ItemView::Type(TypeView::Component(_))) => Role::ComponentType,
            Self::Item(ItemView::Type(TypeView::Instance(_))) => Role::InstanceType,
            Self::Item(ItemView::CoreType(CoreTypeView::Module(_))) => Role::ModuleType,
            Self::Item(
                ItemView::Instance(InstanceView::Instantiate { .. })
                | ItemView::CoreInstance(CoreInstanceView::Instantiate { .. }),
            ) => Role::Instantiate,
            Self::Item(ItemView::Instance(_) | ItemView::CoreInstance(_)) => Role::List,
            _ if self.defined().is_some_and(|(_, count)| count != 1) => Role::Several,
            _ => Role::Plain,
        }
    }

    /// Returns the type of an import or of a declared export, or the one that is ascribed to an
    /// export.
    pub fn type_ref(&self) -> Option<ComponentTypeRef> {
        match *self {
            Self::Item(ItemView::Import { ty, .. }) | Self::Declared { ty, .. } => Some(ty),
            Self::Item(ItemView::Export { ty, .. }) => ty,
            _ => None,
        }
    }

    /// Returns the space and the index of the type of what it is: by its own type, or that of a
    /// lifted function.
    pub(super) fn type_index(&self) -> Option<(Space, u32)> {
        match (self.type_ref(), self) {
            (Some(ComponentTypeRef::Module(index)), _) => Some((Space::CoreTypes, index)),
            (
                Some(
                    ComponentTypeRef::Func(index)
                    | ComponentTypeRef::Instance(index)
                    | ComponentTypeRef::Component(index),
                ),
                _,
            ) => Some((Space::Types, index)),
            (_, Self::Item(ItemView::Canon(CanonView::Lift { ty, .. }))) => {
                Some((Space::Types, *ty))
            }
            _ => None,
        }
    }

    /// Returns whether it is an export with a type of its own, which thus isn't the same as what is
    /// exported. A type with the bound `Eq` is.
    pub(super) fn is_ascribed(&self) -> bool {
        let Self::Item(ItemView::Export { ty: Some(ty), .. }) = self else { return false };
        !matches!(ty, ComponentTypeRef::Type(TypeBounds::Eq(_)) | ComponentTypeRef::Value(_))
    }

    /// Returns the definition that it is the same as.
    pub(super) fn same(&self) -> Option<Same<'a>> {
        match *self {
            Self::Item(ItemView::Import {
                ty: ComponentTypeRef::Type(TypeBounds::Eq(index)),
                ..
            })
            | Self::Declared { ty: ComponentTypeRef::Type(TypeBounds::Eq(index)), .. } => {
                Some(Same::Index(0, Space::Types, index))
            }
            Self::Item(ItemView::Export { kind, index, .. })
            | Self::Argument { kind, index, .. } => Some(Same::Index(0, kind.into(), index)),
            Self::Item(ItemView::Alias(Alias::Outer { kind, count, index })) => {
                Some(Same::Index(count, kind.into(), index))
            }
            Self::Item(ItemView::Alias(Alias::InstanceExport { instance, kind, name })) => {
                Some(Same::Export((Space::Instances, instance), name, kind.into()))
            }
            Self::Item(ItemView::Alias(Alias::CoreInstanceExport { instance, kind, name })) => {
                Some(Same::Export((Space::CoreInstances, instance), name, kind.into()))
            }
            Self::Module(ModuleDeclView::Alias { count, index }) => {
                Some(Same::Index(count, Space::CoreTypes, index))
            }
            Self::CoreArgument { argument: ModuleArg::Instance(index), .. } => {
                Some(Same::Index(0, Space::CoreInstances, index))
            }
            Self::CoreExport { kind, index, .. } => Some(Same::Index(0, kind.into(), index)),
            _ => None,
        }
    }

    /// Calls a function with each index that it has itself.
    pub(super) fn each_index(&self, visit: &mut dyn FnMut(UsedIndex)) {
        let mut one = |space, index| {
            visit(UsedIndex { space, scope: Scope::Component(0), index, count: None });
        };
        match *self {
            Self::Item(ItemView::Instance(InstanceView::Instantiate { component, .. })) => {
                one(Space::Components, component);
            }
            Self::Item(ItemView::CoreInstance(CoreInstanceView::Instantiate {
                module, ..
            })) => one(Space::CoreModules, module),
            Self::Item(ItemView::Instance(_) | ItemView::CoreInstance(_)) => {}
            Self::Argument { kind, index, .. } => one(kind.into(), index),
            Self::CoreArgument { argument: ModuleArg::Instance(index), .. } => {
                one(Space::CoreInstances, index);
            }
            Self::CoreExport { kind, index, .. } => one(kind.into(), index),
            Self::Unread { .. } => {}
            _ if self.members().is_some() => {}
            Self::Item(item) => item.node().each_index(&mut *visit),
            Self::Declared { name, ty } => {
                ItemView::Import { name, ty }.node().each_index(&mut *visit);
            }
            Self::Module(decl) => decl.node().each_index(&mut *visit),
        }
    }

    /// Returns the declarations of a type that has index spaces of its own, or the exports or the
    /// arguments in the list of an instance.
    pub(super) fn members(&self) -> Option<Members<'a>> {
        let Self::Item(item) = *self else { return None };
        Some(match item {
            ItemView::Type(TypeView::Component(all)) => Members::Component(all),
            ItemView::Type(TypeView::Instance(all)) => Members::Instance(all),
            ItemView::CoreType(CoreTypeView::Module(all)) => Members::Module(all),
            ItemView::Instance(InstanceView::Instantiate { args, .. }) => Members::Arguments(args),
            ItemView::Instance(InstanceView::Exports(all)) => Members::Exports(all),
            ItemView::CoreInstance(CoreInstanceView::Instantiate { args, .. }) => {
                Members::CoreArguments(args)
            }
            ItemView::CoreInstance(CoreInstanceView::Exports(all)) => Members::CoreExports(all),
            _ => return None,
        })
    }
}

impl<'a> From<InstanceDeclView<'a>> for Meaning<'a> {
    fn from(decl: InstanceDeclView<'a>) -> Self {
        match decl {
            InstanceDeclView::CoreType(ty) => Self::Item(ItemView::CoreType(ty)),
            InstanceDeclView::Type(ty) => Self::Item(ItemView::Type(ty)),
            InstanceDeclView::Alias(alias) => Self::Item(ItemView::Alias(alias)),
            InstanceDeclView::Export { name, ty } => Self::Declared { name, ty },
        }
    }
}

impl<'a> From<ComponentDeclView<'a>> for Meaning<'a> {
    fn from(decl: ComponentDeclView<'a>) -> Self {
        match decl {
            ComponentDeclView::Import { name, ty } => Self::Item(ItemView::Import { name, ty }),
            ComponentDeclView::Decl(decl) => decl.into(),
        }
    }
}

/// The declarations of a type, or the members of a list, that are left.
#[derive(Clone, Copy)]
pub(super) enum Members<'a> {
    Component(ComponentDecls<'a>),
    Instance(InstanceDecls<'a>),
    Module(ListOf<'a, ModuleDeclView<'a>>),
    Arguments(ListOf<'a, (&'a str, ComponentExportKind, u32)>),
    Exports(ListOf<'a, (NameView<'a>, ComponentExportKind, u32)>),
    CoreArguments(ListOf<'a, (&'a str, ModuleArg)>),
    CoreExports(ListOf<'a, (&'a str, ExportKind, u32)>),
}

impl<'a> Members<'a> {
    /// Returns the number of bytes from the next one to the end of the section.
    pub fn bytes_left(&self) -> usize {
        match self {
            Self::Component(all) => all.bytes.len(),
            Self::Instance(all) => all.bytes.len(),
            Self::Module(all) => all.bytes.len(),
            Self::Arguments(all) => all.bytes.len(),
            Self::Exports(all) => all.bytes.len(),
            Self::CoreArguments(all) => all.bytes.len(),
            Self::CoreExports(all) => all.bytes.len(),
        }
    }

    /// Passes over the next one, which is a declared type of this length.
    pub fn pass(&mut self, len: usize) {
        let (left, bytes) = match self {
            Self::Component(all) => (&mut all.left, &mut all.bytes),
            Self::Instance(all) => (&mut all.left, &mut all.bytes),
            _ => return,
        };
        (*left, *bytes) = (left.saturating_sub(1), bytes.get(len..).unwrap_or_default());
    }

    /// Returns how each is read.
    pub fn form(&self) -> Form {
        match self {
            Self::Component(_) => Form::InComponent,
            Self::Instance(_) => Form::InInstance,
            Self::Module(_) => Form::InModule,
            Self::Arguments(_) => Form::Argument,
            Self::Exports(_) => Form::Export,
            Self::CoreArguments(_) => Form::CoreArgument,
            Self::CoreExports(_) => Form::CoreExport,
        }
    }

    /// Returns the next one.
    pub fn next(&mut self) -> Option<Meaning<'a>> {
        match self {
            Self::Component(all) => all.next().map(Meaning::from),
            Self::Instance(all) => all.next().map(Meaning::from),
            Self::Module(all) => all.next().map(Meaning::Module),
            Self::Arguments(all) => all.next().map(Self::argument),
            Self::Exports(all) => all.next().map(Self::export),
            Self::CoreArguments(all) => all.next().map(Self::core_argument),
            Self::CoreExports(all) => all.next().map(Self::core_export),
        }
    }

    pub fn argument((name, kind, index): (&'a str, ComponentExportKind, u32)) -> Meaning<'a> {
        Meaning::Argument { name, kind, index }
    }

    pub fn export((name, kind, index): (NameView<'a>, ComponentExportKind, u32)) -> Meaning<'a> {
        Meaning::Item(ItemView::Export { name, kind, index, ty: None })
    }

    pub fn core_argument((name, argument): (&'a str, ModuleArg)) -> Meaning<'a> {
        Meaning::CoreArgument { name, argument }
    }

    pub fn core_export((name, kind, index): (&'a str, ExportKind, u32)) -> Meaning<'a> {
        Meaning::CoreExport { name, kind, index }
    }
}

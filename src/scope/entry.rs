//! What is kept of each definition: where it is, and what it is the same as. The rest is read
//! again.

use super::fault::ScopeFault;
use super::meaning::Members;
use super::paths::At;
use super::{Definitions, Meaning, NONE};
use crate::ComponentSectionId;
use crate::proved::wenc_list::SectionItems;
use crate::proved::wenc_view::View;
use crate::tree::Space;
use crate::view::{ComponentDecls, InstanceDecls, ItemView, TypeView};

/// How the bytes of a definition are read.
#[derive(Clone, Copy, PartialEq, Eq)]
pub(super) enum Form {
    /// As an item of the section with this id.
    Item(u8),
    /// As a declaration of an instance type, a component type or a module type.
    InInstance,
    InComponent,
    InModule,
    /// As an argument or as an export in the list of an instance or of a core instance.
    Argument,
    Export,
    CoreArgument,
    CoreExport,
    /// They aren't: what can't be read, of a section with this id if it is known.
    Unread(Option<ComponentSectionId>),
}

/// What a definition is.
#[derive(Clone, Copy, PartialEq, Eq)]
pub(super) enum Role {
    Plain,
    /// More or fewer indices than one: their number is `Entry::more`.
    Several,
    /// A component, a component type, an instance type or a module type: `Entry::more` is its
    /// scope.
    Component,
    ComponentType,
    InstanceType,
    ModuleType,
    /// An instance, of a component or a core module with arguments, or a list of exports:
    /// `Entry::more` is the scope with these.
    Instantiate,
    List,
    /// What has a name or is the same as another definition: `Entry::more` is its link.
    Import,
    Declared,
    Ascribed,
    /// An alias of an export of an instance.
    Alias,
    /// An export that a module type declares, which has no index.
    ModuleExport,
    /// Another one.
    Linked,
    /// Items that can't be read, `Entry::more` in number, if their number is known.
    Unread,
    /// Canonical functions that can't be read, which are known to be core functions.
    Known,
}

/// A definition.
#[derive(Clone, Copy)]
pub(super) struct Entry {
    /// Its byte offset, and its length.
    pub place: usize,
    pub len: u32,
    /// The scope or the list that it is in.
    pub scope: u32,
    /// The first of its indices, if it has some: `UNKNOWN` after what can't be read. Of what can't
    /// be read the set of spaces whose indices aren't known from there on, as bits.
    pub first: u64,
    /// By its role.
    pub more: u32,
    pub form: Form,
    pub role: Role,
    /// The space of its kind.
    pub space: Option<Space>,
}

/// What is kept of a definition that has a name, or is the same as another one.
pub(super) struct Link<'a> {
    pub name: Option<&'a str>,
    /// The index of the type that it is declared or imported with, or that is ascribed to it.
    pub ty: Option<u32>,
    pub target: Target,
}

/// What a definition is the same as.
#[derive(Clone, Copy)]
pub(super) enum Target {
    /// Nothing else.
    Itself,
    /// The next definition, and the last one.
    As(At, At),
    /// It can't be followed.
    Fault(ScopeFault),
}

/// A scope, or the list of exports or of arguments in an instance.
#[derive(Clone, Copy)]
pub(super) struct Frame {
    /// The scope around it, and the definition in it that this is the scope of.
    pub outer: u32,
    pub opener: u32,
    /// Its first entry: the others follow, up to those of the next frame.
    pub start: u32,
    /// The first of its exports in `names`, as well.
    pub names: u32,
    /// The first frame that isn't in it.
    pub until: u32,
    /// The index of the component or the module that it has the arguments for.
    pub of: u32,
    /// The byte offset of the first exports that can't be read.
    pub unread: usize,
    /// The byte offset from which on nothing is read.
    pub cut: usize,
}

impl Frame {
    /// A scope without definitions of which nothing is read: the outermost if there is no memory.
    pub const EMPTY: Self =
        Self { outer: NONE, opener: NONE, start: 0, names: 0, until: 0, of: 0, unread: 0, cut: 0 };
}

// 1-byte items, scopes in 2 bytes, and members in 3 bytes of lists, at 40 bytes each: what the
// documentation of `Definitions` states.
#[cfg(target_pointer_width = "64")]
const _: () = {
    const ENTRY: usize = size_of::<Entry>() + size_of::<u32>();
    assert!(ENTRY <= 40 && ENTRY + size_of::<Frame>() <= 2 * 40);
    assert!(ENTRY + size_of::<Link>() + size_of::<u32>() <= 3 * 40);
};

impl Entry {
    /// Returns the number of its indices.
    pub fn count(&self) -> u32 {
        match (self.role, self.form) {
            (Role::Several | Role::Known, _) => self.more,
            (Role::Unread | Role::ModuleExport, _) => 0,
            (_, Form::Argument | Form::Export | Form::CoreArgument | Form::CoreExport) => 0,
            _ => self.space.is_some().into(),
        }
    }

    /// Returns the scope that it opens.
    pub fn inner(&self) -> Option<u32> {
        let opens = matches!(
            self.role,
            Role::Component
                | Role::ComponentType
                | Role::InstanceType
                | Role::ModuleType
                | Role::Instantiate
                | Role::List
        );
        opens.then_some(self.more)
    }

    pub fn has_link(&self) -> bool {
        use Role::{Alias, Ascribed, Declared, Import, Linked, ModuleExport};
        matches!(self.role, Import | Declared | Ascribed | Alias | ModuleExport | Linked)
    }

    /// Returns where it is among the entries of its scope that are sorted by their spaces: before
    /// all others what can't be read and makes indices unknown, after them what has no index.
    pub fn rank(&self) -> usize {
        match self.space {
            _ if self.role == Role::Unread => {
                if self.first == 0 {
                    NO_INDEX
                } else {
                    0
                }
            }
            Some(space) if self.count() > 0 => space.number() + 1,
            _ => NO_INDEX,
        }
    }
}

/// The rank of entries without an index.
const NO_INDEX: usize = Space::ALL.len() + 1;

impl<'a> Definitions<'a> {
    pub(super) fn entry(&self, number: u32) -> &Entry {
        &self.entries[number as usize]
    }

    pub(super) fn frame(&self, number: u32) -> &Frame {
        self.frames.get(number as usize).unwrap_or(&Frame::EMPTY)
    }

    /// Returns the number after the last entry of a scope.
    pub(super) fn end_of(&self, scope: u32) -> u32 {
        let next = (scope as usize).checked_add(1).and_then(|next| self.frames.get(next));
        next.map_or(self.entries.len() as u32, |next| next.start)
    }

    pub(super) fn link(&self, number: u32) -> Option<&Link<'a>> {
        let entry = self.entry(number);
        entry.has_link().then(|| &self.links[entry.more as usize])
    }

    /// Returns whether a scope is the list of exports or of arguments of an instance.
    pub(super) fn is_list(&self, scope: u32) -> bool {
        let opener = self.frame(scope).opener;
        opener != NONE && matches!(self.entry(opener).role, Role::Instantiate | Role::List)
    }

    /// Returns the scope that the indices of an entry belong to, and the number of the first entry
    /// that isn't visible.
    pub(super) fn around(&self, number: u32) -> (u32, u32) {
        let scope = self.entry(number).scope;
        if !self.is_list(scope) {
            return (scope, number);
        }
        let &Frame { outer, opener, .. } = self.frame(scope);
        (outer, opener)
    }

    /// Reads what an entry is. Of a type with declarations nothing is read.
    pub(super) fn meaning(&self, number: u32) -> Meaning<'a> {
        let entry = self.entry(number);
        let item = self.opened_type(entry).map(Meaning::Item);
        item.or_else(|| self.read(entry)).unwrap_or(Meaning::Unread {
            section: match entry.form {
                Form::Unread(section) => section,
                _ => None,
            },
            count: entry.more,
            is_known: entry.role == Role::Known,
        })
    }

    /// Returns a type with the declarations that were read of it.
    fn opened_type(&self, entry: &Entry) -> Option<ItemView<'a>> {
        let scope = entry.inner()?;
        let (start, end) = (self.frame(scope).start, self.end_of(scope));
        let of_first = (start < end).then(|| self.entry(start).place);
        let (from, to) = (entry.place, entry.place + entry.len as usize);
        let bytes = self.bytes.get(of_first.unwrap_or(to).max(from)..to)?;
        let is_component = match entry.role {
            Role::ComponentType => true,
            Role::InstanceType => false,
            _ => return None,
        };
        Some(ItemView::Type(declared(is_component, end - start, bytes)))
    }

    fn read(&self, entry: &Entry) -> Option<Meaning<'a>> {
        let ends = entry.place.checked_add(entry.len as usize)?;
        let bytes = self.bytes.get(entry.place..ends)?;
        let (left, depth_left) = (1, DEPTH);
        match entry.form {
            Form::Item(id) => {
                let mut item = SectionItems { id, place: entry.place, ends, left, rest: bytes };
                item.next_or_refusal().ok()?.map(Meaning::Item)
            }
            Form::InInstance => InstanceDecls { depth_left, left, bytes }.next().map(Meaning::from),
            Form::InComponent => {
                ComponentDecls { depth_left, left, bytes }.next().map(Meaning::from)
            }
            Form::InModule => View::view_of(bytes).ok().map(|(decl, _)| Meaning::Module(decl)),
            Form::Argument => View::view_of(bytes).ok().map(|(of, _)| Members::argument(of)),
            Form::Export => View::view_of(bytes).ok().map(|(of, _)| Members::export(of)),
            Form::CoreArgument => {
                View::view_of(bytes).ok().map(|(of, _)| Members::core_argument(of))
            }
            Form::CoreExport => View::view_of(bytes).ok().map(|(of, _)| Members::core_export(of)),
            Form::Unread(_) => None,
        }
    }
}

/// The depth of types that are read.
const DEPTH: u32 = 100;

/// Returns a component type or an instance type with as many declarations, which these bytes begin
/// with.
pub(super) fn declared(is_component: bool, left: u32, bytes: &[u8]) -> TypeView<'_> {
    let depth_left = DEPTH;
    if is_component {
        TypeView::Component(ComponentDecls { depth_left, left, bytes })
    } else {
        TypeView::Instance(InstanceDecls { depth_left, left, bytes })
    }
}

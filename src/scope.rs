//! What the indices of a component mean.
//!
//! Needs the feature `scope`.
//!
//! [`Definitions`] reads a component once, with the components that are nested in it and the types
//! that have index spaces of their own: component types, instance types and module types. Each of
//! these is a [`Scope`], in which an index of a [`Space`] has a [`Definition`]: an item, an import,
//! a declaration, or something that is *the same as* another definition, such as an alias. That one
//! may be in another scope; [`resolve`](Definition::resolve) follows them to the last.
//!
//! ```
//! use wenc::scope::{Definitions, Meaning};
//! use wenc::tree::Space;
//! use wenc::view::{ItemView, TypeView};
//!
//! // the type of an instance that exports a function, an import of such an instance, and an alias
//! // of its function, which is exported
//! let component = b"\0asm\x0d\0\x01\0\
//!     \x07\x0e\x01\x42\x02\x01\x40\0\x01\0\x04\0\x01f\x01\0\
//!     \x0a\x06\x01\0\x01i\x05\0\x06\x06\x01\x01\0\0\x01f\x0b\x07\x01\0\x01g\x01\0\0";
//! let definitions = Definitions::new(component, 100)?;
//! let instances = definitions.instances();
//! let scope = instances.component();
//!
//! // function 1, the export, is the same as function 0, the alias
//! let export = scope.get(Space::Funcs, 1)?;
//! assert!(matches!(export.meaning(), Meaning::Item(ItemView::Export { .. })));
//! let alias = export.target()?.expect("it is the same as another");
//! assert_eq!(alias.index(), Some(0));
//!
//! // it is a function that the type of the instance declares
//! let function = export.resolve()?;
//! let Meaning::Declared { name, .. } = function.meaning() else { panic!("it is declared") };
//! assert_eq!((name.name, function.place()), ("f", 18));
//!
//! // its type is one of that type's own
//! let ty = function.ty()?.expect("it has a type");
//! assert!(matches!(ty.meaning(), Meaning::Item(ItemView::Type(TypeView::Func { .. }))));
//! assert_eq!((ty.place(), ty.index()), (13, Some(0)));
//! # Ok::<(), Box<dyn std::error::Error>>(())
//! ```

mod build;
mod definition;
mod entry;
mod fault;
mod follow;
mod meaning;
mod paths;
mod unread;
mod users;

use crate::tree::Space;
use alloc::vec::Vec;
use core::cell::{OnceCell, RefCell};
use core::fmt;
use core::iter::FusedIterator;

pub use definition::Definition;
use entry::{Entry, Frame, Link, Role};
pub use fault::ScopeFault;
pub use meaning::Meaning;
use paths::{At, Paths};
use users::Users;

/// No definition, or no scope.
const NONE: u32 = u32::MAX;

/// An index that depends on items that can't be read.
const UNKNOWN: u64 = u64::MAX;

/// The definitions of a component, in all of its scopes.
///
/// Needs the feature `scope`.
///
/// On a 64-bit machine they take at most 40 bytes of memory for each byte of the component, and 1
/// MB: 36 for each item and declaration and for each member of the list of an instance, 40 for its
/// scope or list, 60 for its name and what it is the same as, and 72 for each path of instances, of
/// which there are at most 8192 and one for each 20 bytes. What a definition is the same as is
/// found when it is read, so that [`resolve`](Definition::resolve) follows any number of exports
/// and aliases in the time of one. Types that are declared in types, at most 100 deep, are read
/// once for each type around them. Nothing recurses: nested components may be as deep as `limit`
/// says, and an instance in at most 100 others can be followed.
///
/// ```
/// use wenc::scope::Definitions;
/// use wenc::tree::Space;
///
/// // an import of a resource
/// let component = b"\0asm\x0d\0\x01\0\x0a\x06\x01\0\x01r\x03\x01";
/// let definitions = Definitions::new(component, 100)?;
/// std::thread::scope(|threads| {
///     threads.spawn(|| {
///         let instances = definitions.instances();
///         assert_eq!(instances.component().count(Space::Types), Some(1));
///     });
/// });
/// # Ok::<(), wenc::ReadError>(())
/// ```
pub struct Definitions<'a> {
    bytes: &'a [u8],
    /// By their scopes, those of each in their order.
    entries: Vec<Entry>,
    /// The entries of each scope, sorted by their spaces.
    order: Vec<u32>,
    /// In the order in which they begin: a scope before those in it.
    frames: Vec<Frame>,
    /// The exports of each scope, sorted by their names.
    names: Vec<u32>,
    links: Vec<Link<'a>>,
    /// The instances that were followed while it was read.
    paths: Paths,
}

impl<'a> Definitions<'a> {
    /// Returns what looks definitions up. Nothing is allocated before one is reached through an
    /// instance that no other leads to.
    pub fn instances(&self) -> Instances<'_, 'a> {
        Instances { all: self, paths: RefCell::default(), users: OnceCell::new() }
    }

    /// Returns the first entries of a scope that have this rank.
    fn ranked(&self, scope: u32, before: u32, rank: usize) -> &[u32] {
        let (start, end) = (self.frame(scope).start as usize, self.end_of(scope) as usize);
        let all = self.order.get(start..end).unwrap_or_default();
        let rank_of = |number: &u32| (self.entry(*number).rank(), *number);
        let from = all.partition_point(|number| rank_of(number) < (rank, 0));
        let to = all.partition_point(|number| rank_of(number) < (rank, before));
        &all[from..to.max(from)]
    }

    /// Returns the byte offset of what can't be read and makes the indices of a space unknown among
    /// the first entries.
    fn unread(&self, scope: u32, before: u32, space: Space) -> Option<usize> {
        let is_of = |number: &&u32| self.entry(**number).first & 1 << space.number() != 0;
        let unread = self.ranked(scope, before, 0).iter().find(is_of);
        let cut = self.frame(scope).cut;
        let is_cut = cut < usize::MAX && before == NONE;
        unread.map(|number| self.entry(*number).place).or(is_cut.then_some(cut))
    }

    /// Returns the number of indices in a space that the first entries define, if it is known.
    fn count(&self, scope: u32, before: u32, space: Space) -> Option<u64> {
        if self.unread(scope, before, space).is_some() {
            return None;
        }
        let last = self.ranked(scope, before, space.number() + 1).last();
        Some(last.map_or(0, |number| self.entry(*number).end()))
    }

    /// Returns the entry of an index among the first entries, for what is at this byte offset.
    fn find(
        &self,
        (scope, before, place): (u32, u32, usize),
        space: Space,
        index: u32,
    ) -> Result<u32, ScopeFault> {
        let all = self.ranked(scope, before, space.number() + 1);
        let from = all.partition_point(|number| self.entry(*number).first <= index.into());
        if let Some(number) = from.checked_sub(1).map(|at| all[at]) {
            let entry = self.entry(number);
            if u64::from(index) < entry.end() {
                let fault = ScopeFault::Unread { place, space, unread: entry.place };
                return if entry.role == Role::Known { Err(fault) } else { Ok(number) };
            }
        }
        Err(match self.unread(scope, before, space) {
            Some(unread) => ScopeFault::Unread { place, space, unread },
            None => {
                let count = self.count(scope, before, space).unwrap_or_default();
                ScopeFault::OutOfRange { place, space, index, count }
            }
        })
    }
}

impl Entry {
    /// Returns whether this byte offset is one of its own.
    fn contains(&self, offset: usize) -> bool {
        (self.place..self.place + self.len as usize).contains(&offset)
    }

    /// Returns the index after its own.
    fn end(&self) -> u64 {
        self.first.saturating_add(self.count().into())
    }
}

impl fmt::Debug for Definitions<'_> {
    #[inline]
    fn fmt(&self, f: &mut fmt::Formatter<'_>) -> fmt::Result {
        f.debug_struct("Definitions").field("len", &self.entries.len()).finish_non_exhaustive()
    }
}

/// The definitions of a component, with the instances through which they were reached.
///
/// Needs the feature `scope`.
///
/// What is written, [`Definitions`], may be shared by threads, each of which has instances of its
/// own; definitions of different ones aren't equal. Each path of instances that is followed takes
/// at most 72 bytes of memory until these are dropped; there are at most 8192 paths, and one for
/// each 20 bytes of the component.
pub struct Instances<'s, 'a> {
    all: &'s Definitions<'a>,
    /// The paths that aren't among those of `all`: their numbers follow those.
    paths: RefCell<Paths>,
    /// Found when they are asked for.
    users: OnceCell<Users>,
}

impl<'a> Instances<'_, 'a> {
    /// Returns the scope of the outermost component.
    pub fn component(&self) -> Scope<'_, 'a> {
        Scope { all: self, number: 0, before: NONE, place: 0, path: NONE }
    }

    /// Returns the definitions that have an index of this one, as they are written: items,
    /// declarations, and exports and arguments in the lists of instances. Those that have an index
    /// of what is the same as it, such as an alias, aren't among them. They are in their order,
    /// those in an outer scope before those in it.
    ///
    /// All users are found by the first call, which takes at most 8 bytes of memory for each byte
    /// of the component, and each other call takes the time of its own.
    ///
    /// ```
    /// use wenc::scope::Definitions;
    /// use wenc::tree::Space;
    ///
    /// // the type of a function, an import of a function of that type, and an export of this
    /// let component = b"\0asm\x0d\0\x01\0\x07\x05\x01\x40\0\x01\0\
    ///     \x0a\x06\x01\0\x01f\x01\0\x0b\x07\x01\0\x01g\x01\0\0";
    /// let definitions = Definitions::new(component, 100)?;
    /// let instances = definitions.instances();
    /// let function = instances.component().get(Space::Funcs, 0)?;
    /// let users = instances.users(function)?.map(|user| user.name());
    /// assert_eq!(users.collect::<Vec<_>>(), [Some("g")]);
    /// # Ok::<(), Box<dyn std::error::Error>>(())
    /// ```
    ///
    /// # Errors
    ///
    /// [`ScopeFault::NoMemory`].
    pub fn users<'s>(
        &'s self,
        of: Definition<'s, 'a>,
    ) -> Result<impl FusedIterator<Item = Definition<'s, 'a>>, ScopeFault> {
        let users = self.users_of(of)?.iter();
        Ok(users.map(|number| Definition::new(self, At::written(*number))))
    }

    /// Returns the item or the declaration whose bytes contain this byte offset, as it is written:
    /// the innermost if there are several. `None` if there is none, as in the header of a section.
    ///
    /// ```
    /// use wenc::scope::Definitions;
    ///
    /// // a type of instances, which declares the type of a function and exports such a function
    /// let component = b"\0asm\x0d\0\x01\0\x07\x0e\x01\x42\x02\x01\x40\0\x01\0\x04\0\x01f\x01\0";
    /// let definitions = Definitions::new(component, 100)?;
    /// let instances = definitions.instances();
    /// let of_name = instances.at(21).expect("it is in a declaration");
    /// assert_eq!((of_name.name(), of_name.range()), (Some("f"), 18..24));
    /// let count = instances.at(12).expect("it is in the type");
    /// assert_eq!(count.range(), 11..24);
    /// assert_eq!(instances.at(9), None);
    /// # Ok::<(), wenc::ReadError>(())
    /// ```
    pub fn at(&self, offset: usize) -> Option<Definition<'_, 'a>> {
        let (mut scope, mut found) = (0, None);
        loop {
            let (start, end) = (self.all.frame(scope).start as usize, self.all.end_of(scope));
            let entries = self.all.entries.get(start..end as usize)?;
            let after = entries.partition_point(|entry| entry.place <= offset);
            let at = after.checked_sub(1);
            let Some(at) = at.filter(|at| entries[*at].contains(offset)) else {
                return found;
            };
            found = Some(Definition::new(self, At::written((start + at) as u32)));
            match entries[at].inner() {
                Some(inner) => scope = inner,
                None => return found,
            }
        }
    }
}

impl fmt::Debug for Instances<'_, '_> {
    #[inline]
    fn fmt(&self, f: &mut fmt::Formatter<'_>) -> fmt::Result {
        let len = self.all.paths.len() + self.paths.borrow().len();
        f.debug_struct("Instances").field("len", &len).finish_non_exhaustive()
    }
}

/// The index spaces of a component, or of a type that has some of its own, as a whole or as far as
/// they are defined before one of their definitions (component model, explainer, "Index Spaces").
///
/// Needs the feature `scope`.
///
/// ```
/// use wenc::scope::{Definitions, ScopeFault};
/// use wenc::tree::Space;
///
/// // the type of a function, an import of a function of that type, and an export of this
/// let component = b"\0asm\x0d\0\x01\0\x07\x05\x01\x40\0\x01\0\
///     \x0a\x06\x01\0\x01f\x01\0\x0b\x07\x01\0\x01g\x01\0\0";
/// let definitions = Definitions::new(component, 100)?;
/// let instances = definitions.instances();
/// let scope = instances.component();
/// assert_eq!((scope.count(Space::Funcs), scope.count(Space::Types)), (Some(2), Some(1)));
/// let export = scope.export("g", Space::Funcs)?.expect("it is there");
/// assert_eq!(export.resolve()?, scope.get(Space::Funcs, 0)?);
/// // what is before the export
/// assert_eq!(export.scope().count(Space::Funcs), Some(1));
/// let missing = ScopeFault::OutOfRange { place: 26, space: Space::Funcs, index: 1, count: 1 };
/// assert_eq!(export.scope().get(Space::Funcs, 1), Err(missing));
/// # Ok::<(), Box<dyn std::error::Error>>(())
/// ```
#[derive(Clone, Copy)]
#[must_use]
pub struct Scope<'s, 'a> {
    all: &'s Instances<'s, 'a>,
    number: u32,
    /// The number of the first entry that isn't visible.
    before: u32,
    /// The byte offset of the definition that refers to them.
    place: usize,
    /// The instances through which it is reached.
    path: u32,
}

impl<'s, 'a> Scope<'s, 'a> {
    /// Returns the byte offset at which the component begins, or the item or declaration that the
    /// type is.
    pub fn place(self) -> usize {
        let opener = self.all.all.frame(self.number).opener;
        if opener == NONE { 0 } else { self.all.all.entry(opener).place }
    }

    /// Returns the number of indices in a space; `None` if it depends on items that can't be read.
    pub fn count(self, space: Space) -> Option<u64> {
        self.all.all.count(self.number, self.before, space)
    }

    /// Returns the instance that it is the scope of; `None` for a scope as it is written.
    pub fn instance(self) -> Option<Definition<'s, 'a>> {
        let path = (self.path != NONE).then(|| self.all.path(self.path));
        path.map(|path| Definition::new(self.all, path.instance))
    }

    /// Returns the definition of an index.
    ///
    /// # Errors
    ///
    /// [`ScopeFault::OutOfRange`] or [`ScopeFault::Unread`], with the byte offset of the definition
    /// before which this scope is seen, or otherwise of the scope.
    pub fn get(self, space: Space, index: u32) -> Result<Definition<'s, 'a>, ScopeFault> {
        let number = self.all.all.find((self.number, self.before, self.place), space, index)?;
        Ok(self.definition(number))
    }

    fn definition(self, number: u32) -> Definition<'s, 'a> {
        Definition::new(self.all, At { path: self.path, number })
    }

    /// Returns the definition of an index, followed as [`Definition::resolve`] does.
    ///
    /// # Errors
    ///
    /// Those of [`get`](Self::get) and of [`Definition::resolve`].
    pub fn resolve(self, space: Space, index: u32) -> Result<Definition<'s, 'a>, ScopeFault> {
        self.get(space, index)?.resolve()
    }

    /// Returns the scope around this one, as it is before it; `None` for the outermost component.
    pub fn outer(self) -> Option<Self> {
        let &Frame { outer, opener: before, .. } = self.all.all.frame(self.number);
        let path = match self.path {
            NONE => NONE,
            path if self.all.path(path).scope == self.number => self.all.path(path).around,
            path => path,
        };
        let place = self.place();
        (outer != NONE).then_some(Self { number: outer, before, place, path, ..self })
    }

    /// Returns the definitions in their order, with exports, custom sections and others that define
    /// no index.
    pub fn definitions(self) -> impl FusedIterator<Item = Definition<'s, 'a>> {
        let all = self.all.all;
        let (start, end) = (all.frame(self.number).start, all.end_of(self.number));
        (start..end.min(self.before)).map(move |number| self.definition(number))
    }

    /// Returns the first export, declared export or argument with this name in this space; `None`
    /// if there is none. In a valid component there is at most one.
    ///
    /// # Errors
    ///
    /// [`ScopeFault::Unread`] if there is none among the exports that can be read, and others
    /// can't.
    pub fn export(
        self,
        name: &str,
        space: Space,
    ) -> Result<Option<Definition<'s, 'a>>, ScopeFault> {
        let number = self.all.all.named(self.number, name, space);
        if let Some(number) = number.filter(|number| *number < self.before) {
            return Ok(Some(self.definition(number)));
        }
        match self.all.all.frame(self.number).unread {
            usize::MAX => Ok(None),
            unread => Err(ScopeFault::Unread { place: self.place, space, unread }),
        }
    }
}

impl fmt::Debug for Scope<'_, '_> {
    #[inline]
    fn fmt(&self, f: &mut fmt::Formatter<'_>) -> fmt::Result {
        f.debug_struct("Scope").field("place", &self.place()).finish_non_exhaustive()
    }
}

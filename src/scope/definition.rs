//! One definition.

use super::entry::{Entry, Role};
use super::paths::At;
use super::{Instances, Meaning, NONE, Scope, ScopeFault};
use crate::tree::{self, Space, UsedIndex};
use core::cmp::Ordering;
use core::fmt;
use core::hash::{Hash, Hasher};
use core::ops::Range;

/// An item or a declaration, or an export or an argument in the list of an instance, with the
/// instance that it is reached through.
///
/// Needs the feature `scope`.
///
/// ```
/// use wenc::scope::Definitions;
/// use wenc::tree::Space;
///
/// // a type of instances, which declares a resource, imports `a` and `b` of such instances, and an
/// // alias of the resource of each
/// let component = b"\0asm\x0d\0\x01\0\x07\x09\x01\x42\x01\x04\0\x01r\x03\x01\
///     \x0a\x0b\x02\0\x01a\x05\0\0\x01b\x05\0\x06\x0b\x02\x03\0\0\x01r\x03\0\x01\x01r";
/// let definitions = Definitions::new(component, 100)?;
/// let instances = definitions.instances();
/// let resource = |index| instances.component().resolve(Space::Types, index);
///
/// // they are declared once, but they are two
/// let (of_a, of_b) = (resource(1)?, resource(2)?);
/// assert_eq!((of_a.name(), of_a.range()), (Some("r"), of_b.range()));
/// assert_ne!(of_a, of_b);
/// assert_eq!(of_b.instance().and_then(|of| of.name()), Some("b"));
/// assert_eq!(of_b.origin()?, of_b.instance());
/// # Ok::<(), Box<dyn std::error::Error>>(())
/// ```
#[derive(Clone, Copy)]
#[must_use]
pub struct Definition<'s, 'a> {
    all: &'s Instances<'s, 'a>,
    at: At,
}

impl<'s, 'a> Definition<'s, 'a> {
    pub(super) fn new(all: &'s Instances<'s, 'a>, at: At) -> Self {
        Self { all, at }
    }

    pub(super) fn number(self) -> u32 {
        self.at.number
    }

    fn entry(self) -> &'s Entry {
        self.all.all.entry(self.at.number)
    }

    /// Reads the item, the declaration or the member of a list that it is, in the time of its
    /// length, without its declarations if it is a component type or an instance type.
    pub fn meaning(self) -> Meaning<'a> {
        self.all.all.meaning(self.at.number)
    }

    /// Returns its byte offset, from the start of the outermost component.
    pub fn place(self) -> usize {
        self.entry().place
    }

    /// Returns its byte offsets in the outermost component.
    pub fn range(self) -> Range<usize> {
        let &Entry { place, len, .. } = self.entry();
        place..place + len as usize
    }

    /// Returns the index space of its kind; `None` for a custom section.
    pub fn space(self) -> Option<Space> {
        self.entry().space
    }

    /// Returns its index, or the first of several; `None` if it defines none, or if the index
    /// depends on items that can't be read. A recursion group has one for each of its types, a
    /// start function one for each of its results.
    pub fn index(self) -> Option<u32> {
        let entry = self.entry();
        u32::try_from(entry.first).ok().filter(|_| entry.count() > 0)
    }

    /// Returns the number of its indices.
    pub fn count(self) -> u32 {
        self.entry().count()
    }

    /// Returns the scope that its own indices belong to, as far as it is defined before this
    /// definition. It doesn't have the types of the same recursion group, which may refer to each
    /// other.
    pub fn scope(self) -> Scope<'s, 'a> {
        let ((number, before), place) = (self.all.all.around(self.at.number), self.place());
        Scope { all: self.all, number, before, place, path: self.at.path }
    }

    /// Returns the scope that a component, a component type, an instance type or a module type has,
    /// as it is written; of an instance the list of its exports or of its arguments, as
    /// definitions.
    pub fn inner(self) -> Option<Scope<'s, 'a>> {
        let (number, place) = (self.entry().inner()?, self.place());
        Some(Scope { all: self.all, number, before: NONE, place, path: self.at.path })
    }

    /// Returns the name of an import or an export, also of a declared one, or of an argument.
    pub fn name(self) -> Option<&'a str> {
        self.all.all.link(self.at.number)?.name
    }

    /// Calls a function with each index that it has itself, in their order: for a type with index
    /// spaces of its own there is none, since its declarations have theirs, and for an instance the
    /// component or the core module that is instantiated, since its arguments or exports have
    /// theirs.
    pub fn each_index(self, mut visit: impl FnMut(UsedIndex)) {
        self.meaning().each_index(&mut visit);
    }

    /// Returns the definition of an index that it has, which [`each_index`](Self::each_index)
    /// visits.
    ///
    /// # Errors
    ///
    /// Those of [`Scope::get`]; [`ScopeFault::OutOfRange`] for the index of a type with spaces of
    /// its own ([`Scope::Type`](crate::tree::Scope::Type)), in which its declarations have theirs.
    pub fn used(self, used: UsedIndex) -> Result<Self, ScopeFault> {
        let UsedIndex { space, scope, index, .. } = used;
        let place = self.place();
        let missing = ScopeFault::OutOfRange { place, space, index, count: 0 };
        let tree::Scope::Component(out) = scope else { return Err(missing) };
        // types of a group may refer to one another
        let is_group = out == 0 && space == Space::CoreTypes && self.space() == Some(space);
        let own = self.index().map_or(0, |first| index.wrapping_sub(first));
        if is_group && own < self.count() && self.index().is_some() {
            return Ok(self);
        }
        let mut scope = self.scope();
        for _ in 0..out {
            scope = scope.outer().ok_or(missing)?;
        }
        scope.get(space, index)
    }

    /// Returns the innermost instance through which it is reached; `None` if it is as it is
    /// written. What an instance exports by its type is reached through it, too.
    pub fn instance(self) -> Option<Self> {
        let path = (self.at.path != NONE).then(|| self.all.path(self.at.path));
        path.map(|path| Self { at: path.instance, ..self })
    }

    /// Returns the import of the outermost component that it comes from, after resolving it: what
    /// is imported, or exported by it at any depth. `None` if it is defined in the component. The
    /// names of the exports on the way are those of the resolved definition and, each by
    /// [`instance`](Self::instance) of the one before, of its instances, up to the import.
    ///
    /// # Errors
    ///
    /// Those of [`resolve`](Self::resolve).
    pub fn origin(self) -> Result<Option<Self>, ScopeFault> {
        let head = Self { at: At::written(self.all.head(self.resolve()?.at)), ..self };
        let &Entry { role, scope, .. } = head.entry();
        Ok((role == Role::Import && scope == 0).then_some(head))
    }

    /// Returns the definition that this one is the same as: the exported or aliased item, the
    /// argument, or for a type with the bound `Eq` that type. `None` if there is none.
    ///
    /// There is none for an alias of an export of a module's instance, as the module's bytes aren't
    /// read.
    ///
    /// # Errors
    ///
    /// Why there is no such definition.
    pub fn target(self) -> Result<Option<Self>, ScopeFault> {
        if let Some(fault) = self.all.all.fault_of(self.at.number) {
            return Err(fault);
        }
        let of = |at| Some(Self { at, ..self });
        if self.at.path == NONE {
            return Ok(self.all.all.target_of(self.at.number).and_then(of));
        }
        self.all.target_through(self.at).map(|at| at.and_then(of))
    }

    /// Returns the last of the definitions that this one is the same as, or itself if there is
    /// none.
    ///
    /// Imports aren't followed, except of types with the bound `Eq`, and those of a component that
    /// was instantiated on the way: they are the [arguments](Meaning::Argument). An export with an
    /// ascribed type isn't followed either: it is a definition of its own.
    ///
    /// # Errors
    ///
    /// Why one of them can't be followed.
    pub fn resolve(self) -> Result<Self, ScopeFault> {
        Ok(Self { at: self.all.value(self.at, self.place())?, ..self })
    }

    /// Returns the type of a function, an instance, a component or a core module, resolved: that of
    /// an import or a declared export, the one that is ascribed to an export, or a lifted
    /// function's, of this definition as it is resolved. `None` if there is none.
    ///
    /// # Errors
    ///
    /// Why this definition or its type can't be followed.
    pub fn ty(self) -> Result<Option<Self>, ScopeFault> {
        let of = self.resolve()?;
        let ty = of.all.all.type_of(of.at.number);
        let Some((space, index)) = ty.or_else(|| of.meaning().type_index()) else {
            return Ok(None);
        };
        of.scope().resolve(space, index).map(Some)
    }

    /// Returns the scope whose exports an instance or a component has, after resolving it: that of
    /// the component that was instantiated, or of its type. `None` for what has no exports, and for
    /// core modules and their instances, whose bytes aren't read.
    ///
    /// # Errors
    ///
    /// Why this definition, its component or its type can't be followed.
    pub fn exports(self) -> Result<Option<Scope<'s, 'a>>, ScopeFault> {
        let last = self.resolve()?;
        let (exports, place) = (self.all.exports_of(last.at, last.place())?, last.place());
        let scope = |(number, path)| Scope { all: self.all, number, before: NONE, place, path };
        Ok(exports.map(scope))
    }
}

impl fmt::Debug for Definition<'_, '_> {
    #[inline]
    fn fmt(&self, f: &mut fmt::Formatter<'_>) -> fmt::Result {
        let mut shown = f.debug_struct("Definition");
        shown.field("place", &self.place()).field("space", &self.space());
        shown.field("index", &self.index()).finish_non_exhaustive()
    }
}

/// What an order and a hash are of: which `Instances`, which of them, and which definition.
type Key = (*const (), At);

impl Definition<'_, '_> {
    fn key(&self) -> Key {
        (core::ptr::from_ref(self.all).cast(), self.at)
    }
}

impl PartialEq for Definition<'_, '_> {
    /// Whether both are the same definition of the same [`Instances`], reached through the same
    /// ones: two [resolved](Self::resolve) resources are the same exactly if this holds.
    fn eq(&self, other: &Self) -> bool {
        self.key() == other.key()
    }
}

impl Eq for Definition<'_, '_> {}

impl PartialOrd for Definition<'_, '_> {
    fn partial_cmp(&self, other: &Self) -> Option<Ordering> {
        Some(self.cmp(other))
    }
}

impl Ord for Definition<'_, '_> {
    fn cmp(&self, other: &Self) -> Ordering {
        self.key().cmp(&other.key())
    }
}

impl Hash for Definition<'_, '_> {
    fn hash<H: Hasher>(&self, state: &mut H) {
        self.key().hash(state);
    }
}

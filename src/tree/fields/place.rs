//! Where a value is, which determines what an index is of, and whether there is such an index.

use super::shape::Tags;
use super::{Scope, Space};
use crate::ComponentSectionId;
use crate::tree::Node;
use crate::view::ItemView;

/// The number of indices that each index space of a component has before one of its items
/// (component model, explainer, "Index Spaces"). A recursion group of core types has one for each of
/// its types.
///
/// Needs the feature `walk`.
///
/// ```
/// use wenc::Sections;
/// use wenc::tree::{IndexCounts, Space};
///
/// // the type of a function, and a function of that type
/// let component = b"\0asm\x0d\0\x01\0\x07\x05\x01\x40\0\x01\0\x0a\x06\x01\0\x01f\x01\0";
/// let mut counts = IndexCounts::default();
/// for item in Sections::new(component)?.items() {
///     counts.add(&item?.view);
/// }
/// assert_eq!((counts.of(Space::Types), counts.of(Space::Funcs)), (Some(1), Some(1)));
/// # Ok::<(), wenc::ReadError>(())
/// ```
#[derive(Clone, Copy, Debug, PartialEq, Eq, Hash)]
pub struct IndexCounts([u64; Space::ALL.len()]);

/// A number of indices that isn't known.
const UNKNOWN: u64 = u64::MAX;

impl Default for IndexCounts {
    #[inline]
    fn default() -> Self {
        Self::NONE
    }
}

impl IndexCounts {
    /// No indices.
    pub(crate) const NONE: Self = Self([0; Space::ALL.len()]);

    /// Returns the number of indices in a space; `None` after what can't be read and may define some
    /// in it.
    pub fn of(&self, space: Space) -> Option<u64> {
        Some(self.0[space.number()]).filter(|count| *count != UNKNOWN)
    }

    /// Adds the [indices that an item defines](ItemView::defined_indices).
    pub fn add(&mut self, item: &ItemView<'_>) {
        self.define(item.defined_indices());
    }

    /// Adds an item that can't be read: then no index is out of range.
    pub fn add_unknown(&mut self) {
        self.0 = [UNKNOWN; Space::ALL.len()];
    }

    /// Adds items of a section that can't be read: then no index is out of range in the spaces in
    /// which items of such a section define indices.
    pub fn add_unread(&mut self, section: ComponentSectionId) {
        section.spaces().iter().for_each(|space| self.0[space.number()] = UNKNOWN);
    }

    /// Adds what can't be read: items of a section with this id, or what may be any.
    pub(crate) fn pass(&mut self, section: Option<ComponentSectionId>) {
        match section {
            Some(section) => self.add_unread(section),
            None => self.add_unknown(),
        }
    }

    /// Adds this many indices in a space, which [`defined_indices`](ItemView::defined_indices) of
    /// an item returns.
    pub fn define(&mut self, defined: Option<(Space, u32)>) {
        if let Some((space, count)) = defined {
            let all = &mut self.0[space.number()];
            *all = all.saturating_add(count.into());
        }
    }
}

/// The components around an item, and the types around a declaration, each with its
/// [`IndexCounts`].
///
/// Needs the feature `walk`.
#[derive(Clone, Copy, Debug)]
pub struct Scopes<'s>(Around<'s>);

#[derive(Clone, Copy, Debug)]
enum Around<'s> {
    /// The components, the outermost first.
    Components(&'s [IndexCounts]),
    /// The innermost type, and what is around it.
    Type(IndexCounts, &'s Scopes<'s>),
}

impl<'s> Scopes<'s> {
    /// Returns the components around an item, by the numbers of indices that they have before it.
    /// The outermost is first.
    pub fn new(components: &'s [IndexCounts]) -> Self {
        Self(Around::Components(components))
    }

    /// Returns these scopes with one more inside: a type that has this many indices of each space.
    pub(in crate::tree) fn inner(&'s self, counts: IndexCounts) -> Self {
        Self(Around::Type(counts, self))
    }

    /// Returns the number of indices in a space of the scope that is `count` further out, if it is
    /// known: 0 if there is no such scope.
    fn count(&self, mut count: u32, space: Space) -> Option<u64> {
        let mut innermost = self;
        loop {
            match &innermost.0 {
                Around::Type(counts, _) if count == 0 => return counts.of(space),
                Around::Type(_, around) => {
                    count -= 1;
                    innermost = around;
                }
                Around::Components(all) => {
                    let around =
                        usize::try_from(count).ok().and_then(|out| all.len().checked_sub(out));
                    let component = around.and_then(|around| all[..around].last());
                    return component.map_or(Some(0), |counts| counts.of(space));
                }
            }
        }
    }
}

/// Where a value is.
#[derive(Clone, Copy, Default)]
pub(in crate::tree) struct Place<'s> {
    /// The number of enclosing types with index spaces of their own.
    depth: u32,
    /// The space of the value and how far out its scope is, if it is an index.
    index_of: Option<(Space, u32)>,
    /// Whether the value is encoded after the other fields.
    pub is_last: bool,
    /// Whether the value is the declarations of a type.
    is_scope: bool,
    /// The number of core types that the group around the value defines.
    group: u32,
    /// The bytes before the value, if it is an option.
    pub tags: Tags,
    /// The scopes around the value, if they are known.
    scopes: Option<&'s Scopes<'s>>,
}

impl<'s> Place<'s> {
    /// Returns the place of an item in these scopes.
    pub fn of_item(scopes: &'s Scopes<'s>) -> Self {
        Self { scopes: Some(scopes), ..Self::default() }
    }

    /// Returns the place of the declarations of a type.
    pub fn inner(self) -> Self {
        Self { depth: self.depth + 1, is_scope: true, ..self }
    }

    /// Returns the place of the elements of a list, and the scopes around it if they are the
    /// declarations of a type.
    pub fn elements(self) -> (Self, Option<&'s Scopes<'s>>) {
        (Self { is_scope: false, ..self }, self.scopes.filter(|_| self.is_scope))
    }

    /// Returns the place in these scopes.
    pub fn in_scopes<'n>(self, scopes: &'n Scopes<'n>) -> Place<'n>
    where
        's: 'n,
    {
        Place { scopes: Some(scopes), ..self }
    }

    /// Returns the place of a group of core types that defines these indices.
    pub fn within(self, defined: Option<(Space, u32)>) -> Self {
        Self { group: defined.map_or(0, |(_, count)| count), ..self }
    }

    /// Returns the place of an index in a space of the scope that is `count` further out.
    pub fn outer(self, count: u32, space: Space) -> Self {
        Self { index_of: Some((space, count)), ..self }
    }

    /// Returns the place of an option with these bytes before it.
    pub fn tagged(self, tags: Tags) -> Self {
        Self { tags, ..self }
    }

    /// Returns the place of a field that is encoded after the others.
    pub fn last(self) -> Self {
        Self { is_last: true, ..self }
    }

    /// Returns the space and the scope of the value, if it is an index.
    pub fn index_of(self) -> Option<(Space, Scope)> {
        let (space, count) = self.index_of?;
        let scope = match count.checked_sub(self.depth) {
            Some(out) => Scope::Component(out),
            None => Scope::Type(self.depth - count),
        };
        Some((space, scope))
    }

    /// Returns the node of a number, which may be an index.
    pub fn number<'n>(self, index: u32) -> Node<'n> {
        let Some((space, scope)) = self.index_of() else { return Node::Number(index.into()) };
        match self.count() {
            Some(count) if u64::from(index) >= count => {
                Node::OutOfRange { space, scope, index, count }
            }
            _ => Node::Index { space, scope, index },
        }
    }

    /// Returns the number of indices in the space of the value, if they are known.
    fn count(self) -> Option<u64> {
        let ((space, count), scopes) = (self.index_of?, self.scopes?);
        let group = if count == 0 && space == Space::CoreTypes { self.group } else { 0 };
        Some(scopes.count(count, space)?.saturating_add(group.into()))
    }
}

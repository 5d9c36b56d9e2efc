//! A walk that counts indices.

use super::{Item, Step, Unread, Walk};
use crate::shim::vec::VecUsing;
use crate::tree::{IndexCounts, Scopes, Space};
use crate::{ComponentSectionId, ReadError};
use alloc::vec::Vec;
use core::iter::FusedIterator;

/// A [`Walk`] that counts the indices that the components define.
///
/// Needs the feature `walk`.
///
/// After what can't be read, the number of indices isn't known in the spaces in which it may define
/// some: those of items of its section, also where bytes are behind the last item; all of the
/// component, if it has no known section; and all of the components around it, too, if a section
/// exceeds its component, since then a size may be wrong, and what follows may be a part of it.
///
/// It takes 104 bytes of memory for each open component, more than a walk.
///
/// ```
/// use wenc::tree::Space;
/// use wenc::{ReadError, Step, Walk};
///
/// // the type of a function, and an import of a function of that type
/// let component = b"\0asm\x0d\0\x01\0\x07\x05\x01\x40\0\x01\0\x0a\x06\x01\0\x01f\x01\0";
/// let (mut walk, mut counts) = (Walk::new(component, 100)?.counted()?, Vec::new());
/// while let Some(step) = walk.next() {
///     if let Step::Item(_) = step {
///         counts.push([Space::Types, Space::Funcs].map(|space| walk.counts().of(space)));
///     }
/// }
/// assert_eq!(counts, [[Some(0), Some(0)], [Some(1), Some(0)]]);
/// # Ok::<(), ReadError>(())
/// ```
#[derive(Clone, Debug)]
#[must_use = "nothing is read before it is iterated over"]
pub struct CountedWalk<'a> {
    walk: Walk<'a>,
    /// What the components define before the last step, the outermost first: one more after the
    /// last step entered one, or left one.
    counts: Vec<IndexCounts>,
    last: Last,
}

/// What the step that was returned last does.
#[derive(Clone, Copy, Debug)]
enum Last {
    /// It defines indices, or none.
    Define(Option<(Space, u32)>),
    /// It defines the component that it leaves.
    Leave,
    /// It passes over items of a section with this id, or over what may be any, also in the
    /// components around if their sizes may be wrong.
    Pass(Option<ComponentSectionId>, bool),
}

impl<'a> Walk<'a> {
    /// Returns this walk, which is at its beginning, with counts of indices. Those of components
    /// around the next step aren't known if it isn't.
    ///
    /// # Errors
    ///
    /// Fails with [`NoMemory`](crate::Cause::NoMemory) if an allocation fails.
    pub fn counted(self) -> Result<CountedWalk<'a>, ReadError> {
        let mut counts = Vec::new();
        for _ in 0..=self.depth() {
            counts.push_using(IndexCounts::default()).map_err(|_| ReadError::memory())?;
        }
        Ok(CountedWalk { walk: self, counts, last: Last::Define(None) })
    }
}

impl<'a> CountedWalk<'a> {
    /// Returns what [`Walk::depth`] returns.
    pub fn depth(&self) -> usize {
        self.walk.depth()
    }

    /// Returns how many indices the component at this [`depth`](Self::depth) defines before the
    /// last step; at the end, those of the outermost component.
    pub fn counts(&self) -> &IndexCounts {
        static NONE: IndexCounts = IndexCounts::NONE;
        self.counts.get(self.depth()).unwrap_or(&NONE)
    }

    /// Returns the index spaces of the open components, as they are before the last step: those of
    /// the item that it is, in which [`node_in`](crate::view::ItemView::node_in) finds what is out
    /// of range.
    pub fn scopes(&self) -> Scopes<'_> {
        Scopes::new(self.counts.get(..=self.depth()).unwrap_or_default())
    }

    /// Does what [`Walk::go_to`] does.
    pub fn go_to(&mut self, offset: usize) {
        self.walk.go_to(offset);
    }

    /// Ends the walk. Returns the error.
    pub(super) fn end(&mut self, error: ReadError) -> ReadError {
        self.last = Last::Define(None);
        self.walk.end(error)
    }

    /// Counts what the last step defines.
    #[inline]
    fn settle(&mut self) {
        let depth = self.depth();
        let defined = match self.last {
            Last::Define(defined) => defined,
            Last::Leave => {
                // 32 bits: the depth is below the number of bytes.
                self.counts.truncate(depth + 1);
                Some((Space::Components, 1))
            }
            Last::Pass(section, is_cut) => {
                let from = if is_cut { 0 } else { depth };
                self.counts.iter_mut().skip(from).for_each(|counts| counts.pass(section));
                None
            }
        };
        if let (Some(_), Some(counts)) = (defined, self.counts.get_mut(depth)) {
            counts.define(defined);
        }
        self.last = Last::Define(None);
    }
}

impl<'a> Iterator for CountedWalk<'a> {
    type Item = Step<'a>;

    fn next(&mut self) -> Option<Step<'a>> {
        self.settle();
        let step = self.walk.next();
        match &step {
            Some(Step::Item(Item { view, .. })) => self.last = Last::Define(view.defined_indices()),
            Some(Step::Enter(item)) => {
                if self.counts.push_using(IndexCounts::default()).is_err() {
                    let (error, range) = (self.end(ReadError::memory()), item.range.clone());
                    return Some(Step::Unread(Unread { error, range, count: 0 }));
                }
            }
            Some(Step::Leave) => self.last = Last::Leave,
            Some(Step::Unread(Unread { error, .. })) => {
                self.last = Last::Pass(error.section_id(), error.is_cut());
            }
            Some(Step::Section(_)) | None => {}
        }
        step
    }

    #[inline]
    fn size_hint(&self) -> (usize, Option<usize>) {
        (0, None)
    }
}

impl FusedIterator for CountedWalk<'_> {}

//! Items that can't be read, and the indices after them.

use super::build::Reader;
use super::{Meaning, NONE, UNKNOWN};
use crate::tree::{Scope, Space};
use crate::view::ItemView;
use crate::{ComponentSectionId, Part, ReadError};

impl Reader<'_> {
    /// Adds what isn't read from this byte offset on, with this number of items; their number isn't
    /// known if they are behind the last item by the section's count.
    pub fn unread(&mut self, error: &ReadError, place: usize, count: u32) -> Result<(), ReadError> {
        let id = error.id.filter(|_| error.part != Part::Depth);
        let (Some(Ok(section)), Some(open)) =
            (id.map(ComponentSectionId::try_from), self.open.last_mut())
        else {
            return self.unknown(place);
        };
        // how many canonical functions there are isn't known without their count
        let is_canonical = section == ComponentSectionId::CanonicalFunction && count > 0;
        let frame = &mut self.all.frames[open.scope as usize];
        if is_canonical {
            open.assumed.get_or_insert(open.counts);
        } else if section == ComponentSectionId::Export {
            frame.unread = frame.unread.min(place);
        }
        for &space in section.spaces() {
            let count = if is_canonical && space == Space::CoreFuncs { count } else { 0 };
            let section = Some(section);
            let meaning = Meaning::Unread { section, space, count, is_known: false };
            self.define(place, meaning, NONE)?;
        }
        if let Some(open) = self.open.last_mut() {
            open.counts.add_unread(section);
            open.assumed.iter_mut().filter(|_| !is_canonical).for_each(|of| of.add_unread(section));
        }
        Ok(())
    }

    /// Adds what may be items of any kind at this byte offset.
    fn unknown(&mut self, place: usize) -> Result<(), ReadError> {
        let Some(open) = self.open.last_mut() else { return Ok(()) };
        let frame = &mut self.all.frames[open.scope as usize];
        frame.unread = frame.unread.min(place);
        for space in Space::ALL {
            let meaning = Meaning::Unread { section: None, space, count: 0, is_known: false };
            self.define(place, meaning, NONE)?;
        }
        if let Some(open) = self.open.last_mut() {
            open.counts.add_unknown();
            open.assumed = None;
        }
        Ok(())
    }

    /// Ends all scopes at this byte offset, from which on nothing is read, for lack of memory or of a
    /// header.
    pub fn cut(&mut self, place: usize) {
        for open in &self.open {
            let frame = &mut self.all.frames[open.scope as usize];
            frame.unread = frame.unread.min(place);
            frame.cut = place;
        }
    }

    /// Finds out whether all canonical functions that can't be read are core functions: if an item
    /// refers to the last one that there is then.
    pub fn settle(&mut self, item: &ItemView<'_>) {
        let Some(open) = self.open.last_mut() else { return };
        let Some(assumed) = open.assumed else { return };
        let (end, mut is_last) = (assumed.of(Space::CoreFuncs).unwrap_or(UNKNOWN), false);
        item.node().each_index(|of| {
            let is_own = (of.space, of.scope) == (Space::CoreFuncs, Scope::Component(0));
            is_last |= is_own && u64::from(of.index) + 1 == end;
        });
        if is_last {
            (open.counts, open.assumed) = (assumed, None);
            let newest = self.all.frames[open.scope as usize].newest;
            for space in [Space::CoreFuncs, Space::Funcs] {
                self.number(newest[space.number()], assumed.of(space).unwrap_or(UNKNOWN));
            }
        }
    }

    /// Numbers the entries of a space up to this one, whose indices weren't known and end here.
    fn number(&mut self, mut number: u32, mut end: u64) {
        while let Some(entry) = self.all.entries.get_mut(number as usize).filter(|_| end < UNKNOWN)
        {
            if let Meaning::Unread { is_known, .. } = &mut entry.meaning {
                *is_known = true;
            }
            if entry.first < UNKNOWN {
                break;
            }
            end = end.saturating_sub(entry.count.into());
            (entry.first, number) = (end, entry.previous);
        }
    }
}

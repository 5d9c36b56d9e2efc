//! Walks through a file, part by part.

use super::fault::{Fault, Kind};
use super::phrase;
use super::report::{Content, Contents, Label, Part, Report, Rest, Source};
use super::sizes::{WrongSize, wrong_size};
use super::words;
use std::io;
use std::ops::Range;
use wenc::tree::{IndexCounts, Space};
use wenc::view::ItemView;
use wenc::{
    CoreSections, CountedWalk as Steps, DebugNames, Item, Part as Unreadable, Sections, Step,
    Unread,
};

/// The maximum number of components around one, as of types.
pub const DEPTH: usize = 99;

/// A component whose sections are reported.
struct Level {
    end: usize,
    /// A section with a wrong size, from the first section on.
    wrong_size: Option<Option<WrongSize>>,
    has_open_section: bool,
    /// Whether the section has a wrong size, so that other faults in it are ignored.
    is_wrong: bool,
}

/// A walk through a file.
pub struct Walk<'f, 'r> {
    /// The bytes of the file.
    pub(super) bytes: &'f [u8],
    pub(super) report: &'r mut dyn Report,
    /// The function to call with each fault.
    on_fault: &'r mut dyn FnMut(Fault),
    /// The debug names of the components around the next part, the outermost first.
    names: Vec<DebugNames>,
    levels: Vec<Level>,
    /// Whether indices are checked, and how many were found to be out of range.
    check: Option<usize>,
}

/// Returns the label of the next indices of a space, which have these debug names.
pub(super) fn label<'a>(
    counts: &IndexCounts,
    space: Space,
    count: u32,
    names: Option<&'a DebugNames>,
) -> Label<'a> {
    let from = counts.of(space);
    let index = from.and_then(|from| u32::try_from(from).ok()).filter(|_| count > 0);
    let name = names.zip(index).and_then(|(names, index)| names.get(space, index));
    Label { space, from, count, name }
}

/// Reports the component or the core module with these bytes, and calls `on_fault` with its faults,
/// with those of the check of indices if `has_check`. Before each, the report is written up to it.
///
/// # Errors
///
/// Fails if an allocation or a write fails. What comes before is reported.
pub fn walk(
    bytes: &[u8],
    has_check: bool,
    report: &mut dyn Report,
    on_fault: &mut dyn FnMut(Fault),
) -> io::Result<()> {
    let check = has_check.then_some(0);
    let mut walk = Walk { bytes, report, on_fault, names: Vec::new(), levels: Vec::new(), check };
    if let Ok(sections) = CoreSections::new(bytes) {
        walk.report.open(&Part::File(0..bytes.len(), Content::Module))?;
        walk.core_sections(0..bytes.len(), sections)?;
        return walk.report.close();
    }
    match wenc::Walk::new(bytes, DEPTH).and_then(wenc::Walk::counted) {
        Ok(steps) => walk.component(steps),
        Err(error) if error.is_memory() => Err(io::ErrorKind::OutOfMemory.into()),
        Err(error) => walk.fault(error.into()),
    }
}

/// Returns the debug names of a component.
fn names_of(component: &[u8]) -> io::Result<DebugNames> {
    DebugNames::try_of(component).map_err(|_| io::ErrorKind::OutOfMemory.into())
}

impl<'f> Walk<'f, '_> {
    /// Calls `on_fault` after writing the report so far, unless the fault is in a section with a
    /// wrong size.
    fn fault(&mut self, fault: Fault) -> io::Result<()> {
        if !self.levels.iter().any(|level| level.is_wrong) {
            self.report.flush()?;
            (self.on_fault)(fault);
        }
        Ok(())
    }

    /// Reports that nothing more is read of the innermost open part, which ends at this byte
    /// offset. `are_reported` is that of [`Rest`].
    pub(super) fn unread(
        &mut self,
        fault: Fault,
        end: usize,
        are_reported: bool,
    ) -> io::Result<()> {
        if let Some(place) = fault.place {
            let rest = Rest { bytes: self.bytes.get(place..end).unwrap_or(&[]), are_reported };
            self.report.unread(place, fault.words(), rest)?;
        }
        self.fault(fault)
    }

    /// Reports the file, a component.
    fn component(&mut self, mut steps: Steps<'f>) -> io::Result<()> {
        let names = names_of(self.bytes)?;
        let range = 0..self.bytes.len();
        self.report.open(&Part::File(range.clone(), Content::Component(names.component())))?;
        self.begin(names, range.end)?;
        while let Some(step) = steps.next() {
            match step {
                Step::Section(section) => {
                    self.begin_section(section.range().start, &mut steps)?;
                    self.open_section(section.range(), section.id(), Some(section.count()))?;
                }
                Step::Item(item) => self.item(&item, &steps)?,
                Step::Enter(item) => self.nested(&item, &steps)?,
                Step::Leave => self.end()?,
                Step::Unread(unread) => self.pass(unread, &mut steps)?,
                _ => {}
            }
        }
        self.end()?;
        match self.check {
            None | Some(0) => Ok(()),
            Some(found) => self.fault(Kind::OutOfRange(found).into()),
        }
    }

    /// Begins a component that ends at this byte offset and has these debug names.
    fn begin(&mut self, names: DebugNames, end: usize) -> io::Result<()> {
        self.names.try_reserve(1)?;
        self.names.push(names);
        let level = Level { end, wrong_size: None, has_open_section: false, is_wrong: false };
        self.levels.try_reserve(1)?;
        self.levels.push(level);
        Ok(())
    }

    /// Ends the innermost component.
    fn end(&mut self) -> io::Result<()> {
        self.end_section()?;
        self.levels.pop();
        self.names.pop();
        self.report.close()
    }

    /// Ends the section before the next one, at this byte offset, and goes on after a likelier end
    /// if that has a wrong size.
    fn begin_section(&mut self, place: usize, steps: &mut Steps) -> io::Result<()> {
        self.end_section()?;
        let Some(level) = self.levels.last_mut() else { return Ok(()) };
        let wrong = match level.wrong_size {
            Some(wrong) => wrong,
            None => *level.wrong_size.insert(wrong_size(&self.bytes[..level.end], place)?),
        };
        if let Some(wrong) = wrong.filter(|wrong| wrong.place == place) {
            level.wrong_size = Some(None);
            steps.go_to(wrong.end);
            self.fault(Fault::new(Kind::Size(wrong), place))?;
            self.levels.iter_mut().last().into_iter().for_each(|level| level.is_wrong = true);
        }
        Ok(())
    }

    fn open_section(&mut self, range: Range<usize>, id: u8, count: Option<u32>) -> io::Result<()> {
        self.levels.iter_mut().last().into_iter().for_each(|level| level.has_open_section = true);
        let raw =
            Sections::at(self.bytes, range.start).and_then(|mut sections| sections.next_raw());
        let content = raw.map_or(range.end, |(range, raw)| range.end - raw.data.len());
        let (word, core) = (words::section(id), None);
        self.report.open(&Part::Section { range, id, word, content, count, core })
    }

    fn end_section(&mut self) -> io::Result<()> {
        let Some(level) = self.levels.last_mut() else { return Ok(()) };
        let is_open = level.has_open_section;
        (level.has_open_section, level.is_wrong) = (false, false);
        if is_open { self.report.close() } else { Ok(()) }
    }

    /// Reports what the walk passes over.
    fn pass(&mut self, Unread { error, range, .. }: Unread, steps: &mut Steps) -> io::Result<()> {
        if error.is_memory() {
            return Err(io::ErrorKind::OutOfMemory.into());
        }
        // a section of which nothing is read
        if range.start == error.section
            && !matches!(error.part, Unreadable::Header | Unreadable::Depth)
        {
            match error.id {
                None => self.end_section()?,
                Some(id) => {
                    self.begin_section(range.start, steps)?;
                    self.open_section(range.clone(), id, None)?;
                }
            }
        }
        self.unread(error.into(), range.end, error.part == Unreadable::Depth)
    }

    /// Begins a nested component.
    fn nested(&mut self, item: &Item<'f>, steps: &Steps) -> io::Result<()> {
        let ItemView::Component(bytes) = item.view else { return Ok(()) };
        let (own, range) = (names_of(bytes)?, item.range.clone());
        let label = Some(label(steps.counts(), Space::Components, 1, self.names.last()));
        let content = Content::Component(own.component());
        self.report.open(&Part::Item {
            range,
            label,
            content,
            bytes: &[],
            item: Source::Component(item),
        })?;
        self.begin(own, item.range.end)
    }

    /// Reports the indices of an item at this byte offset that are out of range, if wanted.
    fn check_item(&mut self, item: &Item, steps: &Steps) -> io::Result<()> {
        let Some(found) = &mut self.check else { return Ok(()) };
        item.view.node_in(&steps.scopes()).try_each_index(|used| match used.count {
            None => Ok(()),
            Some(_) => {
                *found += 1;
                self.report.out_of_range(item.range.start, &used)
            }
        })
    }

    /// Reports an item that isn't a component.
    fn item(&mut self, item: &Item, steps: &Steps) -> io::Result<()> {
        let (range, view, names) = (item.range.clone(), &item.view, self.names.last());
        let defined = view.defined_indices();
        let label = defined.map(|(space, count)| label(steps.counts(), space, count, names));
        let bytes = &self.bytes[range.clone()];
        let scopes = self.check.is_some().then(|| steps.scopes());
        let node = scopes.as_ref().map_or_else(|| view.node(), |scopes| view.node_in(scopes));
        let node = phrase::of_item(node);
        let (content, shown) = match view {
            ItemView::Module(_) => (Content::Module, &[][..]),
            ItemView::Custom { name, data } => {
                (Content::Custom(name, data.len(), Contents::of(name)), bytes)
            }
            _ => (Content::Node(&node, &self.names), bytes),
        };
        let part =
            Part::Item { range, label, content, bytes: shown, item: Source::Component(item) };
        self.report.open(&part)?;
        self.check_item(item, steps)?;
        match view {
            ItemView::Module(bytes) => self.module(item.range.start, bytes)?,
            ItemView::Custom { .. } => self.custom(view, item.range.end)?,
            _ => {}
        }
        self.report.close()
    }
}

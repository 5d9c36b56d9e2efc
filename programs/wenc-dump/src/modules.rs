//! Walks through a core module, part by part.

use super::fault::{Fault, Kind};
use super::phrase;
use super::report::{Content, Contents, Core, Part, Source};
use super::walk::{Walk, label};
use super::words;
use std::io;
use std::ops::Range;
use wenc::tree::{CoreEntityType, IndexCounts, Space};
use wenc::view::CoreItemView;
use wenc::{CoreItem, CoreSection, CoreSections, ReadError, SectionId};

/// Returns the space in which an item has an index, if any.
fn space(item: &CoreItemView) -> Option<Space> {
    let CoreItemView::Import { ty, .. } = item else { return None };
    Some(match ty {
        CoreEntityType::Function(_) => Space::CoreFuncs,
        CoreEntityType::Table(_) => Space::CoreTables,
        CoreEntityType::Memory(_) => Space::CoreMemories,
        CoreEntityType::Global(_) => Space::CoreGlobals,
        CoreEntityType::Tag(_) => Space::CoreTags,
    })
}

/// Returns whether the items of a section are reported.
fn are_shown(section: &CoreSection) -> bool {
    matches!(section.kind(), Some(SectionId::Import | SectionId::Export | SectionId::Start))
}

impl Walk<'_, '_> {
    /// Reports the sections of a core module, which begins at this byte offset in a component.
    pub(super) fn module(&mut self, at: usize, bytes: &[u8]) -> io::Result<()> {
        match CoreSections::new(bytes) {
            Ok(sections) => self.core_sections(at..at + bytes.len(), sections),
            Err(error) => self.unread(error.moved(at).into(), at + bytes.len(), false),
        }
    }

    /// Reports the sections of the core module with these byte offsets, up to the first without a
    /// size within bounds.
    pub(super) fn core_sections(
        &mut self,
        module: Range<usize>,
        mut sections: CoreSections,
    ) -> io::Result<()> {
        let at = module.start;
        let mut counts = IndexCounts::default();
        let mut here = sections.clone();
        while let Some(section) = sections.next() {
            match (section, here.next_raw()) {
                (Ok(section), _) => self.core_section(at, &section, None, &mut counts)?,
                (Err(error), Some((range, raw))) => {
                    let section = CoreSection { id: raw.id, name: None, data: raw.data, range };
                    self.core_section(at, &section, Some(error.moved(at)), &mut counts)?;
                    sections = here.clone();
                }
                (Err(error), _) => self.unread(error.moved(at).into(), module.end, false)?,
            }
        }
        Ok(())
    }

    /// Reports a section of the core module that begins at this byte offset, and why it has no
    /// name if it is a custom section without one.
    fn core_section(
        &mut self,
        at: usize,
        section: &CoreSection,
        no_name: Option<ReadError>,
        counts: &mut IndexCounts,
    ) -> io::Result<()> {
        let are_shown = are_shown(section);
        let contents = section.name.map_or(Contents::Other, Contents::of_core);
        let range = at + section.range.start..at + section.range.end;
        let bytes = if are_shown { &[] } else { section.data };
        self.report.open(&Part::Section {
            range: range.clone(),
            id: section.id,
            content: at + section.range.end - section.data.len(),
            word: words::core_section(section.id),
            count: section.count(),
            core: Some(Core { name: section.name, contents, bytes }),
        })?;
        if let Some(error) = no_name {
            self.unread(error.into(), range.end, true)?;
        }
        if section.kind().is_none() {
            let fault = Fault::new(Kind::UnknownSection(section.id), range.start);
            self.unread(fault, range.end, true)?;
        }
        if contents == Contents::Producers {
            self.producers(section.data, range.end - section.data.len())?;
        }
        for item in section.items() {
            match item {
                Ok(item) => self.core_item(at, section, &item, counts)?,
                Err(error) => {
                    counts.add_unknown();
                    self.unread(error.moved(at).into(), range.end, !are_shown)?;
                }
            }
        }
        self.report.close()
    }

    /// Reports an item of a section of the core module that begins at this byte offset.
    fn core_item(
        &mut self,
        at: usize,
        section: &CoreSection,
        item: &CoreItem,
        counts: &mut IndexCounts,
    ) -> io::Result<()> {
        let CoreItem { range, view, .. } = item;
        let data_start = section.range.end - section.data.len();
        self.report.open(&Part::Item {
            range: at + range.start..at + range.end,
            label: space(view).map(|space| label(counts, space, 1, None)),
            content: Content::Node(&phrase::of_item(view.node()), &[]),
            bytes: &section.data[range.start - data_start..range.end - data_start],
            item: Source::Core(item, at),
        })?;
        counts.define(space(view).map(|space| (space, 1)));
        self.report.close()
    }
}

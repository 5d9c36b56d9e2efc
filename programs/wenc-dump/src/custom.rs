//! Walks through custom sections.

use super::report::{Contents, Entry, Part};
use super::walk::Walk;
use std::io;
use std::ops::Range;
use wenc::view::ItemView;
use wenc::{DebugNames, ProducersReader};

impl Contents {
    /// Returns the contents of a custom section with this name.
    pub fn of(name: &str) -> Self {
        match name {
            DebugNames::SECTION => Self::Names,
            ProducersReader::SECTION => Self::Producers,
            _ => Self::Other,
        }
    }

    /// Returns the contents of a custom section with this name in a core module, where debug names
    /// are encoded differently.
    pub fn of_core(name: &str) -> Self {
        if name == ProducersReader::SECTION { Self::Producers } else { Self::Other }
    }
}

impl Walk<'_, '_> {
    fn entry(&mut self, entry: Entry) -> io::Result<()> {
        self.report.open(&Part::Entry(entry))?;
        self.report.close()
    }

    /// Reports the contents of a custom section, whose data ends at this byte offset.
    pub(super) fn custom(&mut self, item: &ItemView, end: usize) -> io::Result<()> {
        let ItemView::Custom { name, data } = *item else { return Ok(()) };
        match Contents::of(name) {
            Contents::Names => self.debug_names(item, end - data.len()..end),
            Contents::Producers => self.producers(data, end - data.len()),
            Contents::Other => Ok(()),
        }
    }

    /// Reports the debug names in an item, whose data has these byte offsets.
    fn debug_names(&mut self, item: &ItemView, data: Range<usize>) -> io::Result<()> {
        let mut names = DebugNames::new();
        let read = names.read(item);
        if let Some(name) = names.component() {
            self.entry(Entry::Name(None, name))?;
        }
        for (space, index, name) in names.iter() {
            self.entry(Entry::Name(Some((space, index)), name))?;
        }
        match read {
            Ok(()) => Ok(()),
            Err(error) if error.is_memory() => Err(io::ErrorKind::OutOfMemory.into()),
            Err(error) => self.unread(error.moved(data.start).into(), data.end, true),
        }
    }

    /// Reports the tools in the data of a section, which begins at this byte offset.
    pub(super) fn producers(&mut self, data: &[u8], start: usize) -> io::Result<()> {
        for tool in ProducersReader::new(data) {
            match tool {
                Ok(tool) => self.entry(Entry::Tool(tool))?,
                Err(error) => {
                    self.unread(error.moved(start).into(), start + data.len(), true)?;
                }
            }
        }
        Ok(())
    }
}

//! Names by the indices of their items.

use crate::shim::alloc::{AllocError, Global};
use crate::shim::string::StringUsing;
use crate::shim::vec::VecUsing;
use alloc::string::String;
use alloc::vec::Vec;
use core::fmt;

/// The maximum number of names in a page.
const PAGE: usize = 512;

/// The names of items in the order of their indices: a `BTreeMap<u32, String>` of two levels, whose
/// insertions return an error if an allocation fails, where std's abort.
#[derive(Clone)]
pub(crate) struct ByIndex {
    /// Pages of names. None is empty.
    pages: Vec<Vec<(u32, String)>>,
}

impl ByIndex {
    /// Creates a map without names.
    pub const fn new() -> Self {
        Self { pages: Vec::new() }
    }

    /// Returns `true` if there are no names.
    pub fn is_empty(&self) -> bool {
        self.pages.is_empty()
    }

    /// Returns the names with their indices, in ascending order.
    pub fn iter(&self) -> impl Iterator<Item = (u32, &str)> {
        self.pages.iter().flatten().map(|(index, name)| (*index, name.as_str()))
    }

    /// Returns the name of the item with this index.
    pub fn get(&self, index: u32) -> Option<&str> {
        let (page, place) = self.find(index);
        Some(&self.pages.get(page)?[place.ok()?].1)
    }

    /// Names an item, unless it has a name.
    ///
    /// # Errors
    ///
    /// Fails if an allocation fails.
    pub fn add(&mut self, index: u32, name: &str) -> Result<(), AllocError> {
        match self.find(index) {
            (_, Ok(_)) => Ok(()),
            (page, Err(place)) => {
                self.insert(page, place, (index, String::from_str(Global, name)?))
            }
        }
    }

    /// Names an item. An earlier name is replaced.
    ///
    /// # Errors
    ///
    /// Fails if an allocation fails.
    pub fn replace(&mut self, index: u32, name: String) -> Result<(), AllocError> {
        match self.find(index) {
            (page, Ok(place)) => {
                self.pages[page][place].1 = name;
                Ok(())
            }
            (page, Err(place)) => self.insert(page, place, (index, name)),
        }
    }

    /// Returns the page for an index, and the position of its name there or the one to insert it
    /// at.
    fn find(&self, index: u32) -> (usize, Result<usize, usize>) {
        let behind = self.pages.partition_point(|names| names[0].0 <= index);
        let page = behind.saturating_sub(1);
        let names = self.pages.get(page).map_or(&[][..], Vec::as_slice);
        (page, names.binary_search_by_key(&index, |(index, _)| *index))
    }

    /// Inserts a name at a position in a page.
    fn insert(&mut self, page: usize, place: usize, name: (u32, String)) -> Result<(), AllocError> {
        // 32 bits: there are fewer pages than bytes.
        let is_last = page + 1 >= self.pages.len();
        match self.pages.get_mut(page) {
            Some(names) if names.len() < PAGE => {
                names.insert_using(place, name)?;
            }
            Some(_) if place < PAGE || !is_last => {
                self.split(page)?;
                let (page, place) = match place.checked_sub(PAGE / 2) {
                    // 32 bits: there are fewer pages than bytes.
                    Some(place @ 1..) => (page + 1, place),
                    _ => (page, place),
                };
                return self.insert(page, place, name);
            }
            _ => {
                let mut names = Vec::new();
                names.push_using(name)?;
                self.pages.push_using(names)?;
            }
        }
        Ok(())
    }

    /// Moves half of the names of a full page to a page after it.
    fn split(&mut self, page: usize) -> Result<(), AllocError> {
        let mut half = Vec::with_capacity_using(Global, PAGE)?;
        self.pages.try_reserve_using(1)?;
        while self.pages[page].len() > PAGE / 2 {
            let last = self.pages[page].pop();
            last.map_or(Ok(()), |name| half.push_using(name))?;
        }
        half.reverse();
        // 32 bits: there are fewer pages than bytes.
        Ok(self.pages.insert_using(page + 1, half)?)
    }
}

/// Maps are equal if they have the same names, regardless of their pages.
impl PartialEq for ByIndex {
    #[inline]
    fn eq(&self, other: &Self) -> bool {
        self.iter().eq(other.iter())
    }
}

impl Eq for ByIndex {}

impl fmt::Debug for ByIndex {
    #[inline]
    fn fmt(&self, f: &mut fmt::Formatter<'_>) -> fmt::Result {
        f.debug_map().entries(self.iter()).finish()
    }
}

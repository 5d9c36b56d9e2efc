//! Which definitions have an index of another one.

use super::build::repeated;
use super::paths::At;
use super::{Definition, Instances, ScopeFault};
use crate::ReadError;
use alloc::vec::Vec;

/// The users of all entries.
pub(super) struct Users {
    /// Where the users of an entry end; those of the next one begin there.
    ends: Vec<u32>,
    /// Their entries.
    all: Vec<u32>,
}

impl<'a> Instances<'_, 'a> {
    /// Returns the entries with an index of this definition.
    pub(super) fn users_of(&self, of: Definition<'_, 'a>) -> Result<&[u32], ScopeFault> {
        let number = of.number() as usize;
        let users = match self.users.get() {
            Some(users) => users,
            None => {
                let memory = |_| ScopeFault::NoMemory { place: of.place() };
                let users = self.find_users().map_err(memory)?;
                self.users.get_or_init(|| users)
            }
        };
        let end_of = |number: usize| users.ends.get(number).map_or(0, |end| *end as usize);
        let start = number.checked_sub(1).map_or(0, end_of);
        // one of another component may have none here
        Ok(users.all.get(start..end_of(number)).unwrap_or_default())
    }

    /// Calls a function with each entry that has an index, and the entry of that.
    fn each_use(&self, mut visit: impl FnMut(u32, u32)) {
        for number in 0..self.all.entries.len() as u32 {
            let user = Definition::new(self, At::written(number));
            user.each_index(|used| {
                if let Ok(of) = user.used(used) {
                    visit(number, of.number());
                }
            });
        }
    }

    fn find_users(&self) -> Result<Users, ReadError> {
        let mut ends = repeated(0, self.all.entries.len())?;
        // how many each has, then where each begins, then where it ends
        self.each_use(|_, of| ends[of as usize] += 1);
        let mut count = 0;
        for end in &mut ends {
            count += core::mem::replace(end, count);
        }
        let mut all = repeated(0, count as usize)?;
        self.each_use(|user, of| {
            let end = &mut ends[of as usize];
            all[*end as usize] = user;
            *end += 1;
        });
        Ok(Users { ends, all })
    }
}

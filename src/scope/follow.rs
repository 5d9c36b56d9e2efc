//! Following definitions to those that they are the same as.

use super::entry::{Frame, Link, Role, Target};
use super::meaning::Same;
use super::paths::{At, Paths};
use super::{Definitions, Instances, NONE, ScopeFault};
use crate::ReadError;
use crate::shim::vec::VecUsing;
use crate::tree::Space;
use alloc::vec::Vec;
use core::cell::{OnceCell, RefCell};
use core::mem;

impl<'a> Definitions<'a> {
    /// Finds what each definition is the same as, in the order in which they are defined: a scope
    /// before the definition that it belongs to.
    pub(super) fn follow(mut self) -> Result<Self, ReadError> {
        let (mut paths, mut open) = (Paths::default(), Vec::new());
        let (mut scope, mut number) = (0, 0);
        loop {
            if number == self.end_of(scope) {
                let opener = self.frame(scope).opener;
                if opener == NONE {
                    break;
                }
                (scope, number) = (self.frame(scope).outer, opener + 1);
                open.pop();
            } else if let Some(inner) = self.entry(number).inner() {
                open.push_using(scope).map_err(|_| ReadError::memory())?;
                (scope, number) = (inner, self.frame(inner).start);
            } else {
                if self.link(number).is_some_and(|link| !matches!(link.target, Target::Itself)) {
                    let target = self.target_in(&open, number, &mut paths)?;
                    let link = self.entry(number).more;
                    self.links[link as usize].target = target;
                }
                number += 1;
            }
        }
        Ok(Self { paths, ..self })
    }

    /// Returns what an entry is the same as, in these scopes, which are around its own.
    fn target_in(&self, open: &[u32], number: u32, paths: &mut Paths) -> Result<Target, ReadError> {
        let instances =
            Instances { all: self, paths: RefCell::new(mem::take(paths)), users: OnceCell::new() };
        let followed = instances.target_of(open, number).and_then(|found| {
            let (Some(to), entry) = (found, self.entry(number)) else { return Ok(Target::Itself) };
            let is_bound = matches!(entry.role, Role::Import | Role::Declared);
            if entry.role == Role::Ascribed || is_bound && entry.scope != 0 {
                return Ok(Target::As(to, At::written(number)));
            }
            let last = match to.path {
                // one that can't be followed is its own last, and tells why
                NONE => match self.link(to.number).map(|link| link.target) {
                    Some(Target::As(_, last)) => last,
                    _ => to,
                },
                _ => instances.stored(to, entry.place)?,
            };
            Ok(Target::As(to, last))
        });
        *paths = instances.paths.into_inner();
        match followed {
            Err(ScopeFault::NoMemory { .. }) => Err(ReadError::memory()),
            followed => Ok(followed.unwrap_or_else(Target::Fault)),
        }
    }

    /// Returns why this entry itself can't be followed.
    pub(super) fn fault_of(&self, number: u32) -> Option<ScopeFault> {
        match self.link(number)?.target {
            Target::Fault(fault) => Some(fault),
            _ => None,
        }
    }

    /// Returns the last definition that this entry is the same as, as it is written.
    pub(super) fn last_of(&self, number: u32) -> Result<At, ScopeFault> {
        let last = match self.link(number) {
            Some(Link { target: Target::As(_, last), .. }) => *last,
            _ => At::written(number),
        };
        self.fault_of(last.number).map_or(Ok(last), Err)
    }

    /// Returns the next definition that an entry is the same as, as it is written.
    pub(super) fn target_of(&self, number: u32) -> Option<At> {
        match self.link(number)?.target {
            Target::As(target, _) => Some(target),
            _ => None,
        }
    }

    /// Returns the space and the index of the type that an entry is declared with.
    pub(super) fn type_of(&self, number: u32) -> Option<(Space, u32)> {
        let index = self.link(number)?.ty?;
        let is_core = self.entry(number).space == Some(Space::CoreModules);
        Some((if is_core { Space::CoreTypes } else { Space::Types }, index))
    }

    fn name_of(&self, number: u32) -> &'a str {
        self.link(number).and_then(|link| link.name).unwrap_or_default()
    }

    /// Returns the exports of a scope from this name and space on, in the order of both.
    fn exports_from(&self, scope: u32, name: &str, space: Option<Space>) -> &[u32] {
        let Some(&Frame { names: from, .. }) = self.frames.get(scope as usize) else { return &[] };
        let next = self.frames.get(scope as usize + 1);
        let to = next.map_or(self.names.len(), |next| next.names as usize);
        let names = &self.names[from as usize..to];
        let number = |space: Option<Space>| space.map(Space::number);
        let is_before =
            |of: &u32| (self.name_of(*of), number(self.entry(*of).space)) < (name, number(space));
        &names[names.partition_point(is_before)..]
    }

    /// Returns the first export of a scope with this name.
    pub(super) fn export_named(&self, scope: u32, name: &str) -> Option<u32> {
        let first = *self.exports_from(scope, name, None).first()?;
        (self.name_of(first) == name).then_some(first)
    }

    /// Returns the first export of a scope with this name and of this space.
    pub(super) fn named(&self, scope: u32, name: &str, space: Space) -> Option<u32> {
        let first = *self.exports_from(scope, name, Some(space)).first()?;
        (self.name_of(first) == name && self.entry(first).space == Some(space)).then_some(first)
    }
}

impl Instances<'_, '_> {
    /// Returns the definition that an entry is the same as, in these scopes, which are around its
    /// own. `None` if there is none.
    fn target_of(&self, open: &[u32], number: u32) -> Result<Option<At>, ScopeFault> {
        let (own, before) = self.all.around(number);
        let place = self.all.entry(number).place;
        let found = |out: u32, space, index| {
            let missing = ScopeFault::OutOfRange { place, space, index, count: 0 };
            let Some(out) = (out as usize).checked_sub(1) else {
                return self.all.find((own, before, place), space, index);
            };
            // the list of an instance is no scope
            let open =
                &open[..open.len() - usize::from(self.all.is_list(self.all.entry(number).scope))];
            let at = open.len().checked_sub(out + 1).ok_or(missing)?;
            let inner = open.get(at + 1).copied().unwrap_or(own);
            self.all.find((open[at], self.all.frame(inner).opener, place), space, index)
        };
        match self.all.meaning(number).same() {
            None => Ok(None),
            Some(Same::Index(out, space, index)) => {
                found(out, space, index).map(At::written).map(Some)
            }
            Some(Same::Export((space, index), name, of)) => {
                let instance = self.all.last_of(found(0, space, index)?)?;
                self.export_in(instance, name, of, place)
            }
        }
    }
}

//! Instances, and what is reached through them.
//!
//! What an index of an instantiated component means depends on the instance: an import is what was
//! passed for it, and a type that the component defines is another one in each instance. So all
//! that is followed is an [`At`]: an entry with a path of instances, the outermost first. A path is
//! a number: equal paths have equal numbers.
//!
//! What an entry is the same as is found once, when it is read, as if the imports of its component
//! were unknown (`Target`). Through an instance this is moved to the path of the instance: the
//! first of its instances, or itself if it has none, may be an import for which there is an
//! argument, and everything behind that is then looked for by name.

use super::entry::{Entry, Role, Target};
use super::meaning::Same;
use super::{Instances, NONE, ScopeFault};
use crate::ReadError;
use crate::shim::vec::VecUsing;
use crate::tree::Space;
use alloc::vec::Vec;

/// The maximum number of instances in a path.
const DEPTH: u32 = 100;

/// The maximum number of steps to what one entry is the same as.
const STEPS: u32 = 2000;

/// The maximum number of steps that wait for others.
const TODO: usize = 128;

/// The number of paths that there may be in any component, and the number of bytes for each other
/// one.
const PATHS: (usize, usize) = (1 << 13, 20);

/// An entry with the path of instances through which it is reached: `NONE` for an entry as it is
/// written, in no instance of its component.
#[derive(Clone, Copy, Debug, PartialEq, Eq, PartialOrd, Ord, Hash)]
pub(super) struct At {
    pub path: u32,
    pub number: u32,
}

impl At {
    pub const fn written(number: u32) -> Self {
        Self { path: NONE, number }
    }
}

/// A path of instances.
#[derive(Clone, Copy)]
pub(super) struct Path {
    /// The last of them.
    pub instance: At,
    /// The scope with its exports: that of a component or of a type.
    pub scope: u32,
    /// The path of that component or type.
    pub around: u32,
    /// The first of the instances.
    head: u32,
    depth: u32,
}

/// All paths that were followed.
#[derive(Default)]
pub(super) struct Paths {
    all: Vec<Path>,
    /// Their numbers, by the hashes of their last instances.
    table: Vec<u32>,
}

impl Paths {
    pub fn len(&self) -> usize {
        self.all.len()
    }

    /// Returns the place of an instance in the table, which isn't full.
    fn slot(table: &[u32], all: &[Path], instance: At) -> usize {
        let key = u64::from(instance.path) << 32 | u64::from(instance.number);
        let hash = key.wrapping_mul(0x9e37_79b9_7f4a_7c15) >> 32;
        let mut slot = hash as usize & (table.len() - 1);
        while table[slot] != NONE && all[table[slot] as usize].instance != instance {
            slot = (slot + 1) & (table.len() - 1);
        }
        slot
    }

    /// Returns the number of the path that ends with this instance.
    fn find(&self, instance: At) -> Option<u32> {
        if self.table.is_empty() {
            return None;
        }
        let path = self.table[Self::slot(&self.table, &self.all, instance)];
        (path != NONE).then_some(path)
    }

    fn add(&mut self, path: Path) -> Result<u32, ReadError> {
        if self.table.len() <= 2 * self.all.len() {
            let len = (4 * self.all.len()).next_power_of_two().max(8);
            let mut table = super::build::repeated(NONE, len)?;
            for (number, path) in (0..).zip(&self.all) {
                let slot = Self::slot(&table, &self.all, path.instance);
                table[slot] = number;
            }
            self.table = table;
        }
        let number = super::build::numbered(self.all.len())?;
        let slot = Self::slot(&self.table, &self.all, path.instance);
        self.all.push_using(path).map_err(|_| ReadError::memory())?;
        self.table[slot] = number;
        Ok(number)
    }
}

/// What is done next with the definition that was found.
#[derive(Clone, Copy)]
enum Todo {
    /// An entry of the instance that it is; if its scope isn't the instance's, its export by the
    /// name of that entry.
    Member(u32),
    /// It is the component or the type of this instance.
    Open(At),
}

/// Where the exports of an instance are.
enum Opened {
    /// In the scope of its path.
    Path(u32),
    /// In this list.
    List(u32),
    /// In the scope of the component or the type that this entry is.
    By(At),
    /// It has none that are known.
    Unknown,
}

impl Instances<'_, '_> {
    pub(super) fn path(&self, number: u32) -> Path {
        let (number, written) = (number as usize, &self.all.paths.all);
        match written.get(number) {
            Some(path) => *path,
            None => self.paths.borrow().all[number - written.len()],
        }
    }

    /// Returns the number of the path that ends with this instance, if there is one.
    fn known(&self, instance: At) -> Option<u32> {
        let written = &self.all.paths;
        let own = || Some(self.paths.borrow().find(instance)? + written.all.len() as u32);
        written.find(instance).or_else(own)
    }

    /// Returns the first of the instances of a path, or the entry if it has none.
    pub(super) fn head(&self, at: At) -> u32 {
        if at.path == NONE { at.number } else { self.path(at.path).head }
    }

    /// Returns the path in which an entry is that is written in the scope of this path, or around
    /// it.
    pub(super) fn path_of(&self, mut path: u32, number: u32) -> u32 {
        while path != NONE {
            let Path { scope, around, .. } = self.path(path);
            let within = scope..self.all.frame(scope).until;
            if within.contains(&self.all.entry(number).scope) {
                break;
            }
            path = around;
        }
        path
    }

    /// Returns the last of the definitions that this one is the same as. `place` is the byte offset
    /// of what refers to it.
    pub(super) fn value(&self, at: At, place: usize) -> Result<At, ScopeFault> {
        if at.path == NONE {
            let last = self.all.last_of(at.number)?;
            if self.bound(last.number).is_none() {
                return Ok(last);
            }
        }
        self.run(at, &mut Waiting::default(), place)
    }

    /// Returns the argument for an import, if it is one of the component that this path's instance
    /// is of.
    fn argument(&self, path: u32, number: u32) -> Option<At> {
        let &Entry { role, scope: of, space, .. } = self.all.entry(number);
        if role != Role::Import || path == NONE {
            return None;
        }
        let Path { instance, scope, .. } = self.path(path);
        let &Entry { role, more: list, .. } = self.all.entry(instance.number);
        if role != Role::Instantiate || of != scope {
            return None;
        }
        let argument = self.all.named(list, self.all.link(number)?.name?, space?)?;
        Some(At { path: instance.path, number: argument })
    }

    /// Returns the definition that this one, which is reached through instances, is the same as:
    /// the next one, not the last.
    pub(super) fn target_through(&self, at: At) -> Result<Option<At>, ScopeFault> {
        if let Some(argument) = self.argument(at.path, at.number) {
            return Ok(Some(argument));
        }
        let &Entry { role, place, .. } = self.all.entry(at.number);
        if role != Role::Alias {
            let target = self.all.target_of(at.number).map(|target| target.number);
            return Ok(target.map(|number| At { path: self.path_of(at.path, number), number }));
        }
        let Some(Same::Export((space, index), name, of)) = self.all.meaning(at.number).same()
        else {
            return Ok(None);
        };
        let (scope, before) = self.all.around(at.number);
        let number = self.all.find((scope, before, place), space, index)?;
        let instance = self.value(At { path: at.path, number }, place)?;
        self.export_in(instance, name, of, place)
    }

    /// Returns the type that an import or a declared export is the same as if it isn't replaced. In
    /// the outermost component this is its last one.
    fn bound(&self, number: u32) -> Option<u32> {
        let &Entry { role, scope, .. } = self.all.entry(number);
        if !matches!(role, Role::Import | Role::Declared) || scope == 0 {
            return None;
        }
        match self.all.link(number)?.target {
            Target::As(target, _) => Some(target.number),
            _ => None,
        }
    }

    /// Returns what an entry is the same as that is stored for it: a type that may be replaced
    /// isn't followed, since it has a name by which it is found again.
    pub(super) fn stored(&self, at: At, place: usize) -> Result<At, ScopeFault> {
        self.follow(at, &mut Waiting::default(), place, false)
    }

    fn run(&self, at: At, todo: &mut Waiting, place: usize) -> Result<At, ScopeFault> {
        self.follow(at, todo, place, true)
    }

    fn follow(
        &self,
        mut at: At,
        todo: &mut Waiting,
        place: usize,
        is_whole: bool,
    ) -> Result<At, ScopeFault> {
        let mut is_found = false;
        for _ in 0..STEPS {
            if !is_found {
                let last = self.all.last_of(at.number)?;
                let head = self.head(last);
                let path = self.path_of(at.path, head);
                self.push_members(last, todo, place)?;
                if let Some(argument) = self.argument(path, head) {
                    at = argument;
                    continue;
                }
                (at, is_found) = (At { path, number: head }, true);
            }
            if let Some(number) = self.bound(at.number).filter(|_| is_whole || todo.len > 0) {
                (at, is_found) = (At { path: self.path_of(at.path, number), number }, false);
                continue;
            }
            match todo.pop() {
                None => return Ok(at),
                Some(Todo::Open(instance)) => match self.open(instance, at, place)? {
                    Some(by) => {
                        todo.push(Todo::Open(instance), place)?;
                        (at, is_found) = (by, false);
                    }
                    None => at = instance,
                },
                Some(Todo::Member(number)) => {
                    (at, is_found) = self.member(at, number, todo, place)?;
                }
            }
        }
        Err(ScopeFault::TooDeep { place })
    }

    /// Adds the entries of instances by which this one is found, the outermost last.
    #[inline]
    fn push_members(
        &self,
        mut rest: At,
        todo: &mut Waiting,
        place: usize,
    ) -> Result<(), ScopeFault> {
        while rest.path != NONE {
            todo.push(Todo::Member(rest.number), place)?;
            rest = self.path(rest.path).instance;
        }
        Ok(())
    }

    /// Returns an entry of an instance, and whether it is the last one that it is the same as; what
    /// is to be found before it, if the exports of the instance aren't known yet.
    fn member(
        &self,
        at: At,
        number: u32,
        todo: &mut Waiting,
        place: usize,
    ) -> Result<(At, bool), ScopeFault> {
        let of = self.all.entry(number);
        match self.opened(at)? {
            Opened::Path(path) if self.path(path).scope == of.scope => {
                Ok((At { path, number }, true))
            }
            Opened::Path(_) | Opened::List(_) => {
                let name = self.all.link(number).and_then(|link| link.name);
                let (Some(name), Some(space)) = (name, of.space) else {
                    return Err(ScopeFault::TooDeep { place });
                };
                let found = self.export_in(at, name, space, place)?;
                Ok((found.ok_or(ScopeFault::NoExport { place, space })?, false))
            }
            Opened::By(by) => {
                todo.push(Todo::Member(number), place)?;
                todo.push(Todo::Open(at), place)?;
                Ok((by, false))
            }
            Opened::Unknown => Err(ScopeFault::TooDeep { place }),
        }
    }

    /// Returns where the exports of an instance are, or of a component, which has those of an
    /// instance of it with unknown arguments.
    fn opened(&self, at: At) -> Result<Opened, ScopeFault> {
        if let Some(path) = self.known(at) {
            return Ok(Opened::Path(path));
        }
        let &Entry { role, more, space, place, .. } = self.all.entry(at.number);
        let by = |space, index| {
            let (scope, before) = self.all.around(at.number);
            let number = self.all.find((scope, before, place), space, index)?;
            Ok(Opened::By(At { path: at.path, number }))
        };
        match (role, space) {
            (Role::Instantiate, Some(Space::CoreInstances)) => {
                by(Space::CoreModules, self.all.frame(more).of)
            }
            (Role::Instantiate, _) => by(Space::Components, self.all.frame(more).of),
            (Role::List, _) => Ok(Opened::List(more)),
            (Role::Component | Role::ComponentType | Role::InstanceType | Role::ModuleType, _) => {
                Ok(Opened::By(at))
            }
            (_, Some(Space::Instances | Space::Components | Space::CoreModules)) => {
                let ty = self.all.type_of(at.number);
                ty.map_or(Ok(Opened::Unknown), |(space, index)| by(space, index))
            }
            _ => Ok(Opened::Unknown),
        }
    }

    /// Adds the path of an instance with this component, module or type; if it has a type, returns
    /// that instead.
    fn open(&self, instance: At, of: At, place: usize) -> Result<Option<At>, ScopeFault> {
        let &Entry { role, more: inner, space, place: at, .. } = self.all.entry(of.number);
        let wanted = self.all.entry(instance.number);
        // the space of what has a type
        let declared = self.all.type_of(instance.number).and(wanted.space);
        let is_wanted = match (role, declared) {
            (Role::Component, None) => true,
            (Role::ComponentType, declared) => {
                matches!(declared, None | Some(Space::Components))
            }
            (Role::InstanceType, declared) => declared == Some(Space::Instances) || instance == of,
            (Role::ModuleType, declared) => matches!(declared, None | Some(Space::CoreModules)),
            (Role::Plain, None) if space == Some(Space::CoreModules) => {
                return Err(ScopeFault::Opaque { place });
            }
            (_, None) => {
                let ty = self.all.type_of(of.number).ok_or(ScopeFault::Opaque { place })?;
                let (scope, before) = self.all.around(of.number);
                let number = self.all.find((scope, before, at), ty.0, ty.1)?;
                return Ok(Some(At { path: of.path, number }));
            }
            _ => false,
        };
        if !is_wanted {
            let space = wanted.space.unwrap_or(Space::Instances);
            return Err(ScopeFault::OtherType { place: wanted.place, space });
        }
        let (head, depth) = if instance.path == NONE {
            (instance.number, 1)
        } else {
            let Path { head, depth, .. } = self.path(instance.path);
            (head, depth + 1)
        };
        let mut paths = self.paths.borrow_mut();
        let len = self.all.paths.all.len() + paths.all.len();
        if depth > DEPTH || len >= PATHS.0 + self.all.bytes.len() / PATHS.1 {
            return Err(ScopeFault::TooDeep { place });
        }
        let path = Path { instance, scope: inner, around: of.path, head, depth };
        paths.add(path).map_err(|_| ScopeFault::NoMemory { place })?;
        Ok(None)
    }

    /// Returns the scope or the list with the exports of an instance or a component, which is the
    /// last of those that it is the same as, and the path to them. `None` if there are none, or
    /// none that are known.
    pub(super) fn exports_of(
        &self,
        at: At,
        place: usize,
    ) -> Result<Option<(u32, u32)>, ScopeFault> {
        loop {
            match self.opened(at)? {
                Opened::Path(path) => return Ok(Some((self.path(path).scope, path))),
                Opened::List(list) => return Ok(Some((list, at.path))),
                Opened::Unknown => return Ok(None),
                Opened::By(by) => {
                    let mut todo = Waiting::default();
                    todo.push(Todo::Open(at), place)?;
                    match self.run(by, &mut todo, place) {
                        Err(ScopeFault::Opaque { .. }) => return Ok(None),
                        run => run?,
                    };
                }
            }
        }
    }

    /// Returns an export of an instance, not followed. `None` if its exports aren't known.
    pub(super) fn export_in(
        &self,
        instance: At,
        name: &str,
        space: Space,
        place: usize,
    ) -> Result<Option<At>, ScopeFault> {
        let Some((scope, path)) = self.exports_of(instance, place)? else { return Ok(None) };
        if let Some(number) = self.all.named(scope, name, space) {
            return Ok(Some(At { path, number }));
        }
        let unread = self.all.frame(scope).unread;
        Err(match self.all.export_named(scope, name) {
            Some(number) => {
                let found = self.all.entry(number).space.unwrap_or(space);
                ScopeFault::OtherExport { place, space, found }
            }
            None if unread == usize::MAX => ScopeFault::NoExport { place, space },
            None => ScopeFault::Unread { place, space, unread },
        })
    }
}

/// Steps that wait for others, the last first.
struct Waiting {
    len: usize,
    all: [Todo; TODO],
}

impl Default for Waiting {
    fn default() -> Self {
        Self { len: 0, all: [Todo::Member(NONE); TODO] }
    }
}

impl Waiting {
    fn push(&mut self, todo: Todo, place: usize) -> Result<(), ScopeFault> {
        let slot = self.all.get_mut(self.len).ok_or(ScopeFault::TooDeep { place })?;
        *slot = todo;
        self.len += 1;
        Ok(())
    }

    fn pop(&mut self) -> Option<Todo> {
        self.len = self.len.checked_sub(1)?;
        Some(self.all[self.len])
    }
}

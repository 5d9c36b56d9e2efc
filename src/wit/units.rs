//! The worlds of a component, their interfaces, and where types are named.

use super::names::{Package, compare, interface};
use super::note::{Stop, known};
use super::{Writer, Written};
use crate::scope::{Definition, Meaning, Scope};
use crate::shim::vec::VecUsing;
use crate::tree::Space;
use crate::view::{ItemView, NameView, TypeView};
use alloc::vec::Vec;
use core::cmp::Ordering;

/// A definition with its name.
pub(super) type Named<'s, 'a> = (NameView<'a>, Definition<'s, 'a>);

/// What imports and exports interfaces: a component, or a component type of a package.
#[derive(Clone, Copy)]
pub(super) struct Unit<'s, 'a> {
    pub scope: Scope<'s, 'a>,
    /// Its package, if it is one's.
    pub package: Option<Package<'a>>,
    /// The name of a world; `None` if it is there for an interface.
    pub world: Option<&'a str>,
}

/// An instance of an interface, which is imported or exported.
#[derive(Clone, Copy)]
pub(super) struct Instance<'s, 'a> {
    /// The package; `None` if the interface is written where it is imported or exported.
    pub package: Option<Package<'a>>,
    pub name: &'a str,
    /// The number of its interface.
    pub interface: u32,
    pub unit: u32,
    pub is_export: bool,
    pub of: Definition<'s, 'a>,
    /// Its number among all.
    order: u32,
}

impl Instance<'_, '_> {
    fn compare(&self, other: &Self) -> Ordering {
        let number = |of: &Self| (of.package.is_none(), !of.is_export, of.order);
        let same = self.package.cmp(&other.package).then_with(|| self.name.cmp(other.name));
        match (self.package, other.package) {
            (Some(_), Some(_)) => same.then_with(|| number(self).cmp(&number(other))),
            _ => (self.package.is_none(), self.order).cmp(&(other.package.is_none(), other.order)),
        }
    }

    fn is_of_the_same(&self, other: &Self) -> bool {
        self.package.is_some() && self.package == other.package && self.name == other.name
    }
}

/// Where a type is named.
#[derive(Clone, Copy)]
pub(super) struct Owner<'s, 'a> {
    pub of: Definition<'s, 'a>,
    /// The interface; `None` for a world.
    pub interface: Option<u32>,
    pub unit: u32,
    pub is_export: bool,
    pub name: &'a str,
}

/// Returns the names and the definitions of what a scope imports.
pub(super) fn imports<'s, 'a>(scope: Scope<'s, 'a>) -> impl Iterator<Item = Named<'s, 'a>> {
    scope.definitions().filter_map(|of| match of.meaning() {
        Meaning::Item(ItemView::Import { name, .. }) => Some((name, of)),
        _ => None,
    })
}

/// Returns the names and the definitions of what a scope exports.
pub(super) fn exports<'s, 'a>(scope: Scope<'s, 'a>) -> impl Iterator<Item = Named<'s, 'a>> {
    scope.definitions().filter_map(|of| match of.meaning() {
        Meaning::Item(ItemView::Export { name, .. }) | Meaning::Declared { name, .. } => {
            Some((name, of))
        }
        _ => None,
    })
}

/// Returns the world or the interface of a package that is exported as the type of a component with
/// it as the only export.
fn unit_of<'s, 'a>(of: Definition<'s, 'a>) -> Result<Option<Unit<'s, 'a>>, Stop> {
    let Some(last) = known(of.resolve())? else { return Ok(None) };
    let (Meaning::Item(ItemView::Type(TypeView::Component(_))), Some(scope)) =
        (last.meaning(), last.inner())
    else {
        return Ok(None);
    };
    let mut all = exports(scope);
    let (Some((name, export)), None) = (all.next(), all.next()) else { return Ok(None) };
    let Some((package, id)) = interface(&name) else { return Ok(None) };
    let package = Some(package);
    Ok(match export.space() {
        Some(Space::Instances) => Some(Unit { scope, package, world: None }),
        Some(Space::Components) => {
            known(export.exports())?.flatten().map(|scope| Unit { scope, package, world: Some(id) })
        }
        _ => None,
    })
}

impl<'s, 'a> Writer<'s, 'a, '_> {
    /// Finds the worlds and the interfaces of a package, or else the world that the component has.
    pub fn find_units(&mut self, scope: Scope<'s, 'a>) -> Written {
        for (_, of) in exports(scope).filter(|(_, of)| of.space() == Some(Space::Types)) {
            self.step(of.place())?;
            if let Some(unit) = unit_of(of)? {
                self.units.push_using(unit)?;
                self.packaged.insert(of, ())?;
            }
        }
        if self.units.is_empty() {
            self.units.push_using(Unit { scope, package: None, world: Some("root") })?;
        }
        Ok(())
    }

    /// Finds the interfaces.
    pub fn find_instances(&mut self) -> Written {
        for unit in 0..self.units.len() {
            let (scope, unit) = (self.units[unit].scope, unit as u32);
            let imports = imports(scope).map(|of| (false, of));
            for (is_export, (name, of)) in imports.chain(exports(scope).map(|of| (true, of))) {
                self.step(of.place())?;
                if of.space() != Some(Space::Instances) {
                    continue;
                }
                let (package, name) = match interface(&name) {
                    Some((package, id)) => (Some(package), id),
                    None => (None, name.name),
                };
                let order = self.instances.len() as u32;
                let instance = Instance { package, name, interface: 0, unit, is_export, of, order };
                self.instances.push_using(instance)?;
            }
        }
        self.instances.sort_unstable_by(Instance::compare);
        let (mut number, mut from) = (0, 0);
        for at in 0..self.instances.len() {
            if at > 0 && !self.instances[at].is_of_the_same(&self.instances[at - 1]) {
                self.interfaces.push_using((from, at))?;
                (number, from) = (number + 1, at);
            }
            self.instances[at].interface = number;
            self.numbers.insert(self.instances[at].of, number)?;
        }
        if from < self.instances.len() {
            self.interfaces.push_using((from, self.instances.len()))?;
        }
        Ok(())
    }

    /// Finds where types are first named: those of imports and those of exports.
    pub fn find_owners(&mut self) -> Written {
        for unit in 0..self.units.len() {
            let (scope, unit) = (self.units[unit].scope, unit as u32);
            let imports = imports(scope).map(|of| (false, of));
            for (is_export, (name, of)) in imports.chain(exports(scope).map(|of| (true, of))) {
                self.step(of.place())?;
                if of.space() == Some(Space::Types) && !is_export {
                    self.own(Owner { of, interface: None, unit, is_export, name: name.name })?;
                }
                let Some(interface) = self.numbers.get(of) else { continue };
                let Some(scope) = known(of.exports())?.flatten() else { continue };
                for (name, of) in exports(scope) {
                    self.step(of.place())?;
                    if of.space() != Some(Space::Types) {
                        continue;
                    }
                    let (interface, name) = (Some(interface), name.name);
                    self.own(Owner { of, interface, unit, is_export, name })?;
                }
                if is_export {
                    self.exported.push_using((unit, interface))?;
                }
            }
        }
        self.exported.sort_unstable();
        Ok(())
    }

    /// Stores where a type is named, if it isn't named before.
    fn own(&mut self, owner: Owner<'s, 'a>) -> Written {
        let owners = &mut self.owners[usize::from(owner.is_export)];
        owners.insert(owner.of, owner)?;
        match known(owner.of.resolve())? {
            Some(last) => owners.insert(last, owner),
            None => Ok(()),
        }
    }

    /// Returns the package and the name of an interface, unless it is written where it is used.
    pub fn named_interface(&self, interface: u32) -> Option<(Package<'a>, &'a str)> {
        let (from, _) = self.interfaces[interface as usize];
        let Instance { package, name, .. } = self.instances[from];
        Some((package?, name))
    }

    /// Returns the number of the first name `root:component` with a number behind it that no
    /// package has.
    pub fn free_number(&self) -> Result<u32, Stop> {
        let mut taken = Vec::new();
        let packages = self.instances.iter().filter_map(|of| of.package);
        for package in packages.filter(|package| package.namespace == "root") {
            match package.name.strip_prefix("component") {
                Some("") => taken.push_using(0)?,
                Some(rest) => {
                    let number = rest.strip_prefix("-n").and_then(|rest| rest.parse().ok());
                    number.map_or(Ok(()), |number: u32| taken.push_using(number))?;
                }
                None => {}
            }
        }
        taken.sort_unstable();
        let skip = |free: u32, number: &u32| if *number == free { free + 1 } else { free };
        Ok(taken.iter().fold(0, skip))
    }

    /// Returns the sorted names that a type of an interface can't have where it is used in this
    /// world: those of what it imports, and of all types of interfaces, with these.
    pub fn taken_names(&self, scope: Scope<'s, 'a>) -> Result<Vec<(&'a str, u32)>, Stop> {
        let mut taken = Vec::new();
        for (name, _) in imports(scope) {
            taken.push_using((name.name, u32::MAX))?;
        }
        for owner in self.owners[0].values() {
            if let Some(interface) = owner.interface {
                taken.push_using((owner.name, interface))?;
            }
        }
        taken.sort_unstable_by(|(name, of), (other, number)| {
            compare(name, other).then(of.cmp(number))
        });
        taken.dedup();
        Ok(taken)
    }
}

//! Which interfaces may use types of which others.
//!
//! An interface can't depend on itself, nor can a package. An interface that is exported depends
//! on others as they are exported, or else as they are imported: then these can't depend on one
//! that is exported (WIT, "`use`" and worlds).

use super::map::filled;
use super::note::{Stop, known};
use super::types::{Context, Found, Local};
use super::units::{Instance, Owner, exports};
use super::{Writer, Written};
use crate::shim::vec::VecUsing;
use crate::tree::Space;
use alloc::vec::Vec;
use core::cmp::Ordering;

/// No number.
const NONE: u32 = u32::MAX;

/// The groups of interfaces, and of packages, that depend on each other.
#[derive(Default)]
pub(super) struct Uses {
    /// The number of each interface's group.
    groups: Vec<u32>,
    /// The number of each interface's package.
    packages: Vec<u32>,
    /// The number of each package's group.
    package_groups: Vec<u32>,
    /// For each world, the interfaces that aren't exported and depend on one that is, sorted.
    bound: Vec<(u32, u32)>,
}

impl Uses {
    /// Returns whether an interface of a world may use a type of another one.
    pub fn allow(&self, unit: u32, (user, is_exported): (Option<u32>, bool), of: u32) -> bool {
        let Some(user) = user else { return true };
        let (user, other) = (user as usize, of as usize);
        let (package, used) = (self.packages[user] as usize, self.packages[other] as usize);
        self.groups[user] != self.groups[other]
            && (package == used || self.package_groups[package] != self.package_groups[used])
            && (!is_exported || self.bound.binary_search(&(unit, of)).is_err())
    }
}

/// A graph whose edges are sorted by the nodes at which they begin.
struct Graph<'e> {
    len: usize,
    edges: &'e [(u32, u32)],
}

/// A search for groups.
struct Search {
    groups: Vec<u32>,
    /// The least number of a node that each is known to lead to.
    low: Vec<u32>,
    /// The nodes without a group.
    open: Vec<u32>,
    found: u32,
    count: u32,
}

impl Search {
    /// Returns the number of a node that was found.
    fn begin(&mut self, node: u32) -> Result<u32, Stop> {
        self.low[node as usize] = self.found;
        self.open.push_using(node)?;
        self.found += 1;
        Ok(self.found - 1)
    }

    fn reach(&mut self, node: u32, to: u32) {
        if self.groups[to as usize] == NONE {
            self.low[node as usize] = self.low[node as usize].min(self.low[to as usize]);
        }
    }

    /// Ends a node, and its group if it is the first of it.
    fn end(&mut self, node: u32, number: u32) {
        if self.low[node as usize] != number {
            return;
        }
        while let Some(last) = self.open.pop() {
            self.groups[last as usize] = self.count;
            if last == node {
                break;
            }
        }
        self.count += 1;
    }
}

impl Graph<'_> {
    /// Returns the number of the group of each node: nodes are in one group if each can be reached
    /// from the other (Tarjan's algorithm). A group has a smaller number than those that lead to
    /// it.
    fn groups(&self) -> Result<Vec<u32>, Stop> {
        let (groups, low) = (filled(self.len, NONE)?, filled(self.len, NONE)?);
        let mut search = Search { groups, low, open: Vec::new(), found: 0, count: 0 };
        let mut path = Vec::new();
        for root in 0..self.len as u32 {
            if search.low[root as usize] == NONE {
                path.push_using((root, self.first(root), search.begin(root)?))?;
            }
            while let Some((node, edge, number)) = path.last_mut() {
                match self.edges.get(*edge).filter(|(from, _)| from == node) {
                    Some(&(_, to)) if search.low[to as usize] == NONE => {
                        let number = search.begin(to)?;
                        path.push_using((to, self.first(to), number))?;
                    }
                    Some(&(_, to)) => {
                        search.reach(*node, to);
                        *edge += 1;
                    }
                    None => {
                        search.end(*node, *number);
                        path.pop();
                    }
                }
            }
        }
        Ok(search.groups)
    }

    /// Returns the first edge from a node.
    fn first(&self, node: u32) -> usize {
        self.edges.partition_point(|(from, _)| *from < node)
    }
}

impl<'s, 'a> Writer<'s, 'a, '_> {
    /// Finds which interfaces depend on which.
    pub fn find_uses(&mut self) -> Written {
        let edges = self.find_edges()?;
        let (packages, count) = self.number_packages()?;
        let depends = self.find_dependencies(&edges, &packages)?;
        let groups = Graph { len: self.interfaces.len(), edges: &edges }.groups()?;
        let package_groups = Graph { len: count, edges: &depends }.groups()?;
        // each before those that depend on it
        let mut order = filled(self.interfaces.len(), 0)?;
        (0..).zip(&mut order).for_each(|(number, of)| *of = number);
        order.sort_unstable_by_key(|number| groups[*number as usize]);
        let bound = self.find_bound(&edges, &order)?;
        self.uses = Uses { groups, packages, package_groups, bound };
        self.find_failed(&order)
    }

    /// Returns the interfaces with those whose types they use.
    fn find_edges(&mut self) -> Result<Vec<(u32, u32)>, Stop> {
        let mut edges = Vec::new();
        for at in 0..self.instances.len() {
            let instance = self.instances[at];
            self.local = Local::new(Context::of(&instance));
            let Some(scope) = known(instance.of.exports())?.flatten() else { continue };
            for (_, of) in exports(scope) {
                self.step(of.place())?;
                if of.space() != Some(Space::Types) {
                    continue;
                }
                match self.find(of, true) {
                    Ok(Found::Use(Owner { interface: Some(used), .. })) => {
                        edges.push_using((instance.interface, used))?;
                    }
                    Ok(_) | Err(Stop::Note(_)) => {}
                    Err(stop) => return Err(stop),
                }
            }
        }
        sort(&mut edges);
        Ok(edges)
    }

    /// Returns the packages with those that they depend on: by their interfaces and their worlds.
    fn find_dependencies(
        &self,
        edges: &[(u32, u32)],
        packages: &[u32],
    ) -> Result<Vec<(u32, u32)>, Stop> {
        let mut depends = Vec::new();
        for &(from, to) in edges {
            depends.push_using((packages[from as usize], packages[to as usize]))?;
        }
        for instance in &self.instances {
            let unit = self.units[instance.unit as usize];
            let (Some(own), Some(_)) = (unit.package, instance.package) else { continue };
            let of = self.instances.binary_search_by(|other| {
                other.package.map_or(Ordering::Greater, |package| package.cmp(&own))
            });
            let Ok(of) = of else { continue };
            let pair = [self.instances[of].interface, instance.interface];
            let [of, used] = pair.map(|interface| packages[interface as usize]);
            depends.push_using((of, used))?;
        }
        depends.retain(|(of, used)| of != used);
        sort(&mut depends);
        Ok(depends)
    }

    /// Returns the number of each interface's package, and how many there are.
    fn number_packages(&self) -> Result<(Vec<u32>, usize), Stop> {
        let (mut packages, mut count, mut last) = (Vec::new(), 0_u32, None);
        for &(from, _) in &self.interfaces {
            let package = self.instances[from].package;
            if package.is_none() || package != last {
                count += 1;
            }
            last = package;
            packages.push_using(count - 1)?;
        }
        Ok((packages, count as usize))
    }

    /// Finds the types that aren't written, so that no other interface uses them.
    fn find_failed(&mut self, order: &[u32]) -> Written {
        self.is_dry = true;
        for &number in order {
            let (from, to) = self.interfaces[number as usize];
            let Instance { package: Some(_), .. } = self.instances[from] else { continue };
            self.local = Local::new(Context::of(&self.instances[from]));
            let mut items = self.items_of(from, to)?;
            self.types(&mut items)?;
        }
        self.is_dry = false;
        Ok(())
    }

    /// Returns the interfaces that aren't exported by a world and depend on one that is.
    fn find_bound(&mut self, edges: &[(u32, u32)], order: &[u32]) -> Result<Vec<(u32, u32)>, Stop> {
        let (mut bound, graph) = (Vec::new(), Graph { len: order.len(), edges });
        let mut from = 0;
        while let Some(&(unit, _)) = self.exported.get(from) {
            let more = self.exported[from..].partition_point(|(of, _)| *of == unit);
            from += more;
            let mut is_bound = filled(order.len(), 0)?;
            for &number in order {
                self.step(0)?;
                let used = &edges[graph.first(number)..graph.first(number + 1)];
                let depends = |(_, to): &(u32, u32)| {
                    is_bound[*to as usize] == 1 || self.is_exported(unit, *to)
                };
                if used.iter().any(depends) {
                    is_bound[number as usize] = 1;
                    if !self.is_exported(unit, number) {
                        bound.push_using((unit, number))?;
                    }
                }
            }
        }
        bound.sort_unstable();
        Ok(bound)
    }

    /// Returns whether a world exports an interface.
    pub fn is_exported(&self, unit: u32, interface: u32) -> bool {
        self.exported.binary_search(&(unit, interface)).is_ok()
    }
}

fn sort(edges: &mut Vec<(u32, u32)>) {
    edges.sort_unstable();
    edges.dedup();
}

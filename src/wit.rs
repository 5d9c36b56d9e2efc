//! Worlds of components as WIT, the language of their types.
//!
//! Needs the feature `wit`.
//!
//! A component contains neither the name of its world nor that of the world's package: here they
//! are `root` and `root:component`, or another one if the component has interfaces of that package.
//! Of an imported interface it contains what is used. A component that is a package of WIT, as
//! `wkg` and `wasm-tools component wit` write and read it, is written as that package.
//!
//! ```
//! use wenc::scope::Definitions;
//! use wenc::wit;
//!
//! // the type of a function, an import of such a function, and an export of it
//! let component = b"\0asm\x0d\0\x01\0\x07\x08\x01\x40\x01\x01n\x79\x01\0\
//!     \x0a\x06\x01\0\x01f\x01\0\x0b\x07\x01\0\x01g\x01\0\0";
//! let definitions = Definitions::new(component, 100)?;
//! let mut text = String::new();
//! wit::world(&definitions, 1 << 20, &mut text, &mut |note| panic!("{note}"))?;
//! assert_eq!(text, "\
//! package root:component;
//!
//! world root {
//!   import f: func(n: u32);
//!   export g: func(n: u32);
//! }
//! ");
//! # Ok::<(), Box<dyn std::error::Error>>(())
//! ```

mod items;
mod map;
mod names;
mod note;
mod types;
mod units;
mod uses;

use crate::scope::{Definition, Definitions, Scope};
use crate::tree::Space;
use alloc::vec::Vec;
use core::fmt::{self, Display, Write};
use map::Map;
use names::{Id, Package};
pub use note::{Note, Why, WitError};
use note::{Stop, note};
use types::{Context, Local};
use units::{Instance, Owner, Unit, exports, imports};
use uses::Uses;

type Written = Result<(), Stop>;

/// Writes the world of a component, with its interfaces, or what a package of WIT contains.
///
/// Needs the feature `wit`.
///
/// Each item is written once it is made. What WIT has no form for is a comment in its place, and
/// `tell` is called with it: unless it is called, the text says all of the world. It is also called
/// for what can't be followed or depends on bytes that can't be read (see
/// [`Definitions::past_faults`]).
///
/// The text has at most `limit` bytes and a last comment, and the number of steps that are taken is
/// at most a quarter of `limit`: a type without a name is written wherever it is used, and an
/// interface without one wherever it is imported, so that a text may be much larger than its
/// component. 16 bytes for each byte of a component, and 1 MiB, suffice for what compilers emit.
///
/// # Errors
///
/// [`WitError::Write`] if `out` fails, and [`WitError::NoMemory`]. The text ends early then; in the
/// second case all braces are closed.
pub fn world(
    definitions: &Definitions<'_>,
    limit: usize,
    out: &mut dyn Write,
    tell: &mut dyn FnMut(Note),
) -> Result<(), WitError> {
    let instances = definitions.instances();
    let root = instances.component();
    let context = Context { unit: 0, is_export: false, interface: None, package: None };
    let mut writer = Writer {
        out,
        tell,
        units: Vec::new(),
        packaged: Map::default(),
        instances: Vec::new(),
        interfaces: Vec::new(),
        numbers: Map::default(),
        exported: Vec::new(),
        owners: [Map::default(), Map::default()],
        ends: Map::default(),
        borrowing: Map::default(),
        uses: Uses::default(),
        failed: [Map::default(), Map::default()],
        is_dry: false,
        local: Local::new(context),
        seen: Vec::new(),
        depth: 0,
        left: limit,
        steps: limit / 4,
    };
    let written = writer.document(root);
    writer.end(written)
}

/// A writer of a component's world.
struct Writer<'s, 'a, 'o> {
    out: &'o mut dyn Write,
    tell: &'o mut dyn FnMut(Note),
    units: Vec<Unit<'s, 'a>>,
    /// The exports that are worlds and interfaces of a package.
    packaged: Map<'s, 'a, ()>,
    /// All instances, those of one interface together, the exported ones first.
    instances: Vec<Instance<'s, 'a>>,
    /// Where the instances of each interface are among them, in the order of their packages.
    interfaces: Vec<(usize, usize)>,
    /// The interface of each import or export of an instance.
    numbers: Map<'s, 'a, u32>,
    /// The worlds with the interfaces that they export, sorted.
    exported: Vec<(u32, u32)>,
    /// Where types of imports, and those of exports, are first named.
    owners: [Map<'s, 'a, Owner<'s, 'a>>; 2],
    /// For types without names, the first with one of those that they are the same as, or the last.
    ends: Map<'s, 'a, Definition<'s, 'a>>,
    /// Whether values of these types have handles that are borrowed.
    borrowing: Map<'s, 'a, bool>,
    uses: Uses,
    /// The types that aren't written, of imports and of exports.
    failed: [Map<'s, 'a, ()>; 2],
    /// Whether nothing is written, to find those.
    is_dry: bool,
    local: Local<'s, 'a>,
    /// The types that were seen when one was looked for.
    seen: Vec<Definition<'s, 'a>>,
    /// The number of open braces.
    depth: usize,
    /// The number of bytes that may be written.
    left: usize,
    /// The number of steps that may be taken.
    steps: usize,
}

/// The number of bytes of a text.
struct Len(usize);

impl Write for Len {
    fn write_str(&mut self, text: &str) -> fmt::Result {
        self.0 = self.0.saturating_add(text.len());
        Ok(())
    }
}

impl<'s, 'a> Writer<'s, 'a, '_> {
    /// Takes a step for what is at this byte offset.
    fn step(&mut self, place: usize) -> Written {
        self.steps = self.steps.checked_sub(1).ok_or(Stop::Limit(place))?;
        Ok(())
    }

    /// Writes a line.
    fn line(&mut self, text: impl Display) -> Written {
        if self.is_dry {
            return Ok(());
        }
        let (indent, mut len) = (2 * self.depth, Len(2 * self.depth + 1));
        write!(len, "{text}").map_err(|_| Stop::Write)?;
        self.left = self.left.checked_sub(len.0).ok_or(Stop::Limit(0))?;
        writeln!(self.out, "{:indent$}{text}", "").map_err(|_| Stop::Write)
    }

    fn open(&mut self, text: impl Display) -> Written {
        self.line(format_args!("{text} {{"))?;
        self.depth += 1;
        Ok(())
    }

    fn close(&mut self) -> Written {
        self.depth -= 1;
        self.line("}").inspect_err(|_| self.depth += 1)
    }

    /// Writes a comment in place of a part that isn't written, and goes on.
    fn part(&mut self, written: Written) -> Written {
        match written {
            Err(Stop::Note(note)) if !self.is_dry => {
                self.line(format_args!("// {note}"))?;
                (self.tell)(note);
                Ok(())
            }
            Err(Stop::Note(_)) => Ok(()),
            written => written,
        }
    }

    /// Ends the text.
    fn end(&mut self, written: Written) -> Result<(), WitError> {
        let ended = match written {
            Ok(()) => return Ok(()),
            Err(Stop::Write) => return Err(WitError::Write),
            Err(Stop::NoMemory) => Err(WitError::NoMemory),
            Err(Stop::Note(note)) => {
                (self.tell)(note);
                Ok(())
            }
            Err(Stop::Limit(place)) => {
                let note = Note { place, why: Why::Limit };
                let indent = 2 * self.depth;
                writeln!(self.out, "{:indent$}// {note}", "").map_err(|_| WitError::Write)?;
                (self.tell)(note);
                Ok(())
            }
        };
        for depth in (0..self.depth).rev() {
            let indent = 2 * depth;
            writeln!(self.out, "{:indent$}}}", "").map_err(|_| WitError::Write)?;
        }
        ended
    }

    /// Finds what the text depends on as a whole.
    fn find_all(&mut self, root: Scope<'s, 'a>) -> Written {
        self.find_units(root)?;
        self.find_instances()?;
        self.find_owners()?;
        self.find_uses()
    }

    fn document(&mut self, root: Scope<'s, 'a>) -> Written {
        if let Err(stop) = self.find_all(root) {
            self.is_dry = false;
            self.line("package root:component;\n")?;
            self.open("world root")?;
            return Err(stop);
        }
        let own = self.units[0].package;
        match own {
            Some(package) => self.line(format_args!("package {package};"))?,
            None => match self.free_number()? {
                0 => self.line("package root:component;")?,
                number => self.line(format_args!("package root:component-n{number};"))?,
            },
        }
        if own.is_some() {
            self.others(root)?;
            self.interfaces_of(own)?;
        }
        for unit in 0..self.units.len() {
            let Unit { package, world, .. } = self.units[unit];
            if let Some(world) = world.filter(|_| package == own) {
                self.world(unit as u32, world)?;
            }
        }
        self.packages(own)
    }

    /// Notes what a package doesn't have.
    fn others(&mut self, root: Scope<'s, 'a>) -> Written {
        for (_, of) in imports(root).chain(exports(root)) {
            if self.packaged.get(of).is_none() {
                self.part(note(of.place(), Why::Kind))?;
            }
        }
        self.unread(root)
    }

    /// Writes the interfaces, and the worlds, of all packages but one.
    fn packages(&mut self, own: Option<Package<'a>>) -> Written {
        let mut at = 0;
        while let Some(&Instance { package: Some(package), .. }) = self.instances.get(at) {
            at += self.instances[at..].partition_point(|of| of.package == Some(package));
            if Some(package) != own {
                self.line("")?;
                self.open(format_args!("package {package}"))?;
                self.interfaces_of(Some(package))?;
                self.close()?;
            }
        }
        Ok(())
    }

    /// Writes the interfaces of a package.
    fn interfaces_of(&mut self, package: Option<Package<'a>>) -> Written {
        let before = |of: &Option<Package<'a>>| of.is_some() && *of < package;
        let at = |&(from, _): &(usize, usize)| self.instances[from].package;
        let from = self.interfaces.partition_point(|of| before(&at(of)));
        let to = self.interfaces.partition_point(|of| before(&at(of)) || at(of) == package);
        for number in from..to {
            let (at, _) = self.interfaces[number];
            if self.depth == 0 {
                self.line("")?;
            }
            self.open(format_args!("interface {}", Id(self.instances[at].name)))?;
            self.interface(number as u32)?;
            self.close()?;
        }
        Ok(())
    }

    /// Writes an interface, without its braces.
    fn interface(&mut self, number: u32) -> Written {
        let (from, to) = self.interfaces[number as usize];
        let local = Local::new(Context::of(&self.instances[from]));
        let outer = core::mem::replace(&mut self.local, local);
        let items = self.items_of(from, to);
        let written = items.and_then(|mut items| self.items(&mut items));
        self.local = outer;
        self.part(written)
    }

    /// Writes a world.
    fn world(&mut self, unit: u32, name: &str) -> Written {
        let Unit { scope, package, .. } = self.units[unit as usize];
        self.line("")?;
        self.open(format_args!("world {}", Id(name)))?;
        self.local = Local::new(Context { unit, is_export: false, interface: None, package });
        let mut items = self.members_of(scope)?;
        let written = self.items(&mut items);
        self.part(written)?;
        self.close()
    }

    /// Notes exports that may be among bytes that can't be read.
    fn unread(&mut self, scope: Scope<'s, 'a>) -> Written {
        match scope.export("", Space::Instances) {
            Err(crate::scope::ScopeFault::Unread { unread, .. }) => {
                self.part(note(unread, Why::Unread))
            }
            _ => Ok(()),
        }
    }
}

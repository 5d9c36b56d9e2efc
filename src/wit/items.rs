//! What interfaces and worlds consist of.

use super::names::{Id, compare, compare_labels, function_of, is_id};
use super::note::{Stop, Why, note};
use super::types::{Context, Found, Path, Text};
use super::units::{Named, exports, imports};
use super::{Writer, Written};
use crate::ComponentSectionId;
use crate::scope::{Definition, Meaning, Scope};
use crate::shim::vec::VecUsing;
use crate::tree::Space;
use crate::view::NameView;
use alloc::string::String;
use alloc::vec::Vec;

/// No item, or no instance.
const NONE: u32 = u32::MAX;

/// An item of an interface, or an import or an export of a world.
#[derive(Clone, Copy)]
pub(super) struct Item<'s, 'a> {
    name: NameView<'a>,
    of: Definition<'s, 'a>,
    /// `import ` or `export ` in a world.
    way: &'static str,
    /// The instance that exports it.
    instance: u32,
    /// The first item of the same name, and the next one.
    first: u32,
    next: u32,
    /// Whether it is a resource of its own.
    is_resource: bool,
    /// Whether it is written, or won't be.
    is_done: bool,
}

/// All items.
pub(super) struct Items<'s, 'a> {
    all: Vec<Item<'s, 'a>>,
    /// The functions of resources by the names of these, sorted.
    functions: Vec<(&'a str, u32)>,
}

impl<'s, 'a> Items<'s, 'a> {
    fn new() -> Self {
        Self { all: Vec::new(), functions: Vec::new() }
    }

    fn push(&mut self, way: &'static str, instance: u32, (name, of): Named<'s, 'a>) -> Written {
        let number = u32::try_from(self.all.len()).or(Err(Stop::NoMemory))?;
        let (first, next) = (number, NONE);
        if let (Some((resource, _)), Some(Space::Funcs)) = (function_of(name.name), of.space()) {
            self.functions.push_using((resource, number))?;
        }
        let (is_resource, is_done) = (false, false);
        let item = Item { name, of, way, instance, first, next, is_resource, is_done };
        Ok(self.all.push_using(item)?)
    }

    /// Links the items of one name.
    fn link(&mut self) -> Written {
        self.functions.sort_unstable();
        let mut sorted = Vec::new();
        for number in 0..self.all.len() as u32 {
            sorted.push_using(number)?;
        }
        let is_export = |item: &Item| item.way == "export ";
        let order = |of: u32, other: u32| {
            let (item, next) = (&self.all[of as usize], &self.all[other as usize]);
            let ways = is_export(item).cmp(&is_export(next));
            ways.then_with(|| compare_labels(item.name.name, next.name.name))
        };
        sorted.sort_unstable_by(|of, other| order(*of, *other).then(of.cmp(other)));
        let mut links = Vec::new();
        for pair in sorted.windows(2) {
            if order(pair[0], pair[1]).is_eq() {
                links.push_using((pair[0], pair[1]))?;
            }
        }
        for (before, number) in links {
            self.all[number as usize].first = self.all[before as usize].first;
            self.all[before as usize].next = number;
        }
        Ok(())
    }

    /// Returns the next item of this one's name in another instance, which is done then.
    fn twin(&mut self, number: usize, next: &mut u32) -> Option<Item<'s, 'a>> {
        let Item { name, instance, .. } = self.all[number];
        loop {
            *next = self.all[*next as usize].next;
            let twin = self.all.get_mut(*next as usize)?;
            if twin.name.name == name.name && twin.instance != instance {
                twin.is_done = true;
                return Some(*twin);
            }
        }
    }

    /// Returns the functions of a resource.
    fn of(&self, resource: &str) -> &[(&'a str, u32)] {
        let from = self.functions.partition_point(|(name, _)| *name < resource);
        let to = self.functions.partition_point(|(name, _)| *name <= resource);
        &self.functions[from..to]
    }
}

impl<'s, 'a> Writer<'s, 'a, '_> {
    /// Returns what the instances of an interface export.
    pub fn items_of(&mut self, from: usize, to: usize) -> Result<Items<'s, 'a>, Stop> {
        let mut items = Items::new();
        for at in from..to {
            let of = self.instances[at].of;
            let scope = match of.exports() {
                Ok(Some(scope)) => scope,
                Ok(None) => {
                    self.part(note(of.place(), Why::Instance))?;
                    continue;
                }
                Err(fault) => {
                    self.part(Err(fault.into()))?;
                    continue;
                }
            };
            for named in exports(scope) {
                self.step(named.1.place())?;
                items.push("", at as u32, named)?;
            }
            self.unread(scope)?;
        }
        items.link()?;
        Ok(items)
    }

    /// Returns what a world imports and exports.
    pub fn members_of(&mut self, scope: Scope<'s, 'a>) -> Result<Items<'s, 'a>, Stop> {
        let mut items = Items::new();
        imports(scope).try_for_each(|named| items.push("import ", NONE, named))?;
        exports(scope).try_for_each(|named| items.push("export ", NONE, named))?;
        items.link()?;
        for of in scope.definitions() {
            let Meaning::Unread { section, .. } = of.meaning() else { continue };
            if section == Some(ComponentSectionId::Import) {
                self.part(note(of.place(), Why::Unread))?;
            }
        }
        self.unread(scope)?;
        Ok(items)
    }

    /// Writes all items: types, then resources with their functions, then the rest. So each name of
    /// a type that is written is there when it is used.
    pub fn items(&mut self, items: &mut Items<'s, 'a>) -> Written {
        self.types(items)?;
        for number in 0..items.all.len() {
            if items.all[number].is_resource {
                self.functions(items, number)?;
            }
        }
        for number in 0..items.all.len() {
            if !items.all[number].is_done {
                self.item(items, number)?;
            }
        }
        Ok(())
    }

    /// Writes types, and gives resources their names.
    pub fn types(&mut self, items: &mut Items<'s, 'a>) -> Written {
        for number in 0..items.all.len() {
            let item = &items.all[number];
            self.step(item.of.place())?;
            if item.of.space() == Some(Space::Types) && item.way != "export " {
                let written = self.resource(items, number);
                self.part(written)?;
            }
        }
        for number in 0..items.all.len() {
            let item = &items.all[number];
            if item.of.space() == Some(Space::Types) && !item.is_done && !item.is_resource {
                self.item(items, number)?;
            }
        }
        Ok(())
    }

    /// Sets which instance is being written: that of this item.
    fn at(&mut self, item: &Item<'s, 'a>) {
        if let Some(instance) = self.instances.get(item.instance as usize) {
            self.local.context = Context::of(instance);
        }
    }

    /// Gives a resource of the interface or the world its name, before it is written.
    fn resource(&mut self, items: &mut Items<'s, 'a>, number: usize) -> Written {
        let Item { name, of, first, .. } = items.all[number];
        if first as usize != number || !is_id(name.name) {
            return Ok(());
        }
        self.at(&items.all[number]);
        match self.own_resource(name.name, of) {
            Ok(false) => Ok(()),
            Ok(true) => {
                items.all[number].is_resource = true;
                self.same_resources(items, number)
            }
            Err(Stop::Note(why)) => {
                items.all[number].is_done = true;
                self.fail(of)?;
                let mut next = number as u32;
                while let Some(twin) = items.twin(number, &mut next) {
                    self.at(&twin);
                    self.fail(twin.of)?;
                }
                Err(Stop::Note(why))
            }
            Err(stop) => Err(stop),
        }
    }

    /// Gives a resource its name in the other instances of its interface, too.
    fn same_resources(&mut self, items: &mut Items<'s, 'a>, number: usize) -> Written {
        let (name, mut next) = (items.all[number].name.name, number as u32);
        while let Some(twin) = items.twin(number, &mut next) {
            self.at(&twin);
            let is_same = match self.find(twin.of, true)? {
                Found::Name(other) => other == name.into(),
                _ => match self.own_resource(name, twin.of) {
                    Ok(is_own) => is_own,
                    Err(Stop::Note(_)) => false,
                    Err(stop) => return Err(stop),
                },
            };
            if !is_same {
                self.differs(&twin)?;
            }
        }
        Ok(())
    }

    /// Writes an item, unless it is there already.
    fn item(&mut self, items: &mut Items<'s, 'a>, number: usize) -> Written {
        let item = &mut items.all[number];
        item.is_done = true;
        let item = &items.all[number];
        if item.first as usize != number {
            self.at(item);
            self.fail(item.of)?;
            return self.part(note(item.of.place(), Why::Taken));
        }
        self.extras(item)?;
        if item.of.space() == Some(Space::Instances) && !item.way.is_empty() {
            let written = self.instance(item);
            return self.part(written);
        }
        let mut text = Text::default();
        let written = self.put(&mut text, item);
        self.end_item(items, number, (text, written), Self::put)
    }

    /// Writes the text of an item, after comparing it with that of other instances.
    fn end_item(
        &mut self,
        items: &mut Items<'s, 'a>,
        number: usize,
        (text, written): (Text, Written),
        put: fn(&mut Self, &mut Text, &Item<'s, 'a>) -> Written,
    ) -> Written {
        let is_written = written.is_ok();
        self.part(written)?;
        let Item { of, name, .. } = items.all[number];
        match (is_written, of.space()) {
            (true, Some(Space::Types)) => self.keep(name.name.into())?,
            (true, _) => {}
            (false, _) => self.fail(of)?,
        }
        let mut next = number as u32;
        while let Some(twin) = items.twin(number, &mut next) {
            self.at(&twin);
            if !is_written {
                self.fail(twin.of)?;
                continue;
            }
            let mut other = Text::default();
            let is_same = match put(self, &mut other, &twin) {
                Ok(()) if twin.of.space() != of.space() => false,
                Ok(()) => other.text == text.text || other.is_name(twin.name.name),
                Err(Stop::Note(_)) => false,
                Err(stop) => return Err(stop),
            };
            match is_same {
                true if of.space() == Some(Space::Types) => self.keep(name.name.into())?,
                true => {}
                false => self.differs(&twin)?,
            }
        }
        if is_written { self.line(&text.text) } else { Ok(()) }
    }

    /// Notes that an item isn't as in another instance of its interface.
    fn differs(&mut self, twin: &Item<'s, 'a>) -> Written {
        self.at(twin);
        self.fail(twin.of)?;
        self.part(note(twin.of.place(), Why::Differs))
    }

    /// Notes what is said of a name that WIT has no form for.
    fn extras(&mut self, item: &Item<'s, 'a>) -> Written {
        if item.name.implements.is_some() {
            self.part(note(item.of.place(), Why::Implements))?;
        }
        if item.name.external_id.is_some() {
            self.part(note(item.of.place(), Why::ExternalId))?;
        }
        Ok(())
    }

    /// Writes an instance that a world imports or exports.
    fn instance(&mut self, item: &Item<'s, 'a>) -> Written {
        let Some(number) = self.numbers.get(item.of) else { return Ok(()) };
        let way = item.way;
        match self.named_interface(number) {
            Some((package, name)) if self.local.context.package == Some(package) => {
                self.line(format_args!("{way}{};", Id(name)))
            }
            Some((package, name)) => self.line(format_args!("{way}{};", Path(package, name))),
            None if !is_id(item.name.name) => note(item.of.place(), Why::Name),
            None => {
                self.open(format_args!("{way}{}: interface", Id(item.name.name)))?;
                self.interface(number)?;
                self.close()
            }
        }
    }

    /// Appends a type or a function.
    fn put(&mut self, text: &mut Text, item: &Item<'s, 'a>) -> Written {
        let (name, place) = (item.name.name, item.of.place());
        self.at(item);
        match item.of.space() {
            Some(Space::Types) if item.way != "export " => {
                if !is_id(name) {
                    return note(place, Why::Name);
                }
                self.named_type(text, name, item.of)
            }
            Some(Space::Funcs) if name.starts_with('[') => note(place, Why::Orphan),
            Some(Space::Funcs) => {
                text.put(format_args!("{}", item.way))?;
                text.id(place, name)?;
                text.put(format_args!(": "))?;
                let signature = self.signature(text, item.of, None)?;
                self.result(text, &signature)?;
                text.put(format_args!(";"))
            }
            _ if item.way.is_empty() => note(place, Why::ExportKind),
            _ => note(place, Why::Kind),
        }
    }

    /// Writes a resource with its functions.
    fn functions(&mut self, items: &mut Items<'s, 'a>, number: usize) -> Written {
        let item = &mut items.all[number];
        item.is_done = true;
        let (name, way) = (item.name.name, item.way);
        self.extras(&items.all[number])?;
        let mut all = Vec::new();
        for &(_, function) in items.of(name) {
            if items.all[function as usize].way == way {
                all.push_using(function as usize)?;
            }
        }
        if all.is_empty() {
            return self.line(format_args!("resource {};", Id(name)));
        }
        self.use_of(items, &all)?;
        self.open(format_args!("resource {}", Id(name)))?;
        for function in all {
            let item = &mut items.all[function];
            if core::mem::replace(&mut item.is_done, true) {
                continue;
            }
            if item.first as usize != function {
                self.part(note(item.of.place(), Why::Taken))?;
                continue;
            }
            let item = &items.all[function];
            self.extras(item)?;
            let mut text = Text::default();
            let written = self.put_function(&mut text, item);
            self.end_item(items, function, (text, written), Self::put_function)?;
        }
        self.close()
    }

    /// Writes what functions of a resource use in a world, before the resource.
    fn use_of(&mut self, items: &Items<'s, 'a>, functions: &[usize]) -> Written {
        if self.local.context.interface.is_some() {
            return Ok(());
        }
        for &function in functions {
            match self.put_function(&mut Text::default(), &items.all[function]) {
                Ok(()) | Err(Stop::Note(_)) => {}
                Err(stop) => return Err(stop),
            }
        }
        Ok(())
    }

    /// Appends a function of a resource.
    fn put_function(&mut self, text: &mut Text, item: &Item<'s, 'a>) -> Written {
        let place = item.of.place();
        self.at(item);
        let Some((resource, name)) = function_of(item.name.name) else {
            return note(place, Why::FunctionKind);
        };
        let kind = item.name.name.split(']').next().unwrap_or_default();
        if kind == "[constructor" {
            return self.constructor(text, item, resource);
        }
        if !matches!(kind, "[method" | "[static") {
            return note(place, Why::FunctionKind);
        }
        text.id(place, name)?;
        if compare(name, resource).is_eq() {
            return note(place, Why::Taken);
        }
        text.put(format_args!(": "))?;
        if kind == "[static" {
            text.put(format_args!("static "))?;
        }
        let mut receiver = String::new();
        Text::name(&mut receiver, resource)?;
        let receiver = (kind == "[method").then_some(&*receiver);
        let signature = self.signature(text, item.of, receiver)?;
        self.result(text, &signature)?;
        text.put(format_args!(";"))
    }

    /// Appends a constructor, whose result isn't written if it is its resource.
    fn constructor(&mut self, text: &mut Text, item: &Item<'s, 'a>, resource: &str) -> Written {
        let place = item.of.place();
        let mut id = String::new();
        Text::name(&mut id, resource)?;
        text.put(format_args!("constructor"))?;
        let start = text.text.len();
        let signature = self.signature(text, item.of, None)?;
        if signature.is_async {
            return note(place, Why::AsyncConstructor);
        }
        // without `func`
        text.text.drain(start..start + "func".len());
        let end = text.text.len();
        self.result(text, &signature)?;
        let result = text.text[end..].strip_prefix(" -> ");
        let begins = |result: &str| {
            let rest = result.strip_prefix("result<").and_then(|rest| rest.strip_prefix(&*id));
            rest.is_some_and(|rest| rest.starts_with([',', '>']))
        };
        match result {
            Some(result) if result == id => text.text.truncate(end),
            Some(result) if begins(result) => {}
            _ => return note(place, Why::Constructor),
        }
        text.put(format_args!(";"))
    }
}

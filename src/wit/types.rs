//! Types as WIT.

use super::names::{Id, Package, TypeName, compare, is_id};
use super::note::{Stop, Why, note};
use super::units::{Instance, Owner};
use super::{Map, Writer, Written};
use crate::scope::{Definition, Meaning, Scope};
use crate::shim::string::StringUsing;
use crate::shim::vec::VecUsing;
use crate::tree::Space;
use crate::view::{CaseView, DefinedView, ItemView, ListOf, TypeView};
use crate::{ComponentTypeRef, ComponentValType as Val, PrimitiveValType, TypeBounds};
use alloc::string::String;
use alloc::vec::Vec;
use core::fmt;

/// The maximum nesting depth of types without names.
const DEPTH: usize = 100;

/// The maximum number of bytes of a type: a type without a name is written wherever it is used.
const LENGTH: usize = 1 << 16;

/// The interface, or the world, that is being written.
#[derive(Clone, Copy)]
pub(super) struct Context<'a> {
    pub unit: u32,
    /// Whether it is an instance that is exported.
    pub is_export: bool,
    /// The interface; `None` for the world.
    pub interface: Option<u32>,
    pub package: Option<Package<'a>>,
}

impl<'a> Context<'a> {
    pub fn of(instance: &Instance<'_, 'a>) -> Self {
        let &Instance { unit, is_export, interface, package, .. } = instance;
        Self { unit, is_export, interface: Some(interface), package }
    }
}

/// What has a name in the interface, or in the world, that is being written.
pub(super) struct Local<'s, 'a> {
    pub context: Context<'a>,
    pub types: Map<'s, 'a, TypeName<'a>>,
    /// Names that types of interfaces can't have here, once one is used without a name.
    taken: Option<Vec<(&'a str, u32)>>,
    /// How many were used under other names.
    renamed: u32,
}

impl<'a> Local<'_, 'a> {
    pub fn new(context: Context<'a>) -> Self {
        Self { context, types: Map::default(), taken: None, renamed: 0 }
    }
}

/// A type that was looked for.
pub(super) enum Found<'s, 'a> {
    /// It has this name here.
    Name(TypeName<'a>),
    /// It has this name in another interface, which is written elsewhere.
    Use(Owner<'s, 'a>),
    /// It has none, and is this in the end.
    Last(Definition<'s, 'a>),
}

/// A text that is written whole or not at all.
#[derive(Default)]
pub(super) struct Text {
    pub text: String,
    depth: usize,
    /// Where the type begins that is being written.
    start: usize,
}

impl Text {
    pub fn put(&mut self, text: fmt::Arguments<'_>) -> Written {
        Ok(self.text.write_fmt(text)?)
    }

    /// Appends a name to a text of names.
    pub fn name(text: &mut String, name: &str) -> Written {
        Ok(text.write_fmt(format_args!("{}", Id(name)))?)
    }

    /// Returns whether it is a type that has this name already.
    pub fn is_name(&self, name: &str) -> bool {
        let rest = self.text.strip_prefix("type ").and_then(|rest| rest.strip_suffix(';'));
        let equal = rest.and_then(|rest| rest.split_once(" = "));
        equal.is_some_and(|(left, right)| left == right && right.trim_start_matches('%') == name)
    }

    /// Appends a name.
    pub fn id(&mut self, place: usize, name: &str) -> Written {
        if !is_id(name) {
            return note(place, Why::Name);
        }
        self.put(format_args!("{}", Id(name)))
    }
}

pub(super) fn is_resource(of: Definition<'_, '_>) -> bool {
    match (of.meaning(), of.meaning().type_ref()) {
        (Meaning::Item(ItemView::Type(TypeView::Resource { .. })), _) => true,
        (_, ty) => matches!(ty, Some(ComponentTypeRef::Type(TypeBounds::SubResource))),
    }
}

/// Returns the type of values that a definition is.
fn defined<'a>(of: Definition<'_, 'a>) -> Option<DefinedView<'a>> {
    match of.meaning() {
        Meaning::Item(ItemView::Type(TypeView::Defined(defined))) => Some(defined),
        _ => None,
    }
}

impl<'s, 'a> Writer<'s, 'a, '_> {
    /// Returns the first definition, from this one on, of those that it is the same as, that has a
    /// name anywhere, or else the last one.
    fn next_named(&mut self, of: Definition<'s, 'a>) -> Result<Definition<'s, 'a>, Stop> {
        let (mut at, mut seen) = (of, Vec::new());
        let found = loop {
            if self.owners.iter().any(|owners| owners.get(at).is_some()) {
                break at;
            }
            if let Some(found) = self.ends.get(at) {
                break found;
            }
            self.step(of.place())?;
            let Some(target) = at.target()? else { break at };
            seen.push_using(at)?;
            at = target;
        };
        for of in seen {
            self.ends.insert(of, found)?;
        }
        Ok(found)
    }

    /// Looks a type up by its name here; that of a type that has one, by its name in another
    /// interface, or else.
    pub fn find(&mut self, of: Definition<'s, 'a>, is_named: bool) -> Result<Found<'s, 'a>, Stop> {
        self.seen.clear();
        let mut at = if is_named { of } else { self.next_named(of)? };
        let in_interface = self.local.context.interface.is_some();
        loop {
            self.step(of.place())?;
            if let Some(name) = self.local.types.get(at) {
                return Ok(Found::Name(name));
            }
            self.seen.push_using(at)?;
            if is_named || !in_interface {
                if let Some(owner) = self.used(at) {
                    return Ok(Found::Use(owner));
                }
            }
            match at.target()? {
                Some(target) => at = self.next_named(target)?,
                None => return Ok(Found::Last(at)),
            }
        }
    }

    /// Returns where a type has a name in another interface, if it can be used from there.
    fn used(&self, of: Definition<'s, 'a>) -> Option<Owner<'s, 'a>> {
        let Context { unit, is_export, interface, .. } = self.local.context;
        let is_other = |owner: &Owner<'s, 'a>| {
            let is_own = owner.interface == interface || owner.unit != unit;
            !is_own && owner.interface.is_some_and(|of| self.named_interface(of).is_some())
        };
        let imported = self.owners[0].get(of).filter(|owner| {
            let is_exported = owner.interface.is_some_and(|of| self.is_exported(unit, of));
            is_other(owner) && !(is_export && is_exported)
        });
        let exported = || self.owners[1].get(of).filter(|owner| is_export && is_other(owner));
        imported.or_else(exported)
    }

    /// Appends that a type of another interface is used under this name, for what is at this
    /// byte offset.
    fn use_type(
        &mut self,
        text: &mut Text,
        (of, place): (&Owner<'s, 'a>, usize),
        name: TypeName<'a>,
    ) -> Written {
        let original = of.name;
        let named = of.interface.and_then(|of| Some((of, self.named_interface(of)?)));
        let Some((number, (package, interface))) = named else { return Ok(()) };
        let Context { unit, interface: user, .. } = self.local.context;
        let is_exported = user.is_some_and(|user| self.is_exported(unit, user));
        let is_allowed = self.uses.allow(unit, (user, is_exported), number);
        if !is_allowed || self.failed[usize::from(of.is_export)].get(of.of).is_some() {
            return note(place, Why::Dependency);
        }
        // a package doesn't name itself
        if self.local.context.package == Some(package) {
            text.put(format_args!("use {}", Id(interface)))?;
        } else {
            text.put(format_args!("use {}", Path(package, interface)))?;
        }
        text.put(format_args!(".{{{}", Id(original)))?;
        if name != original.into() {
            text.put(format_args!(" as {name}"))?;
        }
        text.put(format_args!("}};"))
    }

    /// Keeps that a type of an interface isn't written, so that no other one uses it.
    pub fn fail(&mut self, of: Definition<'s, 'a>) -> Written {
        let Context { interface, is_export, .. } = self.local.context;
        let side = usize::from(is_export);
        match self.owners[side].get(of) {
            Some(owner) if owner.interface == interface => self.failed[side].insert(owner.of, ()),
            _ => Ok(()),
        }
    }

    /// Gives all that were seen when a type was looked for this name.
    pub fn keep(&mut self, name: TypeName<'a>) -> Written {
        for at in 0..self.seen.len() {
            self.local.types.insert(self.seen[at], name)?;
        }
        Ok(())
    }

    /// Uses a type of an interface in the world, under a name that isn't there.
    fn use_in_world(&mut self, of: &Owner<'s, 'a>, place: usize) -> Result<TypeName<'a>, Stop> {
        let original = of.name;
        self.seen.push_using(of.of)?;
        if let Some(name) = self.local.types.get(of.of) {
            self.keep(name)?;
            return Ok(name);
        }
        let taken = match self.local.taken.take() {
            Some(taken) => taken,
            None => self.taken_names(self.units[self.local.context.unit as usize].scope)?,
        };
        let from = |name: &str| taken.partition_point(|(of, _)| compare(of, name).is_lt());
        let is = |at: usize, name: &str| {
            taken.get(at).is_some_and(|(other, _)| compare(other, name).is_eq())
        };
        let at = from(original);
        let mut name = TypeName::from(original);
        if is(at, original) && is(at + 1, original) {
            let mut text = String::new();
            loop {
                self.local.renamed += 1;
                name.number = self.local.renamed;
                text.clear();
                text.write_fmt(format_args!("{original}-n{}", name.number))?;
                if !is(from(&text), &text) {
                    break;
                }
            }
        }
        self.local.taken = Some(taken);
        let mut line = Text::default();
        self.use_type(&mut line, (of, place), name)?;
        self.keep(name)?;
        self.line(&line.text)?;
        Ok(name)
    }

    /// Appends a type with a name, other than a resource. What was seen is the same as it.
    pub fn named_type(
        &mut self,
        text: &mut Text,
        name: &'a str,
        of: Definition<'s, 'a>,
    ) -> Written {
        match self.find(of, true)? {
            Found::Name(other) => text.put(format_args!("type {} = {other};", Id(name))),
            Found::Use(owner) => self.use_type(text, (&owner, of.place()), name.into()),
            Found::Last(last) => {
                let seen = core::mem::take(&mut self.seen);
                let written = self.defined_type(text, name, last);
                self.seen = seen;
                written
            }
        }
    }

    /// Returns whether a type is a resource of the interface that is being written, and gives it
    /// its name.
    pub fn own_resource(&mut self, name: &'a str, of: Definition<'s, 'a>) -> Result<bool, Stop> {
        let Found::Last(last) = self.find(of, true)? else { return Ok(false) };
        if !is_resource(last) {
            return Ok(false);
        }
        let Context { interface, is_export, .. } = self.local.context;
        let [imported, exported] = [0, 1].map(|side| self.owners[side].get(last));
        let is_own = |owner: Option<Owner>| owner.is_none_or(|owner| owner.interface == interface);
        if !is_own(imported) || is_export && !is_own(exported) {
            let known = imported.or(exported).and_then(|owner| owner.interface);
            return match known.and_then(|of| self.named_interface(of)) {
                Some(_) => note(of.place(), Why::Dependency),
                None => note(of.place(), Why::Nameless),
            };
        }
        if is_export && (imported.is_some() || of_import(last)) {
            return note(of.place(), Why::Reexported);
        }
        self.keep(name.into())?;
        Ok(true)
    }

    /// Appends the definition of a type with this name.
    fn defined_type(&mut self, text: &mut Text, name: &'a str, ty: Definition<'s, 'a>) -> Written {
        let (scope, place) = (ty.scope(), ty.place());
        let Some(defined) = defined(ty) else { return note(place, Why::TypeKind) };
        match defined {
            DefinedView::Record(fields) => {
                self.distinct(place, fields.map(|(name, _)| name))?;
                self.members(text, ("record", name, place), fields, |writer, text, field| {
                    text.id(place, field.0)?;
                    text.put(format_args!(": "))?;
                    writer.value(text, scope, field.1)
                })
            }
            DefinedView::Variant(cases) => {
                self.distinct(place, cases.map(|case| case.name))?;
                self.members(text, ("variant", name, place), cases, |writer, text, case| {
                    let CaseView { name, ty, .. } = case;
                    text.id(place, name)?;
                    let Some(payload) = ty else { return Ok(()) };
                    text.put(format_args!("("))?;
                    writer.value(text, scope, payload)?;
                    text.put(format_args!(")"))
                })
            }
            DefinedView::Flags(names) if names.len() > 32 => note(place, Why::Flags),
            DefinedView::Flags(names) => self.names(text, ("flags", name, place), names),
            DefinedView::Enum(names) => self.names(text, ("enum", name, place), names),
            DefinedView::Own(index) => {
                text.put(format_args!("type {} = own<", Id(name)))?;
                self.index(text, scope, index)?;
                text.put(format_args!(">;"))
            }
            _ => {
                text.put(format_args!("type {} = ", Id(name)))?;
                text.start = text.text.len();
                self.unnamed(text, ty, defined)?;
                text.put(format_args!(";"))
            }
        }
    }

    /// Appends a type by the names of its members.
    fn names(
        &mut self,
        text: &mut Text,
        (kind, name, place): (&str, &str, usize),
        names: ListOf<'a, &'a str>,
    ) -> Written {
        self.distinct(place, names)?;
        let id = |_: &mut Self, text: &mut Text, name: &str| text.id(place, name);
        self.members(text, (kind, name, place), names, id)
    }

    /// Appends a type by its members.
    fn members<T>(
        &mut self,
        text: &mut Text,
        (kind, name, place): (&str, &str, usize),
        members: impl ExactSizeIterator<Item = T>,
        write: impl Fn(&mut Self, &mut Text, T) -> Written,
    ) -> Written {
        if members.len() == 0 {
            return note(place, Why::Empty);
        }
        let indent = 2 * self.depth;
        text.put(format_args!("{kind} {} {{\n", Id(name)))?;
        for member in members {
            text.put(format_args!("{:indent$}  ", ""))?;
            text.start = text.text.len();
            write(self, text, member)?;
            text.put(format_args!(",\n"))?;
        }
        text.put(format_args!("{:indent$}}}", ""))
    }

    /// Refuses names of which two differ by capital letters alone.
    pub fn distinct(&mut self, place: usize, names: impl Iterator<Item = &'a str>) -> Written {
        let mut all = Vec::new();
        for name in names {
            all.push_using(name)?;
        }
        all.sort_unstable_by(|name, other| compare(name, other));
        match all.windows(2).any(|pair| compare(pair[0], pair[1]).is_eq()) {
            true => note(place, Why::Taken),
            false => Ok(()),
        }
    }

    /// Appends a type of values, in this scope.
    pub fn value(&mut self, text: &mut Text, scope: Scope<'s, 'a>, ty: Val) -> Written {
        match ty {
            Val::Primitive(ty) => text.put(format_args!("{ty}")),
            Val::Type(index) => self.index(text, scope, index),
        }
    }

    /// Appends a type by its name, or else as it is defined.
    fn index(&mut self, text: &mut Text, scope: Scope<'s, 'a>, index: u32) -> Written {
        let of = scope.get(Space::Types, index)?;
        let ty = match self.find(of, false)? {
            Found::Name(name) => return text.put(format_args!("{name}")),
            Found::Use(owner) => {
                let name = self.use_in_world(&owner, of.place())?;
                return text.put(format_args!("{name}"));
            }
            Found::Last(ty) => ty,
        };
        if text.depth == DEPTH || text.text.len() - text.start > LENGTH {
            return note(ty.place(), Why::Large);
        }
        let Some(defined) = defined(ty) else { return note(ty.place(), Why::Unnamed) };
        text.depth += 1;
        let written = self.unnamed(text, ty, defined);
        text.depth -= 1;
        written
    }

    /// Appends the definition of a type that needs no name.
    fn unnamed(&mut self, text: &mut Text, of: Definition<'s, 'a>, ty: DefinedView<'a>) -> Written {
        let scope = of.scope();
        if let Some(why) = refusal(scope, ty)? {
            return note(of.place(), why);
        }
        let (name, types) = match ty {
            DefinedView::Primitive(ty) => return text.put(format_args!("{ty}")),
            DefinedView::Tuple(types) => {
                text.put(format_args!("tuple"))?;
                return self.arguments(text, scope, types.map(Some));
            }
            DefinedView::List(ty) => ("list", [Some(ty), None]),
            DefinedView::FixedLengthList { element, length } => {
                text.put(format_args!("list<"))?;
                self.value(text, scope, element)?;
                return text.put(format_args!(", {length}>"));
            }
            // keys have no other names
            DefinedView::Map { key, value } => {
                ("map", [primitive(scope, key)?.map(Val::from), Some(value)])
            }
            DefinedView::Option(ty) => ("option", [Some(ty), None]),
            DefinedView::Result { ok, err } => ("result", [ok, err]),
            DefinedView::Own(index) => return self.index(text, scope, index),
            DefinedView::Borrow(index) => ("borrow", [Some(Val::Type(index)), None]),
            DefinedView::Future(ty) => ("future", [ty, None]),
            DefinedView::Stream(ty) => ("stream", [ty, None]),
            DefinedView::Record(_)
            | DefinedView::Variant(_)
            | DefinedView::Flags(_)
            | DefinedView::Enum(_) => return note(of.place(), Why::Unnamed),
        };
        text.put(format_args!("{name}"))?;
        // those that are absent are left out if none follows them
        match types.iter().rposition(Option::is_some) {
            Some(last) => self.arguments(text, scope, types.into_iter().take(last + 1)),
            None => Ok(()),
        }
    }

    /// Appends the arguments of a type: `_` for those that are absent.
    fn arguments(
        &mut self,
        text: &mut Text,
        scope: Scope<'s, 'a>,
        types: impl Iterator<Item = Option<Val>>,
    ) -> Written {
        let mut lead = "<";
        for ty in types {
            text.put(format_args!("{lead}"))?;
            lead = ", ";
            match ty {
                Some(ty) => self.value(text, scope, ty)?,
                None => text.put(format_args!("_"))?,
            }
        }
        text.put(format_args!(">"))
    }

    /// Appends a function's type, but for its result. Of a method the first parameter has to be
    /// `self`, a handle to this resource that is borrowed, which isn't written.
    pub fn signature(
        &mut self,
        text: &mut Text,
        of: Definition<'s, 'a>,
        receiver: Option<&str>,
    ) -> Result<Signature<'s, 'a>, Stop> {
        let Some(ty) = of.ty()? else { return note(of.place(), Why::Untyped) };
        let Meaning::Item(ItemView::Type(TypeView::Func { is_async, params, result })) =
            ty.meaning()
        else {
            return note(ty.place(), Why::NotFunction);
        };
        self.distinct(ty.place(), params.map(|(name, _)| name))?;
        text.put(format_args!("{}func(", if is_async { "async " } else { "" }))?;
        let has_receiver = self.parameters(text, ty, params, receiver)?;
        if !has_receiver {
            return note(of.place(), Why::Receiver);
        }
        text.put(format_args!(")"))?;
        let scope = ty.scope();
        match result {
            Some(Val::Type(index)) if self.borrows(scope.get(Space::Types, index)?)? => {
                note(of.place(), Why::Borrowed)
            }
            result => Ok(Signature { is_async, result: result.map(|result| (scope, result)) }),
        }
    }

    /// Appends the parameters of a function's type. Returns whether the first is of this receiver.
    fn parameters(
        &mut self,
        text: &mut Text,
        ty: Definition<'s, 'a>,
        params: ListOf<'a, (&'a str, Val)>,
        mut receiver: Option<&str>,
    ) -> Result<bool, Stop> {
        let mut lead = "";
        for (name, param) in params {
            let start = text.text.len();
            text.put(format_args!("{lead}"))?;
            text.id(ty.place(), name)?;
            text.put(format_args!(": "))?;
            text.start = text.text.len();
            self.value(text, ty.scope(), param)?;
            let Some(resource) = receiver.take() else {
                lead = ", ";
                continue;
            };
            let handle = text.text[start..].strip_prefix("self: borrow<");
            if handle.and_then(|of| of.strip_suffix('>')) != Some(resource) {
                return Ok(false);
            }
            text.text.truncate(start);
        }
        Ok(receiver.is_none())
    }

    /// Appends a result with an arrow before it.
    pub fn result(&mut self, text: &mut Text, of: &Signature<'s, 'a>) -> Written {
        let Some((scope, result)) = of.result else { return Ok(()) };
        text.put(format_args!(" -> "))?;
        text.start = text.text.len();
        self.value(text, scope, result)
    }

    /// Returns whether a value of this type has a handle that is borrowed.
    fn borrows(&mut self, of: Definition<'s, 'a>) -> Result<bool, Stop> {
        let (root, mut todo) = (of.resolve()?, Vec::new());
        todo.push_using((root, false))?;
        while let Some((of, is_done)) = todo.pop() {
            if self.borrowing.get(of).is_some() {
                continue;
            }
            self.step(of.place())?;
            let Some(defined) = defined(of) else { continue };
            let mut is_borrowing = matches!(defined, DefinedView::Borrow(_));
            if !is_done && !is_borrowing {
                todo.push_using((of, true))?;
            }
            let (scope, mut all) = (of.scope(), Ok(()));
            each_type(&defined, &mut |index| {
                if is_borrowing || all.is_err() {
                    return;
                }
                let part = scope.resolve(Space::Types, index).map_err(Stop::from);
                all = part.and_then(|part| match self.borrowing.get(part) {
                    Some(borrows) => {
                        is_borrowing = borrows;
                        Ok(())
                    }
                    None if is_done => Ok(()),
                    None => Ok(todo.push_using((part, false))?),
                });
            });
            all?;
            if is_done || is_borrowing {
                self.borrowing.insert(of, is_borrowing)?;
            }
        }
        Ok(self.borrowing.get(root).unwrap_or_default())
    }
}

/// A function's type, without its parameters.
pub(super) struct Signature<'s, 'a> {
    pub is_async: bool,
    pub result: Option<(Scope<'s, 'a>, Val)>,
}

/// The whole name of an interface.
pub(super) struct Path<'a>(pub Package<'a>, pub &'a str);

impl fmt::Display for Path<'_> {
    fn fmt(&self, f: &mut fmt::Formatter<'_>) -> fmt::Result {
        let Self(package, interface) = self;
        write!(f, "{}:{}/{}", Id(package.namespace), Id(package.name), Id(interface))?;
        package.put_version(f)
    }
}

/// Calls a function with the index of each type in a type of values.
fn each_type(ty: &DefinedView<'_>, visit: &mut dyn FnMut(u32)) {
    let mut value = |ty: Option<Val>| {
        if let Some(Val::Type(index)) = ty {
            visit(index);
        }
    };
    match *ty {
        DefinedView::Record(fields) => fields.for_each(|(_, ty)| value(Some(ty))),
        DefinedView::Variant(cases) => cases.for_each(|case| value(case.ty)),
        DefinedView::Tuple(types) => types.for_each(|ty| value(Some(ty))),
        DefinedView::List(ty)
        | DefinedView::Option(ty)
        | DefinedView::FixedLengthList { element: ty, .. } => value(Some(ty)),
        DefinedView::Map { key, value: of } => [key, of].map(Some).into_iter().for_each(value),
        DefinedView::Result { ok, err } => [ok, err].into_iter().for_each(value),
        DefinedView::Future(ty) | DefinedView::Stream(ty) => value(ty),
        DefinedView::Primitive(_)
        | DefinedView::Flags(_)
        | DefinedView::Enum(_)
        | DefinedView::Own(_)
        | DefinedView::Borrow(_) => {}
    }
}

/// Returns the primitive type that a type of values is.
fn primitive(scope: Scope<'_, '_>, ty: Val) -> Result<Option<PrimitiveValType>, Stop> {
    match ty {
        Val::Primitive(ty) => Ok(Some(ty)),
        Val::Type(index) => match defined(scope.resolve(Space::Types, index)?) {
            Some(DefinedView::Primitive(ty)) => Ok(Some(ty)),
            _ => Ok(None),
        },
    }
}

/// Returns why WIT has no such type.
fn refusal(scope: Scope<'_, '_>, ty: DefinedView<'_>) -> Result<Option<Why>, Stop> {
    use PrimitiveValType::{Char, ErrorContext, F32, F64};
    Ok(match ty {
        DefinedView::Tuple(types) if types.is_empty() => Some(Why::Empty),
        DefinedView::FixedLengthList { length: 0, .. } => Some(Why::Empty),
        DefinedView::Map { key, .. } => match primitive(scope, key)? {
            None | Some(F32 | F64 | ErrorContext) => Some(Why::Key),
            Some(_) => None,
        },
        DefinedView::Stream(Some(ty)) => {
            (primitive(scope, ty)? == Some(Char)).then_some(Why::Element)
        }
        _ => None,
    })
}

/// Returns whether a definition is imported, or exported by what is imported.
fn of_import(mut of: Definition<'_, '_>) -> bool {
    while let Some(instance) = of.instance() {
        of = instance;
    }
    matches!(of.meaning(), Meaning::Item(ItemView::Import { .. }))
}

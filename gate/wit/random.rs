//! Components at random, of imports and exports whose types lead to each other.

use wenc::{
    Alias, ComponentBuilder, ComponentExportKind as Kind, ComponentOuterAliasKind,
    ComponentTypeRef as Ref, ComponentValType as Val, InstanceType, PrimitiveValType as Primitive,
    TypeBounds,
};

/// A source of numbers (Marsaglia's xorshift).
pub struct Random(u64);

/// A type with an index.
#[derive(Clone, Copy)]
struct Type {
    index: u32,
    is_resource: bool,
}

/// An interface that is being made, with the types that have an index in it.
#[derive(Default)]
struct Interface {
    made: InstanceType,
    types: Vec<Type>,
    /// The names of those that are exported.
    named: Vec<(String, bool)>,
    functions: Vec<String>,
}

const INTERFACES: [&str; 9] =
    ["a:b/x", "a:b/y", "a:b/z", "c:d/x", "c:d/y", "e:f/x@1.0.0", "e:f/x@2.0.0", "in", "of"];
const NAMES: [&str; 12] =
    ["a", "b", "c", "record", "own-2", "D", "e-F", "type", "a-n1", "f", "g", "list"];

impl Random {
    pub fn new(seed: u64) -> Self {
        Self(seed.wrapping_mul(0x9e37_79b9_7f4a_7c15) | 1)
    }

    fn below(&mut self, end: usize) -> usize {
        self.0 ^= self.0 << 13;
        self.0 ^= self.0 >> 7;
        self.0 ^= self.0 << 17;
        (self.0 >> 16) as usize % end
    }

    fn is(&mut self, one_in: usize) -> bool {
        self.below(one_in) == 0
    }

    fn pick<T: Copy>(&mut self, all: &[T]) -> Option<T> {
        (!all.is_empty()).then(|| all[self.below(all.len())])
    }

    /// Returns a name that is mostly one that isn't taken.
    fn name(&mut self, taken: &[(String, bool)]) -> String {
        for _ in 0..4 {
            let name = NAMES[self.below(NAMES.len())];
            if self.is(20) || taken.iter().all(|(other, _)| other != name) {
                return name.into();
            }
        }
        format!("x{}", taken.len())
    }

    fn value(&mut self, types: &[Type]) -> Val {
        let values: Vec<Type> = types.iter().filter(|ty| !ty.is_resource).copied().collect();
        match self.pick(&values).filter(|_| !self.is(3)) {
            Some(ty) => Val::Type(ty.index),
            None => [Primitive::U32, Primitive::String, Primitive::Char, Primitive::F32]
                [self.below(4)]
            .into(),
        }
    }

    /// Adds a type of values, and maybe a name of it.
    fn defined(&mut self, to: &mut Interface) {
        let index = to.made.type_count();
        let values: Vec<Val> = (0..=self.below(3)).map(|_| self.value(&to.types)).collect();
        let names: Vec<(String, bool)> = values.iter().fold(Vec::new(), |mut names, _| {
            names.push((self.name(&names), false));
            names
        });
        let pairs = || names.iter().map(|(name, _)| name.as_str()).zip(values.iter().copied());
        let resources: Vec<Type> = to.types.iter().filter(|ty| ty.is_resource).copied().collect();
        let resource = self.pick(&resources);
        let ty = to.made.ty().defined_type();
        match (self.below(12), resource) {
            (0, _) => ty.record(pairs()),
            (1, _) => ty.variant(pairs().map(|(name, ty)| (name, Some(ty)))),
            (2, _) => ty.enum_type(names.iter().map(|(name, _)| name.as_str())),
            (3, _) => ty.flags(names.iter().map(|(name, _)| name.as_str())),
            (4, _) => ty.list(values[0]),
            (5, _) => ty.tuple(values.iter().copied()),
            (6, _) => ty.option(values[0]),
            (7, _) => ty.result(values.first().copied(), values.get(1).copied()),
            (8, _) => ty.stream(Some(values[0])),
            (9, _) => ty.map(values[0], Primitive::U8),
            (10, Some(resource)) => ty.borrow(resource.index),
            (_, Some(resource)) => ty.own(resource.index),
            (_, None) => ty.primitive(Primitive::Bool),
        }
        self.keep(to, Type { index, is_resource: false });
    }

    /// Adds a type that has an index, mostly by a name alone.
    fn keep(&mut self, to: &mut Interface, ty: Type) {
        if self.is(3) {
            to.types.push(ty);
            if self.is(2) {
                return;
            }
        }
        self.named(to, Ref::Type(TypeBounds::Eq(ty.index)), ty.is_resource);
    }

    fn named(&mut self, to: &mut Interface, ty: Ref, is_resource: bool) {
        let (name, index) = (self.name(&to.named), to.made.type_count());
        to.made.export(name.as_str(), ty);
        to.types.push(Type { index, is_resource });
        to.named.push((name, is_resource));
    }

    fn function(&mut self, to: &mut Interface) {
        let resource = to.named.iter().find(|(_, is_resource)| *is_resource);
        let name = match (resource.cloned(), self.below(5)) {
            (Some((resource, _)), kind @ 0..3) => {
                let method = self.name(&[]);
                let kind = ["[method]", "[static]", "[constructor]"][kind];
                let method =
                    if kind == "[constructor]" { String::new() } else { format!(".{method}") };
                format!("{kind}{resource}{method}")
            }
            _ => self.name(&to.named),
        };
        let mut params: Vec<(&str, Val)> = Vec::new();
        let handles: Vec<Type> = to.types.iter().filter(|ty| !ty.is_resource).copied().collect();
        if name.starts_with("[method]") {
            if let Some(ty) = self.pick(&handles) {
                params.push(("self", Val::Type(ty.index)));
            }
        }
        for name in ["p", "q", "with"].iter().take(self.below(4)) {
            params.push((name, self.value(&to.types)));
        }
        let result = self.is(2).then(|| self.value(&to.types));
        let index = to.made.type_count();
        to.made.ty().function().params(params).result(result);
        to.made.export(name.as_str(), Ref::Func(index));
        to.functions.push(name);
    }

    /// Makes an interface, with types from outside.
    fn interface(&mut self, outer: &[Type]) -> Interface {
        let mut to = Interface::default();
        for _ in 0..1 + self.below(7) {
            match self.below(6) {
                0 => self.named(&mut to, Ref::Type(TypeBounds::SubResource), true),
                1 | 2 => {
                    let Some(ty) = self.pick(outer) else { continue };
                    let (kind, index) = (ComponentOuterAliasKind::Type, to.made.type_count());
                    to.made.alias(Alias::Outer { kind, count: 1, index: ty.index });
                    self.keep(&mut to, Type { index, ..ty });
                }
                3 | 4 => self.defined(&mut to),
                _ => self.function(&mut to),
            }
        }
        to
    }

    /// Returns the name of an interface, mostly one that isn't taken.
    fn path(&mut self, taken: &mut Vec<&'static str>) -> &'static str {
        let mut name = INTERFACES[self.below(INTERFACES.len())];
        for _ in 0..20 {
            if !taken.contains(&name) {
                break;
            }
            name = INTERFACES[self.below(INTERFACES.len())];
        }
        taken.push(name);
        name
    }

    /// Makes a component.
    pub fn component(&mut self) -> Vec<u8> {
        let mut builder = ComponentBuilder::default();
        let (mut outer, mut instances, mut functions) = (Vec::new(), Vec::new(), Vec::new());
        let mut imports = Vec::new();
        for _ in 0..2 + self.below(4) {
            let interface = self.interface(&outer);
            let ty = builder.type_instance(None, &interface.made);
            let instance = builder.import(self.path(&mut imports), Ref::Instance(ty));
            instances.push(instance);
            for (name, is_resource) in interface.named {
                let index = builder.alias_export(instance, &name, Kind::Type);
                outer.push(Type { index, is_resource });
            }
            for name in interface.functions {
                functions.push(builder.alias_export(instance, &name, Kind::Func));
            }
        }
        for name in ["a", "rec", "b"].iter().take(self.below(4)) {
            let ty = self.pick(&outer).filter(|_| !self.is(3));
            let bounds = ty.map_or(TypeBounds::SubResource, |ty| TypeBounds::Eq(ty.index));
            let index = builder.import(*name, Ref::Type(bounds));
            outer.push(Type { index, is_resource: ty.is_none_or(|ty| ty.is_resource) });
        }
        for name in ["f", "g", "rec"].iter().take(self.below(4)) {
            let params = [("x", self.value(&outer)), ("y", self.value(&outer))];
            let (ty, mut encoder) = builder.type_function(None);
            encoder.params(params).result(self.is(2).then(|| self.value(&outer)));
            functions.push(builder.import(*name, Ref::Func(ty)));
        }
        for name in ["f", "run", "rec"].iter().take(self.below(4)) {
            if let Some(function) = self.pick(&functions) {
                builder.export(*name, Kind::Func, function, None);
            }
        }
        let types = outer.iter().map(|ty| (Kind::Type, ty.index));
        let items: Vec<_> = types.chain(functions.iter().map(|f| (Kind::Func, *f))).collect();
        self.export_instances(&mut builder, &instances, &items);
        builder.finish()
    }

    /// Exports instances, also some that have these items.
    fn export_instances(
        &mut self,
        builder: &mut ComponentBuilder,
        instances: &[u32],
        items: &[(Kind, u32)],
    ) {
        let mut exports = Vec::new();
        for _ in 0..self.below(4) {
            let instance = if self.is(2) {
                self.pick(instances).unwrap_or_default()
            } else {
                let list = (0..self.below(4)).filter_map(|_| self.pick(items)).zip(NAMES);
                let list: Vec<_> = list.map(|((kind, index), name)| (name, kind, index)).collect();
                builder.instantiate_exports(None, list)
            };
            builder.export(self.path(&mut exports), Kind::Instance, instance, None);
        }
    }
}

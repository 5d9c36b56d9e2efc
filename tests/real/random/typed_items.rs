//! Types, imports and exports.

use super::{Function, Maker, Scope};
use crate::interfaces::*;
use wenc::PrimitiveValType as P;
use wenc::*;

const PRIMITIVES: [P; 14] = [
    P::Bool,
    P::S8,
    P::U8,
    P::S16,
    P::U16,
    P::S32,
    P::U32,
    P::S64,
    P::U64,
    P::F32,
    P::F64,
    P::Char,
    P::String,
    P::ErrorContext,
];

impl Maker<'_> {
    fn value(&mut self, scope: &Scope) -> Val {
        match self.random.of(&scope.values) {
            Some(index) if self.random.is() => Val::Type(index),
            _ => primitive(PRIMITIVES[self.random.below(14)]),
        }
    }

    fn optional(&mut self, scope: &Scope) -> Option<Val> {
        (self.random.below(3) > 0).then(|| self.value(scope))
    }

    pub(super) fn defined(&mut self, b: &mut ComponentBuilder, scope: &mut Scope) {
        let many = self.random.below(5) + 1;
        let values: Vec<Val> = (0..many).map(|_| self.value(scope)).collect();
        let optionals: Vec<Option<Val>> = (0..many).map(|_| self.optional(scope)).collect();
        let names: Vec<String> = (0..many).map(|_| self.name(scope, "m")).collect();
        let texts: Vec<&str> = names.iter().map(String::as_str).collect();
        let resource = self.random.of(&scope.resources);
        let key = [P::Bool, P::S8, P::U8, P::S32, P::U32, P::S64, P::Char, P::String];
        let key = primitive(key[self.random.below(8)]);
        let kind = self.random.below(14);
        let (mut index, encoder) = b.type_defined(None);
        match kind {
            0 => encoder.record(texts.into_iter().zip(values)),
            1 => encoder.variant(texts.into_iter().zip(optionals)),
            2 => encoder.flags(texts),
            3 => encoder.enum_type(texts),
            4 => encoder.list(values[0]),
            5 => encoder.tuple(values),
            6 => encoder.option(values[0]),
            7 => encoder.result(optionals[0], optionals[many - 1]),
            8 => encoder.fixed_length_list(values[0], many as u32),
            9 => encoder.map(key, values[0]),
            // upstream's validator takes no stream of characters
            10 => encoder.stream(optionals[0].filter(|ty| *ty != primitive(P::Char))),
            11 => encoder.future(optionals[0]),
            12 => match resource {
                Some(of) => encoder.own(of),
                None => encoder.primitive(P::U8),
            },
            _ => encoder.primitive(PRIMITIVES[many]),
        }
        match kind {
            10 => scope.streams.push(index),
            11 => scope.futures.push(index),
            _ => {}
        }
        // a type that needs a name gets one by an import, whose index has it
        if kind < 4 {
            let name = self.name(scope, "t");
            index = b.import(&name, ComponentTypeRef::Type(TypeBounds::Eq(index)));
        }
        scope.values.push(index);
    }

    pub(super) fn resource(&mut self, b: &mut ComponentBuilder, scope: &mut Scope) {
        let name = self.name(scope, "r");
        if self.random.is() {
            let ty = ComponentTypeRef::Type(TypeBounds::SubResource);
            scope.resources.push(b.import(&name, ty));
        } else {
            let local = b.type_resource(None, ValType::I32, None);
            scope.own_resources.push(local);
            b.export(&name, ComponentExportKind::Type, local, None);
        }
    }

    pub(super) fn function_type(&mut self, b: &mut ComponentBuilder, scope: &mut Scope) {
        let (is_async, is_text) = (self.random.below(3) == 0, self.random.below(3) == 0);
        let many = self.random.below(4);
        let params: Vec<(String, Val)> =
            (0..many).map(|_| (self.name(scope, "p"), self.value(scope))).collect();
        let result = self.optional(scope);
        let (ty, mut encoder) = b.type_function(None);
        encoder.async_(is_async);
        if is_text {
            encoder.params([("s", STRING)]).result(Some(STRING));
        } else {
            encoder.params(params.iter().map(|(name, ty)| (&**name, *ty))).result(result);
        }
        scope.function_types.push(Function { ty, is_async, is_text });
    }

    pub(super) fn imported_function(&mut self, b: &mut ComponentBuilder, scope: &mut Scope) {
        let Some(function) = self.random.of(&scope.function_types) else { return };
        let name = self.name(scope, "f");
        let index = b.import(&name, ComponentTypeRef::Func(function.ty));
        scope.functions.push((index, function));
    }

    pub(super) fn exported_function(&mut self, b: &mut ComponentBuilder, scope: &mut Scope) {
        let Some((index, function)) = self.random.of(&scope.functions) else { return };
        let name = self.name(scope, "f");
        let ty = self.random.is().then_some(ComponentTypeRef::Func(function.ty));
        let index = b.export(&name, ComponentExportKind::Func, index, ty);
        scope.functions.push((index, function));
    }

    /// What an instance type has under a name, beside the types that it knows.
    fn member(&mut self, ty: &mut InstanceType, scope: &Scope, name: &str, known: &mut Vec<Val>) {
        match self.random.below(4) {
            0 => {
                let resource = resource(ty, name);
                known.push(ty.defined(|ty| ty.own(resource)));
            }
            1 => {
                if let Some(outer) = self.random.of(&scope.values) {
                    known.push(used(ty, outer, name));
                }
            }
            2 => {
                known.push(named_type(ty, name, |ty| ty.record([("a", U8)])));
            }
            _ => {
                let of = self.random.of(known);
                let params = [("a", of.unwrap_or(primitive(P::S16)))];
                if self.random.is() {
                    ty.export_async(name, &params, of);
                } else {
                    ty.export_func(name, &params, of);
                }
            }
        }
    }

    /// A type of instances, one of which is imported.
    pub(super) fn instance_type(&mut self, b: &mut ComponentBuilder, scope: &mut Scope) {
        let (mut ty, mut known) = (InstanceType::new(), Vec::new());
        for _ in 0..self.random.below(6) {
            let name = self.name(scope, "x");
            self.member(&mut ty, scope, &name, &mut known);
        }
        let outer = self.random.of(&scope.function_types);
        let name = self.name(scope, "f");
        if let Some(Function { ty: index, .. }) = outer {
            let here = ty.alias_outer_type(1, index);
            ty.export_of(&name, here);
        }
        let index = b.type_instance(None, &ty);
        let interface = self.name(scope, "i").to_lowercase();
        let import = format!("a:b/{interface}@1.{}.0", self.random.below(9));
        let instance = b.import(&import, ComponentTypeRef::Instance(index));
        let exports = outer.map(|function| (name, function)).into_iter().collect();
        scope.instances.push((instance, exports));
    }
}

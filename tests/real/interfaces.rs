//! Short calls for types of worlds and of interfaces, with the index of each.

use wenc::*;

pub type Val = ComponentValType;

pub const fn primitive(ty: PrimitiveValType) -> Val {
    Val::Primitive(ty)
}

pub const U8: Val = primitive(PrimitiveValType::U8);
pub const U32: Val = primitive(PrimitiveValType::U32);
pub const STRING: Val = primitive(PrimitiveValType::String);

/// What types of components and of instances have in common.
pub trait Declares {
    /// A type of values.
    fn defined(&mut self, write: impl FnOnce(ComponentDefinedTypeEncoder<'_>)) -> Val;

    /// A type of functions.
    fn func(&mut self, is_async: bool, params: &[(&str, Val)], result: Option<Val>) -> u32;

    /// An exported function of this type.
    fn export_of(&mut self, name: &str, ty: u32);

    /// A function that is exported.
    fn export_func(&mut self, name: &str, params: &[(&str, Val)], result: Option<Val>) {
        let ty = self.func(false, params, result);
        self.export_of(name, ty);
    }

    /// An asynchronous function that is exported.
    fn export_async(&mut self, name: &str, params: &[(&str, Val)], result: Option<Val>) {
        let ty = self.func(true, params, result);
        self.export_of(name, ty);
    }
}

macro_rules! declares {
    ($($name:ident)*) => {
        $(impl Declares for $name {
            fn defined(&mut self, write: impl FnOnce(ComponentDefinedTypeEncoder<'_>)) -> Val {
                let (index, ty) = self.type_defined();
                write(ty);
                Val::Type(index)
            }

            fn func(&mut self, is_async: bool, params: &[(&str, Val)], result: Option<Val>) -> u32 {
                let (index, mut ty) = self.type_function();
                ty.async_(is_async).params(params.iter().copied()).result(result);
                index
            }

            fn export_of(&mut self, name: &str, ty: u32) {
                self.export(name, ComponentTypeRef::Func(ty));
            }
        })*
    };
}

declares! { ComponentType InstanceType }

/// The bound that a type is this one.
pub fn equal(ty: Val) -> TypeBounds {
    let Val::Type(ty) = ty else { panic!("a type with an index") };
    TypeBounds::Eq(ty)
}

/// A type that an interface exports under a name.
pub fn named(of: &mut InstanceType, name: &str, ty: Val) -> Val {
    Val::Type(of.export_type(name, equal(ty)))
}

/// A type of values that an interface exports under a name.
pub fn named_type(
    of: &mut InstanceType,
    name: &str,
    write: impl FnOnce(ComponentDefinedTypeEncoder<'_>),
) -> Val {
    let ty = of.defined(write);
    named(of, name, ty)
}

/// A resource of an interface.
pub fn resource(of: &mut InstanceType, name: &str) -> u32 {
    of.export_type(name, TypeBounds::SubResource)
}

/// A type of the world around an interface, under a name.
pub fn used(of: &mut InstanceType, outer: u32, name: &str) -> Val {
    let ty = of.alias_outer_type(1, outer);
    named(of, name, Val::Type(ty))
}

/// An interface of a world, to be imported or exported.
pub fn interface(
    of: &mut ComponentType,
    write: impl FnOnce(&mut InstanceType),
) -> ComponentTypeRef {
    let mut ty = InstanceType::new();
    write(&mut ty);
    let index = of.type_count();
    of.ty().instance(&ty);
    ComponentTypeRef::Instance(index)
}

/// A function that a world imports.
pub fn import_func(
    of: &mut ComponentType,
    name: &str,
    params: &[(&str, Val)],
    result: Option<Val>,
) {
    let ty = of.func(false, params, result);
    of.import(name, ComponentTypeRef::Func(ty));
}

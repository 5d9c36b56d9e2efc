//! Types: of values, functions, resources, instances, components and core modules; their sections
//! and encoders.

mod component_type;
mod core_type;
#[cfg(feature = "walk")]
mod counts;
mod defined_type;
mod func_type;
mod instance_type;
mod module_type;
mod section;
mod ty;
mod val_type;

pub use component_type::ComponentType;
pub use core_type::{ComponentCoreTypeEncoder, CoreTypeSection};
pub use defined_type::ComponentDefinedTypeEncoder;
pub use func_type::ComponentFuncTypeEncoder;
pub use instance_type::InstanceType;
pub use module_type::ModuleType;
pub use section::ComponentTypeSection;
pub use ty::ComponentTypeEncoder;
pub use val_type::{ComponentValType, PrimitiveValType};

/// Implements what all types with declarations share.
macro_rules! declarations {
    ($($name:ident)*) => {
        $crate::collections::parents! { $($name)* }
        $crate::eq_by_bytes::eq_by_bytes! { $($name)* }
    };
}

/// Implements what component types and instance types share.
macro_rules! declaring {
    ($($name:ident)*) => {
        $crate::component::types::declarations! { $($name)* }

        $(impl $name {
            $crate::twins::twins! {
                /// Begins the declaration of a core type and returns its encoder.
                ///
                /// As in upstream, a recursion group counts as one core type here; by the standard
                /// it has an index for each of its types: after a group of n types add n - 1.
                ///
                /// If the encoder is dropped before it has ended that type, this one is unfinished:
                /// it rejects further additions and can't be encoded until
                /// [`discard_unfinished`](Self::discard_unfinished).
                #[must_use = "the encoder has to encode the type"]
                fn core_type | try_core_type(&mut self) -> $crate::ComponentCoreTypeEncoder<'_> {
                    Ok($crate::encoders::Public::public(self.0.core_type()?))
                }

                /// Begins the declaration of a type and returns its encoder; see
                /// [`core_type`](Self::core_type).
                #[must_use = "the encoder has to encode the type"]
                fn ty | try_ty(&mut self) -> $crate::ComponentTypeEncoder<'_> {
                    Ok($crate::encoders::Public::public(self.0.ty()?))
                }

                /// Declares an alias of an instance's export, or of an enclosing component's item.
                fn alias | try_alias(&mut self, alias: $crate::Alias<'_>) -> &mut Self;

                /// Declares an export by its name and type.
                fn export | try_export<'a>(
                    &mut self,
                    name: impl Into<$crate::ComponentExternName<'a>>,
                    ty: $crate::ComponentTypeRef,
                ) -> &mut Self as (name.into().into_proved(), ty);

                /// Begins the declaration of a defined value type, and returns its index and its
                /// encoder; see [`ty`](Self::ty).
                #[must_use = "the encoder has to encode the type"]
                fn type_defined | try_type_defined(
                    &mut self,
                ) -> (u32, $crate::ComponentDefinedTypeEncoder<'_>) {
                    let (index, encoder) = self.0.type_defined()?;
                    Ok((index, $crate::encoders::Public::public(encoder)))
                }

                /// Begins the declaration of a function type, and returns its index and its
                /// encoder; see [`ty`](Self::ty).
                #[must_use = "the encoder has to encode the type"]
                fn type_function | try_type_function(
                    &mut self,
                ) -> (u32, $crate::ComponentFuncTypeEncoder<'_>) {
                    let (index, encoder) = self.0.type_function()?;
                    Ok((index, $crate::encoders::Public::public(encoder)))
                }

                /// Declares an alias of the type that an instance exports under this name, and
                /// returns the alias's index.
                fn alias_export_type | try_alias_export_type(
                    &mut self,
                    instance: u32,
                    name: &str,
                ) -> u32;

                /// Declares an alias of the instance that an instance exports under this name, and
                /// returns the alias's index.
                fn alias_export_instance | try_alias_export_instance(
                    &mut self,
                    instance: u32,
                    name: &str,
                ) -> u32;

                /// Declares an alias of the type with the index `outer` in an enclosing component,
                /// `count` components further out. Returns the alias's index.
                fn alias_outer_type | try_alias_outer_type(
                    &mut self,
                    count: u32,
                    outer: u32,
                ) -> u32;

                /// Declares an alias of the core type with the index `outer` in an enclosing
                /// component, `count` components further out. Returns the alias's index.
                fn alias_core_type | try_alias_core_type(&mut self, count: u32, outer: u32) -> u32;

                /// Declares an export of a type and returns its index.
                ///
                /// ```
                /// use wenc::{Component, ComponentTypeRef, ComponentTypeSection, ComponentValType};
                /// use wenc::{InstanceType, TypeBounds};
                ///
                /// let mut ty = InstanceType::new();
                /// let counter = ty.export_type("counter", TypeBounds::SubResource);
                /// let (handle, encoder) = ty.type_defined();
                /// encoder.borrow(counter);
                /// let (method, mut function) = ty.type_function();
                /// function.params([("self", ComponentValType::Type(handle))]).result(None);
                /// ty.export("[method]counter.step", ComponentTypeRef::Func(method));
                ///
                /// let mut types = ComponentTypeSection::new();
                /// types.instance(&ty);
                /// let mut component = Component::new();
                /// component.section(&types);
                /// assert_eq!(
                ///     component.as_slice()[8..],
                ///     *b"\x07\x36\x01\x42\x04\x04\0\x07counter\x03\x01\x01\x68\0\
                ///     \x01\x40\x01\x04self\x01\x01\0\x04\0\x14[method]counter.step\x01\x02",
                /// );
                /// ```
                fn export_type | try_export_type<'a>(
                    &mut self,
                    name: impl Into<$crate::ComponentExternName<'a>>,
                    bounds: $crate::TypeBounds,
                ) -> u32 as (name.into().into_proved(), bounds);

                /// Declares an export of an instance of the type with this index, and returns the
                /// instance's index.
                fn export_instance | try_export_instance<'a>(
                    &mut self,
                    name: impl Into<$crate::ComponentExternName<'a>>,
                    ty: u32,
                ) -> u32 as (name.into().into_proved(), ty);
            }

            /// Returns the number of declarations, including an unfinished one.
            pub fn len(&self) -> u32 {
                self.0.len()
            }

            /// Returns `true` if there are no declarations.
            pub fn is_empty(&self) -> bool {
                self.0.is_empty()
            }

            /// Returns the number of core types: declared ones, of which a
            /// [recursion group](Self::core_type) is one, including an unfinished one, and
            /// outer aliases.
            pub fn core_type_count(&self) -> u32 {
                self.0.core_type_count()
            }

            /// Returns the number of types: declared ones, including an unfinished one, and those
            /// of aliases, imports and exports.
            pub fn type_count(&self) -> u32 {
                self.0.type_count()
            }

            /// Returns the number of instances: those of aliases, imports and exports.
            pub fn instance_count(&self) -> u32 {
                self.0.instance_count()
            }
        })*
    };
}

use declarations;
use declaring;

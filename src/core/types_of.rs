//! Conversions of core types that another crate has.

/// Defines conversions of the core types of `wasm_encoder` 0.263.0 to those of this crate, for a
/// program that uses both.
///
/// `wenc::core_types_of!(wasm_encoder)` defines a trait `IntoWenc` with a method `into_wenc`, and
/// implements it for the core types that calls of components take, or that these are made of. Each
/// becomes the type of this crate with the same name:
///
/// - `ExportKind`;
/// - `EntityType`, `TableType`, `MemoryType`, `GlobalType`, `TagType`, `TagKind`;
/// - `ValType`, `RefType`, `HeapType`, `AbstractHeapType`;
/// - `SubType`, `CompositeType`, `CompositeInnerType`, `FuncType`, `ArrayType`, `StructType`,
///   `ContType`, `FieldType`, `StorageType`.
///
/// The argument is a path to the module that has these types. The trait is the caller's, since this
/// crate doesn't depend on `wasm_encoder`; a module of its own, with `pub use`, can have it for a
/// whole program.
///
/// # Panics
///
/// `into_wenc` panics for an `ExportKind` that no component has, such as that of an exact function.
/// Other types that aren't in WebAssembly 3.0 are converted, and the call that would encode them
/// fails with [`Unsupported`](crate::Error::Unsupported).
///
/// ```
/// # use wenc as wasm_encoder;
/// wenc::core_types_of!(wasm_encoder);
///
/// # fn main() {
/// let mut builder = wenc::ComponentBuilder::default();
/// let function = builder.task_cancel();
/// let kind = wasm_encoder::ExportKind::Func;
/// builder.core_instantiate_exports(None, [("cancel", kind.into_wenc(), function)]);
/// let results = [wasm_encoder::ValType::I64];
/// builder.core_type(None).1.core().function([], results.map(IntoWenc::into_wenc));
/// assert_eq!(
///     builder.finish()[8..],
///     *b"\x08\x02\x01\x05\x02\x0c\x01\x01\x01\x06cancel\0\0\x03\x05\x01\x60\0\x01\x7e",
/// );
/// # }
/// ```
#[macro_export]
macro_rules! core_types_of {
    ($upstream:path) => {
        /// A core type of another crate, as one of `wenc`.
        pub trait IntoWenc {
            /// The type of `wenc` with the same name.
            type Output;

            /// Returns the value as one of `wenc`.
            fn into_wenc(self) -> Self::Output;
        }

        const _: () = {
            use $upstream as upstream;

            $crate::core_types_of! { @enums
                AbstractHeapType {
                    Func, Extern, Any, None, NoExtern, NoFunc, Eq, Struct, Array, I31, Exn, NoExn,
                    Cont, NoCont
                }
                CompositeInnerType { Func(ty), Array(ty), Struct(ty), Cont(ty) }
                StorageType { I8, I16, Val(ty) }
                TagKind { Exception }
                ValType { I32, I64, F32, F64, V128, Ref(ty) }
            }
            $crate::core_types_of! { @structs
                ArrayType { 0 } {}
                CompositeType { inner } { shared, descriptor, describes }
                ContType {} { 0 }
                FieldType { element_type } { mutable }
                GlobalType { val_type } { mutable, shared }
                MemoryType {} { minimum, maximum, memory64, shared, page_size_log2 }
                RefType { heap_type } { nullable }
                SubType { composite_type } { is_final, supertype_idx }
                TableType { element_type } { table64, minimum, maximum, shared }
                TagType { kind } { func_type_idx }
            }
            $crate::core_types_of! { @others
                EntityType, ty => match ty {
                    upstream::EntityType::Function(index) => $crate::EntityType::Function(index),
                    upstream::EntityType::Table(ty) => $crate::EntityType::Table(ty.into_wenc()),
                    upstream::EntityType::Memory(ty) => $crate::EntityType::Memory(ty.into_wenc()),
                    upstream::EntityType::Global(ty) => $crate::EntityType::Global(ty.into_wenc()),
                    upstream::EntityType::Tag(ty) => $crate::EntityType::Tag(ty.into_wenc()),
                    upstream::EntityType::FunctionExact(index) => {
                        $crate::EntityType::FunctionExact(index)
                    }
                };
                ExportKind, kind => match kind {
                    upstream::ExportKind::Func => $crate::ExportKind::Func,
                    upstream::ExportKind::Table => $crate::ExportKind::Table,
                    upstream::ExportKind::Memory => $crate::ExportKind::Memory,
                    upstream::ExportKind::Global => $crate::ExportKind::Global,
                    upstream::ExportKind::Tag => $crate::ExportKind::Tag,
                    #[allow(unreachable_patterns)]
                    _ => ::core::panic!("no component has an export of this kind"),
                };
                FuncType, ty => {
                    let of = |ty: &upstream::ValType| ty.clone().into_wenc();
                    $crate::FuncType::new(ty.params().iter().map(of), ty.results().iter().map(of))
                };
                HeapType, ty => match ty {
                    upstream::HeapType::Abstract { shared, ty } => {
                        $crate::HeapType::Abstract { shared, ty: ty.into_wenc() }
                    }
                    upstream::HeapType::Concrete(index) => $crate::HeapType::Concrete(index),
                    upstream::HeapType::Exact(index) => $crate::HeapType::Exact(index),
                };
                StructType, ty => {
                    let fields = ty.fields.iter().map(|field| field.clone().into_wenc());
                    $crate::StructType { fields: fields.collect() }
                };
            }
        };
    };
    (@enums $($name:ident { $($variant:ident $(($inner:ident))?),* })*) => {
        $crate::core_types_of! { @others
            $($name, ty => match ty {
                $(upstream::$name::$variant $(($inner))? => {
                    $crate::$name::$variant $(($inner.into_wenc()))?
                })*
            };)*
        }
    };
    (@structs $($name:ident { $($part:tt),* } { $($field:tt),* })*) => {
        $crate::core_types_of! { @others
            $($name, ty => $crate::$name {
                $($part: ty.$part.into_wenc(),)*
                $($field: ty.$field,)*
            };)*
        }
    };
    (@others $($name:ident, $value:ident => $made:expr;)*) => {
        $(impl IntoWenc for upstream::$name {
            type Output = $crate::$name;

            #[inline]
            fn into_wenc(self) -> $crate::$name {
                let $value = self;
                $made
            }
        })*
    };
}

//! The encoder of core types.

use super::{
    ContType, Converted, FieldType, FuncType, StorageType, SubType, ValType, Values, converted,
};
use crate::encoders::{encoders, on};
use crate::proved::wasm_encoder as proved;
use crate::proved::wenc_base::ByteTypes;
#[cfg(feature = "tree")]
use crate::tree::GroupTree;
use crate::twins::twins;
use crate::{Error, Unsupported};

encoders! {
    /// Encodes a core type or a recursion group ([WebAssembly 3.0, binary format, "Recursive
    /// Types"][types]). Each of its calls ends the type.
    ///
    /// If it is dropped, or its call fails, the type is unfinished, and the parent rejects further
    /// additions until `discard_unfinished`. Types that aren't in WebAssembly 3.0, such as shared
    /// ones, fail with [`Unsupported`](Error::Unsupported).
    ///
    /// [types]: https://webassembly.github.io/spec/core/binary/types.html#recursive-types
    ///
    /// ```
    /// use wenc::{Component, CoreTypeSection, FieldType, HeapType, RefType, StorageType, ValType};
    ///
    /// let node = RefType { nullable: true, heap_type: HeapType::Concrete(0) };
    /// let mut types = CoreTypeSection::new();
    /// types.ty().core().struct_([
    ///     FieldType { element_type: StorageType::I8, mutable: true },
    ///     FieldType { element_type: StorageType::Val(node.into()), mutable: false },
    /// ]);
    /// types.ty().core().function([ValType::Ref(node)], []);
    ///
    /// let mut component = Component::new();
    /// component.section(&types);
    /// assert_eq!(
    ///     component.as_slice()[8..],
    ///     *b"\x03\x0d\x02\x5f\x02\x78\x01\x63\0\0\x60\x01\x63\0\0",
    /// );
    /// ```
    #[must_use = "an encoder that is dropped leaves its type unfinished"]
    CoreTypeEncoder by CoreTypeBy over CoreTypeSection and Module ModuleType;
}

/// Calls with lists, compiled once rather than for each iterator.
impl CoreTypeBy<'_> {
    fn byte_function(self, params: &ByteTypes, results: &ByteTypes) -> Result<(), Error> {
        Ok(on!(self, CoreTypeBy + Module, encoder => encoder.byte_function(params, results))?)
    }

    #[cold]
    #[inline(never)]
    fn function(self, params: &mut Values, results: &mut Values) -> Result<(), Error> {
        let (params, results) = (params.converted()?.as_slice(), results.converted()?.as_slice());
        Ok(on!(self, CoreTypeBy + Module, encoder => encoder.slice_function(params, results))?)
    }

    fn struct_(self, fields: &[proved::FieldType]) -> Result<(), Error> {
        Ok(on!(self, CoreTypeBy + Module, encoder => encoder.slice_struct(fields))?)
    }
}

impl CoreTypeEncoder<'_> {
    twins! {
        /// Encodes a function type given as the types of its parameters and results.
        fn function | try_function<P, R>(self, params: P, results: R) -> ()
        where {
            P: IntoIterator<Item = ValType>,
            R: IntoIterator<Item = ValType>,
        }
        {
            let (mut param_types, mut result_types) = (Values::new(), Values::new());
            param_types.extend(params)?;
            result_types.extend(results)?;
            match (param_types.bytes(), result_types.bytes()) {
                (Some(params), Some(results)) => self.by.byte_function(params, results),
                _ => self.by.function(&mut param_types, &mut result_types),
            }
        }

        /// Encodes a function type.
        fn func_type | try_func_type(self, ty: &FuncType) -> () {
            let ty = proved::FuncType::try_from(ty)?;
            Ok(on!(self.by, CoreTypeBy + Module, encoder => encoder.func_type(&ty))?)
        }

        /// Encodes an array type given as the type of its elements and whether they are mutable.
        fn array | try_array(self, ty: &StorageType, mutable: bool) -> () {
            let ty = proved::StorageType::try_from(*ty)?;
            Ok(on!(self.by, CoreTypeBy + Module, encoder => encoder.array(&ty, mutable))?)
        }

        /// Encodes a struct type given as its fields.
        fn struct_ | try_struct<F>(self, fields: F) -> ()
        where {
            F: IntoIterator<Item = FieldType>,
        }
        {
            self.by.struct_(Converted::new().extend(fields)?)
        }

        /// Fails with [`Unsupported`](Error::Unsupported): continuation types can't be encoded.
        fn cont | try_cont(self, _ty: &ContType) -> () {
            Err(Error::Unsupported(Unsupported::Continuation))
        }

        /// Encodes a subtype.
        fn subtype | try_subtype(self, ty: &SubType) -> () {
            let ty = proved::SubType::try_from(ty)?;
            Ok(on!(self.by, CoreTypeBy + Module, encoder => encoder.subtype(&ty))?)
        }

        /// Encodes a recursion group, whose types may refer to each other. It counts as one core
        /// type of its parent, as in upstream; by the standard it has an index for each of its
        /// types: after a group of n types add n - 1 to the indices of core types.
        fn rec | try_rec<T>(self, types: T) -> ()
        where {
            T: IntoIterator<Item = SubType>,
        }
        {
            let types = converted(types, |ty| proved::SubType::try_from(&ty))?;
            let types = types.as_slice().iter();
            Ok(on!(self.by, CoreTypeBy + Module, encoder => encoder.rec(types))?)
        }
    }
}

#[cfg(feature = "tree")]
impl CoreTypeEncoder<'_> {
    twins! {
        /// Encodes a type or a recursion group given as a tree.
        ///
        /// Needs the feature `tree`.
        ///
        /// ```
        /// use wenc::tree::{
        ///     CoreArrayType, CoreCompositeType, CoreFieldType, CoreStorageType, CoreSubType,
        ///     GroupTree,
        /// };
        /// use wenc::ModuleType;
        ///
        /// let bytes = CoreFieldType { element_type: CoreStorageType::I8, mutable: true };
        /// let composite_type = CoreCompositeType::Array(CoreArrayType(bytes));
        /// let array = CoreSubType { is_final: true, supertype_idx: None, composite_type };
        /// let mut ty = ModuleType::new();
        /// ty.ty().tree(&GroupTree::Sub(array));
        /// assert_eq!(ty.type_count(), 1);
        /// ```
        fn tree | try_tree(self, ty: &GroupTree) -> () {
            Ok(on!(self.by, CoreTypeBy + Module, encoder => encoder.group(ty))?)
        }
    }
}

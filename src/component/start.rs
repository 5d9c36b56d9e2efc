//! The start of a component.

use crate::encode::{Encode, append_proved, encode_or_panic};
use crate::proved::wasm_encoder as proved;
use crate::{ComponentSection, ComponentSectionId, Error};
use alloc::vec::Vec;

/// The start section: a function that is called when the component is instantiated ([component
/// model, binary format, "Start Definitions"][binary]). It can't be encoded with more than
/// 4294967295 arguments, or with more bytes than that after its size.
///
/// [binary]: https://github.com/WebAssembly/component-model/blob/main/design/mvp/Binary.md
///
/// ```
/// use wenc::{Component, ComponentImportSection, ComponentStartSection, ComponentTypeRef};
/// use wenc::{ComponentTypeSection, PrimitiveValType};
///
/// let mut types = ComponentTypeSection::new();
/// types.function().params([("n", PrimitiveValType::U32)]).result(None);
/// let mut imports = ComponentImportSection::new();
/// imports
///     .import("f", ComponentTypeRef::Func(0))
///     .import("v", ComponentTypeRef::Value(PrimitiveValType::U32.into()));
/// // function 0 is called with value 0, and returns nothing
/// let start = ComponentStartSection { function_index: 0, args: [0], results: 0 };
///
/// let mut component = Component::new();
/// component.section(&types).section(&imports).section(&start);
/// assert_eq!(
///     component.as_slice()[8..],
///     *b"\x07\x08\x01\x40\x01\x01n\x79\x01\0\x0a\x0b\x02\0\x01f\x01\0\0\x01v\x02\x79\
///       \x09\x04\0\x01\0\0",
/// );
/// ```
#[derive(Clone, Debug, PartialEq, Eq, Hash)]
pub struct ComponentStartSection<A> {
    /// The index of the function.
    pub function_index: u32,
    /// The indices of the values that are its arguments.
    pub args: A,
    /// The number of its results.
    pub results: u32,
}

impl<A: AsRef<[u32]>> Encode for ComponentStartSection<A> {
    fn try_encode(&self, sink: &mut Vec<u8>) -> Result<(), Error> {
        let Self { function_index, ref args, results } = *self;
        append_proved(
            sink,
            &proved::ComponentStartSection { function_index, args: args.as_ref(), results },
        )
    }

    encode_or_panic! {}
}

impl<A: AsRef<[u32]>> ComponentSection for ComponentStartSection<A> {
    fn id(&self) -> u8 {
        ComponentSectionId::Start.into()
    }
}

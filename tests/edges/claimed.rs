//! Iterators that report a wrong length: each value is encoded, and the encoded count is the number
//! of values.

use crate::unsupported::field;
use wenc::{
    CompositeInnerType, CoreTypeEncoder, CoreTypeSection, FuncType, HeapType, InstanceType,
    ModuleType, RefType, StorageType, ValType,
};
use wenc_calls::encoded::encoded;
use wenc_calls::table::core_types::subtype;

/// An iterator that reports this length until it ends.
struct Claiming<I>(usize, I);

impl<I: Iterator> Iterator for Claiming<I> {
    type Item = I::Item;

    fn next(&mut self) -> Option<I::Item> {
        self.1.next()
    }

    fn size_hint(&self) -> (usize, Option<usize>) {
        (self.0, Some(self.0))
    }
}

impl<I: Iterator> ExactSizeIterator for Claiming<I> {}

/// No length, one that is too small, the right one, one that is too large, and some for which no
/// memory suffices.
const CLAIMED: [usize; 7] =
    [0, 1, 3, 100, isize::MAX as usize >> 23, isize::MAX as usize, usize::MAX];

/// With each parent and each reported length.
fn is_encoded(write: impl Fn(CoreTypeEncoder<'_>, usize), wanted: &[u8]) {
    for claimed in CLAIMED {
        let mut section = CoreTypeSection::new();
        write(section.ty().core(), claimed);
        let size = u8::try_from(1 + wanted.len()).expect("it is short");
        assert_eq!(encoded(&section), [&[size, 1], wanted].concat(), "{claimed}");
        let mut module = ModuleType::new();
        write(module.ty(), claimed);
        assert_eq!(encoded(&module), [&[0x50, 1, 1], wanted].concat(), "{claimed}");
        let mut instance = InstanceType::new();
        write(instance.core_type().core(), claimed);
        assert_eq!(encoded(&instance), [&[0x42, 1, 0], wanted].concat(), "{claimed}");
    }
}

fn values(ty: ValType, len: usize, claimed: usize) -> Claiming<impl Iterator<Item = ValType>> {
    Claiming(claimed, std::iter::repeat_n(ty, len))
}

/// The numbers of values include those around the number that is converted without an allocation,
/// which doesn't depend on the reported length.
#[test]
fn functions() {
    for (params, results) in [(0, 0), (3, 3), (9, 8), (7, 20)] {
        let list = |ty: u8, len: usize| [&[len as u8][..], &[ty].repeat(len)].concat();
        let wanted = [&[0x60][..], &list(0x7f, params), &list(0x7e, results)].concat();
        let write = |encoder: CoreTypeEncoder<'_>, claimed| {
            let params = values(ValType::I32, params, claimed);
            encoder.function(params, values(ValType::I64, results, claimed));
        };
        is_encoded(write, &wanted);
    }
}

#[test]
fn structs_and_groups() {
    for len in [0, 2, 10] {
        let fields = (0..len).flat_map(|at| [0x78, u8::from(at % 3 == 0)]);
        let wanted: Vec<u8> = [0x5f, len].into_iter().chain(fields).collect();
        let write = |encoder: CoreTypeEncoder<'_>, claimed| {
            let fields = (0..len).map(|at| field(StorageType::I8, at % 3 == 0));
            encoder.struct_(Claiming(claimed, fields));
        };
        is_encoded(write, &wanted);
    }
    let write = |encoder: CoreTypeEncoder<'_>, claimed| {
        let types = [ValType::I32, ValType::I64, ValType::F32];
        let types =
            types.map(|ty| subtype(true, None, CompositeInnerType::Func(FuncType::new([ty], []))));
        encoder.rec(Claiming(claimed, types.into_iter()));
    };
    is_encoded(write, &[0x4e, 3, 0x60, 1, 0x7f, 0, 0x60, 1, 0x7e, 0, 0x60, 1, 0x7d, 0]);
}

/// Types of one byte, with one of two bytes at each place or without it.
#[test]
fn bytes_of_values() {
    const BYTES: [(ValType, u8); 7] = [
        (ValType::I32, 0x7f),
        (ValType::I64, 0x7e),
        (ValType::F32, 0x7d),
        (ValType::F64, 0x7c),
        (ValType::V128, 0x7b),
        (ValType::FUNCREF, 0x70),
        (ValType::EXTERNREF, 0x6f),
    ];
    let node = ValType::Ref(RefType { nullable: true, heap_type: HeapType::Concrete(0) });
    for (len, place) in (0..14).flat_map(|len| (0..=len).map(move |place| (len, place))) {
        let types = (0..len).map(|at| if at == place { node } else { BYTES[at % 7].0 });
        let mut list = vec![u8::try_from(len).expect("it is short")];
        for at in 0..len {
            if at == place {
                list.extend([0x63, 0]);
            } else {
                list.push(BYTES[at % 7].1);
            }
        }
        let mut section = CoreTypeSection::new();
        section.ty().core().function(types.clone(), [ValType::F64]);
        section.ty().core().function([ValType::I32], types);
        let wanted = [&[2, 0x60], &list[..], &[1, 0x7c, 0x60, 1, 0x7f], &list].concat();
        let size = u8::try_from(wanted.len()).expect("it is short");
        assert_eq!(encoded(&section), [&[size], &wanted[..]].concat(), "{len} {place}");
    }
}

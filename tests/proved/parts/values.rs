//! Numbers, texts, lists, and values that are made of others.

use crate::proved::proved_parts::strangers::own::{Light, write_all};
use crate::proved::tests::sweeping::{check, check_all};
use crate::proved::wenc_base::{
    AbstractHeapType, ByRef, ByteTypes, CoreTypeEncoder, Encode, Fault, FieldType, HeapType,
    Holder, Prefix, RefType, Short, StorageType, Tagged, ValType, Verbatim, WithSize, encode_byte,
    encode_list, encoding_size, extend_in_room, section_size,
};
use crate::shim::alloc::{AllocError, Global};
use crate::shim::string::{String, StringUsing};
use crate::shim::vec::{Vec, VecUsing};
use std::string::ToString;
use std::vec;

#[test]
fn numbers_and_texts() {
    check(&18446744073709551615u64, b"\xff\xff\xff\xff\xff\xff\xff\xff\xff\x01");
    let signed: [(i64, &[u8]); 7] = [
        (-1, b"\x7f"),
        (-64, b"\x40"),
        (-65, b"\xbf\x7f"),
        (63, b"\x3f"),
        (64, b"\xc0\x00"),
        (i64::MAX, b"\xff\xff\xff\xff\xff\xff\xff\xff\xff\x00"),
        (i64::MIN, b"\x80\x80\x80\x80\x80\x80\x80\x80\x80\x7f"),
    ];
    check_all(&signed);
    check_all(&[(false, b"\x00"), (true, b"\x01")]);
    check(&String::from_str(Global, "f").unwrap(), b"\x01\x66");
}

#[test]
fn lists_and_tuples() {
    check::<&[u8]>(&b"\xaa".as_slice(), b"\x01\xaa");
    check_all::<&[u32]>(&[(&[1, 128, 3], b"\x03\x01\x80\x01\x03"), (&[], b"\x00")]);
    check::<&[(&str, u32)]>(&[("a", 1), ("", 2)].as_slice(), b"\x02\x01\x61\x01\x00\x02");
    check_all::<Option<u32>>(&[(None, b"\x00"), (Some(5), b"\x01\x05")]);
    check(&("b", 1u32, Some(true)), b"\x01\x62\x01\x01\x01");
    check(&(), b"");
}

#[test]
fn value_types_of_one_byte() {
    let reference =
        |nullable, ty| ValType::Ref(RefType { nullable, heap_type: HeapType::Abstract(ty) });
    let (func, extern_) = (AbstractHeapType::Func, AbstractHeapType::Extern);
    let numbers = [ValType::I32, ValType::I64, ValType::F32, ValType::F64, ValType::V128];
    let kept = [&numbers[..], &[reference(true, func), reference(true, extern_)]].concat();
    let mut types = ByteTypes::new();
    check(&types, b"\x00");
    for (at, ty) in kept.iter().enumerate() {
        if at == numbers.len() {
            check(&types, b"\x05\x7f\x7e\x7d\x7c\x7b");
        }
        assert!(types.push_using(*ty));
    }
    for (nullable, ty) in [(false, func), (false, extern_), (true, AbstractHeapType::Any)] {
        assert!(!types.push_using(reference(nullable, ty)));
    }
    check(&types, b"\x07\x7f\x7e\x7d\x7c\x7b\x70\x6f");
    for _ in 7..11 {
        assert!(types.push_using(ValType::I64));
    }
    assert!(!types.push_using(ValType::I32));
    check(&types, b"\x0b\x7f\x7e\x7d\x7c\x7b\x70\x6f\x7e\x7e\x7e\x7e");
    let all: Vec<_> = (0..12).map_while(|index| types.get(index)).collect();
    assert_eq!(all, [&kept[..], &[ValType::I64; 4]].concat());
}

#[test]
fn values_around_values() {
    check(&Prefix(0x2a, &7u32), b"\x2a\x07");
    check(&Tagged(0x2a, &7u32), b"\x2a\x07");
    check_all(&[(Verbatim(b""), b""), (Verbatim(b"\x80\x00"), b"\x80\x00")]);
    check(&(Verbatim(b"\x01"), ((), 2u32)), b"\x01\x02");
    check(&ByRef(&128u32), b"\x80\x01");
    check(&WithSize(&()), b"\x00");
    check(&WithSize(&"ab"), b"\x03\x02\x61\x62");
    check(&WithSize(&(128u32, "a", false)), b"\x05\x80\x01\x01\x61\x00");
}

// The fields of a structure, from an iterator and from a slice.
#[test]
fn structures() {
    let starts: [&[u8]; 4] = [b"\x5f\x00", b"\x5f\x01", b"\x5f\x7f", b"\x5f\x80\x01"];
    for (count, start) in [0, 1, 127, 128].into_iter().zip(starts) {
        let field = FieldType { element_type: StorageType::I8, mutable: true };
        let fields = vec![field; count];
        let mut types = Holder::new(Global);
        types.open(&[]).unwrap();
        CoreTypeEncoder::new(&mut types, false).struct_(fields.iter().copied()).unwrap();
        types.open(&[]).unwrap();
        CoreTypeEncoder::new(&mut types, false).slice_struct(&fields).unwrap();
        assert_eq!(types.as_slice(), [start, &b"\x78\x01".repeat(count)].concat().repeat(2));
    }
}

// Of the values of a vector, and of a type that the crates below don't know.
#[test]
fn lists_in_one_sink() {
    let mut sink = vec![0x99];
    encode_list(vec![1u32, 128, 3].into_iter(), &mut sink).unwrap();
    encode_list([0usize; 0].into_iter(), &mut sink).unwrap();
    write_all(&[Light::Red, Light::Green], Some(Light::Red), &mut sink).unwrap();
    write_all(&[], None::<Light>, &mut sink).unwrap();
    assert_eq!(sink.as_slice(), b"\x99\x03\x01\x80\x01\x03\x00\x02rg\x01r\x00\x00");
}

// After 126 bytes and their number the size has one byte, and after 127 it has two.
const LONG_SIZES: &[(usize, &[u8])] =
    &[(126, &[0x99, 0x7f, 0x7e]), (127, &[0x99, 0x80, 0x01, 0x7f])];

const ZEROS: [u8; 127] = [0; 127];

type SectionSize = (u32, u64, Result<u32, Fault>);

// The bytes of the count and those of the members. The text of 128 has two bytes.
const SECTION_SIZES: &[SectionSize] = &[
    (0, 0, Ok(1)),
    (1, 5, Ok(6)),
    (128, 5, Ok(7)),
    (0, 4294967294, Ok(4294967295)),
    (0, 4294967295, Err(Fault::TooLarge)),
    (128, 4294967293, Ok(4294967295)),
    (128, 4294967294, Err(Fault::TooLarge)),
    (4294967295, 4294967290, Ok(4294967295)),
    (4294967295, 4294967291, Err(Fault::TooLarge)),
    (0, 18446744073709551615, Err(Fault::TooLarge)),
];

#[test]
fn sizes() {
    for bytes in 1..5 {
        let more = 1 << (7 * bytes);
        assert_eq!((encoding_size(more - 1), encoding_size(more)), (bytes, bytes + 1));
    }
    assert_eq!(encoding_size(u32::MAX), 5);
    for (count, body, wanted) in SECTION_SIZES {
        assert_eq!(section_size(*count, *body), *wanted);
    }
    for (count, start) in LONG_SIZES {
        let content = &ZEROS[..*count];
        let mut sink = vec![0x99];
        WithSize(&content).encode(&mut sink).unwrap();
        assert_eq!(sink.strip_prefix(*start), Some(content));
    }
}

const FAULTS: &[(Fault, u8, &str)] = &[
    (Fault::Memory(AllocError), 1, "no memory"),
    (Fault::TooMany, 2, "too many"),
    (Fault::TooLarge, 3, "too large"),
    (Fault::Unfinished, 4, "unfinished"),
];

// Their numbers, and what is printed of them.
#[test]
fn faults() {
    assert_eq!(Fault::from(AllocError), Fault::Memory(AllocError));
    for (fault, number, text) in FAULTS {
        assert_eq!(fault.number(), *number);
        assert_eq!(fault.to_string(), *text);
    }
}

const THREE_VALUES: &[u8] = &[0x2a, 0x80, 0x01, 0xbf, 0x7f];

// A byte, and two numbers.
fn short() -> Short {
    let mut short = Short::new();
    short.push_using(0x2a);
    short.unsigned(128);
    short.signed(-65);
    short
}

#[test]
fn without_memory() {
    assert_eq!(short().as_slice(), THREE_VALUES);
    let mut sink = Vec::with_capacity_using(Global, 8).unwrap();
    extend_in_room(&mut sink, &[0x2a, 0x80, 0x01, 0xbf, 0x7f]);
    assert_eq!(sink.as_slice(), THREE_VALUES);
    encode_byte(0xff, &mut sink).unwrap();
    assert_eq!(sink.as_slice(), [0x2a, 0x80, 0x01, 0xbf, 0x7f, 0xff]);
}

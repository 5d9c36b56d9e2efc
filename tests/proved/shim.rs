//! The shim against the documentation of Rattle's library: what each call does, that it returns an
//! error for each failed allocation and leaves its collection unchanged, and that it allocates only
//! without room.

use super::refusing::Refusing;
use crate::proved::hex::{self, FromHexError};
use crate::proved::wenc_view::{ListOf, View};
use crate::shim::alloc::{AllocError, AllocFailed, Global, TryClone};
use crate::shim::borrow::CowStr;
use crate::shim::boxed::Box;
use crate::shim::convert::AsSlice;
use crate::shim::iter::CollectUsing;
use crate::shim::string::{String, StringUsing};
use crate::shim::vec::{Vec, VecUsing};
use std::borrow::Cow;
use std::string::{String as RustString, ToString};
use std::vec;
use std::vec::Vec as RustVec;

/// An allocator, and a vector of it with these elements and no room for more.
fn full(heap: Refusing, values: &[u16]) -> Vec<u16> {
    let vec = Vec::from_slice(heap, values).expect("it is granted");
    assert_eq!(vec.capacity(), values.len());
    vec
}

#[test]
fn a_vector_asks_only_where_room_is_missing() {
    let heap = Refusing::new();
    heap.refuse_all();
    let mut vec: Vec<u16> = Vec::new_using(heap);
    assert!(vec.try_reserve_using(0).is_ok() && vec.extend_from_slice_using(&[]).is_ok());
    assert!(Vec::<u16>::with_capacity_using(heap, 0).is_ok());
    assert_eq!(heap.requests(), 0);
    heap.refuse_none();
    vec.try_reserve_using(3).expect("it is granted");
    assert_eq!((heap.requests(), heap.was_refused()), (1, false));
    let room = vec.capacity();
    heap.refuse_all();
    vec.push_using(1).expect("there is room");
    vec.insert_using(0, 2).expect("there is room");
    vec.extend_from_slice_using(&[3]).expect("there is room");
    assert_eq!((vec.as_slice(), vec.capacity(), heap.requests()), (&[2, 1, 3][..], room, 0));
    heap.refuse_none();
}

#[test]
fn a_refused_vector_is_as_it_was() {
    let heap = Refusing::new();
    let mut vec = full(heap, &[7, 8]);
    heap.refuse_all();
    assert_eq!(vec.push_using(9).map_err(|failed| failed.value), Err(9));
    assert_eq!(vec.insert_using(1, 9).map_err(|failed| failed.value), Err(9));
    assert_eq!(vec.extend_from_slice_using(&[9]), Err(AllocError));
    assert_eq!(vec.try_reserve_using(1), Err(AllocError));
    assert_eq!((vec.as_slice(), vec.capacity()), (&[7, 8][..], 2));
    assert_eq!((heap.requests(), heap.was_refused()), (4, true));
    assert!(Vec::from_slice(heap, &[1u8]).is_err());
    assert!((0..3).collect_using(heap).is_err());
    assert!(Vec::<u8>::with_capacity_using(heap, 1).is_err());
    heap.refuse_none();
}

#[test]
fn a_vector_does_what_its_calls_say() {
    let heap = Refusing::new();
    let mut vec = full(heap, &[1, 2, 3]);
    vec.insert_using(1, 9).expect("granted");
    vec.insert_using(4, 8).expect("granted");
    assert_eq!(vec.as_slice(), [1, 9, 2, 3, 8]);
    assert_eq!((vec.remove(1), vec.remove(3)), (9, 8));
    vec.truncate(7);
    assert_eq!(vec.as_slice(), [1, 2, 3]);
    vec.truncate(1);
    vec.as_mut_slice()[0] = 5;
    assert_eq!((vec.len(), vec[0], vec.remove(0), vec.len()), (1, 5, 5, 0));
    assert_eq!((0..3u8).collect_using(Global).expect("granted").as_slice(), [0, 1, 2]);
    let owned: RustVec<u8> = vec![4, 5];
    assert_eq!(owned, [4, 5]);
    assert!(Vec::from_slice(heap, &[1]) == Vec::from_slice(Refusing::new(), &[1]));
    assert_eq!(vec![1, 2].into_iter().rev().collect::<RustVec<_>>(), [2, 1]);
}

/// Sizes that no machine has: they fail before the system is called, and nothing ends the program.
#[test]
fn sizes_that_no_memory_has() {
    assert!(Vec::<u8>::with_capacity_using(Global, usize::MAX).is_err());
    assert!(Vec::<u64>::with_capacity_using(Global, usize::MAX / 8).is_err());
    assert!(Vec::<u64>::with_capacity_using(Global, usize::MAX).is_err());
    let mut vec = vec![1u8];
    assert_eq!(vec.try_reserve_using(usize::MAX), Err(AllocError));
    assert_eq!(vec.try_reserve_using(isize::MAX as usize), Err(AllocError));
    assert_eq!(vec.as_slice(), [1]);
    assert!((0..usize::MAX).map(|n| n as u8).collect_using(Global).is_err());
    assert!(Vec::<()>::with_capacity_using(Global, usize::MAX).is_ok());
}

#[test]
fn texts() {
    let heap = Refusing::new();
    let mut text = String::from_str(heap, "ab").expect("granted");
    heap.refuse_all();
    assert_eq!(text.push_using('é'), Err(AllocError));
    assert_eq!(text.push_str_using("c"), Err(AllocError));
    assert_eq!(text.write_fmt(format_args!("{}", 1)), Err(AllocError));
    assert_eq!((text.push_str_using(""), text.as_str()), (Ok(()), "ab"));
    assert!(text.try_clone().is_err() && String::from_str(heap, "a").is_err());
    assert!(crate::shim::prelude::format!(in heap; "{}", 1).is_err());
    heap.refuse_none();
    text.push_using('é').expect("granted");
    write!(text, "{:03}!", 7).expect("granted");
    assert_eq!((text.as_str(), text.to_string()), ("abé007!", "abé007!".into()));
    assert_eq!(text.try_clone().map(|copy| copy == text), Ok(true));
    assert_eq!(text.into_bytes().as_slice(), "abé007!".as_bytes());
    let text = crate::shim::prelude::format!(in Global; "{}-{:x}", "a", 255).expect("granted");
    assert_eq!(text, "a-ff");
    assert_eq!(RustString::from("x").as_str(), "x");
}

#[test]
fn boxes() {
    let heap = Refusing::new();
    heap.refuse_nth(1);
    let refused: Result<Box<u16>, AllocFailed<u16>> = Box::new(heap, 3);
    assert_eq!(refused.map_err(|failed| failed.value).err(), Some(3));
    let mut boxed = Box::new(heap, 3).expect("granted");
    *boxed += 1;
    assert_eq!((*boxed, heap.requests(), heap.was_refused()), (4, 2, true));
    assert_eq!(Box::into_inner(boxed), 4);
    assert_eq!(Box::<()>::new(Global, ()).map(Box::into_inner).ok(), Some(()));
}

#[test]
fn texts_that_are_lent_or_owned() {
    let heap = Refusing::new();
    let borrowed = CowStr::Borrowed("a");
    let owned = CowStr::Owned(String::from_str(heap, "a").expect("granted"));
    assert_eq!(borrowed, owned);
    heap.refuse_all();
    assert!(borrowed.try_clone().is_ok() && owned.try_clone().is_err());
    heap.refuse_none();
    assert_eq!(CowStr::from(Cow::from("b")).as_str(), "b");
    assert_eq!(CowStr::from(Cow::from(RustString::from("c"))).as_str(), "c");
}

#[test]
fn copies_that_may_be_refused() {
    let heap = Refusing::new();
    let text = Some(String::from_str(Global, "a").expect("granted"));
    assert_eq!(text.try_clone().map(|copy| copy == text), Ok(true));
    heap.refuse_all();
    assert!(text.try_clone().is_err());
    heap.refuse_none();
    assert_eq!(TryClone::try_clone(&Some(Global)), Ok(Some(Global)));
    assert_eq!(TryClone::try_clone(&None::<String>).map(|none| none.is_none()), Ok(true));
    assert_eq!(AllocError::from(AllocFailed { value: 1 }), AllocError);
    assert_eq!(AllocError.to_string(), "memory allocation failed");
}

#[test]
fn what_lends_a_slice() {
    let vec = vec![1, 2];
    let lengths = [
        AsSlice::<u8>::as_slice(&vec).len(),
        AsSlice::as_slice(&&vec).len(),
        AsSlice::as_slice(&[1, 2]).len(),
        AsSlice::as_slice(&&[1, 2]).len(),
        AsSlice::<u8>::as_slice(&vec![1, 2]).len(),
        AsSlice::as_slice(&&[1, 2][..]).len(),
    ];
    assert_eq!(lengths, [2; 6]);
}

#[test]
fn digits() {
    assert_eq!(hex::decode(Global, "00fFA9").map(|bytes| bytes[..] == [0, 255, 0xa9]), Ok(true));
    assert_eq!(hex::decode(Global, "0").err(), Some(FromHexError::OddLength));
    assert_eq!(hex::decode(Global, "0g").err(), Some(FromHexError::InvalidHexCharacter));
    let heap = Refusing::new();
    heap.refuse_all();
    assert_eq!(hex::decode(heap, "00").err(), Some(FromHexError::OutOfMemory));
    heap.refuse_none();
}

#[test]
fn digits_are_written() {
    let mut text = *b"....";
    assert_eq!(hex::encode_to_slice([0x2a, 0xf0], &mut text), Ok(()));
    assert_eq!(text, *b"2af0");
    for byte in 0..=u8::MAX {
        assert_eq!(hex::encode_to_slice([byte], &mut text[..2]), Ok(()));
        assert_eq!(text[..2], *std::format!("{byte:02x}").as_bytes());
    }
    text = *b"....";
    for len in [0, 1, 3, 4] {
        let refused = hex::encode_to_slice([0x2a], &mut text[..len]);
        assert_eq!(refused, Err(FromHexError::InvalidStringLength), "{len}");
    }
    assert_eq!(text, *b"....");
    assert_eq!(hex::encode_to_slice([], &mut []), Ok(()));
}

/// A list has no more members after one that can't be read.
#[test]
fn a_list_ends_where_it_is_not_read() {
    let (mut list, rest) = ListOf::<&str>::view_of(b"\x03\x01a\x01b\x01c").expect("it is a list");
    assert_eq!((list.size_hint(), list.next(), rest), ((3, Some(3)), Some("a"), &b""[..]));
    list.bytes = b"\x80";
    assert_eq!((list.size_hint(), list.next()), ((2, Some(2)), None));
    assert_eq!((ExactSizeIterator::len(&list), list.size_hint()), (0, (0, Some(0))));
}

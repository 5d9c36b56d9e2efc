//! Members of a holder that are begun: calls that fail until the member is ended or discarded, and
//! each allocation of what is written to it.

use crate::proved::tests::refusing::Refusing;
use crate::proved::tests::sweeping::{REFUSED, TEXT};
use crate::proved::wenc_base::{Encode, Fault, Holder, Parent, Verbatim};
use crate::shim::vec::{Vec, VecUsing};
use std::collections::BTreeSet;

type Heaped = Holder;

/// What a member is opened with.
const LEADS: [&[u8]; 2] = [&[], &[0x10]];

/// A holder with this many members of one byte, and one that is opened.
fn opened(heap: Refusing, members: usize, lead: &[u8]) -> Heaped {
    heap.refuse_none();
    let mut holder = Holder::new(heap);
    for _ in 0..members {
        holder.add(&[0xaa]).unwrap();
    }
    holder.open(lead).unwrap();
    holder
}

/// The holder has two members, of which the second is being written, and these bytes.
fn is_unfinished(holder: &Heaped, bytes: &[u8], is_opened: bool) {
    assert_eq!((holder.is_finished(), holder.is_opened()), (false, is_opened));
    assert_eq!((holder.len(), holder.as_slice()), (2, bytes));
}

/// Calls that add or encode fail since a member is unfinished, whatever else is wrong, and don't
/// allocate.
fn refuses(heap: Refusing, holder: &mut Heaped) {
    let too_many = 4294967296usize;
    heap.refuse_all();
    let mut sink = Vec::new_using(heap);
    let refused = [
        holder.add(TEXT),
        holder.add(&[]),
        holder.add_encoded(&TEXT),
        holder.add_encoded(&too_many),
        holder.add_listed(&1u32, [too_many].into_iter(), &TEXT),
        holder.add_listed(&too_many, [TEXT].into_iter(), &()),
        holder.open(TEXT),
        holder.open(&[]),
        holder.keep_all(&Verbatim(TEXT)).map(|_| ()),
        holder.keep_all(&too_many).map(|_| ()),
        holder.encode(&mut sink),
        holder.encode_section(&mut sink),
    ];
    assert_eq!(refused, [Err(Fault::Unfinished); 12]);
    assert_eq!((heap.requests(), sink.len()), (0, 0));
    heap.refuse_none();
}

/// The member is discarded, once, without allocating, and another is added.
fn is_given_up(heap: Refusing, holder: &mut Heaped) {
    heap.refuse_all();
    assert!(holder.discard_unfinished() && holder.is_finished() && !holder.is_opened());
    assert!(!holder.discard_unfinished() && heap.requests() == 0);
    assert_eq!((holder.len(), holder.as_slice()), (1, &[0xaa][..]));
    heap.refuse_none();
    holder.add_encoded(&42u32).unwrap();
    let mut sink = Vec::new_using(heap);
    holder.encode_section(&mut sink).unwrap();
    assert_eq!(sink.as_slice(), [0x03, 0x02, 0xaa, 0x2a]);
}

/// The copy is unfinished too. If the allocation fails, there is none.
fn copied(heap: Refusing, holder: &Heaped) -> Heaped {
    heap.refuse_nth(1);
    assert_eq!(holder.try_clone().err(), Some(REFUSED));
    assert!(heap.was_refused());
    heap.refuse_none();
    let copy = holder.try_clone().unwrap();
    assert_eq!(heap.requests(), 1);
    copy
}

#[test]
fn members_that_are_not_ended() {
    let heap = Refusing::new();
    for (lead, written) in LEADS.into_iter().flat_map(|lead| [(lead, &b""[..]), (lead, b"ab")]) {
        let mut holder = opened(heap, 1, lead);
        if !written.is_empty() {
            holder.append(written).unwrap();
        }
        let bytes = [&[0xaa], lead, written].concat();
        let mut copy = copied(heap, &holder);
        for begun in [&mut copy, &mut holder] {
            is_unfinished(begun, &bytes, written.is_empty());
            refuses(heap, begun);
            is_unfinished(begun, &bytes, written.is_empty());
            is_given_up(heap, begun);
        }
    }
}

/// A call, and what it writes.
type Call = (fn(&mut Heaped) -> Result<(), Fault>, &'static [u8]);

/// Calls on a member, one after the other, and finally one that adds another.
const CALLS: [Call; 8] = [
    (|to| to.append(&[3]), b"\x03"),
    (|to| to.append_encoded(&("f", 128u32)), b"\x01f\x80\x01"),
    (|to| to.append_listed(&[2, 3], ["g"].into_iter()), b"\x02\x03\x01\x01g"),
    (|to| to.append_value(&7u32), b"\x07"),
    (|to| to.append_list(&[0x60], [1usize, 128].into_iter()), b"\x60\x02\x01\x80\x01"),
    (
        |to| to.append_between(&7u32, ["f"].into_iter(), &Verbatim(&[8, 9])),
        b"\x07\x01\x01f\x08\x09",
    ),
    (|to| to.close(&[4]), b"\x04"),
    (|to| to.add_listed(&true, [1usize, 128].into_iter(), &"g"), b"\x01\x02\x01\x80\x01\x01g"),
];

/// What was opened is the member.
fn finished(to: &mut Heaped) -> Result<(), Fault> {
    to.finish_member();
    Ok(())
}

/// Calls that end a member.
const ENDS: [Call; 4] = [
    (|to| to.end_with(&2u32), b"\x02"),
    (|to| to.end_with_list(&[8], ["f"].into_iter()), b"\x08\x01\x01f"),
    (|to| to.append_list(&[], ["f"; 0].into_iter()).map(|()| to.end_member()), b"\x00"),
    (finished, b""),
];

/// Makes these calls with allocation number `n` failing. The call that fails changes nothing, and
/// is repeated. Returns which one it is, if there is such an allocation.
fn refused(heap: Refusing, members: usize, lead: &[u8], calls: &[Call], n: u64) -> Option<usize> {
    let mut holder = opened(heap, members, lead);
    let mut bytes = [&[0xaa; 16][..members], lead].concat();
    let mut refused = None;
    heap.refuse_nth(n);
    for (at, (call, written)) in calls.iter().enumerate() {
        let before = (holder.len(), holder.is_finished(), holder.is_opened());
        if let Err(fault) = call(&mut holder) {
            assert_eq!((fault, holder.as_slice()), (REFUSED, &bytes[..]));
            assert_eq!((holder.len(), holder.is_finished(), holder.is_opened()), before);
            call(&mut holder).unwrap();
            assert_eq!(refused.replace(at), None);
        }
        bytes.extend(*written);
        assert_eq!(holder.as_slice(), bytes);
    }
    assert_eq!(refused.is_some(), heap.was_refused());
    heap.refuse_none();
    let added = if calls.len() > 1 { 2 } else { 1 };
    assert!(holder.is_finished() && holder.len() as usize == members + added);
    refused
}

/// Each call that writes fails: after up to 16 members, growth is needed at each place.
#[test]
fn refused_growths() {
    let heap = Refusing::new();
    for calls in ENDS.chunks(1).chain([&CALLS[..]]) {
        let mut met = BTreeSet::new();
        for (lead, members) in LEADS.into_iter().flat_map(|lead| (0..=16).map(move |n| (lead, n))) {
            met.extend((1..20).map_while(|n| refused(heap, members, lead, calls, n)));
        }
        let writing = (0..calls.len()).filter(|at| !calls[*at].1.is_empty());
        assert_eq!(met, writing.collect());
    }
}

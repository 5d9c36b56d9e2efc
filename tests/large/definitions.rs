//! The memory and the steps of what indices mean, for components that are made for the worst of
//! both. Each is read at two sizes; in quadratic time no test would end within the time limit of
//! the gate.

use crate::refuse::requested;
use wenc::Component;
use wenc::scope::{Definition, Definitions, ScopeFault};
use wenc::tree::Space;

/// A number in as few bytes as there are.
fn number(mut number: usize) -> Vec<u8> {
    let mut bytes = Vec::new();
    while number > 0x7f {
        bytes.push(number as u8 | 0x80);
        number >>= 7;
    }
    bytes.push(number as u8);
    bytes
}

fn section(id: u8, count: usize, items: &[u8]) -> Vec<u8> {
    let count = number(count);
    [&[id][..], &number(count.len() + items.len()), &count, items].concat()
}

fn component(sections: &[Vec<u8>]) -> Vec<u8> {
    [&Component::HEADER[..], &sections.concat()].concat()
}

/// As many bytes as a function makes of the numbers below.
fn each(count: usize, make: impl Fn(usize) -> Vec<u8>) -> Vec<u8> {
    (0..count).flat_map(make).collect()
}

/// A type of instances that export functions with these names.
fn exporting(count: usize, name: impl Fn(usize) -> String) -> Vec<u8> {
    let exports = each(count, |at| {
        let name = name(at);
        [&b"\x04\0"[..], &number(name.len()), name.as_bytes(), b"\x01\0"].concat()
    });
    [&b"\x42"[..], &number(count + 1), b"\x01\x40\0\x01\0", &exports].concat()
}

/// Components of about this many items, each made for something.
fn worst(count: usize) -> Vec<(&'static str, Vec<u8>)> {
    let ty = || section(7, 1, b"\x79");
    let repeated = |id, item: &[u8]| component(&[section(id, count, &item.repeat(count))]);
    let import = section(10, 1, b"\0\0\x05\0");
    let same = exporting(count, |_| "a".into());
    let other = exporting(count, |at| format!("f{at}"));
    let aliases = section(6, count, &b"\x01\0\0\x01a".repeat(count));
    let chain = each(count, |at| [&b"\x03\x02\0"[..], &number(at)].concat());
    let equal = each(count, |at| {
        let name = format!("a{at}");
        [&[0][..], &number(name.len()), name.as_bytes(), b"\x03\0", &number(at)].concat()
    });
    let imports = each(count, |at| {
        let name = format!("e{at}");
        [&[0][..], &number(name.len()), name.as_bytes(), b"\x05\0"].concat()
    });
    let mut deep = [&b"\x42"[..], &number(count), &b"\x01\x79".repeat(count)].concat();
    (0..97).for_each(|_| deep = [b"\x42\x01\x01", &deep[..]].concat());
    vec![
        ("types of a byte", repeated(7, b"\x79")),
        ("functions of a byte", repeated(8, b"\x05")),
        ("types without declarations", repeated(7, b"\x42\0")),
        ("instances without exports", repeated(5, b"\x01\0")),
        ("exports of core instances", {
            let list = [&b"\x01"[..], &number(count), &b"\0\0\0".repeat(count)].concat();
            component(&[section(2, 1, &list)])
        }),
        ("outer aliases", repeated(6, b"\x03\x02\0\0")),
        ("a chain of aliases", component(&[ty(), section(6, count, &chain)])),
        ("a chain of imports", component(&[ty(), section(10, count, &equal)])),
        ("exports of one name", component(&[section(7, 1, &same), import.clone(), aliases])),
        ("imports of one type", component(&[section(7, 1, &other), section(10, count, &imports)])),
        ("types without a count", component(&[b"\x07\0".repeat(count)])),
        ("components without a header", component(&[b"\x04\0".repeat(count)])),
        ("imports that aren't read", component(&[b"\x0a\x02\x01\xff".repeat(count)])),
        ("aliases that aren't read", component(&[b"\x06\x02\x01\xff".repeat(count)])),
        ("types in types", component(&[section(7, 1, &deep)])),
    ]
}

/// Follows each definition of the outermost component, and finds its users. Returns how many are
/// the same as another, can't be followed, and have an index of one of these.
fn followed(all: &Definitions<'_>) -> [usize; 3] {
    let instances = all.instances();
    let mut seen = [0; 3];
    for of in instances.component().definitions() {
        match of.resolve() {
            Ok(last) => seen[0] += usize::from(last != of),
            Err(_) => seen[1] += 1,
        }
        _ = (of.ty(), of.exports(), of.origin());
        seen[2] += instances.users(of).expect("there is memory").count();
    }
    seen
}

/// Each takes at most 40 bytes of memory for each byte, and 1 MB, which is all at once: what is
/// read is counted before memory is reserved. Users take 8 bytes more.
#[test]
fn memory_is_as_much_as_is_stated() {
    let (mut sums, mut all) = ([[0; 3]; 2], 0);
    for (count, sums) in [20_000, 200_000].into_iter().zip(&mut sums) {
        for (name, bytes) in worst(count) {
            let mut errors = 0;
            let (read, requested_by_reading) =
                requested(|| Definitions::past_faults(&bytes, 100, |_| errors += 1));
            let most = 40 * bytes.len() + (1 << 20);
            assert!(requested_by_reading <= most, "{name}: {requested_by_reading} of {most}");
            let (seen, requested_by_users) = requested(|| followed(&read));
            let most = 8 * bytes.len() + (2 << 20);
            assert!(requested_by_users <= most, "{name}: {requested_by_users} of {most}");
            sums.iter_mut().zip(seen).for_each(|(sum, seen)| *sum += seen);
            all += 1;
        }
    }
    assert_eq!(all, 30);
    // what is seen grows as the components do
    for (few, many) in sums[0].into_iter().zip(sums[1]) {
        assert!(few > 10_000 && (9 * few..11 * few).contains(&many), "{sums:?}");
    }
}

/// The number of instances in one another that can be followed: what is deeper is too deep, and
/// nothing recurses.
#[test]
fn instances_in_one_another_are_followed_to_a_depth() {
    // types of instances that export an instance of the one before
    let depth = 150;
    let mut ty = b"\x42\x01\x04\0\x01r\x03\x01".to_vec();
    let mut types = vec![ty.clone()];
    for _ in 1..90 {
        ty = [&b"\x42\x02\x01"[..], &ty, b"\x04\0\x01i\x05\0"].concat();
        types.push(ty.clone());
    }
    let last = types.pop().expect("there is one");
    let import = section(10, 1, b"\0\x01x\x05\0");
    let aliases = each(depth, |at| [&b"\x05\0"[..], &number(at), b"\x01i"].concat());
    let bytes = component(&[section(7, 1, &last), import, section(6, depth, &aliases)]);
    let all = Definitions::new(&bytes, 100).expect("it is read");
    let instances = all.instances();
    let scope = instances.component();
    for index in 0..90 {
        let of = scope.resolve(Space::Instances, index).expect("it is followed");
        let path = std::iter::successors(Some(of), |of| of.instance());
        assert_eq!(path.count(), index as usize + 1);
        assert_eq!(of.origin().map(|of| of.and_then(Definition::name)), Ok(Some("x")));
    }
    let fault = scope.resolve(Space::Instances, 90).err();
    assert!(matches!(fault, Some(ScopeFault::NoExport { .. })), "{fault:?}");
}

//! Thousands of damaged components.

use crate::causes::part_of;
use crate::corpus::components;
use crate::json_value::Value;
use crate::random::Random;
use crate::side_by_side::side_by_side;
use crate::{component, dump};
use wenc::view::ItemView;
use wenc::{CoreSection, CoreSections, DebugNames, ProducersReader, SectionReader, Sections, list};

/// How many components are damaged. Programs that aren't optimized are slow.
const COMPONENTS: usize = if cfg!(debug_assertions) { 1_000 } else { 20_000 };

fn byte(random: &mut Random) -> u8 {
    // Most meaningful bytes are small.
    if random.below(2) == 0 { random.below(0x13) as u8 } else { random.below(0x100) as u8 }
}

/// Bytes after a header, damaged in a few places.
fn damaged(mut bytes: Vec<u8>, random: &mut Random) -> Vec<u8> {
    for _ in 0..=random.below(3) {
        let at = 8 + random.below(bytes.len() - 7);
        match random.below(6) {
            0 => bytes.insert(at, byte(random)),
            1 => bytes.truncate(at),
            2 if at < bytes.len() => {
                bytes.remove(at);
            }
            3 if at < bytes.len() => bytes[at] ^= 1 << random.below(8),
            4 => {
                let end = (at + random.below(9)).min(bytes.len());
                bytes.drain(at..end);
            }
            _ if at < bytes.len() => bytes[at] = byte(random),
            _ => bytes.push(byte(random)),
        }
    }
    bytes
}

/// Small components of the corpus, and the sections of all.
fn parts() -> (Vec<Vec<u8>>, Vec<Vec<u8>>) {
    let (mut small, mut parts) = (Vec::new(), Vec::new());
    for bytes in components() {
        for section in Sections::new(&bytes).into_iter().flatten().flatten() {
            if section.range().len() < 400 {
                parts.push(section.bytes().to_vec());
            }
        }
        if bytes.len() < 1_500 {
            small.push(bytes);
        }
    }
    assert!(small.len() > 10 && parts.len() > 100);
    (small, parts)
}

/// Returns whether a custom section can be read.
fn is_custom_read(item: &ItemView) -> bool {
    match item {
        ItemView::Custom { name: DebugNames::SECTION, .. } => DebugNames::new().read(item).is_ok(),
        ItemView::Custom { name: ProducersReader::SECTION, data } => {
            ProducersReader::new(data).all(|tool| tool.is_ok())
        }
        _ => true,
    }
}

/// Returns whether the core module with these bytes can be read.
fn is_module_read(bytes: &[u8]) -> bool {
    let is_read = |section: CoreSection| {
        let has_tools = section.name == Some(ProducersReader::SECTION);
        section.kind().is_some()
            && section.items().all(|item| item.is_ok())
            && (!has_tools || ProducersReader::new(section.data).all(|tool| tool.is_ok()))
    };
    CoreSections::new(bytes).is_ok_and(|mut sections| sections.all(|it| it.is_ok_and(is_read)))
}

/// Returns whether the component with these bytes, which is this deep in others, can be read.
fn is_component_read(bytes: &[u8], depth: usize) -> bool {
    let is_read = |section: SectionReader| {
        section.items().all(|item| match item.map(|item| item.view) {
            Ok(ItemView::Component(bytes)) => is_component_read(bytes, depth + 1),
            Ok(ItemView::Module(bytes)) => is_module_read(bytes),
            Ok(item) => is_custom_read(&item),
            Err(_) => false,
        })
    };
    let sections = Sections::new(bytes);
    depth < 100 && sections.is_ok_and(|mut sections| sections.all(|it| it.is_ok_and(is_read)))
}

/// Checks that the messages for the bytes agree with the fault of `list`. Returns the exit status.
fn check(bytes: &[u8]) -> u8 {
    let is_read = is_component_read(bytes, 0);
    let (status, out, err) = dump(&[], bytes);
    assert_eq!((status, err.is_empty()), (u8::from(!is_read), is_read), "{err}{bytes:02x?}");
    let (with_check, checked, _) = dump(&["--json", "--check"], bytes);
    Value::read(&checked);
    let (json_status, json, messages) = dump(&["--json"], bytes);
    assert_eq!((json_status, &messages), (status, &err), "{bytes:02x?}");
    assert!(with_check >= status && !out.is_empty(), "{bytes:02x?}");
    let json = Value::read(&json);
    assert_eq!(json.at("fault") == &Value::Null, is_read, "{bytes:02x?}");
    let Err(fault) = list(bytes) else { return status };
    let (part, end) = part_of(bytes, fault);
    let Value::Object(fields) = json.at("fault") else { panic!("{fault}") };
    let is_same = fields["place"] == Value::Number(part as u128);
    if let Some(cause) = fields.get("cause").filter(|_| is_same) {
        let place = cause.at("place").number() as usize;
        assert!(part <= place && place <= end, "{err}{bytes:02x?}");
    }
    status
}

#[test]
fn damaged_components() {
    let (components, parts) = parts();
    let mut random = Random(0x9e37_79b9_7f4a_7c15);
    let mut damaged = |number| {
        let bytes = if number % 2 == 0 {
            random.one_of(&components).clone()
        } else {
            let sections = (0..random.below(6)).map(|_| random.one_of(&parts).clone());
            component(&sections.collect::<Vec<_>>().concat())
        };
        damaged(bytes, &mut random)
    };
    let damaged: Vec<_> = (0..COMPONENTS).map(&mut damaged).collect();
    let statuses = side_by_side(COMPONENTS, |number| usize::from(check(&damaged[number])));
    let bad: usize = statuses.into_iter().sum();
    assert!(bad > COMPONENTS / 2 && bad < COMPONENTS, "{bad}");
}

/// Each kind of item, cut at each byte, at the end of the component and with bytes after it.
#[test]
fn cut_items() {
    let (_, parts) = parts();
    let mut kinds = [0; 12];
    let others: [&[u8]; 5] = [
        b"\0\x03\x01xy",
        b"\x01\x08\0asm\x01\0\0\0",
        b"\x04\x08\0asm\x0d\0\x01\0",
        b"\x05\x06\x02\x01\0\0\0\0",
        b"\x09\x03\0\0\0",
    ];
    let small = parts.iter().map(Vec::as_slice).filter(|part| part.len() < 60);
    for section in others.into_iter().chain(small) {
        let id = usize::from(section[0]);
        if kinds[id] == 8 {
            continue;
        }
        kinds[id] += 1;
        for len in 1..=section.len() {
            for after in [0, 300] {
                check(&component(&[&section[..len], &vec![0; after]].concat()));
            }
        }
    }
    assert!(kinds.iter().all(|number| *number > 0), "{kinds:?}");
}

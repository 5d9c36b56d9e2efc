//! Sections with one item, by hand: custom sections, modules, components and starts. Values that
//! encode themselves.

use wenc::tree::{CaseTree, Command, build};
use wenc::*;
use wenc_calls::bytes;
use wenc_calls::encoded::written;
use wenc_calls::format::{Model, list, sized};
use wenc_calls::size::{SIZES, Size};

/// Expects these bytes of a component with the section, by each call that writes it.
#[track_caller]
fn is_alone(section: &impl ComponentSection, wanted: &[u8]) {
    assert!(written(section).iter().all(|bytes| *bytes == wanted));
    let whole = Component::new().section(section).clone();
    assert!(whole.as_slice() == wanted && whole.finish() == wanted);
}

/// A component of this section.
fn component(id: u8, content: Vec<u8>) -> Vec<u8> {
    let mut model = Model::new();
    model.add(id, content);
    model.finish()
}

/// The command makes the component, alone and in one around it.
fn is_command(command: &Command, wanted: &[u8]) {
    let nested = Command::Component { debug_name: None, commands: [command.clone()].into() };
    let built = build(&[command.clone(), nested]).expect("it is built");
    assert_eq!(built.answers, [Ok(None), Ok(Some(0))]);
    assert!(built.bytes == bytes![wanted, 0x04, sized(wanted)]);
}

#[test]
fn sections_alone() {
    for size in SIZES {
        let a = Size::new(size, size, size % 300, size);
        let custom =
            CustomSection { name: a.text.as_str().into(), data: a.other.as_bytes().into() };
        let content = bytes![a.text.as_str(), a.other.as_bytes()];
        is_alone(&custom, &component(0, content.clone()));
        is_alone(&custom.clone(), &component(0, content.clone()));
        let raw = sized(&content);
        is_alone(&RawCustomSection(&raw), &component(0, content.clone()));
        is_command(&Command::RawCustom { bytes: raw }, &component(0, content.clone()));
        for id in [12, 200] {
            let raw = RawSection { id, data: a.other.as_bytes() };
            let wanted = bytes![&Component::HEADER[..], i32::from(id), sized(a.other.as_bytes())];
            is_alone(&raw, &wanted);
        }

        let (mut module, mut nested) = (Module::new(), Component::new());
        module.section(&custom);
        nested.section(&custom);
        let inner = bytes![&b"\0asm\x01\0\0\0"[..], 0x00, sized(&content)];
        assert!(module.as_slice() == inner && module.clone().finish() == inner);
        let mut appended = Module::HEADER.to_vec();
        custom.append_to(&mut appended);
        assert!(appended == inner);
        is_alone(&ModuleSection(&module), &component(1, inner));
        let inner = component(0, content);
        is_alone(&NestedComponentSection(&nested), &component(4, inner.clone()));
        is_alone(&NestedComponentBytes(&inner), &component(4, inner.clone()));

        let args: Vec<u32> = (0..a.count).map(|at| a.at(at)).collect();
        let start = bytes![a.second, a.bytes(|at| bytes![a.at(at)]), a.index];
        let section =
            ComponentStartSection { function_index: a.second, args: &args[..], results: a.index };
        is_alone(&section, &component(9, start));
    }
}

fn is_encoded(value: &(impl Encode + ?Sized), wanted: &[u8]) {
    let mut sink = vec![0xee];
    value.encode(&mut sink);
    assert!(sink == bytes![0xee, wanted]);
}

#[test]
fn values() {
    for size in SIZES {
        let (a, number) = (Size::new(size, size, size, 1), size as u32);
        let (text, name) = (a.text.as_str(), || String::from(a.text.as_str()));
        assert_eq!(encoding_size(number), bytes![number].len());
        is_encoded(&size, &bytes![number]);
        is_encoded(text, &bytes![text]);
        is_encoded(&Some(text), &bytes![0x01, text]);
        is_encoded(&None::<&str>, &[0x00]);
        is_encoded(text.as_bytes(), &sized(text.as_bytes()));
        is_encoded(&vec![number; size][..], &list(vec![bytes![number]; size].into_iter()));
        is_encoded(&vec!["t"; size][..], &list(vec![bytes!["t"]; size].into_iter()));
        is_encoded(&tree::NameTree::from(name()), &bytes![0x00, text]);
        is_encoded(&CaseTree { name: name(), ty: None }, &bytes![text, 0x00, 0x00]);
    }
}

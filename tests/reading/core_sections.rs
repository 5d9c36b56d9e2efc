//! Core modules section by section.

use std::ops::Range;
use wenc::tree::{CoreEntityType, CoreMemoryType};
use wenc::view::CoreItemView;
use wenc::{Cause, CoreSection, CoreSections, ExportKind, Part, ReadError, SectionId};

fn all(module: &[u8]) -> Vec<Result<CoreSection<'_>, ReadError>> {
    CoreSections::new(module).expect("it has a header").collect()
}

#[test]
fn each_section_has_its_bytes() {
    let module = b"\0asm\x01\0\0\0\x01\x04\x01\x60\0\0\x0c\x81\0\0\0\x03\x01x\x07\xff\0";
    let sections = [
        CoreSection { id: 1, name: None, data: &[1, 0x60, 0, 0], range: 8..14 },
        CoreSection { id: 12, name: None, data: &[0], range: 14..18 },
        CoreSection { id: 0, name: Some("x"), data: &[7], range: 18..23 },
        CoreSection { id: 255, name: None, data: &[], range: 23..25 },
    ];
    let kinds = sections.each_ref().map(CoreSection::kind);
    let known = [SectionId::Type, SectionId::DataCount, SectionId::Custom];
    assert_eq!(kinds[..3], known.map(Some));
    assert_eq!(kinds[3], None);
    assert_eq!(all(module), sections.map(Ok));
    assert_eq!(all(b"\0asm\x01\0\0\0"), []);
}

#[test]
fn ids_ascend() {
    let ids = SectionId::ALL.map(u8::from);
    assert_eq!(ids, [0, 1, 2, 3, 4, 5, 6, 7, 8, 9, 10, 11, 12, 13]);
}

#[test]
fn faults_have_their_places() {
    for bytes in [&b""[..], b"\0asm\x01\0\0", b"\0asm\x0d\0\x01\0", b" (module)"] {
        let error = CoreSections::new(bytes).expect_err("it is none");
        assert_eq!((error.part, error.offset), (Part::Header, 0), "{bytes:x?}");
    }
    for at in 0..8 {
        let mut header = *b"\0asm\x01\0\0\0";
        assert!(CoreSections::new(&header[..at]).is_err());
        header[at] ^= 1;
        assert!(CoreSections::new(&header).is_err());
    }
    let empty = b"\0asm\x01\0\0\0\x01\0";
    // sizes: none, one that doesn't end, one past the end; names: none, one past the end, no text
    let few = |place, needed, len| Cause::Few { place, needed, len };
    for (bytes, cause) in [
        (&b"\x01"[..], few(11, 1, 0)),
        (b"\x01\x80", few(12, 1, 0)),
        (b"\x01\x01", few(12, 1, 0)),
        (b"\x01\xff\xff\xff\xff\x0fa", few(16, u32::MAX, 1)),
        (b"\x01\x80\x80\x80\x80\x80", Cause::Number { place: 11, bits: 32 }),
        (b"\0\0", few(12, 1, 0)),
        (b"\0\x02\x02x\x01\0", few(13, 2, 1)),
        (b"\0\x02\x01\xff\x01\0", Cause::Text { place: 13, byte: 0xff }),
    ] {
        let module = [&empty[..], bytes].concat();
        let told = all(&module);
        assert_eq!(told.len(), 2, "{bytes:x?}");
        let error = told[1].as_ref().expect_err("it isn't read");
        assert_eq!((error.part, error.offset, error.cause), (Part::Section, 10, cause));
    }
    let error = all(&[&empty[..], b"\x01\x07ab"].concat())[1].clone().expect_err("it is cut");
    let text = "bad core section at 0xa: needs 7 bytes or more from 0xc on, where 2 are left";
    assert_eq!(error.to_string(), text);
}

/// The items of a section, with their byte offsets.
type Read = Vec<Result<(Range<usize>, CoreItemView<'static>), ReadError>>;

/// The items of the only section of a module, after that section's count.
fn items(section: &[u8]) -> (Option<u32>, Read) {
    let module = [b"\0asm\x01\0\0\0", section].concat().leak();
    let section = CoreSections::new(module).expect("a header").next().expect("a section");
    let section = section.expect("it is framed");
    let items = section.items().map(|item| item.map(|item| (item.range, item.view)));
    (section.count(), items.collect())
}

#[test]
fn items_have_their_places() {
    let memory = CoreMemoryType { minimum: 1, maximum: None, memory64: false, shared: false };
    let import = |module, name, ty| CoreItemView::Import { module, name, ty };
    assert_eq!(
        items(b"\x02\x0f\x02\x03env\x01f\0\x05\0\x01m\x02\0\x01"),
        (
            Some(2),
            vec![
                Ok((11..19, import("env", "f", CoreEntityType::Function(5)))),
                Ok((19..25, import("", "m", CoreEntityType::Memory(memory)))),
            ],
        ),
    );
    let export = CoreItemView::Export { name: "g", kind: ExportKind::Global, index: 128 };
    assert_eq!(items(b"\x07\x06\x01\x01g\x03\x80\x01"), (Some(1), vec![Ok((11..16, export))]),);
    let start = CoreItemView::Start { function: 7 };
    assert_eq!(items(b"\x08\x01\x07"), (Some(1), vec![Ok((10..11, start))]));
}

#[test]
fn items_that_are_not_read_have_their_places() {
    let all = items;
    // what is read, with the first part that isn't and where that is wrong
    let items = |section: &[u8]| {
        let (count, read) = all(section);
        let error = read.last().and_then(|last| last.as_ref().err());
        (count, error.map(|error| (error.part, error.offset, error.place())))
    };
    // of a section whose items aren't read
    assert_eq!(items(b"\x01\x04\x01\x60\0\0"), (Some(1), None));
    assert_eq!(items(b"\x01\0"), (None, Some((Part::Count, 10, 10))));
    assert_eq!(items(b"\x07\x01\x80"), (None, Some((Part::Count, 10, 11))));
    assert_eq!(items(b"\0\x02\x01x"), (None, None));
    assert_eq!(items(b"\x0e\x01\x01"), (None, None));
    assert_eq!(items(b"\x08\0"), (Some(1), Some((Part::Item(0), 10, 10))));
    let (_, told) = all(b"\x07\x05\x02\x01g\x05\0");
    let text = "bad item 0 at 0xb: 0x05 at 0xd, where 0x00 to 0x04 is expected";
    assert_eq!(told[0].as_ref().map_err(ReadError::to_string), Err(text.into()));
    let behind = Some((Part::Rest, 11, 11));
    assert_eq!(items(b"\x02\x02\0\0"), (Some(0), behind));
    assert_eq!(items(b"\x08\x02\x07\0"), (Some(1), behind));
    // of other items, without bytes for that many, or with bytes for none
    assert_eq!(items(b"\x01\x01\x01"), (Some(1), Some((Part::Item(0), 11, 11))));
    assert_eq!(items(b"\x03\x03\x03\0\0"), (Some(3), Some((Part::Item(0), 11, 13))));
    assert_eq!(items(b"\x03\x03\x02\0\0"), (Some(2), None));
    assert_eq!(items(b"\x03\x02\0\0"), (Some(0), behind));
    assert_eq!(items(b"\x0c\x01\x02"), (Some(2), None));
    assert_eq!(items(b"\x0c\x02\x02\0"), (Some(2), behind));
    let error = all(b"\x02\x02\0\0").1.remove(0).expect_err("bytes behind").to_string();
    assert_eq!(error, "bytes behind the last item at 0xb");
}

//! Values that encode themselves.

use super::runs::hex;
use super::type_sections::{GLOBAL, TABLE};
use wenc::*;
use wenc_calls::encoded::encoded;

/// A name with these options: what it implements, the suffix of its version, its external id.
fn name(name: &'static str, options: [Option<&'static str>; 3]) -> ComponentExternName<'static> {
    let [implements, version_suffix, external_id] = options.map(|option| option.map(Into::into));
    ComponentExternName { name: name.into(), implements, version_suffix, external_id }
}

fn names() -> NameMap {
    let mut names = NameMap::new();
    names.append(5, "a");
    names.append(1, "b");
    names
}

#[test]
fn rows() {
    let reference = |nullable, heap_type| ValType::Ref(RefType { nullable, heap_type });
    let custom = CustomSection { name: "test".into(), data: [11, 22, 33, 44][..].into() };
    let outer = ComponentOuterAliasKind::CoreType;
    let rows: [(&dyn Encode, &str); 17] = [
        (&name("a", [Some("i"), None, Some("")]), "02 01 61 02 00 01 69 02 00"),
        (&name("n", [None, Some("1"), Some("x")]), "02 01 6e 02 01 01 31 02 01 78"),
        (&ComponentValType::Type(63), "3f"),
        (&ComponentValType::Type(64), "c0 00"),
        (&ComponentValType::Type(u32::MAX), "ff ff ff ff 0f"),
        (&custom, "09 04 74 65 73 74 0b 16 21 2c"),
        (&ComponentTypeRef::Type(TypeBounds::SubResource), "03 01"),
        (&ComponentTypeRef::Module(5), "00 11 05"),
        (&Alias::Outer { kind: outer, count: 1, index: 2 }, "00 10 02 01 02"),
        (
            &Alias::CoreInstanceExport { instance: 0, kind: ExportKind::Tag, name: "t" },
            "00 04 01 00 01 74",
        ),
        (&ValType::FUNCREF, "70"),
        (&reference(false, HeapType::FUNC), "64 70"),
        (&reference(true, HeapType::ANY), "63 6e"),
        (&reference(true, HeapType::Concrete(64)), "63 c0 00"),
        (&TABLE, "01 70 00 00"),
        (&GLOBAL, "03 7e 01"),
        (&names(), "02 05 01 61 01 01 62"),
    ];
    for (value, wanted) in rows {
        assert_eq!(encoded(value), hex(wanted));
    }
}

#[test]
fn sizes_and_kinds() {
    assert_eq!(encoding_size(624_485), 3);
    assert_eq!(Component::new().finish(), hex("00 61 73 6d 0d 00 01 00"));
    let resource = ComponentTypeRef::Type(TypeBounds::SubResource);
    assert_eq!(resource.kind(), ComponentExportKind::Type);
}

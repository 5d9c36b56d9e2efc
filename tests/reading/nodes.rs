//! Items as nodes.

use crate::component;
use wenc::tree::{CoreFuncType, CoreValType, Node};
use wenc::view::CoreItemView;
use wenc::{CoreSections, ExportKind, Sections};

/// What is printed of a node, in single quotes.
fn shown(node: Node) -> String {
    format!("{node:?}").replace('"', "'")
}

/// Sections of one item, and what is printed of its node.
const NODES: [(&[u8], &str); 9] = [
    (
        b"\x07\x05\x01\x6a\x01\x79\0",
        "Variant('Type', Variant('Defined', Struct('Result', \
         {'ok': Present(Variant('Primitive', Word('U32'))), 'err': Absent})))",
    ),
    (
        b"\x07\x08\x01\x40\x01\x01a\x05\x01\0",
        "Variant('Type', Struct('Func', {'is_async': Flag(false), \
         'params': List([Tuple({'0': Text('a'), '1': Variant('Type', \
         Index { space: Types, scope: Component(0), index: 5 })})]), 'result': Absent}))",
    ),
    (
        b"\x05\x08\x01\x01\x01\0\x01e\x03\x04",
        "Variant('Instance', Variant('Exports', List([Tuple({'0': Record('NameTree', \
         {'name': Text('e'), 'implements': Absent, 'version_suffix': Absent, \
         'external_id': Absent}), '1': Word('Type'), \
         '2': Index { space: Types, scope: Component(0), index: 4 }})])))",
    ),
    // the fields are in the order of the type's
    (
        b"\x08\x08\x01\0\0\x02\x01\x03\x05\x07",
        "Variant('Canon', Struct('Lift', \
         {'core_func': Index { space: CoreFuncs, scope: Component(0), index: 2 }, \
         'ty': Index { space: Types, scope: Component(0), index: 7 }, \
         'options': List([Variant('Memory', \
         Index { space: CoreMemories, scope: Component(0), index: 5 })])}))",
    ),
    (
        b"\x09\x05\x03\x02\x04\x05\x06",
        "Struct('Start', {'function': Index { space: Funcs, scope: Component(0), index: 3 }, \
         'args': List([Index { space: Values, scope: Component(0), index: 4 }, \
         Index { space: Values, scope: Component(0), index: 5 }]), 'results': Number(6)})",
    ),
    // an instance type with outer aliases of its own types and of those of the component around it
    (
        b"\x07\x0d\x01\x42\x02\x02\x03\x02\0\x09\x02\x03\x02\x02\x09",
        "Variant('Type', Variant('Instance', List([\
         Variant('Alias', Struct('Outer', {'kind': Word('Type'), 'count': Number(0), \
         'index': Index { space: Types, scope: Type(1), index: 9 }})), \
         Variant('Alias', Struct('Outer', {'kind': Word('Type'), 'count': Number(2), \
         'index': Index { space: Types, scope: Component(1), index: 9 }}))])))",
    ),
    (
        b"\x03\x07\x01\x60\x02\x7f\x63\x01\0",
        "Variant('CoreType', Variant('Group', Variant('Sub', Record('CoreSubType', \
         {'is_final': Flag(true), 'supertype_idx': Absent, 'composite_type': \
         Struct('Func', {'params': List([Word('I32'), Variant('Ref', \
         Record('CoreRefType', {'nullable': Flag(true), 'heap_type': Variant('Concrete', \
         Index { space: CoreTypes, scope: Component(0), index: 1 })}))]), 'results': \
         List([])})}))))",
    ),
    (b"\x01\x08\0asm\x01\0\0\0", "Variant('Module', Bytes([0, 97, 115, 109, 1, 0, 0, 0]))"),
    (b"\0\x03\x01x\x07", "Struct('Custom', {'name': Text('x'), 'data': Bytes([7])})"),
];

#[test]
fn items_of_components() {
    for (section, printed) in NODES {
        let bytes = component(section);
        let items = Sections::new(&bytes).expect("it is a component").items();
        let nodes: Vec<String> =
            items.map(|item| shown(item.expect("it is read").view.node())).collect();
        assert_eq!(nodes, [printed]);
    }
}

#[test]
fn items_of_core_modules() {
    let module = b"\0asm\x01\0\0\0\x02\x08\x01\x01m\x01n\x02\0\x01\x07\x05\x01\x01e\x03\x04";
    let sections = CoreSections::new(module).expect("it is a core module");
    let sections: Vec<_> = sections.map(|section| section.expect("it is read")).collect();
    let items = sections.iter().flat_map(|section| section.items());
    let items: Vec<_> = items.map(|item| item.expect("it is read").view).collect();
    assert!(matches!(items[1], CoreItemView::Export { kind: ExportKind::Global, index: 4, .. }));
    let nodes: Vec<String> = items.iter().map(|item| shown(item.node())).collect();
    assert_eq!(
        nodes,
        [
            "Struct('Import', {'module': Text('m'), 'name': Text('n'), \
             'ty': Variant('Memory', Record('CoreMemoryType', {'minimum': Number(1), \
             'maximum': Absent, 'memory64': Flag(false), 'shared': Flag(false)}))})",
            "Struct('Export', {'name': Text('e'), 'kind': Word('Global'), \
             'index': Index { space: CoreGlobals, scope: Component(0), index: 4 }})",
        ],
    );
}

/// The bytes that the elements of the list in a node were read from, with their length.
fn encoded(node: Node) -> Vec<Option<(Vec<u8>, usize)>> {
    let mut found = Vec::new();
    match node {
        Node::Variant(_, child) => return encoded(child.node()),
        Node::List(list) => {
            list.for_each(|child| {
                let bytes = child.encoded().map(<[u8]>::to_vec);
                found.push(bytes.zip(child.encoded_len()));
            });
            assert_eq!((list.len(), list.is_empty()), (found.len(), found.is_empty()));
        }
        _ => {}
    }
    found
}

#[test]
fn bytes_of_borrowed_elements() {
    let bytes = component(b"\x07\x0b\x01\x42\x02\x02\x03\x02\0\x09\x01\x6b\x79");
    let view = Sections::new(&bytes).expect("it has a header").items().next();
    let view = view.expect("there is an item").expect("it is read").view;
    let [alias, ty] = [&b"\x02\x03\x02\0\x09"[..], b"\x01\x6b\x79"].map(<[u8]>::to_vec);
    assert_eq!(encoded(view.node()), [Some((alias, 5)), Some((ty, 3))]);
}

#[test]
fn function_types_of_lists() {
    let [params, results] = [CoreValType::I32, CoreValType::F64].map(|ty| vec![ty]);
    let ty = CoreFuncType::from_lists(params, results);
    assert_eq!((ty.params(), ty.results()), (&[CoreValType::I32][..], &[CoreValType::F64][..]));
}

//! What building costs. Names and a module are made before the time is taken; what is printed is
//! how many bytes came, how long it took, and the hash of the bytes, which are upstream's.
//!
//! `cargo bench --offline --bench builder -- N` makes N rounds of seven calls, each of which opens
//! another section; with a word after N
//!
//!     grouped    these calls, each N times: neighbours share a section
//!     imports    a section by hand of N imports
//!     exports    an instance type of N exports
//!     numbers    `Encode` of N numbers
//!     variant    a variant of N cases
//!     nested     a component by hand in another, around a core module of N bytes
//!
//! `turns` compiles this file over upstream too, with `use wenc::*;` alone changed;
//! `count` counts the instructions that `work` takes. `reader.rs` reads what is built here.

use std::hint::black_box;
use std::time::Instant;
use wenc::*;

/// The calls of round `i`, in this order.
const CALLS: [fn(&mut ComponentBuilder, u32, &Names); 7] = [
    |b, i, names| {
        b.import(names.import.as_str(), ComponentTypeRef::Func(i));
    },
    |b, i, names| {
        b.export(names.export.as_str(), ComponentExportKind::Func, i, None);
    },
    |b, i, names| {
        b.alias_export(i, &names.alias, ComponentExportKind::Func);
    },
    |b, i, _| {
        b.resource_drop(i);
    },
    |b, i, _| {
        b.type_defined(None).1.record([
            ("a", ComponentValType::Primitive(PrimitiveValType::String)),
            ("b", ComponentValType::Primitive(PrimitiveValType::U32)),
            ("c", ComponentValType::Type(i)),
        ]);
    },
    |b, i, _| {
        let x = ComponentValType::Primitive(PrimitiveValType::U8);
        let params = [("x", x), ("y", ComponentValType::Type(i))];
        b.type_function(None).1.params(params).result(Some(PrimitiveValType::String.into()));
    },
    |b, i, _| {
        let exports = [("m", ExportKind::Func, i), ("n", ExportKind::Memory, 0)];
        b.core_instantiate_exports(None, exports);
    },
];

/// The names of round `i`: `i`, `e` or `a`, then the round in decimal.
pub struct Names {
    import: String,
    export: String,
    alias: String,
}

/// What is timed: the calls, up to the bytes.
#[inline(never)]
pub fn work(n: u32, what: &str, names: &[Names], module: &[u8]) -> Vec<u8> {
    black_box(match what {
        "" => rounds(names),
        "grouped" => grouped(names),
        "imports" => imports(names),
        "exports" => exports(names),
        "numbers" => numbers(n),
        "variant" => variant(n, names),
        "nested" => nested(module),
        other => panic!("no work is {other}"),
    })
}

fn rounds(names: &[Names]) -> Vec<u8> {
    let mut builder = ComponentBuilder::default();
    for (i, names) in (0..).zip(names) {
        for call in CALLS {
            call(&mut builder, i, names);
        }
    }
    builder.append_names();
    builder.finish()
}

fn grouped(names: &[Names]) -> Vec<u8> {
    let mut builder = ComponentBuilder::default();
    for call in CALLS {
        for (i, names) in (0..).zip(names) {
            call(&mut builder, i, names);
        }
    }
    builder.append_names();
    builder.finish()
}

fn imports(names: &[Names]) -> Vec<u8> {
    let mut section = ComponentImportSection::new();
    for (i, names) in (0..).zip(names) {
        section.import(names.import.as_str(), ComponentTypeRef::Func(i));
    }
    let mut component = Component::new();
    component.section(&section);
    component.finish()
}

fn exports(names: &[Names]) -> Vec<u8> {
    let mut ty = InstanceType::new();
    for (i, names) in (0..).zip(names) {
        ty.export(names.export.as_str(), ComponentTypeRef::Func(i));
    }
    let mut section = ComponentTypeSection::new();
    section.instance(&ty);
    let mut component = Component::new();
    component.section(&section);
    component.finish()
}

fn numbers(n: u32) -> Vec<u8> {
    let mut sink = Vec::new();
    for i in 0..n {
        i.wrapping_mul(0x9e37_79b1).encode(&mut sink);
    }
    sink
}

fn variant(n: u32, names: &[Names]) -> Vec<u8> {
    let mut section = ComponentTypeSection::new();
    let payload = |i| Some(ComponentValType::Type(i));
    let cases = (0..n).zip(names).map(|(i, names)| (names.import.as_str(), payload(i)));
    section.defined_type().variant(cases);
    let mut component = Component::new();
    component.section(&section);
    component.finish()
}

fn nested(module: &[u8]) -> Vec<u8> {
    let mut inner = Component::new();
    inner.section(&RawSection { id: ComponentSectionId::CoreModule.into(), data: module });
    let mut outer = Component::new();
    outer.section(&NestedComponentSection(&inner));
    outer.finish()
}

/// The names of so many rounds.
pub fn names(n: u32) -> Vec<Names> {
    let named =
        |i| Names { import: format!("i{i}"), export: format!("e{i}"), alias: format!("a{i}") };
    (0..n).map(named).collect()
}

fn fnv1a(bytes: &[u8]) -> u64 {
    let step = |hash: u64, byte: &u8| (hash ^ u64::from(*byte)).wrapping_mul(0x0000_0100_0000_01b3);
    bytes.iter().fold(0xcbf2_9ce4_8422_2325, step)
}

fn main() {
    // `cargo bench` has a word of its own after ours.
    let words: Vec<String> = std::env::args().skip(1).filter(|word| word != "--bench").collect();
    let n = words.first().map_or(Ok(1000), |word| word.parse()).expect("a number of rounds");
    let what = words.get(1).map_or("", |word| word.as_str());
    let (named_len, module_len) = if what == "nested" { (0, n) } else { (n, 0) };
    let names = names(named_len);
    let module = vec![7; module_len as usize];
    let begin = Instant::now();
    let bytes = work(n, what, &names, &module);
    let elapsed = begin.elapsed().as_nanos();
    println!("bytes {}\nnanoseconds {elapsed}\nfnv1a {:016x}", bytes.len(), fnv1a(&bytes));
}

//! Components whose bytes upstream's own calls give too: one of all kinds of items at each size,
//! and random ones.

use crate::random;
use wenc::*;

const STRING: PrimitiveValType = PrimitiveValType::String;

/// A text with this length in bytes, mostly of letters that take two.
fn text(size: usize) -> String {
    ["é".repeat(size / 2), "a".repeat(size % 2)].concat()
}

/// This many bytes.
fn data(size: usize) -> Vec<u8> {
    (0..size).map(|at| at as u8).collect()
}

/// Adds definitions with this debug name, and lists with this many members.
fn add_definitions(b: &mut ComponentBuilder, name: &str, n: usize) {
    let index = n as u32;
    let mut instance = InstanceType::new();
    let mut component = ComponentType::new();
    let mut module = ModuleType::new();
    for _ in 0..n {
        instance.export("e", ComponentTypeRef::Func(index));
        component.import("i", ComponentTypeRef::Component(index));
        module.import("m", "i", EntityType::Function(index));
    }
    b.type_component(Some(name), &component);
    b.type_instance(None, &instance);
    b.type_instance(Some(name), &instance);
    b.type_defined(Some(name)).1.record(vec![("f", STRING); n]);
    b.type_defined(Some("")).1.enum_type([name]);
    b.type_function(Some(name)).1.params(vec![("p", STRING); n]).result(None);
    b.core_type(Some(name)).1.module(&module);
    b.core_type(None).1.core().function(vec![ValType::I32; n], vec![ValType::I64; n]);
}

/// Adds items with this debug name, and lists with this many members.
fn add_items(b: &mut ComponentBuilder, name: &str, n: usize) {
    let index = n as u32;
    b.core_module_raw(Some(name), &data(n));
    b.component_raw(Some(name), &data(n));
    let mut nested = ComponentBuilder::default();
    nested.core_module_raw(Some(name), &data(n));
    nested.append_names();
    b.component(Some(name), nested);
    b.core_instantiate(Some(name), index, vec![("a", ModuleArg::Instance(index)); n]);
    b.core_instantiate_exports(Some("i"), vec![("e", ExportKind::Tag, index); n]);
    b.instantiate_exports(None, vec![("e", ComponentExportKind::Func, index); n]);
    b.lift_func(Some(name), index, index, vec![CanonicalOption::UTF8; n]);
    b.lower_func(Some(name), index, vec![CanonicalOption::Memory(index); n]);
    b.stream_read(index, vec![CanonicalOption::Async; n]);
    b.start(index, vec![index; n], index);
    b.import(name, ComponentTypeRef::Func(index));
    b.export(name, ComponentExportKind::Func, index, None);
    b.core_alias_export(Some(name), index, name, ExportKind::Memory);
    b.custom_section(&CustomSection { name: name.into(), data: data(n).into() });
    b.raw_custom_section(&data(n));
}

fn whole(n: usize) -> Vec<u8> {
    let mut b = ComponentBuilder::default();
    add_definitions(&mut b, &text(n), n);
    add_items(&mut b, &text(n), n);
    b.append_names();
    b.finish()
}

/// Sizes, and how many bytes the component has and their FNV-1a of 64 bits, by upstream's calls.
const SIZES: [(usize, usize, u64); 8] = [
    (0, 234, 0xc9fc_f1fa_f022_9fa3),
    (1, 310, 0xd536_57dc_63b7_4653),
    (127, 9_908, 0x1f2c_fd97_09e5_7789),
    (128, 11_184, 0x9f96_1bb8_a268_0a12),
    (200, 17_304, 0xe268_7ae1_5317_a54d),
    (16_383, 1_392_881, 0xefd6_1397_bdac_d74e),
    (16_384, 1_540_470, 0x9e7c_89a5_9b1b_3a85),
    (20_000, 1_880_374, 0xe960_b1a3_8493_055e),
];

/// The same of seeds, without debug names, as upstream writes those of instances twice.
const SEEDS: [(u64, usize, u64); 8] = [
    (1, 385483, 0x3f9d_e789_ed17_8fd4),
    (2, 312283, 0x626b_8fb8_4239_adfe),
    (3, 197968, 0xcdde_56a9_35e7_c44c),
    (4, 542466, 0xbf72_1209_caf3_9850),
    (5, 435250, 0x6074_da03_7bc3_6fe7),
    (6, 309509, 0x2bf6_dddd_1412_0b7a),
    (7, 339126, 0x645b_a69e_71e4_321c),
    (8, 99976, 0x0d00_8286_ae95_dc26),
];

#[test]
fn lengths_and_hashes() {
    let sizes = SIZES.map(|(n, len, hash)| (whole(n), len, hash));
    let seeds = SEEDS.map(|(seed, len, hash)| (random::components(seed, 4, false).0, len, hash));
    for (bytes, len, hash) in sizes.into_iter().chain(seeds) {
        let step = |hash: u64, byte: &u8| (hash ^ u64::from(*byte)).wrapping_mul(0x100_0000_01b3);
        let own = bytes.iter().fold(0xcbf2_9ce4_8422_2325, step);
        assert_eq!((bytes.len(), own), (len, hash));
    }
}

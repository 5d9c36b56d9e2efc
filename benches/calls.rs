//! What one call of each kind costs: `benches/count calls` counts the instructions that `work`
//! takes.
//!
//! `cargo bench --offline --bench calls -- N NAME` makes the calls of that name, N of them, and
//! prints the hash of their bytes; without a name, all, after each other. Each call has a name of
//! its own, which is made before.

use std::hint::black_box;
use wenc::*;

const OPTIONS: [CanonicalOption; 3] =
    [CanonicalOption::UTF8, CanonicalOption::Memory(0), CanonicalOption::Realloc(1)];
const STRING: ComponentValType = ComponentValType::Primitive(PrimitiveValType::String);
const U32: ComponentValType = ComponentValType::Primitive(PrimitiveValType::U32);
const BYTES: [u8; 100] = [7; 100];

const fn ty(i: u32) -> ComponentValType {
    ComponentValType::Type(i)
}

const fn func(i: u32) -> ComponentTypeRef {
    ComponentTypeRef::Func(i)
}

fn fields(i: u32) -> [(&'static str, ComponentValType); 3] {
    [("x", STRING), ("yy", U32), ("zzz", ty(i))]
}

fn cases(i: u32) -> [(&'static str, Option<ComponentValType>); 3] {
    [("a", Some(STRING)), ("b", None), ("c", Some(ty(i)))]
}

fn exports(i: u32) -> [(&'static str, ExportKind, u32); 2] {
    [("m", ExportKind::Func, i), ("n", ExportKind::Memory, 0)]
}

fn items(i: u32) -> [(&'static str, ComponentExportKind, u32); 2] {
    [("alpha", ComponentExportKind::Func, i), ("beta", ComponentExportKind::Type, 1)]
}

fn args(i: u32) -> [(&'static str, ModuleArg); 2] {
    [("env", ModuleArg::Instance(i)), ("main", ModuleArg::Instance(2))]
}

/// A builder or a section on which calls are made.
trait Receiver: Default {
    fn bytes(self) -> Vec<u8>;
}

impl Receiver for ComponentBuilder {
    fn bytes(self) -> Vec<u8> {
        self.finish()
    }
}

macro_rules! sections {
    ($($name:ident)*) => {
        $(impl Receiver for $name {
            fn bytes(self) -> Vec<u8> {
                let mut component = Component::new();
                component.section(&self);
                component.finish()
            }
        })*
    };
}

sections! {
    CanonicalFunctionSection ComponentAliasSection ComponentExportSection ComponentImportSection
    ComponentInstanceSection ComponentTypeSection CoreTypeSection InstanceSection
}

/// Makes a call with each name.
type Calls = fn(&[String]) -> Vec<u8>;

macro_rules! calls {
    (
        $receiver:ident:
        $($what:literal => |$by:ident, $i:pat_param, $name:pat_param| $call:expr;)*
    ) => {
        &[$((concat!(stringify!($receiver), ", ", $what), |names: &[String]| {
            let mut receiver = $receiver::default();
            for ($i, name) in (0..).zip(names) {
                let ($by, $name) = (&mut receiver, name.as_str());
                $call;
            }
            receiver.bytes()
        })),*]
    };
}

/// Items other than types.
const ITEMS: &[(&str, Calls)] = calls! { ComponentBuilder:
    "import" => |b, i, name| b.import(name, func(i));
    "export" => |b, i, name| b.export(name, ComponentExportKind::Func, i, None);
    "export with a type" =>
        |b, i, name| b.export(name, ComponentExportKind::Func, i, Some(func(i)));
    "alias_export" => |b, i, name| b.alias_export(i, name, ComponentExportKind::Func);
    "core_alias_export" => |b, i, name| b.core_alias_export(None, i, name, ExportKind::Func);
    "core_alias_export named" =>
        |b, i, name| b.core_alias_export(Some("n"), i, name, ExportKind::Func);
    "alias" => |b, index, _| {
        b.alias(None, Alias::Outer { kind: ComponentOuterAliasKind::Type, count: 1, index })
    };
    "lower_func" => |b, i, _| b.lower_func(None, i, OPTIONS);
    "lower_func of a slice" => |b, i, _| b.lower_func(None, i, OPTIONS.iter().copied());
    "lift_func" => |b, i, _| b.lift_func(None, i, i, OPTIONS);
    "lift_func of nothing" => |b, i, _| b.lift_func(None, i, i, []);
    "resource_drop" => |b, i, _| b.resource_drop(i);
    "task_cancel" => |b, _, _| b.task_cancel();
    "subtask_cancel" => |b, _, _| b.subtask_cancel(true);
    "task_return" => |b, i, _| b.task_return(Some(ty(i)), OPTIONS);
    "stream_new" => |b, i, _| b.stream_new(i);
    "stream_read" => |b, i, _| b.stream_read(i, OPTIONS);
    "context_get" => |b, i, _| b.context_get(ValType::I32, i);
    "thread_new_indirect" => |b, i, _| b.thread_new_indirect(i, 0);
    "core_instantiate" => |b, i, _| b.core_instantiate(None, i, args(i));
    "core_instantiate_exports" => |b, i, _| b.core_instantiate_exports(None, exports(i));
    "exports of a slice" =>
        |b, i, _| b.core_instantiate_exports(None, exports(i).iter().copied());
    "instantiate" => |b, i, _| b.instantiate(None, i, items(i));
    "instantiate_exports" => |b, i, _| b.instantiate_exports(None, items(i));
    "core_module_raw" => |b, _, _| b.core_module_raw(None, &BYTES);
    "component_raw" => |b, _, _| b.component_raw(None, &BYTES);
    "component" => |b, _, _| {
        let mut inner = ComponentBuilder::default();
        inner.import("f", func(0));
        b.component(None, inner)
    };
    "custom_section" => |b, _, name| {
        b.custom_section(&CustomSection { name: name.into(), data: (&BYTES[..]).into() })
    };
};

/// Types.
const TYPES: &[(&str, Calls)] = calls! { ComponentBuilder:
    "function" => |b, i, _| {
        b.type_function(None).1.params(fields(i)).result(Some(STRING));
    };
    "function of nothing" => |b, _, _| {
        b.type_function(None).1.params([] as [(&str, ComponentValType); 0]).result(None);
    };
    "function of a vector" => |b, i, _| {
        b.type_function(None).1.params(fields(i).to_vec()).result(Some(STRING));
    };
    "record" => |b, i, _| b.type_defined(None).1.record(fields(i));
    "record of a slice" =>
        |b, i, _| b.type_defined(None).1.record(fields(i).iter().copied());
    "record with a debug name" => |b, i, name| b.type_defined(Some(name)).1.record(fields(i));
    "variant" => |b, i, _| b.type_defined(None).1.variant(cases(i));
    "flags" => |b, _, _| b.type_defined(None).1.flags(["read", "write", "exec"]);
    "enum" => |b, _, _| b.type_defined(None).1.enum_type(["read", "write", "exec"]);
    "tuple" => |b, i, _| b.type_defined(None).1.tuple([STRING, U32, ty(i)]);
    "list" => |b, i, _| b.type_defined(None).1.list(ty(i));
    "option" => |b, i, _| b.type_defined(None).1.option(ty(i));
    "result" => |b, i, _| b.type_defined(None).1.result(Some(ty(i)), Some(STRING));
    "own" => |b, i, _| b.type_defined(None).1.own(i);
    "resource" => |b, i, _| b.type_resource(None, ValType::I32, Some(i));
    "instance type" => |b, i, name| {
        let mut ty = InstanceType::new();
        ty.ty().function().params(fields(i)).result(None);
        ty.export(name, func(0));
        b.type_instance(None, &ty)
    };
    "component type" => |b, i, name| {
        let mut ty = ComponentType::new();
        ty.ty().function().params(fields(i)).result(None);
        ty.import(name, func(0));
        b.type_component(None, &ty)
    };
    "core function" => |b, _, _| {
        b.core_type(None).1.core().function([ValType::I32, ValType::I64], [ValType::I32]);
    };
    "module type" => |b, _, name| {
        let mut ty = ModuleType::new();
        ty.ty().function([ValType::I32], []);
        ty.import("env", name, EntityType::Function(0));
        b.core_type(None).1.module(&ty);
    };
};

/// In sections by hand.
const IN_SECTIONS: [&[(&str, Calls)]; 8] = [
    calls! { ComponentImportSection: "import" => |s, i, name| s.import(name, func(i)); },
    calls! { ComponentExportSection:
        "export" => |s, i, name| s.export(name, ComponentExportKind::Func, i, None);
    },
    calls! { ComponentAliasSection: "alias" => |s, instance, name| {
        s.alias(Alias::InstanceExport { instance, kind: ComponentExportKind::Func, name })
    }; },
    calls! { CanonicalFunctionSection:
        "lift" => |s, i, _| s.lift(i, i, OPTIONS);
        "resource_drop" => |s, i, _| s.resource_drop(i);
    },
    calls! { ComponentTypeSection:
        "function" => |s, i, _| { s.function().params(fields(i)).result(Some(STRING)); };
        "record" => |s, i, _| s.defined_type().record(fields(i));
        "variant" => |s, i, _| s.defined_type().variant(cases(i));
    },
    calls! { CoreTypeSection:
        "function" => |s, _, _| s.ty().core().function([ValType::I32], [ValType::I64]);
    },
    calls! { InstanceSection:
        "instantiate" => |s, i, _| s.instantiate(i, args(i));
        "export_items" => |s, i, _| s.export_items(exports(i));
    },
    calls! { ComponentInstanceSection:
        "instantiate" => |s, i, _| s.instantiate(i, items(i));
        "export_items" => |s, i, _| s.export_items(items(i));
    },
];

/// Makes a component by one builder.
fn built(calls: impl FnOnce(&mut ComponentBuilder)) -> Vec<u8> {
    let mut builder = ComponentBuilder::default();
    calls(&mut builder);
    builder.finish()
}

/// Returns types under these names.
fn typed(names: &[String]) -> impl ExactSizeIterator<Item = (&str, ComponentValType)> {
    names.iter().enumerate().map(|(i, name)| (name.as_str(), ty(i as u32)))
}

/// Calls that aren't made alike for each name: for each of many members, or by turns.
const MANY: &[(&str, Calls)] = &[
    ("field of a record", |names| built(|b| b.type_defined(None).1.record(typed(names)))),
    ("parameter of a function", |names| {
        built(|b| {
            b.type_function(None).1.params(typed(names)).result(None);
        })
    }),
    ("flag of flags", |names| {
        built(|b| b.type_defined(None).1.flags(names.iter().map(String::as_str)))
    }),
    ("argument of an instance", |names| {
        let args = names.iter().zip(0..).map(|(name, i)| (name, ComponentExportKind::Func, i));
        built(|b| {
            b.instantiate(None, 0, args.collect::<Vec<_>>());
        })
    }),
    ("import, resource_drop by turns", |names| {
        built(|b| {
            for (i, name) in (0..).zip(names) {
                match i % 2 {
                    0 => b.import(name.as_str(), func(i)),
                    _ => b.resource_drop(i),
                };
            }
        })
    }),
    ("import of a name of 1,000 bytes", |names| {
        let long = "x".repeat(1000);
        built(|b| {
            for i in 0..names.len() as u32 {
                b.import(long.as_str(), func(i));
            }
        })
    }),
    ("list with a debug name, append_names", |names| {
        built(|b| {
            names.iter().for_each(|name| b.type_defined(Some(name)).1.list(U32));
            b.append_names();
        })
    }),
    ("name of a ComponentNameSection", |names| {
        let mut map = NameMap::new();
        (0..).zip(names).for_each(|(i, name)| map.append(i, name));
        let mut section = ComponentNameSection::new();
        section.funcs(&map);
        let mut component = Component::new();
        component.section(&section.as_custom());
        component.finish()
    }),
    ("Component::section of one import", |names| {
        let mut component = Component::new();
        for (i, name) in (0..).zip(names) {
            let mut section = ComponentImportSection::new();
            section.import(name, func(i));
            component.section(&section);
        }
        component.finish()
    }),
];

/// What is counted.
#[inline(never)]
fn work(calls: Calls, names: &[String]) -> Vec<u8> {
    black_box(calls(names))
}

fn fnv1a(bytes: &[u8]) -> u64 {
    let step = |hash: u64, byte: &u8| (hash ^ u64::from(*byte)).wrapping_mul(0x0000_0100_0000_01b3);
    bytes.iter().fold(0xcbf2_9ce4_8422_2325, step)
}

fn main() {
    // `cargo bench` has a word of its own after ours.
    let words: Vec<String> = std::env::args().skip(1).filter(|word| word != "--bench").collect();
    let n = words.first().map_or(Ok(1), |word| word.parse()).expect("a number of calls");
    let names: Vec<String> = (0..n).map(|i: u32| format!("i{i}")).collect();
    for (what, calls) in [ITEMS, TYPES, MANY].iter().chain(&IN_SECTIONS).copied().flatten() {
        if words.get(1).is_none_or(|word| word == what) {
            println!("{what}: fnv1a {:016x}", fnv1a(&work(*calls, &names)));
        }
    }
}

//! Features that upstream's validator knows, in one component, and what it rejects.

use crate::corpus;
use crate::interfaces::*;
use wenc::CanonicalOption::*;
use wenc::ComponentExportKind as Kind;
use wenc::*;
use wenc_calls::table::core_types::subtype;

type Builder = ComponentBuilder;

/// Types that each component has, by their indices.
const STREAM: u32 = 0;
const FUTURE: u32 = 1;
const RESOURCE: u32 = 2;
const UNIT: u32 = 3;
const NUM: u32 = 4;
const TEXT: u32 = 5;
const ASYNC: u32 = 6;

const MEMORY: CanonicalOption = Memory(0);
const REALLOC: CanonicalOption = Realloc(4);
const EQUAL: ComponentTypeRef = ComponentTypeRef::Type(TypeBounds::Eq(STREAM));

/// Core functions: 0 run, 1 num, 2 text, 3 post, 4 cabi_realloc, 5 callback, 6 drop. Functions: 0
/// unit, 1 text, 2 wait.
fn base(core: &[u8]) -> Builder {
    let mut b = Builder::default();
    let module = b.core_module_raw(Some("main"), core);
    let main = b.core_instantiate(None, module, [] as [(&str, ModuleArg); 0]);
    for name in ["run", "num", "text", "post", "cabi_realloc", "callback", "drop"] {
        b.core_alias_export(Some(name), main, name, ExportKind::Func);
    }
    b.core_alias_export(None, main, "memory", ExportKind::Memory);
    b.core_alias_export(None, main, "__indirect_function_table", ExportKind::Table);
    b.type_defined(None).1.stream(Some(U8));
    b.type_defined(None).1.future(Some(U8));
    b.type_resource(Some("thing"), ValType::I32, Some(6));
    let mut function = |is_async, params: &[(&str, Val)], result| {
        b.type_function(None).1.async_(is_async).params(params.iter().copied()).result(result);
    };
    function(false, &[], None);
    function(false, &[], Some(U32));
    function(false, &[("s", STRING)], Some(STRING));
    function(true, &[], Some(U32));
    b.import("unit", ComponentTypeRef::Func(UNIT));
    b.import("text", ComponentTypeRef::Func(TEXT));
    b.import("wait", ComponentTypeRef::Func(ASYNC));
    b.core_type(None).1.core().function([ValType::I32], []);
    b
}

fn add_lifted_and_lowered(b: &mut Builder) {
    b.lift_func(None, 1, NUM, []);
    b.lift_func(None, 2, TEXT, [UTF8, MEMORY, REALLOC, PostReturn(3)]);
    b.lift_func(None, 2, TEXT, [UTF16, MEMORY, REALLOC]);
    b.lift_func(None, 2, TEXT, [CompactUTF16, MEMORY, REALLOC]);
    b.lift_func(None, 0, ASYNC, [Async]);
    b.lift_func(None, 1, ASYNC, [Async, Callback(5)]);
    b.lift_func(None, 0, UNIT, [Gc]);
    b.lower_func(None, 0, []);
    b.lower_func(None, 1, [UTF8, MEMORY, REALLOC]);
    b.lower_func(None, 2, [Async, MEMORY]);
}

fn add_tasks(b: &mut Builder) {
    b.resource_new(RESOURCE);
    b.resource_drop(RESOURCE);
    b.resource_rep(RESOURCE);
    b.task_cancel();
    b.task_return(None, []);
    b.task_return(Some(U32), []);
    b.task_return(Some(STRING), [MEMORY, UTF8]);
    b.subtask_cancel(false);
    b.subtask_cancel(true);
    b.subtask_drop();
    b.context_get(ValType::I32, 0);
    b.context_set(ValType::I32, 0);
    b.error_context_new([UTF8, MEMORY]);
    b.error_context_debug_message([UTF16, MEMORY, REALLOC]);
    b.error_context_drop();
    b.waitable_set_new();
    b.waitable_set_wait(0);
    b.waitable_set_poll(0);
    b.waitable_set_drop();
    b.waitable_join();
    b.backpressure_inc();
    b.backpressure_dec();
}

fn add_streams_and_futures(b: &mut Builder) {
    b.stream_new(STREAM);
    b.stream_read(STREAM, [MEMORY]);
    b.stream_read(STREAM, [Async, MEMORY]);
    b.stream_write(STREAM, [MEMORY]);
    b.stream_cancel_read(STREAM, false);
    b.stream_cancel_read(STREAM, true);
    b.stream_cancel_write(STREAM, true);
    b.stream_drop_readable(STREAM);
    b.stream_drop_writable(STREAM);
    b.future_new(FUTURE);
    b.future_read(FUTURE, [MEMORY]);
    b.future_write(FUTURE, [Async, MEMORY]);
    b.future_cancel_read(FUTURE, true);
    b.future_cancel_write(FUTURE, false);
    b.future_drop_readable(FUTURE);
    b.future_drop_writable(FUTURE);
}

/// Functions that moved between versions.
fn add_threads(b: &mut Builder) {
    b.thread_yield();
    b.thread_index();
    b.thread_new_indirect(0, 0);
    b.thread_suspend();
    b.thread_available_parallelism();
}

fn add_imports_and_exports(b: &mut Builder) {
    b.import("resource", ComponentTypeRef::Type(TypeBounds::SubResource));
    b.import("equal", EQUAL);
    let value = b.import("value", ComponentTypeRef::Value(U32));
    b.export("again", Kind::Func, 0, Some(ComponentTypeRef::Func(UNIT)));
    b.export("its-type", Kind::Type, RESOURCE, None);
    b.export("equal-again", Kind::Type, STREAM, Some(EQUAL));
    b.export("value-again", Kind::Value, value, None);
    let bag = b.instantiate_exports(Some("bag"), [("one", Kind::Func, 0), ("two", Kind::Func, 1)]);
    b.export("bag", Kind::Instance, bag, None);
    let data = [1, 2, 3];
    b.custom_section(&CustomSection { name: "any".into(), data: data.as_slice().into() });
}

/// A type of structs with these fields.
fn structure(
    fields: &[(StorageType, bool)],
    is_final: bool,
    supertype_idx: Option<u32>,
) -> SubType {
    let field = |&(element_type, mutable): &_| FieldType { element_type, mutable };
    let fields = fields.iter().map(field).collect();
    subtype(is_final, supertype_idx, CompositeInnerType::Struct(StructType { fields }))
}

/// Types of functions, arrays and structs.
fn add_core_types(b: &mut Builder) {
    let params = [ValType::I32, ValType::V128, ValType::FUNCREF];
    b.core_type(None).1.core().function(params, [ValType::F64]);
    b.core_type(None).1.core().array(&StorageType::I8, true);
    let fields = [(StorageType::I16, false), (StorageType::Val(ValType::I64), true)];
    let fields = fields.map(|(element_type, mutable)| FieldType { element_type, mutable });
    b.core_type(None).1.core().struct_(fields);
    let byte = (StorageType::I8, false);
    let (index, ty) = b.core_type(None);
    ty.core().subtype(&structure(&[], false, None));
    b.core_type(None).1.core().subtype(&structure(&[byte], false, Some(index)));
    b.core_type(None).1.core().subtype(&structure(&[byte], true, Some(index + 1)));
    let (index, ty) = b.core_type(None);
    let to = |index| ValType::Ref(RefType { nullable: true, heap_type: HeapType::Concrete(index) });
    let field = |index| (StorageType::Val(to(index)), true);
    let other = structure(&[field(index)], true, None);
    ty.core().rec([structure(&[field(index + 1)], false, None), other]);
    b.core_type(None).1.core().rec([]);
    add_core_heap_types(b);
}

fn add_core_heap_types(b: &mut Builder) {
    use AbstractHeapType::*;
    let all = [Func, Extern, Any, None, NoExtern, NoFunc, Eq, Struct, Array, I31, Exn, NoExn];
    let reference = |nullable, ty| {
        ValType::Ref(RefType { nullable, heap_type: HeapType::Abstract { shared: false, ty } })
    };
    let params = all.map(|ty| [reference(true, ty), reference(false, ty)]);
    b.core_type(Option::None).1.core().function(params.concat(), []);
}

fn add_core_module_types(b: &mut Builder) {
    let memory = |minimum, maximum, memory64, shared| {
        EntityType::Memory(MemoryType { minimum, maximum, memory64, shared, page_size_log2: None })
    };
    let table = |element_type, table64, maximum| {
        let (minimum, shared) = (1, false);
        EntityType::Table(TableType { element_type, table64, minimum, maximum, shared })
    };
    let global = GlobalType { val_type: ValType::I64, mutable: true, shared: false };
    let tag = TagType { kind: TagKind::Exception, func_type_idx: 0 };
    let mut module = ModuleType::new();
    module.ty().function([ValType::I32], []);
    module.alias_outer_core_type(1, 0);
    module.import("m", "f", EntityType::Function(0));
    module.import("m", "t", table(RefType::FUNCREF, false, Some(2)));
    module.import("m", "m", memory(1, None, false, false));
    module.import("m", "g", EntityType::Global(global));
    module.import("m", "x", EntityType::Tag(tag));
    module.export("f", EntityType::Function(1));
    module.export("big", memory(1, Some(1 << 20), true, false));
    module.export("shared", memory(1, Some(2), false, true));
    module.export("t64", table(RefType::EXTERNREF, true, None));
    b.core_type(None).1.module(&module);
    let mut module = ModuleType::new();
    module.ty().subtype(&structure(&[], false, None));
    b.core_type(None).1.module(&module);
}

fn add_core_module_import(b: &mut Builder) {
    let mut ty = ModuleType::new();
    ty.ty().function([], []);
    ty.export("f", EntityType::Function(0));
    let (index, encoder) = b.core_type(None);
    encoder.module(&ty);
    let ty = ComponentTypeRef::Module(index);
    let module = b.import("a-module", ty);
    let instance = b.core_instantiate(None, module, [] as [(&str, ModuleArg); 0]);
    b.core_alias_export(None, instance, "f", ExportKind::Func);
    b.export("its-module", ComponentExportKind::Module, module, Some(ty));
}

fn add_core_instances(b: &mut Builder) {
    let module = b"\0asm\x01\0\0\0\x01\x04\x01\x60\0\0\x0d\x03\x01\0\0\
        \x06\x06\x01\x7f\0\x41\0\x0b\x07\x09\x02\x01t\x04\0\x01g\x03\0";
    let module = b.core_module_raw(None, module);
    let instance = b.core_instantiate(None, module, [] as [(&str, ModuleArg); 0]);
    let tag = b.core_alias_export(None, instance, "t", ExportKind::Tag);
    let global = b.core_alias_export(None, instance, "g", ExportKind::Global);
    let exports = [("t", ExportKind::Tag, tag), ("g", ExportKind::Global, global)];
    b.core_instantiate_exports(None, exports);

    let exports =
        [("f", ExportKind::Func, 0), ("m", ExportKind::Memory, 0), ("t", ExportKind::Table, 0)];
    let bag = b.core_instantiate_exports(Some("bag"), exports);
    let module = b"\0asm\x01\0\0\0\x01\x04\x01\x60\0\0\x02\x07\x01\x01a\x01f\0\0";
    let module = b.core_module_raw(None, module);
    b.core_instantiate(None, module, [("a", ModuleArg::Instance(bag))]);
}

fn add_component_type(b: &mut Builder) {
    let mut inner = ComponentType::new();
    let ty = inner.func(false, &[], None);
    inner.import("f", ComponentTypeRef::Func(ty));
    inner.export("g", ComponentTypeRef::Func(ty));
    inner.core_type().core().function([], []);
    inner.alias(Alias::Outer { kind: ComponentOuterAliasKind::Type, count: 1, index: STREAM });
    inner.alias(Alias::Outer { kind: ComponentOuterAliasKind::CoreType, count: 1, index: 0 });
    let ty = b.type_component(None, &inner);
    let deep = (0..50).fold(ComponentType::new(), |inner, _| {
        let mut outer = ComponentType::new();
        outer.ty().component(&inner);
        outer
    });
    b.type_component(None, &deep);
    let component = b.import("c", ComponentTypeRef::Component(ty));
    let instance = b.instantiate(None, component, [("f", Kind::Func, 0)]);
    let g = b.alias_export(instance, "g", Kind::Func);
    b.export("g", Kind::Func, g, None);
}

fn add_instance_type(b: &mut Builder) {
    let mut inner = InstanceType::new();
    let r = resource(&mut inner, "r");
    let own = inner.defined(|ty| ty.own(r));
    inner.export_func("make", &[], Some(own));
    let ty = b.type_instance(Some("makes"), &inner);
    let instance = b.import("a:b/c@1.2.3", ComponentTypeRef::Instance(ty));
    let alias = b.alias_export(instance, "r", Kind::Type);
    assert_ne!(alias, RESOURCE);
    b.resource_drop(alias);
    b.export("a:b/c@1.2.3", Kind::Instance, instance, None);
}

fn add_nested(b: &mut Builder) {
    use ComponentOuterAliasKind::*;
    let mut inner = Builder::default();
    for (kind, index) in [(Type, TEXT), (CoreType, 0), (CoreModule, 0)] {
        inner.alias(None, Alias::Outer { kind, count: 1, index });
    }
    let f = inner.import("f", ComponentTypeRef::Func(0));
    inner.export("g", Kind::Func, f, None);
    inner.append_names();
    let component = b.component(Some("inner"), inner);
    let instance = b.instantiate(Some("it"), component, [("f", Kind::Func, 1)]);
    b.export("it", Kind::Instance, instance, None);
    b.export("inner", Kind::Component, component, None);
}

/// A component that has what all of these add.
fn with(add: &[fn(&mut Builder)]) -> Vec<u8> {
    let mut b = base(&corpus::read("features.wasm"));
    add.iter().for_each(|add| add(&mut b));
    b.append_names();
    b.finish()
}

/// What each version of the validator knows.
pub fn known() -> Vec<u8> {
    with(&[
        add_lifted_and_lowered,
        add_tasks,
        add_streams_and_futures,
        add_imports_and_exports,
        add_core_types,
        add_core_module_types,
        add_core_module_import,
        add_core_instances,
        add_component_type,
        add_instance_type,
        add_nested,
    ])
}

/// What some do.
pub fn threads() -> Vec<u8> {
    with(&[add_threads])
}

/// Components that none accepts, and why.
pub fn refused() -> [(Vec<u8>, &'static str); 3] {
    [
        (with(&[|b| _ = b.resource_drop(99)]), "unknown type 99: type index out of bounds"),
        (
            with(&[|b| _ = b.import("Not Kebab", ComponentTypeRef::Func(UNIT))]),
            "import name `Not Kebab` is not a valid extern name",
        ),
        (
            with(&[|b| {
                let mut inner = ComponentType::new();
                inner.ty().resource(ValType::I32, None);
                b.type_component(None, &inner);
            }]),
            "resources can only be defined within a concrete component",
        ),
    ]
}

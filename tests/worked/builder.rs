//! Calls of a builder.

use super::{NONE, STRING, is_behind, is_listed};
use ComponentExportKind::{Func, Instance, Value};
use Error::{TooMany, Unfinished};
use std::mem::take;
use wenc::tree::{CanonTree, Command};
use wenc::*;

const BYTE: ComponentTypeRef =
    ComponentTypeRef::Value(ComponentValType::Primitive(PrimitiveValType::U8));

/// The function that the first instance exports.
const FIRST: Alias<'static> = Alias::InstanceExport { instance: 0, kind: Func, name: "f" };

/// The second type.
const SECOND: Alias<'static> =
    Alias::Outer { kind: ComponentOuterAliasKind::Type, count: 0, index: 1 };

const FUNC: ComponentTypeRef = ComponentTypeRef::Func(0);

const OPTIONS: [CanonicalOption; 2] = [CanonicalOption::Memory(0), CanonicalOption::Async];

/// A builder with a function.
fn cancels() -> ComponentBuilder {
    let mut b = ComponentBuilder::default();
    b.task_cancel();
    b
}

/// A builder with a type that is unfinished.
fn unfinished() -> ComponentBuilder {
    let mut b = ComponentBuilder::default();
    drop(b.type_defined(None));
    b
}

/// A component type with a type that is unfinished.
fn unfinished_type() -> ComponentType {
    let mut ty = ComponentType::new();
    drop(ty.ty());
    ty
}

/// An instance type with an option, which it exports.
fn exported_option() -> InstanceType {
    let mut ty = InstanceType::new();
    ty.ty().defined_type().option(STRING);
    ty.export("t", ComponentTypeRef::Type(TypeBounds::Eq(0)));
    assert_eq!(ty.type_count(), 2);
    ty
}

/// Nested instance types, this many around an empty one.
fn nested(around: u32) -> InstanceType {
    (0..around).fold(InstanceType::new(), |inner, _| {
        let mut outer = InstanceType::new();
        outer.ty().instance(&inner);
        outer
    })
}

/// The index of a type, which is written.
fn ty<T>(
    begun: Result<(u32, T), Error>,
    write: impl FnOnce(T) -> Result<(), Error>,
) -> Result<u32, Error> {
    begun.and_then(|(index, ty)| write(ty).map(|()| index))
}

/// A function of the component model under a debug name.
fn named(canon: CanonTree) -> Command {
    Command::Canon { debug_name: Some("q".into()), canon }
}

/// Calls, and the bytes after the header.
type Row = (fn(&mut ComponentBuilder), &'static str);

/// Rows: each call with its result, then the bytes.
macro_rules! rows {
    (|$b:ident| $({ $($call:expr => $result:expr),* $(,)? } $bytes:literal;)*) => {
        [$((|$b: &mut ComponentBuilder| {
            let _ = &$b;
            $(assert_eq!($call, $result, "{}", stringify!($call));)*
        }, $bytes)),*]
    };
}

const ROWS: &[Row] = &rows! { |b|
    {} "";
    { b.try_import("f", FUNC) => Ok(0), b.try_export("g", Func, 0, None) => Ok(1) }
        "0a 06 01 00 01 66 01 00 0b 07 01 00 01 67 01 00 00";
    { b.try_alias(None, FIRST) => Ok(0), b.try_alias(None, SECOND) => Ok(0) }
        "06 0a 02 01 00 00 01 66 03 02 00 01";
    { b.try_core_alias_export(None, 0, "m", ExportKind::Memory) => Ok(0) }
        "06 07 01 00 02 01 00 01 6d";
    { b.try_lift_func(None, 1, 2, OPTIONS) => Ok(0) }
        "08 09 01 00 00 01 02 03 00 06 02";
    {
        b.try_resource_new(1) => Ok(0),
        b.try_core_module_raw(None, &[]) => Ok(0),
        b.try_resource_rep(1) => Ok(1),
    } "08 03 01 02 01 01 00 08 03 01 04 01";
    {
        b.try_start(7, vec![], u32::MAX) => Ok(0),
        b.try_import("v", BYTE) => Err(TooMany),
        b.try_start(7, vec![], 0) => Ok(u32::MAX),
    } "09 07 07 00 ff ff ff ff 0f 09 03 07 00 00";
    {
        ty(b.try_type_defined(None), |ty| ty.try_variant([("a", None), ("b", Some(STRING))]))
            => Ok(0),
    } "07 0c 01 71 02 01 61 00 00 01 62 01 73 00";
    { b.try_type_instance(None, &exported_option()) => Ok(0) }
        "07 0d 01 42 02 01 6b 73 04 00 01 74 03 00 00";
    {
        ty(b.try_type_function(None), |mut ty| {
            ty.try_async(true)?.try_params(NONE)?.try_result(None).map(drop)
        }) => Ok(0),
    } "07 05 01 43 00 01 00";
    { b.try_component(None, cancels()) => Ok(0) }
        "04 0c 00 61 73 6d 0d 00 01 00 08 02 01 05";
    { b.try_import("v", BYTE) => Ok(0), b.try_append_names() => Ok(()) }
        "0a 06 01 00 01 76 02 7d 00 16 0e cn 01 05 02 01 00 01 76";
    {
        drop(b.try_type_defined(None).expect("a type")) => (),
        b.type_count() => 1,
        b.try_export("g", Func, 0, None) => Err(Unfinished),
        take(b).try_finish() => Err(Unfinished),
    } "";
    {
        b.try_alias(None, FIRST) => Ok(0),
        b.try_core_module_raw(None, &[0xaa]) => Ok(0),
        b.try_alias(None, SECOND) => Ok(0),
    } "06 06 01 01 00 00 01 66 01 01 aa 06 05 01 03 02 00 01";
    { b.try_resource_drop(0) => Ok(0), b.try_append_names() => Ok(()) }
        "08 03 01 03 00 00 23 0e cn 01 12 00 00 01 00 0d 72 65 73 6f 75 72 63 65 2e 64 72 6f 70";
    {
        b.command(&named(CanonTree::ResourceDrop(0))) => Ok(Some(0)),
        b.command(&Command::AppendNames) => Ok(None),
        b.command(&Command::AppendNames) => Ok(None),
    } "08 03 01 03 00 00 23 0e cn 01 12 00 00 01 00 0d 72 65 73 6f 75 72 63 65 2e 64 72 6f 70 \
       00 23 0e cn 01 12 00 00 01 00 0d 72 65 73 6f 75 72 63 65 2e 64 72 6f 70";
    { ty(b.try_ty(None), |ty| ty.try_component(&ComponentType::new())) => Ok(0) }
        "07 03 01 41 00";
    { b.try_type_component(None, &ComponentType::new()) => Ok(0) }
        "07 03 01 41 00";
    { b.try_thread_yield_then_promote() => Ok(0), b.try_append_names() => Ok(()) }
        "08 03 01 2d 00 00 2f 0e cn 01 1e 00 00 01 00 19 \
         74 68 72 65 61 64 2e 79 69 65 6c 64 2d 74 68 65 6e 2d 70 72 6f 6d 6f 74 65";
    { b.try_append_names() => Ok(()) } "";
    { b.try_core_module_raw(None, &[0; 128]) => Ok(0) } "01 80 01 00x128";
    { b.try_resource_drop(0) => Ok(0), b.try_task_cancel() => Ok(1) } "08 04 02 03 00 05";
    {
        b.try_alias_export(0, "i", Instance) => Ok(0),
        b.try_import("f", FUNC) => Ok(0),
        b.try_append_names() => Ok(()),
    } "06 06 01 05 00 00 01 69 0a 06 01 00 01 66 01 00 \
       00 1d 0e cn 01 05 05 01 00 01 69 01 05 01 01 00 01 66";
    {
        b.try_alias(None, FIRST) => Ok(0),
        b.try_append_names() => Ok(()),
        b.try_alias(None, SECOND) => Ok(0),
    } "06 0a 02 01 00 00 01 66 03 02 00 01";
    {
        ty(b.try_type_defined(None), |ty| {
            ty.try_record([("a", PrimitiveValType::Bool), ("b", PrimitiveValType::Bool)])
        }) => Ok(0),
    } "07 09 01 72 02 01 61 7f 01 62 7f";
    { b.try_component_ref(None, &unfinished()) => Err(Unfinished),
      b.try_component(None, unfinished()) => Err(Unfinished),
      b.try_alias(None, FIRST) => Ok(0) }
        "06 06 01 01 00 00 01 66";
    {
        b.try_type_component(None, &unfinished_type()) => Err(Unfinished),
        b.type_count() => 0,
        ty(b.try_ty(None), |ty| ty.try_component(&unfinished_type())) => Err(Unfinished),
        b.type_count() => 1,
        take(b).try_finish() => Err(Unfinished),
    } "";
    {
        b.try_start(0, vec![], u32::MAX - 1) => Ok(0),
        b.try_alias_export(0, "v", Value) => Ok(u32::MAX - 1),
        b.try_import("w", BYTE) => Err(TooMany),
        b.try_append_names() => Ok(()),
    } "09 07 00 00 fe ff ff ff 0f 06 06 01 02 00 00 01 76 \
       00 1a 0e cn 01 09 02 01 fe ff ff ff 0f 01 76";
    // `Unfinished` takes precedence over other errors.
    {
        b.try_start(0, vec![], u32::MAX) => Ok(0),
        drop(b.try_type_defined(None).expect("a type")) => (),
        b.try_start(0, vec![], 1) => Err(Unfinished),
        b.discard_unfinished() => true,
        b.try_start(0, vec![], 1) => Err(TooMany),
    } "09 07 00 00 ff ff ff ff 0f";
    { b.try_import("", FUNC) => Ok(0) } "0a 05 01 00 00 01 00";
    { b.try_import("a".repeat(128), FUNC) => Ok(0) } "0a 86 01 01 00 80 01 61x128 01 00";
    { b.try_type_instance(None, &nested(99)) => Ok(0) } "07 ac 02 01 420101x99 42 00";
    { b.try_thread_spawn_indirect(1, 2) => Ok(0), b.try_append_names() => Ok(()) }
        "08 04 01 41 01 02 00 2b 0e cn 01 1a 00 00 01 00 15 \
         74 68 72 65 61 64 2e 73 70 61 77 6e 2d 69 6e 64 69 72 65 63 74";
    {
        b.try_alias(None, FIRST) => Ok(0),
        b.try_type_defined(Some("t")).map(|(index, _)| index) => Ok(0),
        (b.discard_unfinished(), b.discard_unfinished()) => (true, false),
        b.try_alias(None, SECOND) => Ok(0),
        b.try_append_names() => Ok(()),
    } "06 0a 02 01 00 00 01 66 03 02 00 01";
};

#[test]
fn rows() {
    for (calls, wanted) in ROWS {
        let mut b = ComponentBuilder::default();
        calls(&mut b);
        let bytes = b.finish();
        is_behind(&bytes, wanted);
        is_listed(&bytes);
    }
}

/// What is borrowed stays as it was.
#[test]
fn a_component_is_borrowed_twice() {
    let (nested, mut b) = (cancels(), ComponentBuilder::default());
    assert_eq!(b.try_component_ref(None, &nested), Ok(0));
    assert_eq!(b.try_component_ref(None, &nested), Ok(1));
    let twice =
        "04 0c 00 61 73 6d 0d 00 01 00 08 02 01 05 04 0c 00 61 73 6d 0d 00 01 00 08 02 01 05";
    is_behind(&b.finish(), twice);
    is_behind(&nested.finish(), "08 02 01 05");
}

/// One level more than what is read.
#[test]
fn a_deep_type() {
    let mut b = ComponentBuilder::default();
    assert_eq!(b.try_type_instance(None, &nested(100)), Ok(0));
    is_behind(&b.finish(), "07 af 02 01 420101x100 42 00");
}

/// Commands, what they return, and the bytes after the header.
#[test]
fn commands() {
    let cancel = Command::Canon { debug_name: None, canon: CanonTree::TaskCancel };
    let start = Command::Start { function: 7, args: [].into(), results: u32::MAX };
    let import = Command::Import { name: tree::NameTree::from("v"), ty: BYTE };
    let nested =
        |commands: &[Command]| Command::Component { debug_name: None, commands: commands.to_vec() };
    let custom = Command::Custom { name: "x".into(), data: [].into() };
    let rows = [
        (nested(&[cancel]), Ok(Some(0)), "04 0c 00 61 73 6d 0d 00 01 00 08 02 01 05"),
        (nested(&[start, import]), Err(TooMany), ""),
        (Command::RawCustom { bytes: [0x02, 0x01, 0x78].into() }, Ok(None), "00 02 01 78"),
        (custom, Ok(None), "00 02 01 78"),
    ];
    for (command, answer, wanted) in rows {
        let built = tree::build(&[command]).expect("it is built");
        assert_eq!(built.answers.as_slice(), [answer]);
        is_behind(&built.bytes, wanted);
        is_listed(&built.bytes);
    }
}

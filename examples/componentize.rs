//! Makes a component from a core module, whose exported functions become functions with these
//! signatures:
//!
//! ```sh
//! cargo run -r --example componentize -- MODULE OUT 'add(a: u32, b: u32) -> u32' 'stop()'
//! ```
//!
//! The module imports nothing. Values are numbers, characters and booleans, each of which is one
//! core value, so that no function needs the module's memory; strings and lists would need
//! `CanonicalOption::Memory` and `Realloc`, and an encoding of strings. Nothing is checked here: a
//! validator can check that the module has these functions, with the core types that the signatures
//! require.

use wenc::PrimitiveValType as Primitive;
use wenc::{ComponentBuilder, ComponentExportKind, ComponentValType, ExportKind, ModuleArg};

/// A function as a component exports it.
#[derive(Debug, PartialEq)]
pub struct Signature<'a> {
    name: &'a str,
    params: Vec<(&'a str, Primitive)>,
    result: Option<Primitive>,
}

impl<'a> Signature<'a> {
    /// Parses a signature such as `add(a: u32, b: u32) -> u32`.
    pub fn parse(text: &'a str) -> Result<Self, String> {
        let bad = || format!("no signature: {text}");
        let (name, rest) = text.split_once('(').ok_or_else(bad)?;
        let (params, result) = rest.split_once(')').ok_or_else(bad)?;
        let params = params.split(',').filter(|param| !param.trim().is_empty()).map(|param| {
            let (name, ty) = param.split_once(':').ok_or_else(bad)?;
            Ok((name.trim(), primitive(ty)?))
        });
        let params = params.collect::<Result<_, String>>()?;
        let result = match result.trim() {
            "" => None,
            result => Some(primitive(result.strip_prefix("->").ok_or_else(bad)?)?),
        };
        Ok(Self { name: name.trim(), params, result })
    }
}

/// Returns the type of this name.
fn primitive(name: &str) -> Result<Primitive, String> {
    use Primitive::*;
    let all = [Bool, Char, S8, U8, S16, U16, S32, U32, S64, U64, F32, F64];
    let name = name.trim();
    let of_name = all.into_iter().find(|ty| ty.to_string() == name);
    of_name.ok_or_else(|| format!("no type of one value: {name}"))
}

/// Returns the component. Each call returns the index of what it adds, which is passed to later
/// calls.
pub fn componentize(module: &[u8], signatures: &[Signature<'_>]) -> Vec<u8> {
    let mut builder = ComponentBuilder::default();
    let module = builder.core_module_raw(Some("main"), module);
    let arguments: [(&str, ModuleArg); 0] = [];
    let instance = builder.core_instantiate(Some("main"), module, arguments);
    for Signature { name, params, result } in signatures {
        let core = builder.core_alias_export(Some(name), instance, name, ExportKind::Func);
        let (ty, mut encoder) = builder.type_function(None);
        encoder.params(params.iter().copied()).result(result.map(ComponentValType::Primitive));
        let function = builder.lift_func(Some(name), core, ty, []);
        builder.export(*name, ComponentExportKind::Func, function, None);
    }
    // for readers of the component and of stack traces
    builder.append_names();
    builder.finish()
}

#[allow(dead_code)]
fn main() -> Result<(), String> {
    let arguments: Vec<String> = std::env::args().skip(1).collect();
    let [module, out, signatures @ ..] = arguments.as_slice() else {
        return Err("componentize MODULE OUT SIGNATURE..".into());
    };
    let signatures = signatures.iter().map(|text| Signature::parse(text));
    let signatures = signatures.collect::<Result<Vec<_>, String>>()?;
    let module = std::fs::read(module).map_err(|error| format!("{module}: {error}"))?;
    std::fs::write(out, componentize(&module, &signatures))
        .map_err(|error| format!("{out}: {error}"))
}

#[cfg(test)]
mod tests {
    use super::*;

    /// A module that exports `add`.
    const MODULE: &[u8] = b"\0asm\x01\0\0\0\x01\x07\x01\x60\x02\x7f\x7f\x01\x7f\x03\x02\x01\0\
        \x07\x07\x01\x03add\0\0\x0a\x09\x01\x07\0\x20\0\x20\x01\x6a\x0b";

    #[test]
    fn signatures_are_read() {
        let params = vec![("a", Primitive::U32), ("b", Primitive::F64)];
        let add = Signature { name: "add", params, result: Some(Primitive::S64) };
        assert_eq!(Signature::parse("add(a: u32, b: f64) -> s64"), Ok(add));
        let stop = Signature { name: "stop", params: vec![], result: None };
        assert_eq!(Signature::parse("stop()"), Ok(stop));
        assert!(Signature::parse("stop").is_err());
        assert!(Signature::parse("stop() u32").is_err());
        assert!(Signature::parse("stop(a: string)").is_err());
    }

    #[test]
    fn a_module_becomes_a_component() {
        let add = Signature::parse("add(a: u32, b: u32) -> u32").unwrap();
        let component = componentize(MODULE, &[add]);
        let sections = b"\x02\x04\x01\0\0\0\x06\x09\x01\0\0\x01\0\x03add\
            \x07\x0b\x01\x40\x02\x01a\x79\x01b\x79\0\x79\x08\x06\x01\0\0\0\0\0\
            \x0b\x09\x01\0\x03add\x01\0\0";
        let size = u8::try_from(MODULE.len()).unwrap();
        let expected = [b"\0asm\x0d\0\x01\0\x01", &[size][..], MODULE, sections].concat();
        assert_eq!(component[..expected.len()], expected);
        assert!(component[expected.len() + 2..].starts_with(b"\x0ecomponent-name"));
    }
}

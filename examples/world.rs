//! Encodes a world, and embeds it in the object file of a core module, where `wasm-component-ld`
//! and wit-component find it:
//!
//! ```sh
//! cargo run -r --example world -- WORLD OBJECT OUT
//! ```
//!
//! The world is described as in WIT, with functions of primitive types, lists, options, results and
//! tuples:
//!
//! ```wit
//! package example:greeter@1.0.0;
//! world greeter {
//!     import log: func(line: string);
//!     export greet: func(names: list<string>) -> option<string>;
//! }
//! ```

use wenc::PrimitiveValType as Primitive;
use wenc::{ComponentBuilder, ComponentDefinedTypeEncoder, ComponentExportKind, ComponentType};
use wenc::{ComponentTypeRef, ComponentValType, CustomSection, Section};

/// The rest of a description, which is split into tokens.
struct Reader<'a>(&'a str);

impl<'a> Reader<'a> {
    /// Returns the next word, `->` or other character; empty at the end.
    fn next(&mut self) -> &'a str {
        let rest = self.0.trim_start();
        let is_word = |letter: char| letter.is_ascii_alphanumeric() || letter == '-';
        let size = match rest.chars().next() {
            _ if rest.starts_with("->") => 2,
            Some(letter) if is_word(letter) => rest.find(|c| !is_word(c)).unwrap_or(rest.len()),
            sign => sign.map_or(0, char::len_utf8),
        };
        let (token, rest) = rest.split_at(size);
        self.0 = rest;
        token
    }

    /// Takes the next token if it is this one, and returns whether it was.
    fn is(&mut self, token: &str) -> bool {
        let before = self.0;
        let is = self.next() == token;
        if !is {
            self.0 = before;
        }
        is
    }

    fn expect(&mut self, token: &str) -> Result<(), String> {
        if self.is(token) { Ok(()) } else { Err(format!("no {token} before {}", self.0.trim())) }
    }

    /// Parses members between brackets, separated by commas.
    fn list<T>(
        &mut self,
        (open, close): (&str, &str),
        mut member: impl FnMut(&mut Self) -> Result<T, String>,
    ) -> Result<Vec<T>, String> {
        let mut members = Vec::new();
        self.expect(open)?;
        while !self.is(close) {
            members.push(member(self)?);
            if !self.is(",") {
                self.expect(close)?;
                break;
            }
        }
        Ok(members)
    }

    /// Parses a value type. One that isn't primitive is declared, which gives it an index.
    fn value_type(&mut self, world: &mut ComponentType) -> Result<ComponentValType, String> {
        let name = self.next();
        if let Some(ty) = primitive(name) {
            return Ok(ty.into());
        }
        let of = self.list(("<", ">"), |reader| match reader.is("_") {
            true => Ok(None),
            false => reader.value_type(world).map(Some),
        })?;
        let index = world.type_count();
        write(world.ty().defined_type(), name, &of)?;
        Ok(ComponentValType::Type(index))
    }

    /// Parses a function's type, which is declared after those that it needs.
    fn function_type(&mut self, world: &mut ComponentType) -> Result<ComponentTypeRef, String> {
        self.expect("func")?;
        let params = self.list(("(", ")"), |reader| {
            let name = reader.next();
            reader.expect(":")?;
            Ok((name, reader.value_type(world)?))
        })?;
        let result = if self.is("->") { Some(self.value_type(world)?) } else { None };
        let index = world.type_count();
        world.ty().function().params(params).result(result);
        Ok(ComponentTypeRef::Func(index))
    }
}

/// Returns the primitive type of this name.
fn primitive(name: &str) -> Option<Primitive> {
    use Primitive::*;
    let all = [Bool, Char, String, S8, U8, S16, U16, S32, U32, S64, U64, F32, F64];
    all.into_iter().find(|ty| ty.to_string() == name)
}

/// Writes the type constructor of this name, applied to these types.
fn write(
    encoder: ComponentDefinedTypeEncoder<'_>,
    name: &str,
    of: &[Option<ComponentValType>],
) -> Result<(), String> {
    match (name, of) {
        ("list", [Some(ty)]) => encoder.list(*ty),
        ("option", [Some(ty)]) => encoder.option(*ty),
        ("result", [ok]) => encoder.result(*ok, None),
        ("result", [ok, error]) => encoder.result(*ok, *error),
        ("tuple", [_, ..]) if of.iter().all(Option::is_some) => {
            encoder.tuple(of.iter().flatten().copied().collect::<Vec<_>>());
        }
        _ => return Err(format!("no type: {name}")),
    }
    Ok(())
}

/// Returns the world's name, and its encoding: a component that exports a type with that name. The
/// type is that of a component that exports the world itself, as a component type, under its name
/// in the package.
pub fn encode(description: &str) -> Result<(&str, Vec<u8>), String> {
    let package = description.trim_start().strip_prefix("package ").ok_or("no package")?;
    let (package, rest) = package.split_once(';').ok_or("no ; after the package")?;
    let mut reader = Reader(rest);
    reader.expect("world")?;
    let name = reader.next();
    reader.expect("{")?;

    let mut world = ComponentType::new();
    while !reader.is("}") {
        let (word, item) = (reader.next(), reader.next());
        reader.expect(":")?;
        let ty = reader.function_type(&mut world)?;
        reader.expect(";")?;
        match word {
            "import" => world.import(item, ty),
            "export" => world.export(item, ty),
            _ => return Err(format!("neither import nor export: {word}")),
        };
    }
    let (package, version) = match package.trim().split_once('@') {
        Some((package, version)) => (package, format!("@{version}")),
        None => (package.trim(), String::new()),
    };

    let mut outer = ComponentType::new();
    outer.ty().component(&world);
    outer.export(format!("{package}/{name}{version}"), ComponentTypeRef::Component(0));

    let mut builder = ComponentBuilder::default();
    // the version of this encoding, and UTF-8 as the encoding of strings
    let data = [4, 0].as_slice().into();
    builder.custom_section(&CustomSection { name: "wit-component-encoding".into(), data });
    let ty = builder.type_component(None, &outer);
    builder.export(name, ComponentExportKind::Type, ty, None);
    Ok((name, builder.finish()))
}

/// Appends a world to an object file, as the custom section where tools look for it.
pub fn embed(object: &mut Vec<u8>, name: &str, world: &[u8]) {
    let name = format!("component-type:{name}").into();
    CustomSection { name, data: world.into() }.append_to(object);
}

#[allow(dead_code)]
fn main() -> Result<(), String> {
    let arguments: Vec<String> = std::env::args().skip(1).collect();
    let [world, object, out] = arguments.as_slice() else {
        return Err("world WORLD OBJECT OUT".into());
    };
    let read = |path| std::fs::read(path).map_err(|error| format!("{path}: {error}"));
    let text = String::from_utf8(read(world)?).map_err(|error| format!("{world}: {error}"))?;
    let mut object = read(object)?;
    let (name, encoded) = encode(&text).map_err(|error| format!("{world}: {error}"))?;
    embed(&mut object, name, &encoded);
    std::fs::write(out, object).map_err(|error| format!("{out}: {error}"))
}

#[cfg(test)]
mod tests {
    use super::*;

    #[test]
    fn a_world_is_encoded() {
        let text = "package a:b@1.0.0; world w {
            import f: func(x: list<u8>, y: bool) -> result<_, string>;
            export g: func();
        }";
        let expected = b"\0asm\x0d\0\x01\0\0\x19\x16wit-component-encoding\x04\0\
            \x07\x3a\x01\x41\x02\x01\x41\x06\
            \x01\x70\x7d\x01\x6a\0\x01\x73\x01\x40\x02\x01x\0\x01y\x7f\0\x01\
            \x03\0\x01f\x01\x02\x01\x40\0\x01\0\x04\0\x01g\x01\x03\
            \x04\0\x0ba:b/w@1.0.0\x04\0\
            \x0b\x07\x01\0\x01w\x03\0\0";
        assert_eq!(encode(text), Ok(("w", expected.to_vec())));
    }

    #[test]
    fn it_is_embedded() {
        let mut object = b"\0asm\x01\0\0\0".to_vec();
        embed(&mut object, "w", &[7, 8]);
        assert_eq!(object, b"\0asm\x01\0\0\0\0\x13\x10component-type:w\x07\x08");
    }

    #[test]
    fn invalid_descriptions_are_rejected() {
        for text in [
            "",
            "package a:b",
            "package a:b; world w {",
            "package a:b; world w { import f: func(x: list<_>); }",
            "package a:b; world w { import f: func(x: word); }",
            "package a:b; world w { export f: func() }",
            "package a:b; world w { use f: func(); }",
        ] {
            assert!(encode(text).is_err(), "{text}");
        }
    }
}

//! README shows this program.
use std::io::{self, Write};
use wenc::{ComponentBuilder, ComponentExportKind, ComponentTypeRef, PrimitiveValType};

/// A component that imports a function and exports it again.
pub fn passed_on() -> Vec<u8> {
    let mut builder = ComponentBuilder::default();
    let (ty, mut function) = builder.type_function(None);
    function.params([("n", PrimitiveValType::U32)]).result(None);
    let f = builder.import("f", ComponentTypeRef::Func(ty));
    builder.export("g", ComponentExportKind::Func, f, None);
    builder.finish()
}

fn main() -> io::Result<()> {
    io::stdout().write_all(&passed_on())
}

#[cfg(test)]
mod tests {
    use super::passed_on;

    #[test]
    fn the_type_the_import_and_the_export_are_written() {
        let ty = b"\x07\x08\x01\x40\x01\x01n\x79\x01\0";
        let import = b"\x0a\x06\x01\0\x01f\x01\0";
        let export = b"\x0b\x07\x01\0\x01g\x01\0\0";
        let bytes = passed_on();
        assert_eq!(bytes[..8], *b"\0asm\x0d\0\x01\0");
        assert_eq!(bytes[8..], [&ty[..], import, export].concat());
    }

    #[test]
    fn readme_shows_this_program() {
        let shown = include_str!("first.rs").split_once("\n\n#[cfg(test)]").map(|(shown, _)| shown);
        let code = shown.and_then(|shown| shown.split_once('\n')).map(|(_, code)| code);
        let readme = include_str!("../README.md");
        assert!(code.is_some_and(|code| readme.contains(&format!("```rust\n{code}\n```"))));
    }
}

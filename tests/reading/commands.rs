//! Commands that fail, and their lists and texts.

use crate::{component, name, text};
use wenc::tree::{self, Command};
use wenc::*;

#[test]
fn a_refused_command_changes_nothing() {
    let import = || Command::Import { name: name("f"), ty: ComponentTypeRef::Func(0) };
    let start = |results| Command::Start { function: 0, args: vec![], results };
    let nested = vec![import(), start(u32::MAX), start(1), import()];
    let mut builder = ComponentBuilder::default();
    let refused = Command::Component { debug_name: Some(text("n")), commands: nested };
    assert_eq!(builder.command(&refused), Err(Error::TooMany));
    assert_eq!((builder.component_count(), builder.func_count()), (0, 0));
    assert_eq!(builder.command(&import()), Ok(Some(0)));

    // A type whose encoder the user dropped is the user's to discard.
    drop(builder.type_defined(None));
    let ty = tree::TypeTree::Instance(vec![]);
    let ty = Command::Type { debug_name: None, ty };
    assert_eq!(builder.command(&ty), Err(Error::Unfinished));
    assert!(builder.discard_unfinished());
    assert_eq!(builder.command(&ty), Ok(Some(0)));
    let expected = component(b"\x0a\x06\x01\x00\x01f\x01\x00\x07\x03\x01\x42\x00");
    assert_eq!(builder.finish(), expected);
}

//! The output for large and for deep components is bounded by a multiple of their size.

use crate::{file_of, start};
use wenc::tree::Space;
use wenc::{
    Component, ComponentAliasSection, ComponentDefinedTypeEncoder, ComponentNameSection,
    ComponentTypeSection, DebugNames, NestedComponentSection, PrimitiveValType,
};

/// This component, nested this deep.
fn nested(mut component: Component, depth: usize) -> Vec<u8> {
    for _ in 0..depth {
        let mut outer = Component::new();
        outer.section(&NestedComponentSection(&component));
        component = outer;
    }
    component.finish()
}

/// The size of what is printed of a component, which has this status, in each format.
fn sizes(name: &str, component: &[u8], status: i32) -> [usize; 4] {
    let file = file_of(name, component);
    [&[][..], &["-x"], &["--json"], &["--json", "-x"]].map(|options| {
        let output = start(options, &file);
        let err = String::from_utf8_lossy(&output.stderr);
        assert_eq!(output.status.code(), Some(status), "{err}");
        output.stdout.len()
    })
}

#[test]
fn components_more_than_100_deep_are_a_fault() {
    let component = nested(Component::new(), 99);
    assert_eq!(start(&[], &file_of("deep", &component)).status.code(), Some(0));
    let component = nested(Component::new(), 100);
    let file = file_of("too_deep", &component);
    let output = start(&[], &file);
    let place = component.len() - 8;
    let err =
        format!("wenc-dump: {}: components more than 100 deep at {place:#x}\n", file.display());
    assert_eq!(String::from_utf8_lossy(&output.stderr), err);
    assert_eq!(output.status.code(), Some(1));
    // the file, a section and a component for each of the others, and what isn't read
    let out = String::from_utf8(output.stdout).expect("it is text");
    let lines: Vec<&str> = out.lines().collect();
    assert_eq!(lines.len(), 1 + 2 * 100 + 2);
    let last = format!("{:40}{place:#x}..{:#x} component 0, 8 bytes", "", component.len());
    assert_eq!(lines[200], last);
    assert_eq!(lines[201], format!("{:40}{place:#x} too deep component", ""));
    assert_eq!(lines[202], format!("{:40}{place:#x}: 00 61 73 6d 0d 00 01 00", ""));
}

#[test]
fn thousands_of_nested_components_are_printed_to_the_limit() {
    for depth in [6_500, 10_923] {
        let component = nested(Component::new(), depth);
        let sizes = sizes("thousands", &component, 1);
        assert!(sizes.into_iter().all(|size| size < 24_000), "{sizes:?}");
    }
}

/// The maximum size of the output, as a multiple of the component's.
const TIMES: usize = 150;

fn expect_linear(name: &str, component: &[u8]) {
    let sizes = sizes(name, component, 0);
    assert!(sizes.into_iter().all(|size| size < TIMES * component.len()), "{name}: {sizes:?}");
}

#[test]
fn the_innermost_of_deep_components_is_linear() {
    let mut inner = Component::new();
    for _ in 0..20_000 {
        inner.section(&ComponentAliasSection::new());
    }
    expect_linear("wide_and_deep", &nested(inner, 99));
}

/// A component with this many types, which this function encodes.
fn types(number: usize, encode: impl Fn(ComponentDefinedTypeEncoder)) -> Component {
    let mut types = ComponentTypeSection::new();
    (0..number).for_each(|_| encode(types.defined_type()));
    let mut component = Component::new();
    component.section(&types);
    component
}

/// Types of one byte each.
#[test]
fn many_types_are_linear() {
    let component = types(50_000, |ty| ty.primitive(PrimitiveValType::U8));
    expect_linear("many_types", &component.finish());
}

#[test]
fn large_types_are_linear() {
    let component = types(1, |ty| ty.tuple(vec![wenc::ComponentValType::Type(0); 50_000]));
    expect_linear("large_type", &nested(component, 99));
}

/// A name of 50,000 letters, of a type that 50,000 others use.
#[test]
fn long_names_are_linear() {
    let mut component = types(50_000, |ty| ty.own(0));
    let mut names = DebugNames::new();
    names.insert(Space::Types, 0, "x".repeat(50_000));
    component.section(&ComponentNameSection::from(&names));
    expect_linear("long_names", &component.finish());
}

//! Parents of encoders, by the calls that encoders make.

use super::{is, section_is};
use crate::proved::tests::hex::digits;
use crate::proved::wenc_base::{Fault, Parent, Verbatim};
use crate::proved::wenc_builder::ComponentBuilder;
use crate::proved::wenc_parts::{ComponentValType, PrimitiveValType};
use crate::proved::wenc_sections::ComponentTypeSection;
use crate::proved::wenc_types::InstanceType;
use crate::shim::alloc::Global;

const STRING: ComponentValType = ComponentValType::Primitive(PrimitiveValType::String);

/// Writes an option, flags and an enum, each where `open` begins a type of values.
fn lend<L: Parent>(of: &mut L, open: fn(&mut L)) -> Result<(), Fault> {
    open(of);
    of.append_value(&Verbatim(&[0x6b]))?;
    of.end_with(&STRING)?;
    open(of);
    of.append_list(&[0x6e], ["a", "bc"].into_iter())?;
    of.end_member();
    open(of);
    of.end_with_list(&[0x6d], ["a"].into_iter())
}

/// The section of these types.
const SECTION: &str = "070e036b736e0201610262636d010161";

#[test]
fn builder() {
    let mut builder: ComponentBuilder = ComponentBuilder::new(Global).unwrap();
    lend(&mut builder, |builder| assert!(builder.type_defined(None).is_ok())).unwrap();
    assert!(builder.is_finished());
    assert_eq!(digits(&builder.finish().unwrap()[8..]), SECTION);
}

#[test]
fn section() {
    let mut section: ComponentTypeSection = ComponentTypeSection::new(Global);
    lend(&mut section, |section| assert!(section.defined_type().is_ok())).unwrap();
    assert!(section.is_finished());
    section_is(&section, 7, SECTION);
}

#[test]
fn declarations() {
    let mut ty: InstanceType = InstanceType::new(Global);
    lend(&mut ty, |ty| assert!(ty.type_defined().is_ok())).unwrap();
    assert!(ty.is_finished());
    is(&ty, "4203016b73016e020161026263016d010161");
}

//! An evaluator of components, written from the standard's description of instantiation: each
//! resource type is another one whenever its component is instantiated, an import is its argument,
//! and an outer alias is what the component's own surroundings have (component model, explainer,
//! "Instance Definitions" and "Alias Definitions"). It knows nothing of bytes.

use std::cell::RefCell;
use std::collections::BTreeMap;
use std::rc::Rc;

/// The kind of an item: its space.
#[derive(Clone, Copy, Debug, PartialEq, Eq)]
pub enum Kind {
    Type,
    Instance,
    Component,
}

/// An item by its kind and its index.
pub type Item = (Kind, u32);

/// What a component has, in its order.
pub enum Op {
    Resource,
    /// A type of an instance or a component, which nothing is compared with.
    OtherType,
    Import(Kind, String),
    Component(Rc<Vec<Op>>),
    Outer(u32, Item),
    Exports(Vec<(String, Item)>),
    Instantiate(u32, Vec<(String, Item)>),
    Alias(Kind, u32, String),
    Export(String, Item),
}

pub type Members = BTreeMap<String, Value>;

#[derive(Clone)]
pub enum Value {
    /// A resource type, by its number.
    Resource(usize),
    OtherType,
    Instance(Rc<Members>),
    Component(Rc<Vec<Op>>, Rc<Around>),
}

/// The index spaces of an instance of a component, and those around it.
#[derive(Default)]
pub struct Around {
    pub spaces: RefCell<[Vec<Value>; 3]>,
    outer: Option<Rc<Around>>,
}

impl Around {
    fn of(&self, (kind, index): Item) -> Value {
        self.spaces.borrow()[kind as usize][index as usize].clone()
    }

    fn members(&self, items: &[(String, Item)]) -> Members {
        items.iter().map(|(name, item)| (name.clone(), self.of(*item))).collect()
    }
}

/// The spaces of the component so many further out.
fn around(here: Rc<Around>, count: u32) -> Rc<Around> {
    (0..count).fold(here, |of, _| of.outer.clone().expect("it is in another"))
}

/// Instantiates a component with arguments. `next` is the number of the next resource type. Returns
/// its spaces and its exports.
pub fn instantiate(
    ops: &[Op],
    arguments: &Members,
    outer: Option<Rc<Around>>,
    next: &mut usize,
) -> (Rc<Around>, Members) {
    let here = Rc::new(Around { outer, ..Around::default() });
    let mut exports = Members::new();
    for op in ops {
        let (kind, value) = match op {
            Op::Resource => {
                *next += 1;
                (Kind::Type, Value::Resource(*next - 1))
            }
            Op::OtherType => (Kind::Type, Value::OtherType),
            Op::Import(kind, name) => (*kind, arguments[name].clone()),
            Op::Component(ops) => (Kind::Component, Value::Component(ops.clone(), here.clone())),
            Op::Outer(count, item) => (item.0, around(here.clone(), *count).of(*item)),
            Op::Exports(items) => (Kind::Instance, Value::Instance(here.members(items).into())),
            Op::Instantiate(index, items) => {
                let Value::Component(ops, around) = here.of((Kind::Component, *index)) else {
                    panic!("it is a component")
                };
                let (_, exports) = instantiate(&ops, &here.members(items), Some(around), next);
                (Kind::Instance, Value::Instance(exports.into()))
            }
            Op::Alias(kind, index, name) => {
                let Value::Instance(members) = here.of((Kind::Instance, *index)) else {
                    panic!("it is an instance")
                };
                (*kind, members[name].clone())
            }
            Op::Export(name, item) => {
                exports.insert(name.clone(), here.of(*item));
                (item.0, here.of(*item))
            }
        };
        here.spaces.borrow_mut()[kind as usize].push(value);
    }
    (here, exports)
}

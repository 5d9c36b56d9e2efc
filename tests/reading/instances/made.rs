//! Random components of components, each with what the evaluator needs of it.

use super::evaluated::{Item, Kind, Op};
use std::collections::BTreeMap;
use std::rc::Rc;
use wenc::{
    Alias, ComponentBuilder, ComponentExportKind, ComponentOuterAliasKind, ComponentType,
    ComponentTypeRef, InstanceType, TypeBounds, ValType,
};
use wenc_calls::random::Random;

pub type Shapes = BTreeMap<String, Shape>;

/// What an item is, as far as another may take its place.
#[derive(Clone)]
pub enum Shape {
    Resource,
    OtherType,
    Instance(Shapes),
    /// A component with these imports and exports.
    Component(Shapes, Shapes),
}

impl Shape {
    fn kind(&self) -> Kind {
        match self {
            Self::Resource | Self::OtherType => Kind::Type,
            Self::Instance(_) => Kind::Instance,
            Self::Component(..) => Kind::Component,
        }
    }

    fn fits(&self, wanted: &Self) -> bool {
        let all = |have: &Shapes, wanted: &Shapes| {
            wanted.iter().all(|(name, of)| have.get(name).is_some_and(|have| have.fits(of)))
        };
        match (self, wanted) {
            (Self::Resource, Self::Resource) => true,
            (Self::Instance(have), Self::Instance(wanted)) => all(have, wanted),
            (Self::Component(needs, has), Self::Component(given, wanted)) => {
                all(given, needs) && all(has, wanted)
            }
            _ => false,
        }
    }
}

/// A component that is being made.
#[derive(Default)]
pub struct Made {
    pub builder: ComponentBuilder,
    pub ops: Vec<Op>,
    /// What each index is.
    spaces: [Vec<Shape>; 3],
    pub imports: Shapes,
    exports: Shapes,
}

fn export_kind(kind: Kind) -> ComponentExportKind {
    match kind {
        Kind::Type => ComponentExportKind::Type,
        Kind::Instance => ComponentExportKind::Instance,
        Kind::Component => ComponentExportKind::Component,
    }
}

const RESOURCE: ComponentTypeRef = ComponentTypeRef::Type(TypeBounds::SubResource);

fn instance_type(shapes: &Shapes) -> InstanceType {
    let mut ty = InstanceType::new();
    for (name, shape) in shapes {
        match shape {
            Shape::Instance(inner) => {
                let index = ty.type_count();
                ty.ty().instance(&instance_type(inner));
                ty.export(name, ComponentTypeRef::Instance(index));
            }
            _ => _ = ty.export(name, RESOURCE),
        }
    }
    ty
}

impl Made {
    fn add(&mut self, op: Op, shape: Shape) -> Item {
        let space = &mut self.spaces[shape.kind() as usize];
        let item = (shape.kind(), u32::try_from(space.len()).expect("they are few"));
        space.push(shape);
        self.ops.push(op);
        item
    }

    /// A random item of this kind that isn't an `OtherType`.
    fn any(&self, random: &mut Random, kind: Kind) -> Option<(Item, Shape)> {
        let all = (0..).zip(&self.spaces[kind as usize]);
        let all: Vec<_> = all.filter(|(_, of)| !matches!(of, Shape::OtherType)).collect();
        let (index, shape) = (!all.is_empty()).then(|| *random.one_of(&all))?;
        Some(((kind, index), shape.clone()))
    }

    fn resource(&mut self) -> Item {
        self.builder.type_resource(None, ValType::I32, None);
        self.add(Op::Resource, Shape::Resource)
    }

    fn import(&mut self, shape: Shape) {
        let name = format!("i{}", self.imports.len());
        let ty = match &shape {
            Shape::Instance(shapes) => {
                let ty = self.builder.type_instance(None, &instance_type(shapes));
                self.add(Op::OtherType, Shape::OtherType);
                ComponentTypeRef::Instance(ty)
            }
            Shape::Component(imports, exports) => {
                let mut ty = ComponentType::new();
                imports.keys().for_each(|name| _ = ty.import(name, RESOURCE));
                exports.keys().for_each(|name| _ = ty.export(name, RESOURCE));
                let ty = self.builder.type_component(None, &ty);
                self.add(Op::OtherType, Shape::OtherType);
                ComponentTypeRef::Component(ty)
            }
            _ => RESOURCE,
        };
        self.builder.import(&name, ty);
        self.add(Op::Import(shape.kind(), name.clone()), shape.clone());
        self.imports.insert(name, shape);
    }

    fn export(&mut self, (item, shape): (Item, Shape)) {
        let name = format!("e{}", self.exports.len());
        self.builder.export(&name, export_kind(item.0), item.1, None);
        self.add(Op::Export(name.clone(), item), shape.clone());
        self.exports.insert(name, shape);
    }

    /// Defines a component in this one.
    fn component(&mut self, inner: Self) -> Item {
        let Self { builder, ops, imports, exports, .. } = inner;
        self.builder.component(None, builder);
        self.add(Op::Component(ops.into()), Shape::Component(imports, exports))
    }

    /// An item that fits, which is made if there is none.
    fn provide(&mut self, random: &mut Random, wanted: &Shape) -> Item {
        let kind = wanted.kind();
        let fitting = (0..).zip(&self.spaces[kind as usize]).filter(|(_, of)| of.fits(wanted));
        let fitting: Vec<u32> = fitting.map(|(index, _)| index).collect();
        if !fitting.is_empty() && random.below(8) > 0 {
            return (kind, *random.one_of(&fitting));
        }
        match wanted {
            Shape::Instance(shapes) => {
                let items = self.provide_all(random, shapes);
                let exports =
                    items.iter().map(|(name, item)| (&name[..], export_kind(item.0), item.1));
                self.builder.instantiate_exports(None, exports.collect::<Vec<_>>());
                let shape = |(name, item): &(String, Item)| {
                    (name.clone(), self.spaces[item.0 as usize][item.1 as usize].clone())
                };
                let shapes = items.iter().map(shape).collect();
                self.add(Op::Exports(items), Shape::Instance(shapes))
            }
            Shape::Component(imports, exports) => {
                let mut inner = Self::default();
                for name in imports.keys() {
                    inner.builder.import(name, RESOURCE);
                    inner.add(Op::Import(Kind::Type, name.clone()), Shape::Resource);
                }
                inner.imports = imports.clone();
                for name in exports.keys() {
                    let item = inner.provide(random, &Shape::Resource);
                    inner.builder.export(name, ComponentExportKind::Type, item.1, None);
                    inner.add(Op::Export(name.clone(), item), Shape::Resource);
                }
                inner.exports = exports.clone();
                self.component(inner)
            }
            _ => self.resource(),
        }
    }

    fn provide_all(&mut self, random: &mut Random, shapes: &Shapes) -> Vec<(String, Item)> {
        let one = |(name, shape): (&String, &Shape)| (name.clone(), self.provide(random, shape));
        shapes.iter().map(one).collect()
    }

    fn instantiate(&mut self, random: &mut Random, index: u32, shape: Shape) {
        let Shape::Component(imports, exports) = shape else { return };
        let items = self.provide_all(random, &imports);
        let arguments = items.iter().map(|(name, item)| (&name[..], export_kind(item.0), item.1));
        self.builder.instantiate(None, index, arguments.collect::<Vec<_>>());
        self.add(Op::Instantiate(index, items), Shape::Instance(exports));
    }

    fn alias(&mut self, random: &mut Random, index: u32, shapes: &Shapes) {
        let all: Vec<_> = shapes.iter().collect();
        if all.is_empty() {
            return;
        }
        let (name, shape) = *random.one_of(&all);
        self.builder.alias_export(index, name, export_kind(shape.kind()));
        self.add(Op::Alias(shape.kind(), index, name.clone()), shape.clone());
    }
}

fn random_shapes(random: &mut Random, depth: u32) -> Shapes {
    let one = |name: &str| {
        let is_instance = depth > 0 && random.below(4) == 0;
        let shape = if is_instance {
            Shape::Instance(random_shapes(random, depth - 1))
        } else {
            Shape::Resource
        };
        (name.to_owned(), shape)
    };
    ["a", "b", "c"][..1 + depth as usize].iter().copied().map(one).collect()
}

fn resources(names: &[&str]) -> Shapes {
    names.iter().map(|name| ((*name).to_owned(), Shape::Resource)).collect()
}

/// Adds an alias of a type or component of one around to the innermost of these.
fn alias_outer(random: &mut Random, open: &mut [Made]) {
    let last = open.len() - 1;
    let out = 1 + random.below(last);
    let kind = *random.one_of(&[Kind::Type, Kind::Component]);
    let Some((item, shape)) = open[last - out].any(random, kind) else { return };
    let kind = match kind {
        Kind::Type => ComponentOuterAliasKind::Type,
        _ => ComponentOuterAliasKind::Component,
    };
    let (count, made) = (out as u32, &mut open[last]);
    made.builder.alias(None, Alias::Outer { kind, count, index: item.1 });
    made.add(Op::Outer(count, item), shape);
}

/// Adds items to the innermost of these components, each of which is in the one before it.
pub fn grow(random: &mut Random, open: &mut Vec<Made>, count: usize) {
    for _ in 0..count {
        let depth = open.len();
        let made = open.last_mut().expect("there is one");
        match random.below(12) {
            0 => _ = made.resource(),
            1 => made.import(Shape::Resource),
            2 => made.import(Shape::Instance(random_shapes(random, 2))),
            3 if depth > 1 => {
                made.import(Shape::Component(resources(&["x"]), resources(&["a", "b"])));
            }
            4 | 5 if depth < 5 => {
                open.push(Made::default());
                let count = 3 + random.below(10);
                grow(random, open, count);
                let inner = open.pop().expect("it is the last");
                open[depth - 1].component(inner);
            }
            6 if depth > 1 => alias_outer(random, open),
            7 | 8 => {
                if let Some((item, shape)) = made.any(random, Kind::Component) {
                    made.instantiate(random, item.1, shape);
                }
            }
            9 | 10 => {
                if let Some((item, Shape::Instance(shapes))) = made.any(random, Kind::Instance) {
                    made.alias(random, item.1, &shapes);
                }
            }
            _ => {
                let kind = *random.one_of(&[Kind::Type, Kind::Instance, Kind::Component]);
                made.any(random, kind).into_iter().for_each(|of| made.export(of));
            }
        }
    }
    // what isn't exported isn't seen
    let made = open.last_mut().expect("there is one");
    for kind in [Kind::Type, Kind::Instance, Kind::Type] {
        made.any(random, kind).into_iter().for_each(|of| made.export(of));
    }
}

/// A component: its bytes, its items, and its imports.
pub fn component(seed: u64) -> (Vec<u8>, Rc<Vec<Op>>, Shapes) {
    let mut random = Random(0x9e37_79b9_7f4a_7c15 ^ seed.wrapping_mul(0x2545_f491_4f6c_dd1d) | 1);
    let mut open = vec![Made::default()];
    let count = 10 + random.below(40);
    grow(&mut random, &mut open, count);
    let Made { builder, ops, imports, .. } = open.pop().expect("there is one");
    (builder.finish(), ops.into(), imports)
}

//! The constant part of a variant or a struct, as data: one function makes the nodes of all types
//! from it, and another visits their indices.

use super::{Place, Refs, Space, Tree};
use crate::tree::node::{Child, Fields, Node};

/// The names and the values of some fields: nodes would be large with them.
pub(in crate::tree) type Named<'a> = [Option<(&'static str, Child<'a>)>; 4];

/// The role of a field.
#[derive(Clone, Copy)]
pub(super) enum Role {
    /// A value that isn't an index.
    Plain,
    /// The declarations of a type that has index spaces of its own.
    Inner,
    /// Core types that may refer to each other. The indices that they define are those that the
    /// value defines.
    Group,
    /// An index, for which [`Values::outer`] is set.
    Outer,
    /// An index in this space, which is encoded after the other fields.
    Last(Space),
    /// An index in this space.
    Index(Space),
    /// An option, which may be of an index in this space, and what is encoded before it.
    Option(Option<Space>, Tags),
}

/// The number of bytes that tell that an option is there, and that it isn't.
#[derive(Clone, Copy, Default)]
pub(in crate::tree) struct Tags {
    pub present: u8,
    pub absent: u8,
}

/// The bytes of a variant or a struct.
#[derive(Clone, Copy)]
pub(in crate::tree) enum Layout {
    /// This many bytes, and the fields in their order.
    Tag(u8),
    /// These parts.
    Parts(&'static [Part]),
    /// An option that is there: its [`Tags`] are those of the field.
    Present,
    /// A name with its options, each with its kind.
    Name,
    /// A core type in its shortest form or in a longer one, whose first byte tells it.
    SubType,
    /// A reference type in its short form or in its long one, whose first byte tells it.
    RefType,
}

/// A part of the bytes of a variant or a struct.
#[derive(Clone, Copy)]
pub(in crate::tree) enum Part {
    /// This many bytes of its own.
    Own(u8),
    /// The field with this number.
    Field(usize),
}

/// Returns the number of the field with this name.
pub(super) const fn field(fields: &[(&str, Role)], name: &str) -> usize {
    let mut at = 0;
    while !is_equal(fields[at].0.as_bytes(), name.as_bytes()) {
        // 32 bits: there are fewer fields than bytes in memory.
        at += 1;
    }
    at
}

const fn is_equal(a: &[u8], b: &[u8]) -> bool {
    let mut at = 0;
    while at < a.len() && at < b.len() && a[at] == b[at] {
        // 32 bits: below both lengths.
        at += 1;
    }
    at == a.len() && at == b.len()
}

/// The kind of node of a variant or a struct.
#[derive(Clone, Copy)]
pub(super) enum Kind {
    /// A variant without fields.
    Word,
    /// A variant with one field that has no name.
    Variant,
    /// A variant with named fields.
    Struct,
    /// A struct.
    Record,
    /// Values of several types.
    Tuple,
    /// An option that is `Some`.
    Present,
}

/// A variant or a struct without its values.
pub(in crate::tree) struct Shape {
    kind: Kind,
    name: &'static str,
    /// The names and the roles of its fields, in the order of the Rust type.
    pub(super) fields: &'static [(&'static str, Role)],
    pub(in crate::tree) layout: Layout,
}

/// The values of a variant or a struct, each a reference; or what a value without a shape has
/// instead.
pub(in crate::tree) struct Values<V, L> {
    values: [Option<V>; 4],
    /// What a value without a shape has.
    pub(super) unshaped: Option<L>,
    /// How far out the scope is of the index whose role is [`Role::Outer`], and its space.
    pub(super) outer: (u32, Space),
    /// The space and the number of the indices that it defines, if it is a declaration.
    pub(super) defined: Option<(Space, u32)>,
}

/// Its methods are called once for each variant, and compiled once.
impl<V, L> Values<V, L> {
    #[inline(never)]
    pub(super) fn new() -> Self {
        let (values, unshaped) = ([None, None, None, None], None);
        Self { values, unshaped, outer: (0, Space::Types), defined: None }
    }

    /// Sets what a value without a shape has.
    #[inline(never)]
    pub(super) fn without_shape(&mut self, unshaped: L) -> Option<&'static Shape> {
        self.unshaped = Some(unshaped);
        None
    }

    #[inline(never)]
    pub(super) fn one(&mut self, shape: &'static Shape, first: V) -> &'static Shape {
        self.values[0] = Some(first);
        shape
    }

    #[inline(never)]
    pub(super) fn two(&mut self, shape: &'static Shape, first: V, second: V) -> &'static Shape {
        self.values[1] = Some(second);
        self.one(shape, first)
    }

    #[inline(never)]
    pub(super) fn three(
        &mut self,
        shape: &'static Shape,
        first: V,
        second: V,
        third: V,
    ) -> &'static Shape {
        self.values[2] = Some(third);
        self.two(shape, first, second)
    }

    #[inline(never)]
    pub(super) fn four(
        &mut self,
        shape: &'static Shape,
        [first, second, third, fourth]: [V; 4],
    ) -> &'static Shape {
        self.values[3] = Some(fourth);
        self.three(shape, first, second, third)
    }

    /// Takes the value with this number, if it is set.
    pub(super) fn take(&mut self, at: usize) -> Option<V> {
        self.values.get_mut(at)?.take()
    }

    /// Returns the place of a field with this role, of a value at `place`.
    pub(super) fn place<'n>(&self, role: Role, place: Place<'n>) -> Place<'n> {
        let (count, space) = self.outer;
        let place = place.tagged(Tags::default());
        match role {
            Role::Plain => place,
            Role::Inner => place.inner(),
            Role::Group => place.within(self.defined),
            Role::Outer => place.outer(count, space),
            Role::Last(space) => place.outer(0, space).last(),
            Role::Index(space) => place.outer(0, space),
            Role::Option(Some(space), tags) => place.outer(0, space).tagged(tags),
            Role::Option(None, tags) => place.tagged(tags),
        }
    }
}

impl Shape {
    pub(super) const fn new(
        kind: Kind,
        name: &'static str,
        fields: &'static [(&'static str, Role)],
        layout: Layout,
    ) -> Self {
        assert!(fields.len() <= 4);
        Self { kind, name, fields, layout }
    }

    /// Returns the node of a value of this shape.
    pub(super) fn node<'n>(
        &self,
        values: &mut Refs<'n>,
        whole: &'n dyn Tree,
        place: Place<'n>,
    ) -> Node<'n> {
        let (name, fields) = (self.name, Fields::new(whole, place));
        match (self.kind, self.named(values, place)[0]) {
            (Kind::Variant, Some((_, child))) => Node::Variant(name, child),
            (Kind::Present, Some((_, child))) => Node::Present(child),
            (Kind::Word | Kind::Variant | Kind::Present, _) => Node::Word(name),
            (Kind::Struct, _) => Node::Struct(name, fields),
            (Kind::Record, _) => Node::Record(name, fields),
            (Kind::Tuple, _) => Node::Tuple(fields),
        }
    }

    /// Returns the fields of a value of this shape.
    #[inline(never)]
    pub(super) fn named<'n>(&self, values: &mut Refs<'n>, place: Place<'n>) -> Named<'n> {
        let mut named = [None; 4];
        for (at, (name, role)) in self.fields.iter().enumerate() {
            let Some(value) = values.take(at) else { continue };
            named[at] = Some((*name, Child::new(value, values.place(*role, place))));
        }
        named
    }
}

/// Returns the role of a field.
macro_rules! role {
    () => {
        Role::Plain
    };
    (inner) => {
        Role::Inner
    };
    (group) => {
        Role::Group
    };
    (outer) => {
        Role::Outer
    };
    (option) => {
        Role::Option(None, Tags { present: 1, absent: 1 })
    };
    (result) => {
        Role::Option(None, Tags { present: 1, absent: 2 })
    };
    ((option $space:ident)) => {
        Role::Option(Some(Space::$space), Tags { present: 1, absent: 1 })
    };
    ((last $space:ident)) => {
        Role::Last(Space::$space)
    };
    ($space:ident) => {
        Role::Index(Space::$space)
    };
}

/// Returns the layout of a variant or of a struct.
macro_rules! layout {
    ([$fields:expr]) => {
        Layout::Tag(1)
    };
    ([$fields:expr] $len:literal) => {
        Layout::Tag($len)
    };
    ([$fields:expr] $special:ident) => {
        Layout::$special
    };
    ([$fields:expr] $($part:tt)+) => {
        Layout::Parts(&[$(layout!(@part $fields, $part)),+])
    };
    (@part $fields:expr, $len:literal) => {
        Part::Own($len)
    };
    (@part $fields:expr, $field:ident) => {
        Part::Field(field($fields, stringify!($field)))
    };
}

/// Returns the shape of a variant or of a struct.
macro_rules! shape {
    ($name:ident [$($layout:tt)*]) => {
        Shape::new(Kind::Word, stringify!($name), &[], layout!([&[]] $($layout)*))
    };
    ($name:ident($field:ident: named) $layout:tt) => {
        shape!(Struct $name { $field } $layout)
    };
    ($name:ident($field:ident $(: $role:tt)?) $layout:tt) => {
        shape!(Variant $name { $field $(: $role)? } $layout)
    };
    ($name:ident { $($field:ident $(: $role:tt)?),+ } $layout:tt) => {
        shape!(Struct $name { $($field $(: $role)?),+ } $layout)
    };
    ($kind:ident $name:ident { $($field:ident $(: $role:tt)?),+ } [$($layout:tt)*]) => {{
        const FIELDS: &[(&str, Role)] = &[$((stringify!($field), role!($($role)?))),*];
        Shape::new(Kind::$kind, stringify!($name), FIELDS, layout!([FIELDS] $($layout)*))
    }};
}

/// Sets the values of the fields, and how far out the scope of an outer index is. Returns the shape
/// with this name.
macro_rules! filled {
    ($values:ident $shape:ident [($count:expr, $space:expr)] $($value:ident)+) => {{
        $values.outer = ($count, $space);
        filled!($values $shape [] $($value)+)
    }};
    ($values:ident $shape:ident []) => {
        &$shape
    };
    ($values:ident $shape:ident [] $one:ident) => {
        $values.one(&$shape, $one)
    };
    ($values:ident $shape:ident [] $one:ident $two:ident) => {
        $values.two(&$shape, $one, $two)
    };
    ($values:ident $shape:ident [] $one:ident $two:ident $three:ident) => {
        $values.three(&$shape, $one, $two, $three)
    };
    ($values:ident $shape:ident [] $one:ident $two:ident $three:ident $four:ident) => {
        $values.four(&$shape, [$one, $two, $three, $four])
    };
}

pub(super) use {filled, layout, role, shape};

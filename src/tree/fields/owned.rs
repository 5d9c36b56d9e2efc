//! The fields of owned types, and their indices, which may be changed.

use super::Place;
use super::shape::{Kind, Layout, Role, Shape, Values};
use crate::shim::vec::VecUsing;
use crate::tree::indices::{IndexUse, Visitor};
use crate::tree::{
    AllocError, Box, CoreArrayType, CoreFuncType, CoreHeapType, CoreRefType, CoreStructType,
    CoreValType, Global, NameTree, Space,
};
use alloc::string::String;
use alloc::vec::Vec;

/// An owned value, whose indices may be changed.
pub(in crate::tree) trait TreeMut {
    /// Sets the values of the fields, and returns the shape; or sets what may have indices without
    /// one.
    fn shape_mut<'n>(&'n mut self, _: &mut Muts<'n>) -> Option<&'static Shape> {
        None
    }
}

/// The values of the fields of an owned value, or itself if it may have indices, but no shape.
pub(super) type Muts<'n> = Values<&'n mut dyn TreeMut, &'n mut dyn Unshaped>;

/// A value without a shape that may have indices.
pub(in crate::tree) trait Unshaped {
    /// Visits the indices in the value at this place.
    fn visit(&mut self, place: Place<'_>, visitor: &mut Visitor<'_>);
}

/// Visits each index in the value at this place, in the order in which they are encoded. It calls
/// itself for lists, and for all but one of the fields, so that nested types take little stack.
pub(in crate::tree) fn each_index(
    mut tree: &mut dyn TreeMut,
    mut place: Place<'_>,
    visitor: &mut Visitor<'_>,
) {
    loop {
        let mut values = Values::new();
        let Some(shape) = tree.shape_mut(&mut values) else {
            return values.unshaped.map_or((), |value| value.visit(place, visitor));
        };
        // the field that is visited after the others
        let mut left: Option<(&mut dyn TreeMut, Place<'_>)> = None;
        for (at, (_, role)) in shape.fields.iter().enumerate() {
            let Some(value) = values.take(at) else { continue };
            let place = values.place(*role, place);
            match left {
                Some((_, Place { is_last: true, .. })) => each_index(value, place, visitor),
                _ => {
                    if let Some((value, place)) = left.replace((value, place)) {
                        each_index(value, place, visitor);
                    }
                }
            }
        }
        match left {
            Some(field) => (tree, place) = field,
            None => return,
        }
    }
}

impl TreeMut for bool {}
impl TreeMut for u64 {}
impl TreeMut for String {}
impl TreeMut for Vec<u8> {}
// It has no index.
impl TreeMut for NameTree {}

impl Unshaped for u32 {
    fn visit(&mut self, place: Place<'_>, visitor: &mut Visitor<'_>) {
        if let Some((space, scope)) = place.index_of() {
            (visitor.visit)(IndexUse { space, scope, index: self });
        }
    }
}

impl TreeMut for u32 {
    fn shape_mut<'n>(&'n mut self, values: &mut Muts<'n>) -> Option<&'static Shape> {
        values.without_shape(self)
    }
}

impl<T: TreeMut> Unshaped for Vec<T> {
    fn visit(&mut self, place: Place<'_>, visitor: &mut Visitor<'_>) {
        let mut rest = self.as_mut_slice();
        while let [value, more @ ..] = rest {
            each_index(value, place, visitor);
            rest = more;
        }
    }
}

impl<T: TreeMut> TreeMut for Vec<T> {
    fn shape_mut<'n>(&'n mut self, values: &mut Muts<'n>) -> Option<&'static Shape> {
        values.without_shape(self)
    }
}

/// The shapes of a value that is another one, and of a name with an index: they have no node.
static INNER: Shape = Shape::new(Kind::Variant, "", &[("0", Role::Plain)], Layout::Tag(0));
static INDEX: Shape = Shape::new(Kind::Variant, "", &[("0", Role::Outer)], Layout::Tag(0));

impl<T: TreeMut> TreeMut for Option<T> {
    fn shape_mut<'n>(&'n mut self, values: &mut Muts<'n>) -> Option<&'static Shape> {
        Some(values.one(&INNER, self.as_mut()?))
    }
}

impl<T: TreeMut> TreeMut for Box<T> {
    fn shape_mut<'n>(&'n mut self, values: &mut Muts<'n>) -> Option<&'static Shape> {
        (**self).shape_mut(values)
    }
}

impl<N, T: TreeMut> TreeMut for (N, T) {
    fn shape_mut<'n>(&'n mut self, values: &mut Muts<'n>) -> Option<&'static Shape> {
        Some(values.one(&INNER, &mut self.1))
    }
}

impl<N, K: Copy + Into<Space>> TreeMut for (N, K, u32) {
    fn shape_mut<'n>(&'n mut self, values: &mut Muts<'n>) -> Option<&'static Shape> {
        let (_, kind, index) = self;
        values.outer = (0, (*kind).into());
        Some(values.one(&INDEX, index))
    }
}

impl TreeMut for CoreArrayType {
    fn shape_mut<'n>(&'n mut self, values: &mut Muts<'n>) -> Option<&'static Shape> {
        self.0.shape_mut(values)
    }
}

impl TreeMut for CoreStructType {
    fn shape_mut<'n>(&'n mut self, values: &mut Muts<'n>) -> Option<&'static Shape> {
        self.fields.shape_mut(values)
    }
}

impl Unshaped for CoreFuncType {
    fn visit(&mut self, place: Place<'_>, visitor: &mut Visitor<'_>) {
        if !self.params().iter().any(has_index) && !self.results().iter().any(has_index) {
            return;
        }
        // the lists can't be changed in place
        let lists = (copy(self.params()), copy(self.results()));
        let (Ok(mut params), Ok(mut results)) = lists else {
            visitor.is_refused = true;
            return;
        };
        params.visit(place, visitor);
        results.visit(place, visitor);
        *self = Self::from_lists(params, results);
    }
}

impl TreeMut for CoreFuncType {
    fn shape_mut<'n>(&'n mut self, values: &mut Muts<'n>) -> Option<&'static Shape> {
        values.without_shape(self)
    }
}

fn has_index(ty: &CoreValType) -> bool {
    matches!(ty, CoreValType::Ref(CoreRefType { heap_type: CoreHeapType::Concrete(_), .. }))
}

/// Copies a list of types.
fn copy(types: &[CoreValType]) -> Result<Vec<CoreValType>, AllocError> {
    Vec::from_slice(Global, types)
}

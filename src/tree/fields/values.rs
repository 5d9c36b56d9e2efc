//! The fields of containers.

use super::shape::{Kind, Layout, Role, Shape};
use super::{Elements, Node, Place, Refs, Tree, Visit};
use crate::proved::wenc_view::View;
use crate::tree::node::List;
use crate::tree::{CoreArrayType, Space};
use crate::view::{ComponentDecls, InstanceDecls, ListOf};
use core::ops::ControlFlow;

/// Implements `Tree` for types without a shape.
macro_rules! leaves {
    ($($ty:ty, $value:ident, $place:tt => $node:expr;)+) => {$(
        impl Tree for $ty {
            fn shape<'n>(
                &'n self,
                $place: Place<'n>,
                values: &mut Refs<'n>,
            ) -> Option<&'static Shape> {
                let $value = self;
                values.without_shape($node)
            }
        }
    )+};
}

leaves! {
    bool, flag, _ => Node::Flag(*flag);
    u64, number, _ => Node::Number(*number);
    u32, number, place => place.number(*number);
    &str, text, _ => Node::Text(text);
    &[u8], bytes, _ => Node::Bytes(bytes);
}

/// Implements `Tree` for borrowed lists, whose elements are read one by one.
macro_rules! lists {
    ($($name:ident $(<$element:ident>)?)+) => {$(
        impl<'a $(, $element: View<'a> + Tree)?> Tree for $name<'a $(, $element)?> {
            fn shape<'n>(
                &'n self,
                place: Place<'n>,
                values: &mut Refs<'n>,
            ) -> Option<&'static Shape> {
                values.without_shape(Node::List(List::new(self, place)))
            }
        }

        impl<'a $(, $element: View<'a> + Tree)?> Elements for $name<'a $(, $element)?> {
            fn len(&self) -> usize {
                usize::try_from(self.left).unwrap_or(usize::MAX)
            }

            fn each(&self, visit: &mut Visit<'_>) -> ControlFlow<()> {
                let mut list = *self;
                let mut before = list.bytes;
                while let Some(element) = list.next() {
                    visit(&element, read_up_to(before, list.bytes))?;
                    before = list.bytes;
                }
                ControlFlow::Continue(())
            }
        }
    )+};
}

/// Returns the bytes that were read, given those before and after reading.
#[inline(never)]
fn read_up_to<'a>(before: &'a [u8], left: &[u8]) -> Option<&'a [u8]> {
    before.get(..before.len() - left.len())
}

lists! {
    ComponentDecls
    InstanceDecls
    ListOf<T>
}

impl<T: Tree> Tree for Option<T> {
    fn shape<'n>(&'n self, _: Place<'n>, values: &mut Refs<'n>) -> Option<&'static Shape> {
        static PRESENT: Shape =
            Shape::new(Kind::Present, "", &[("0", Role::Plain)], Layout::Present);
        Some(values.one(&PRESENT, self.as_ref()?))
    }
}

/// A name and the named value.
impl<N: Tree, T: Tree> Tree for (N, T) {
    fn shape<'n>(&'n self, _: Place<'n>, values: &mut Refs<'n>) -> Option<&'static Shape> {
        static PAIR: Shape =
            Shape::new(Kind::Tuple, "", &[("0", Role::Plain), ("1", Role::Plain)], Layout::Tag(0));
        Some(values.two(&PAIR, &self.0, &self.1))
    }
}

/// A name, and the kind and the index of the named item.
impl<N: Tree, K: Tree + Copy + Into<Space>> Tree for (N, K, u32) {
    fn shape<'n>(&'n self, _: Place<'n>, values: &mut Refs<'n>) -> Option<&'static Shape> {
        static ITEM: Shape = Shape::new(
            Kind::Tuple,
            "",
            &[("0", Role::Plain), ("1", Role::Plain), ("2", Role::Outer)],
            Layout::Tag(0),
        );
        let (name, kind, index) = self;
        values.outer = (0, (*kind).into());
        Some(values.three(&ITEM, name, kind, index))
    }
}

impl Tree for CoreArrayType {
    fn shape<'n>(&'n self, place: Place<'n>, values: &mut Refs<'n>) -> Option<&'static Shape> {
        self.0.shape(place, values)
    }
}

//! How many items of each space a declared type has.

use super::{ComponentType, InstanceType};
use crate::tree::Space;

/// Defines the call of each type.
macro_rules! counts {
    ($($name:ident)*) => {
        $(impl $name {
            /// Returns the number of items in an index space: of core types, types and instances.
            /// `None` for another space, whose items aren't counted.
            ///
            /// Needs the feature `walk`.
            ///
            /// ```
            /// use wenc::tree::Space;
            /// use wenc::{InstanceType, TypeBounds};
            ///
            /// let mut ty = InstanceType::new();
            /// ty.export_type("file", TypeBounds::SubResource);
            /// assert_eq!(ty.count(Space::Types), Some(1));
            /// assert_eq!(ty.count(Space::Funcs), None);
            /// ```
            pub fn count(&self, space: Space) -> Option<u32> {
                match space {
                    Space::CoreTypes => Some(self.core_type_count()),
                    Space::Types => Some(self.type_count()),
                    Space::Instances => Some(self.instance_count()),
                    _ => None,
                }
            }
        })*
    };
}

counts! { ComponentType InstanceType }

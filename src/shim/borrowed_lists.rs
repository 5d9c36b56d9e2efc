//! What users expect of borrowed lists, by their members, and what the derives of types that
//! contain lists need.

use super::iter::Members;
use crate::proved::wenc_view::{
    ComponentDeclView, ComponentDecls, InstanceDeclView, InstanceDecls, ListOf, View,
};
use core::fmt;
use core::hash::{Hash, Hasher};
use core::iter::FusedIterator;

/// Implements what users expect of a list, by its members.
macro_rules! lists {
    ($($name:ident $(<$member:ident>)? of $item:ty;)+) => {$(
        impl<'a $(, $member: View<'a>)?> $name<'a $(, $member)?> {
            /// Returns the number of members that are left. Nothing is read.
            pub fn len(&self) -> u32 {
                self.left
            }

            /// Returns `true` if no members are left.
            pub fn is_empty(&self) -> bool {
                self.left == 0
            }
        }

        impl<'a $(, $member: View<'a>)?> Iterator for $name<'a $(, $member)?> {
            type Item = $item;

            #[inline]
            fn next(&mut self) -> Option<Self::Item> {
                let member = Members::next(self);
                if member.is_none() {
                    self.left = 0;
                }
                member
            }

            #[inline]
            fn size_hint(&self) -> (usize, Option<usize>) {
                let left = usize::try_from(self.left).ok();
                (left.unwrap_or(usize::MAX), left)
            }
        }

        impl<'a $(, $member: View<'a>)?> ExactSizeIterator for $name<'a $(, $member)?> {}

        impl<'a $(, $member: View<'a>)?> FusedIterator for $name<'a $(, $member)?> {}

        impl<'a $(, $member: View<'a> + fmt::Debug)?> fmt::Debug for $name<'a $(, $member)?> {
            #[inline]
            fn fmt(&self, f: &mut fmt::Formatter<'_>) -> fmt::Result {
                f.debug_list().entries(*self).finish()
            }
        }

        impl<'a $(, $member: View<'a> + PartialEq)?> PartialEq for $name<'a $(, $member)?> {
            #[inline]
            fn eq(&self, other: &Self) -> bool {
                self.left == other.left && Iterator::eq(*self, *other)
            }
        }

        impl<'a $(, $member: View<'a> + Eq)?> Eq for $name<'a $(, $member)?> {}

        impl<'a $(, $member: View<'a> + Hash)?> Hash for $name<'a $(, $member)?> {
            #[inline]
            fn hash<H: Hasher>(&self, state: &mut H) {
                self.left.hash(state);
                self.for_each(|member| member.hash(state));
            }
        }
    )+};
}

lists! {
    ComponentDecls of ComponentDeclView<'a>;
    InstanceDecls of InstanceDeclView<'a>;
    ListOf<T> of T;
}

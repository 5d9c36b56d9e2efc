//! Macros that take an allocator.

macro_rules! format_in {
    (in $alloc:expr; $($arguments:tt)*) => {{
        use crate::shim::string::{String, StringUsing};
        let mut text = String::new_using($alloc);
        text.write_fmt(::core::format_args!($($arguments)*)).map(|()| text)
    }};
}

#[cfg(test)]
macro_rules! vec_in {
    (in $alloc:expr; $($value:expr),* $(,)?) => {{
        use crate::shim::iter::CollectUsing;
        ::core::iter::IntoIterator::into_iter([$($value),*]).collect_using($alloc)
    }};
}

pub(crate) use format_in as format;
#[cfg(test)]
pub(crate) use vec_in as vec;

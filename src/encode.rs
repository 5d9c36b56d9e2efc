//! Values with an encoding in the binary format.

use crate::Error;
use crate::proved::wenc_base::{self as proved, Fault};
use crate::shim::alloc::Global;
use crate::shim::vec::VecUsing;
use alloc::vec::Vec;
use core::cell::Cell;

/// A value with an encoding in the binary format. Your own types can implement it, for sections of
/// your own: when such a value is appended to a component, or is in a list or an `Option`, it
/// encodes to an empty sink, whose bytes are then appended.
///
/// ```
/// use wenc::{ComponentValType, Encode};
///
/// let mut sink = Vec::new();
/// ComponentValType::Type(64).encode(&mut sink);
/// "f".encode(&mut sink);
/// assert_eq!(sink, [0xc0, 0x00, 0x01, b'f']);
/// ```
pub trait Encode {
    /// Appends the bytes of the value to the sink.
    ///
    /// # Panics
    ///
    /// Panics, with the sink unchanged, if a length exceeds 4294967295, a type or a section is
    /// unfinished, a core type isn't in WebAssembly 3.0, or an allocation fails.
    fn encode(&self, sink: &mut Vec<u8>);

    /// Does what [`encode`](Self::encode) does, but returns an error instead of panicking. A type
    /// of your own that doesn't define it calls `encode`, and panics where that panics.
    ///
    /// # Errors
    ///
    /// Fails as [`Error`] describes, with the sink unchanged.
    ///
    /// ```
    /// use wenc::{ComponentTypeSection, Encode, Error};
    ///
    /// let mut types = ComponentTypeSection::new();
    /// drop(types.function());
    /// assert_eq!(types.try_encode(&mut Vec::new()), Err(Error::Unfinished));
    /// ```
    fn try_encode(&self, sink: &mut Vec<u8>) -> Result<(), Error> {
        self.encode(sink);
        Ok(())
    }

    /// Whether `encode` is this crate's, which never changes the bytes already in the sink. Other
    /// crates can't override this.
    #[doc(hidden)]
    #[inline]
    fn appends(&self) -> Appends {
        Appends(false)
    }
}

/// The result of [`Encode::appends`]. No other crate can name it, and so none can override that
/// method.
pub struct Appends(pub(crate) bool);

/// Implements `encode` by `try_encode`, and `appends`, for this crate's types.
macro_rules! encode_or_panic {
    () => {
        #[inline]
        fn encode(&self, sink: &mut alloc::vec::Vec<u8>) {
            $crate::error::or_panic(self.try_encode(sink));
        }

        #[inline]
        fn appends(&self) -> $crate::encode::Appends {
            $crate::encode::Appends(true)
        }
    };
}

pub(crate) use encode_or_panic;

/// A sink that is truncated on drop to what it had before if a user's `Encode` panicked.
struct Written<'a> {
    sink: &'a mut Vec<u8>,
    start: usize,
    is_written: bool,
}

impl Drop for Written<'_> {
    #[inline]
    fn drop(&mut self) {
        if !self.is_written {
            self.sink.truncate(self.start);
        }
    }
}

/// Passes a vector to the proved code, which appends to it or leaves it unchanged.
#[inline]
pub(crate) fn append<E>(
    sink: &mut Vec<u8>,
    write: impl FnOnce(&mut Vec<u8>) -> Result<(), E>,
) -> Result<(), E> {
    let start = sink.len();
    let mut written = Written { sink, start, is_written: false };
    write(written.sink)?;
    written.is_written = true;
    Ok(())
}

/// Appends the encoding of a value of the proved code, which never panics on its way.
#[inline]
pub(crate) fn append_proved<T: proved::Encode>(sink: &mut Vec<u8>, value: &T) -> Result<(), Error> {
    Ok(value.encode(sink)?)
}

/// Returns a vector of these bytes.
pub(crate) fn copied(bytes: [u8; 8]) -> Result<Vec<u8>, Error> {
    Vec::from_slice(Global, &bytes).map_err(|_| Error::NoMemory)
}

/// Adapts a value with [`Encode`] to the proved code. A user's implementation gets a sink of its
/// own, so that it can't reach other bytes.
#[derive(Clone, Copy)]
pub(crate) struct Foreign<'a, T: ?Sized> {
    pub value: &'a T,
    pub own: &'a Own,
}

/// What the values of a list have in common.
#[derive(Default)]
pub(crate) struct Own {
    /// The sink for users' implementations, reused from one value to the next.
    sink: Cell<Vec<u8>>,
    /// The error of a value, which the proved code knows as another.
    error: Cell<Option<Error>>,
}

impl Own {
    /// Appends values to the sink, or leaves it unchanged.
    pub(crate) fn append(
        &self,
        sink: &mut Vec<u8>,
        write: impl FnOnce(&mut Vec<u8>) -> Result<(), Fault>,
    ) -> Result<(), Error> {
        append(sink, write).map_err(|fault| self.error.take().unwrap_or(fault.into()))
    }

    /// Keeps the error of a value.
    #[cold]
    fn refused(&self, error: Error) -> Fault {
        self.error.set(Some(error));
        Fault::Unfinished
    }
}

impl<T: Encode + ?Sized> proved::Encode for Foreign<'_, T> {
    #[inline]
    fn encode(&self, sink: &mut Vec<u8>) -> Result<(), Fault> {
        let refused = |error| self.own.refused(error);
        if self.value.appends().0 {
            return self.value.try_encode(sink).map_err(refused);
        }
        let mut own = self.own.sink.take();
        own.clear();
        self.value.try_encode(&mut own).map_err(refused)?;
        sink.extend_from_slice_using(&own)?;
        self.own.sink.set(own);
        Ok(())
    }
}

/// Returns the number of bytes of the LEB128 encoding of a number, from 1 to 5.
///
/// ```
/// assert_eq!(wenc::encoding_size(127), 1);
/// assert_eq!(wenc::encoding_size(u32::MAX), 5);
/// ```
pub fn encoding_size(n: u32) -> usize {
    proved::encoding_size(n)
}

impl<T: Encode + ?Sized> Encode for &T {
    #[inline]
    fn encode(&self, sink: &mut Vec<u8>) {
        T::encode(self, sink);
    }

    #[inline]
    fn try_encode(&self, sink: &mut Vec<u8>) -> Result<(), Error> {
        T::try_encode(self, sink)
    }

    #[inline]
    fn appends(&self) -> Appends {
        T::appends(self)
    }
}

/// Encodes a list: the number of values, then each value.
impl<T: Encode> Encode for [T] {
    fn try_encode(&self, sink: &mut Vec<u8>) -> Result<(), Error> {
        let own = Own::default();
        let values = self.iter().map(|value| Foreign { value, own: &own });
        own.append(sink, |sink| proved::encode_list(values, sink))
    }

    encode_or_panic! {}
}

impl<T: Encode> Encode for Option<T> {
    fn try_encode(&self, sink: &mut Vec<u8>) -> Result<(), Error> {
        let own = Own::default();
        let value = self.as_ref().map(|value| Foreign { value, own: &own });
        own.append(sink, |sink| proved::Encode::encode(&value, sink))
    }

    encode_or_panic! {}
}

/// Encodes a list of bytes.
impl Encode for [u8] {
    #[inline]
    fn try_encode(&self, sink: &mut Vec<u8>) -> Result<(), Error> {
        append_proved(sink, &self)
    }

    encode_or_panic! {}
}

impl Encode for str {
    #[inline]
    fn try_encode(&self, sink: &mut Vec<u8>) -> Result<(), Error> {
        append_proved(sink, &self)
    }

    encode_or_panic! {}
}

impl Encode for usize {
    #[inline]
    fn try_encode(&self, sink: &mut Vec<u8>) -> Result<(), Error> {
        u32::try_from(*self).map_err(|_| Error::TooMany)?.try_encode(sink)
    }

    encode_or_panic! {}
}

/// Implements [`Encode`] by the proved encoding of the expression after the arrow.
macro_rules! encode {
    ($($type:ty, $value:ident => $proved:expr;)*) => {
        $(impl $crate::Encode for $type {
            #[inline]
            fn try_encode(&self, sink: &mut alloc::vec::Vec<u8>) -> Result<(), $crate::Error> {
                let $value = self;
                $crate::encode::append_proved(sink, &$proved)
            }

            $crate::encode::encode_or_panic! {}
        })*
    };
}

pub(crate) use encode;

encode! {
    bool, value => *value;
    u32, value => *value;
    i32, value => i64::from(*value);
    u64, value => *value;
    i64, value => *value;
}

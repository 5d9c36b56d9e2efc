//! Core types of values, functions, arrays and structs, and their encoder.

mod composites;
mod encoder;
mod values;

pub use composites::{
    ArrayType, CompositeInnerType, CompositeType, ContType, FieldType, FuncType, StorageType,
    StructType, SubType,
};
pub use encoder::CoreTypeEncoder;
pub use values::{AbstractHeapType, HeapType, RefType, ValType};

use crate::Error;
use crate::adapters::{List, is_array};
use crate::proved::wasm_encoder as proved;
use crate::proved::wenc_base::{ByteTypes, Fault};
use crate::shim::alloc::Global;
use crate::shim::vec::{Vec, VecUsing};

/// The maximum capacity to reserve by an iterator's size hint, which may be wrong.
const CLAIMED: usize = 64;

/// Converts the values for the proved code. Fails with the first error.
pub(super) fn converted<T, U>(
    values: impl IntoIterator<Item = T>,
    convert: impl Fn(T) -> Result<U, Error>,
) -> Result<Vec<U>, Error> {
    let values = values.into_iter();
    let claimed = values.size_hint().0.min(CLAIMED);
    let mut converted = Vec::with_capacity_using(Global, claimed).map_err(Fault::from)?;
    for value in values {
        converted.push_using(convert(value)?).map_err(Fault::from)?;
    }
    Ok(converted)
}

/// How many values are converted without an allocation.
const FEW: usize = 8;

/// A value that fills the places of [`Converted`] without one.
pub(super) trait Filler: Copy {
    const FILLER: Self;
}

impl Filler for proved::ValType {
    const FILLER: Self = Self::I32;
}

impl Filler for proved::FieldType {
    const FILLER: Self = Self { element_type: proved::StorageType::I8, mutable: false };
}

/// Converted values, which are allocated only if they are more than [`FEW`]. Their iterator may
/// claim another number.
pub(super) struct Converted<T> {
    few: [T; FEW],
    few_len: usize,
    /// All values, or none if they are in `few`.
    all: Vec<T>,
}

impl<T: Filler> Converted<T> {
    /// Creates it without values.
    #[inline]
    pub(super) fn new() -> Self {
        Self { few: [T::FILLER; FEW], few_len: 0, all: Vec::new() }
    }

    /// Converts the values and returns them. Fails with the first error.
    #[inline(always)]
    pub(super) fn extend<L: IntoIterator>(&mut self, values: L) -> Result<&[T], Error>
    where
        L::Item: TryInto<T, Error = Error>,
    {
        each_converted(values, |value| self.push(value))?;
        Ok(self.as_slice())
    }

    pub(super) fn as_slice(&self) -> &[T] {
        if self.all.is_empty() { &self.few[..self.few_len] } else { &self.all }
    }

    #[inline(always)]
    fn push(&mut self, value: T) -> Result<(), Fault> {
        match self.few.get_mut(self.few_len) {
            Some(place) => {
                *place = value;
                // 32 bits: it is less than `FEW`.
                self.few_len += 1;
            }
            None => self.push_to_all(value)?,
        }
        Ok(())
    }

    #[cold]
    fn push_to_all(&mut self, value: T) -> Result<(), Fault> {
        if self.all.is_empty() {
            for value in self.few {
                self.all.push_using(value)?;
            }
        }
        Ok(self.all.push_using(value)?)
    }
}

/// Calls `each` with each converted value. Fails with the first error. Compiled for arrays by their
/// type, and once for other lists, as [`with_list`](crate::adapters::with_list) does.
// In line, the compiler unrolls it for arrays.
#[inline(always)]
fn each_converted<L: IntoIterator, T>(
    values: L,
    each: impl FnMut(T) -> Result<(), Fault>,
) -> Result<(), Error>
where
    L::Item: TryInto<T, Error = Error>,
{
    let mut values = values.into_iter();
    if const { is_array::<L>() } {
        each_in_line(values, each)
    } else {
        each_listed(List(&mut values), each)
    }
}

fn each_listed<U: TryInto<T, Error = Error>, T>(
    values: List<'_, U>,
    each: impl FnMut(T) -> Result<(), Fault>,
) -> Result<(), Error> {
    each_in_line(values, each)
}

#[inline(always)]
fn each_in_line<U: TryInto<T, Error = Error>, T>(
    values: impl Iterator<Item = U>,
    mut each: impl FnMut(T) -> Result<(), Fault>,
) -> Result<(), Error> {
    for value in values {
        each(value.try_into()?)?;
    }
    Ok(())
}

/// Value types, as a list of their bytes as long as each has one and they are few, else converted.
pub(super) struct Values {
    bytes: ByteTypes,
    /// All types, if they aren't in `bytes`.
    types: Option<Converted<proved::ValType>>,
}

impl Values {
    /// Creates it without types.
    #[inline]
    pub(super) fn new() -> Self {
        Self { bytes: ByteTypes::new(), types: None }
    }

    /// Appends the types. Fails with the first error.
    #[inline(always)]
    pub(super) fn extend<L: IntoIterator<Item = ValType>>(
        &mut self,
        types: L,
    ) -> Result<(), Error> {
        each_converted(types, |ty| match self.types {
            None if self.bytes.push_using(ty) => Ok(()),
            _ => self.push_converted(ty),
        })
    }

    #[cold]
    fn push_converted(&mut self, ty: proved::ValType) -> Result<(), Fault> {
        self.converted()?.push(ty)
    }

    /// Returns their bytes, if each has one and they are few.
    pub(super) fn bytes(&self) -> Option<&ByteTypes> {
        self.types.is_none().then_some(&self.bytes)
    }

    /// Returns the converted types.
    #[cold]
    pub(super) fn converted(&mut self) -> Result<&mut Converted<proved::ValType>, Fault> {
        match &mut self.types {
            Some(types) => Ok(types),
            none => {
                let mut types = Converted::new();
                for ty in (0..).map_while(|index| self.bytes.get(index)) {
                    types.push(ty)?;
                }
                Ok(none.insert(types))
            }
        }
    }
}

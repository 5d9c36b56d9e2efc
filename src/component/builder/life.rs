//! Creating and finishing a builder, its debug names, and discarding an unfinished item.

use crate::Error;
use crate::component::ComponentBuilder;
use crate::error::or_panic;
use crate::proved::wasm_encoder as proved;
use crate::shim::alloc::Global;
use crate::twins::twins;
use alloc::vec::Vec;

impl ComponentBuilder {
    /// Creates a builder without items. [`Default`] does the same, but panics on an error.
    ///
    /// # Errors
    ///
    /// [`NoMemory`](Error::NoMemory).
    #[inline]
    pub fn try_new() -> Result<Self, Error> {
        Ok(Self(proved::ComponentBuilder::new(Global)?))
    }

    twins! {
        /// Completes the component and returns its bytes.
        ///
        /// Fails only with [`Unfinished`](Error::Unfinished); the component is then lost.
        ///
        /// ```
        /// let builder = wenc::ComponentBuilder::default();
        /// assert_eq!(builder.finish(), b"\0asm\x0d\0\x01\0");
        /// ```
        fn finish | try_finish(self) -> Vec<u8> {
            Ok(self.0.finish()?)
        }

        /// Adds a section of the debug names so far, if there are any. The debug name of an import,
        /// an export or an [`alias_export`](Self::alias_export) is its name, that of a builtin is
        /// the builtin's name, and that of another item is the name passed with it.
        ///
        /// It is a custom section with the name `component-name` ([binary format, "Name
        /// Section"][names]). A second call adds all names again; [`finish`](Self::finish) adds
        /// none.
        ///
        /// [names]: https://github.com/WebAssembly/component-model/blob/main/design/mvp/Binary.md#name-section
        fn append_names | try_append_names(&mut self) -> ();
    }

    /// Returns `false` while a type or another item is unfinished.
    #[inline]
    pub fn is_finished(&self) -> bool {
        self.0.is_finished()
    }

    /// Discards the unfinished item and its index, and returns whether there was one. Doesn't
    /// allocate.
    ///
    /// An item is unfinished if its encoder was dropped before its last call, or that call failed,
    /// or if an iterator panicked.
    ///
    /// ```
    /// use wenc::{ComponentBuilder, Error};
    ///
    /// let mut builder = ComponentBuilder::default();
    /// let (_, encoder) = builder.type_defined(None);
    /// drop(encoder);
    /// assert_eq!(builder.try_task_cancel(), Err(Error::Unfinished));
    /// assert!(builder.discard_unfinished());
    /// assert_eq!(builder.try_task_cancel(), Ok(0));
    /// ```
    #[inline]
    pub fn discard_unfinished(&mut self) -> bool {
        self.0.discard_unfinished()
    }
}

impl Default for ComponentBuilder {
    /// Creates a builder without items.
    ///
    /// # Panics
    ///
    /// Panics if [`try_new`](Self::try_new) fails.
    #[inline]
    fn default() -> Self {
        or_panic(Self::try_new())
    }
}

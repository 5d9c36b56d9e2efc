//! Canonical functions.

use super::{Maker, Scope};
use wenc::CanonicalOption::*;
use wenc::*;

impl Maker<'_> {
    /// Options that go with any text.
    fn options(&mut self, scope: &Scope) -> Option<[CanonicalOption; 3]> {
        let encoding = [UTF8, UTF16, CompactUTF16][self.random.below(3)];
        let memory = self.random.of(&scope.memories)?;
        Some([encoding, Memory(memory), Realloc(self.random.of(&scope.reallocs)?)])
    }

    /// A function lifted from a core function that takes a text and returns one.
    pub(super) fn lifted(&mut self, b: &mut ComponentBuilder, scope: &mut Scope) {
        let Some(text) = self.random.of(&scope.texts) else { return };
        let Some(function) = self.random.of(&scope.function_types) else { return };
        let Some(options) = self.options(scope) else { return };
        if function.is_text && !function.is_async {
            let index = b.lift_func(None, text, function.ty, options);
            scope.functions.push((index, function));
        }
    }

    pub(super) fn canonical(&mut self, b: &mut ComponentBuilder, scope: &mut Scope) {
        if let Some(index) = self.provided(b, scope) {
            scope.core_functions.push(index);
        }
    }

    /// A core function that is lowered, or that the component model provides; none where there is
    /// nothing for it.
    fn provided(&mut self, b: &mut ComponentBuilder, scope: &Scope) -> Option<u32> {
        let options = self.options(scope);
        let memory = self.random.of(&scope.memories);
        let stream = self.random.of(&scope.streams);
        let future = self.random.of(&scope.futures);
        let own = self.random.of(&scope.own_resources);
        let flag = self.random.is();
        Some(match self.random.below(22) {
            0 => b.resource_drop(self.random.of(&scope.resources)?),
            1 => b.resource_new(own?),
            2 => b.resource_rep(own?),
            3 => b.stream_new(stream?),
            4 => b.stream_read(stream?, options?),
            5 => {
                let [encoding, memory, realloc] = options?;
                b.stream_write(stream?, [Async, encoding, memory, realloc])
            }
            6 => b.stream_cancel_read(stream?, flag),
            7 => b.stream_drop_writable(stream?),
            8 => b.future_new(future?),
            9 => b.future_read(future?, options?),
            10 => b.future_drop_readable(future?),
            11 => b.waitable_set_wait(memory?),
            12 => b.waitable_set_poll(memory?),
            13 => b.waitable_join(),
            14 => b.subtask_cancel(flag),
            15 => b.task_cancel(),
            16 => b.error_context_drop(),
            17 => b.thread_yield(),
            18 => b.context_set(ValType::I32, 0),
            19 => b.error_context_debug_message(options?),
            _ => {
                let (function, _) = self.random.of(&scope.functions)?;
                b.lower_func(None, function, options?)
            }
        })
    }
}

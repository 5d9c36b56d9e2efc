//! The table of builtins, from which the calls of the builder and of the section are made.

/// Passes the table to a macro. A row has the call's documentation, its two names, and the
/// parameters of the builder's call; the section's parameters follow `or` if they are named
/// differently. The calls of the second part also take options, those of the third the type and the
/// number of a slot.
macro_rules! builtins {
    ($calls:ident) => {
        $calls! {
            plain {
                /// `resource.new`: creates an `own` handle of a resource of this type.
                resource_new | try_resource_new (ty: u32) or (ty_index: u32);

                /// `resource.drop`: drops a handle of a resource of this type.
                resource_drop | try_resource_drop (ty: u32) or (ty_index: u32);

                /// `resource.rep`: returns the representation of a resource of this type.
                resource_rep | try_resource_rep (ty: u32) or (ty_index: u32);

                /// `task.cancel`: acknowledges that the task was cancelled.
                task_cancel | try_task_cancel ();

                /// `subtask.cancel`: cancels a subtask, blocking or not.
                subtask_cancel | try_subtask_cancel (async_: bool);

                /// `subtask.drop`: drops a subtask that is done.
                subtask_drop | try_subtask_drop ();

                /// `stream.new`: creates a stream of this type.
                stream_new | try_stream_new (ty: u32);

                /// `stream.forward`: forwards the rest of one stream of this type to another.
                stream_forward | try_stream_forward (ty: u32);

                /// `stream.cancel-read`: cancels a read from a stream of this type, blocking or
                /// not.
                stream_cancel_read | try_stream_cancel_read (ty: u32, async_: bool);

                /// `stream.cancel-write`: cancels a write to a stream of this type, blocking or
                /// not.
                stream_cancel_write | try_stream_cancel_write (ty: u32, async_: bool);

                /// `stream.drop-readable`: drops the readable end of a stream of this type.
                stream_drop_readable | try_stream_drop_readable (ty: u32);

                /// `stream.drop-writable`: drops the writable end of a stream of this type.
                stream_drop_writable | try_stream_drop_writable (ty: u32);

                /// `future.new`: creates a future of this type.
                future_new | try_future_new (ty: u32);

                /// `future.forward`: forwards the value of one future of this type to another.
                future_forward | try_future_forward (ty: u32);

                /// `future.cancel-read`: cancels a read from a future of this type, blocking or
                /// not.
                future_cancel_read | try_future_cancel_read (ty: u32, async_: bool);

                /// `future.cancel-write`: cancels a write to a future of this type, blocking or
                /// not.
                future_cancel_write | try_future_cancel_write (ty: u32, async_: bool);

                /// `future.drop-readable`: drops the readable end of a future of this type.
                future_drop_readable | try_future_drop_readable (ty: u32);

                /// `future.drop-writable`: drops the writable end of a future of this type.
                future_drop_writable | try_future_drop_writable (ty: u32);

                /// `error-context.drop`: drops an error context.
                error_context_drop | try_error_context_drop ();

                /// `waitable-set.new`: creates an empty waitable set.
                waitable_set_new | try_waitable_set_new ();

                /// `waitable-set.wait`: waits for an event of a waitable set, which is stored in
                /// this memory.
                waitable_set_wait | try_waitable_set_wait (memory: u32);

                /// `waitable-set.poll`: polls a waitable set for an event, which is stored in
                /// this memory.
                waitable_set_poll | try_waitable_set_poll (memory: u32);

                /// `waitable-set.drop`: drops a waitable set.
                waitable_set_drop | try_waitable_set_drop ();

                /// `waitable.join`: adds a waitable to a waitable set.
                waitable_join | try_waitable_join ();

                /// `backpressure.inc`: increments the backpressure counter.
                backpressure_inc | try_backpressure_inc ();

                /// `backpressure.dec`: decrements the backpressure counter.
                backpressure_dec | try_backpressure_dec ();

                /// `thread.index`: returns the current thread's index.
                thread_index | try_thread_index ();

                /// `thread.new-indirect`: creates a thread that calls a function of this core type
                /// in this table.
                thread_new_indirect | try_thread_new_indirect (func_ty_idx: u32, table_index: u32)
                    or (ty_index: u32, table_index: u32);

                /// `thread.resume-later`: resumes a thread later.
                thread_resume_later | try_thread_resume_later ();

                /// `thread.suspend`: suspends the current thread.
                thread_suspend | try_thread_suspend ();

                /// `thread.yield`: lets other threads run.
                thread_yield | try_thread_yield ();

                /// `thread.suspend-then-resume`: suspends the current thread and resumes
                /// another.
                thread_suspend_then_resume | try_thread_suspend_then_resume ();

                /// `thread.yield-then-resume`: resumes another thread first.
                thread_yield_then_resume | try_thread_yield_then_resume ();

                /// `thread.suspend-then-promote`: suspends the current thread and promotes
                /// another.
                thread_suspend_then_promote | try_thread_suspend_then_promote ();

                /// `thread.yield-then-promote`: promotes another thread first.
                thread_yield_then_promote | try_thread_yield_then_promote ();

                /// `thread.spawn-ref`: creates a thread that calls a function of this core type.
                thread_spawn_ref | try_thread_spawn_ref (ty: u32) or (ty_index: u32);

                /// `thread.spawn-indirect`: creates a thread that calls a function of this core
                /// type in this table.
                thread_spawn_indirect | try_thread_spawn_indirect (ty: u32, table: u32)
                    or (ty_index: u32, table_index: u32);

                /// `thread.available-parallelism`: returns the number of threads that can run
                /// at once.
                thread_available_parallelism | try_thread_available_parallelism ();
            }
            with_options {
                /// `task.return`: returns the result, of this type or none, to the caller.
                task_return | try_task_return (ty: Option<ComponentValType>);

                /// `stream.read`: reads from a stream of this type.
                stream_read | try_stream_read (ty: u32);

                /// `stream.write`: writes to a stream of this type.
                stream_write | try_stream_write (ty: u32);

                /// `future.read`: reads from a future of this type.
                future_read | try_future_read (ty: u32);

                /// `future.write`: writes to a future of this type.
                future_write | try_future_write (ty: u32);

                /// `error-context.new`: creates an error context from a message.
                error_context_new | try_error_context_new ();

                /// `error-context.debug-message`: returns the message of an error context.
                error_context_debug_message | try_error_context_debug_message ();
            }
            of_slot {
                /// `context.get`: returns slot `i`, of this type, of the thread's context.
                context_get | try_context_get;

                /// `context.set`: sets slot `i`, of this type, of the thread's context.
                context_set | try_context_set;
            }
        }
    };
}

pub(crate) use builtins;

//! Requests for memory that fail as a thread plans. Each growth of a collection is a request, which
//! fails before the system is called.

use crate::shim::alloc::Global;
use std::cell::Cell;

/// Which requests of this thread fail, and what was requested.
#[derive(Clone, Copy)]
struct Plan {
    nth: Option<u64>,
    always: bool,
    requests: u64,
    was_refused: bool,
}

const NONE: Plan = Plan { nth: None, always: false, requests: 0, was_refused: false };

std::thread_local! {
    static PLAN: Cell<Plan> = const { Cell::new(NONE) };
}

/// Counts a request, and returns whether it is to succeed.
pub fn allows() -> bool {
    let mut plan = PLAN.get();
    plan.requests += 1;
    let refused = plan.always || plan.nth == Some(plan.requests);
    plan.was_refused |= refused;
    PLAN.set(plan);
    !refused
}

/// Makes a call none of whose requests is counted or fails.
pub fn unplanned<T>(call: impl FnOnce() -> T) -> T {
    let plan = PLAN.replace(NONE);
    let result = call();
    PLAN.set(plan);
    result
}

/// The allocator, whose requests in this thread fail as planned. A test that plans ends with
/// `refuse_none`: without threads the next one runs in the same.
pub type Refusing = Global;

impl Global {
    pub fn new() -> Refusing {
        PLAN.set(NONE);
        Global
    }

    pub fn refuse_nth(self, n: u64) {
        PLAN.set(Plan { nth: Some(n), ..NONE });
    }

    pub fn refuse_all(self) {
        PLAN.set(Plan { always: true, ..NONE });
    }

    pub fn refuse_none(self) {
        PLAN.set(NONE);
    }

    pub fn requests(self) -> u64 {
        PLAN.get().requests
    }

    pub fn was_refused(self) -> bool {
        PLAN.get().was_refused
    }
}

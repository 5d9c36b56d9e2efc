//! Work on all processors.

use std::panic::{AssertUnwindSafe, catch_unwind, resume_unwind};
use std::sync::Mutex;
use std::sync::atomic::{AtomicUsize, Ordering};
use std::thread;

/// Runs that many jobs, side by side where there are threads, and returns their results in order.
/// If a job panics, no other begins, and this panics too.
pub fn side_by_side<T: Send>(number: usize, work: impl Fn(usize) -> T + Sync) -> Vec<T> {
    let processors = thread::available_parallelism().map_or(1, |processors| processors.get());
    if processors == 1 {
        return (0..number).map(work).collect();
    }
    let next = AtomicUsize::new(0);
    let done = Mutex::new(Vec::new());
    let take = || loop {
        let at = next.fetch_add(1, Ordering::Relaxed);
        if at >= number {
            break;
        }
        let answer = catch_unwind(AssertUnwindSafe(|| work(at)));
        if answer.is_err() {
            next.store(number, Ordering::Relaxed);
        }
        done.lock().expect("no thread panics with it").push((at, answer));
    };
    thread::scope(|scope| (0..processors).for_each(|_| _ = scope.spawn(take)));
    let mut done = done.into_inner().expect("no thread panics with it");
    done.sort_by_key(|(at, _)| *at);
    let answers = done.into_iter().map(|(_, answer)| answer);
    answers.map(|answer| answer.unwrap_or_else(|panic| resume_unwind(panic))).collect()
}

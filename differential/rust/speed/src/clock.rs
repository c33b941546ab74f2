//! Processor time, of which other work on the machine takes nothing.

use std::hint::black_box;

#[repr(C)]
struct Time {
    seconds: i64,
    /// Of a second: nano of a clock, micro of a usage.
    parts: i64,
}

#[repr(C)]
struct Usage {
    user: Time,
    system: Time,
    rest: [i64; 14],
}

const THREAD: i32 = 3;
const CHILDREN: i32 = -1;

unsafe extern "C" {
    fn clock_gettime(clock: i32, time: *mut Time) -> i32;
    fn getrusage(who: i32, usage: *mut Usage) -> i32;
}

/// Seconds of this thread.
pub fn thread() -> f64 {
    let mut t = Time { seconds: 0, parts: 0 };
    assert_eq!(unsafe { clock_gettime(THREAD, &mut t) }, 0);
    t.seconds as f64 + t.parts as f64 * 1e-9
}

/// Seconds of all processes that this one has started and waited for.
pub fn children() -> f64 {
    let zero = || Time { seconds: 0, parts: 0 };
    let mut u = Usage { user: zero(), system: zero(), rest: [0; 14] };
    assert_eq!(unsafe { getrusage(CHILDREN, &mut u) }, 0);
    let sum = |t: Time| t.seconds as f64 + t.parts as f64 * 1e-6;
    sum(u.user) + sum(u.system)
}

/// Runs with the stack so much deeper. How fast a copy between two blocks on the stack is depends on where they lie;
/// each turn has another place.
pub fn at_depth(depth: usize, run: &mut dyn FnMut()) {
    let pad = black_box([0u8; 208]);
    if depth == 0 {
        run();
    } else {
        at_depth(depth - 1, run);
    }
    black_box(&pad);
}

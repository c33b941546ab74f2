//! Takes the place of `fastrand`, of which the Rust uses only `u32(..)`: hands out the tag that was chosen, and counts
//! the draws.

use std::{cell::Cell, ops::RangeFull};

thread_local! {
    static TAG: Cell<u32> = const { Cell::new(0) };
    static DRAWS: Cell<u64> = const { Cell::new(0) };
}

pub fn u32(_: RangeFull) -> u32 {
    DRAWS.set(DRAWS.get() + 1);
    TAG.get()
}

pub fn choose(tag: u32) {
    TAG.set(tag);
}

pub fn draws() -> u64 {
    DRAWS.get()
}

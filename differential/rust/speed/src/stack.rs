//! How much stack the check and uploads take.

use std::hint::black_box;

use crate::proved::{ARCHIVES, Proved, row};

type Call = extern "C" fn(&Proved);

unsafe extern "C" {
    fn loops_stack(call: Call, with: &Proved) -> usize;
}

static IMAGE: [u8; 8192] = [7; 8192];
static mut OUT: [u8; 4096] = [0; 4096];

#[allow(static_mut_refs)]
fn out() -> &'static mut [u8] {
    unsafe { &mut OUT }
}

extern "C" fn nothing(_: &Proved) {}

extern "C" fn update<const LENGTH: usize>(proved: &Proved) {
    black_box(proved.update(0xFFFF, &IMAGE[..LENGTH]));
}

extern "C" fn update_by_table(proved: &Proved) {
    black_box(proved.update_by_table(0xFFFF, &IMAGE));
}

extern "C" fn whole<const LENGTH: usize, const ROOM: usize, const TOLD: u8>(proved: &Proved) {
    assert_eq!(proved.upload_whole(&IMAGE[..LENGTH], &mut out()[..ROOM]), TOLD);
}

extern "C" fn part(proved: &Proved) {
    assert_eq!(proved.upload_parts(4096, &IMAGE, out(), 1), 28);
}

const CALLS: [(&str, Call); 13] = [
    ("the check, eight bytes at a time as one number (`crc::update`)", update::<8192>),
    ("the check of 15 bytes (`crc::update`)", update::<15>),
    ("the check, byte by byte by a table (`crc::update_by_table`)", update_by_table),
    ("a whole upload of 8,192 bytes: full blocks, then the check alone", whole::<8192, 4096, 0>),
    ("a whole upload of 4,095 bytes: a transfer with the pad, then the check", whole::<4095, 4096, 0>),
    ("a whole upload of 4,094 bytes: a transfer with the check, then the last zero", whole::<4094, 4096, 0>),
    ("a whole upload of 4,093 bytes: a transfer with the check", whole::<4093, 4096, 0>),
    ("a whole upload of 100 bytes: a transfer with the check", whole::<100, 4096, 0>),
    ("a whole upload of 16 bytes: a transfer with the check", whole::<16, 4096, 0>),
    ("a whole upload of 15 bytes: a transfer with the check", whole::<15, 4096, 0>),
    ("a whole upload of 0 bytes: the check alone", whole::<0, 4096, 0>),
    ("a whole upload into an output of 4,095 bytes: refused (20)", whole::<8192, 4095, 20>),
    ("a part of 4,096 bytes (`MaskRomOperation::part`)", part),
];

/// Bytes beyond what calling nothing takes.
fn taken(call: Call, proved: &Proved) -> usize {
    call(proved);
    unsafe { loops_stack(call, proved) - loops_stack(nothing, proved) }
}

/// Rows of a table.
pub fn rows() -> String {
    let line = |(name, call)| row(name, ARCHIVES.iter().map(|proved| taken(call, proved).to_string()));
    CALLS.map(line).concat()
}

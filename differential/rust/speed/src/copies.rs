//! How often blocks of 4,096 bytes are copied or cleared. Blocks written are counted from every store of a run of this
//! program (`sweeps`), clears among them where the linker leads memset through here; the others are copies.

mod proved;
mod sweeps;

use std::{
    env,
    hint::black_box,
    io,
    process::{Command, ExitCode},
    sync::atomic::{AtomicU64, Ordering::Relaxed},
};

use proved::{ARCHIVES, Proved, row};
use sweeps::LARGE;

static CLEARS: AtomicU64 = AtomicU64::new(0);

unsafe extern "C" {
    fn __real_memset(to: *mut u8, byte: i32, n: usize) -> *mut u8;
}

#[unsafe(no_mangle)]
unsafe extern "C" fn __wrap_memset(to: *mut u8, byte: i32, n: usize) -> *mut u8 {
    if n >= LARGE {
        CLEARS.fetch_add(1, Relaxed);
    }
    unsafe { __real_memset(to, byte, n) }
}

static IMAGE: [u8; 4096 * 9] = [1; 4096 * 9];
static mut OUT: [u8; 4096] = [0; 4096];

#[allow(static_mut_refs)]
fn out() -> &'static mut [u8] {
    unsafe { &mut OUT }
}

static mut TWO: [u8; 8192] = [0; 8192];

#[allow(static_mut_refs)]
fn two() -> &'static mut [u8] {
    unsafe { &mut TWO }
}

fn nothing(_: &Proved) {}

fn whole<const LENGTH: usize>(proved: &Proved) {
    assert_eq!(proved.upload_whole(&IMAGE[..LENGTH], out()), 0);
}

fn parts<const SIZE: usize, const LENGTH: usize>(proved: &Proved) {
    assert_eq!(proved.upload_parts(SIZE, &IMAGE[..LENGTH], out(), u64::MAX), 0);
}

type Call = fn(&Proved);

/// Copies and clears of `known`.
const KNOWN: [u64; 2] = [4, 1];

/// One byte after another, by no memcpy.
fn copy(to: &mut [u8]) {
    for (to, from) in to.iter_mut().zip(&IMAGE) {
        *to = black_box(*from);
    }
}

/// Copies by memcpy and by a loop, a clear, and two blocks beside each other, the second of them begun before.
fn known(_: &Proved) {
    out().copy_from_slice(black_box(&IMAGE[..4096]));
    copy(out());
    out().fill(black_box(0));
    let (first, second) = black_box(two()).split_at_mut(4096);
    copy(first);
    copy(&mut second[512..1024]);
    copy(second);
}

const EIGHT: usize = 4096 * 8;
const NINE: usize = 4096 * 9;

/// What is counted is what the first call does beyond the second. The first row is no row of the table: its counts are
/// known.
const ROWS: [(&str, Call, Call); 7] = [
    ("what is known", known, nothing),
    ("`WholeUpload::step` with a full block", whole::<NINE>, whole::<EIGHT>),
    ("`WholeUpload::step` to the finish of 4,093 bytes: a transfer with the check", whole::<4093>, nothing),
    (
        "`WholeUpload::step` to the finish of 4,094 bytes: a transfer with the check, then the last zero",
        whole::<4094>,
        nothing,
    ),
    (
        "`WholeUpload::step` to the finish of 4,095 bytes: a transfer with the pad, then the check",
        whole::<4095>,
        nothing,
    ),
    ("`MaskRomOperation::part` that fills its block from empty", parts::<4096, NINE>, parts::<4096, EIGHT>),
    (
        "eight `MaskRomOperation::part` of 512 bytes, the last of which fills the block",
        parts::<512, NINE>,
        parts::<512, EIGHT>,
    ),
];

fn clears(call: Call, proved: &Proved) -> u64 {
    let before = CLEARS.load(Relaxed);
    call(proved);
    CLEARS.load(Relaxed) - before
}

/// Blocks that this program writes if it makes that call.
fn written(place: [usize; 3]) -> io::Result<u64> {
    let mut program = Command::new(env::current_exe()?);
    sweeps::blocks(program.arg("make").args(place.map(|n| n.to_string())))
}

/// Copies and clears of a row, of an archive.
fn counted(at: usize, archive: usize) -> io::Result<[u64; 2]> {
    let (name, more, less) = ROWS[at];
    let cleared = [more, less].map(|call| clears(call, &ARCHIVES[archive]));
    let blocks = [written([at, 0, archive])?, written([at, 1, archive])?];
    let copies = (blocks[0] + cleared[1]).checked_sub(blocks[1] + cleared[0]);
    copies.zip(cleared[0].checked_sub(cleared[1])).map(|(copies, cleared)| [copies, cleared]).ok_or_else(
        || {
            io::Error::other(format!(
                "{name}: blocks written {blocks:?}, of these cleared {cleared:?}, more and less"
            ))
        },
    )
}

/// Rows of a table.
fn rows(between: &str) -> io::Result<()> {
    let known = counted(0, 0)?;
    if known != KNOWN {
        return Err(io::Error::other(format!(
            "the counter is not right on this machine: copies and clears are {KNOWN:?}, and it counted {known:?}"
        )));
    }
    for (at, (name, ..)) in ROWS.iter().enumerate().skip(1) {
        let figures: io::Result<Vec<_>> = (0..ARCHIVES.len()).map(|archive| counted(at, archive)).collect();
        print!("{}", row(name, figures?.iter().map(|counts| counts.map(|n| n.to_string()).join(between))));
    }
    Ok(())
}

fn main() -> ExitCode {
    let args: Vec<String> = env::args().skip(1).collect();
    let place = |n: usize| args[n].parse::<usize>().expect("a place");
    if args[0] == "make" {
        let (_, more, less) = ROWS[place(1)];
        [more, less][place(2)](&ARCHIVES[place(3)]);
        return ExitCode::SUCCESS;
    }
    match rows(&args[1]) {
        Ok(()) => ExitCode::SUCCESS,
        Err(e) => {
            eprintln!("copies: {e}");
            ExitCode::FAILURE
        }
    }
}

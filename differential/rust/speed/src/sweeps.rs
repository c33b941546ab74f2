//! How often a program writes 4,096 bytes one after another: every store that valgrind's lackey sees, whether it is
//! memcpy's, memset's or a loop's. Not seen are a copy that begins at its end, one of two that go together store by
//! store, and one whose stores have more than `PLACES` others between them; no program here makes such.

use std::{
    collections::VecDeque,
    io::{self, BufRead, BufReader},
    process::{Command, Stdio},
};

/// A block of 4,096 bytes counts from so many on: a transfer with pad or check has fewer bytes of the image, and the
/// compiler may cut a block into one of 4,093 and the rest.
pub const LARGE: usize = 4_000;

/// Stores stand one after another if no more than this lies between them: memcpy may write its last 64 bytes from the
/// end.
const NEAR: usize = 64;

/// So many places are written to by turns: a loop may keep a counter on the stack.
const PLACES: usize = 16;

/// More lines than any program here makes.
const MOST_LINES: usize = 50_000_000;

struct Sweep {
    start: usize,
    end: usize,
}

impl Sweep {
    fn blocks(&self) -> u64 {
        ((self.end - self.start) / LARGE) as u64
    }
}

/// The place that was written to last is the first.
#[derive(Default)]
struct Sweeps {
    open: VecDeque<Sweep>,
    blocks: u64,
}

impl Sweeps {
    fn store(&mut self, at: usize, size: usize) {
        let near = self.open.iter().position(|sweep| at.abs_diff(sweep.end) <= NEAR);
        let mut sweep =
            near.and_then(|place| self.open.remove(place)).unwrap_or(Sweep { start: at, end: at });
        let before = sweep.blocks();
        sweep.end = sweep.end.max(at + size);
        self.blocks += sweep.blocks() - before;
        self.open.push_front(sweep);
        self.open.truncate(PLACES);
    }
}

/// A store in the trace: ` S address,size`, or M where the same instruction reads it.
fn stored(line: &str) -> Option<(usize, usize)> {
    let (at, size) = line.strip_prefix(" S ").or_else(|| line.strip_prefix(" M "))?.split_once(',')?;
    Some((usize::from_str_radix(at, 16).ok()?, size.trim().parse().ok()?))
}

/// What is neither an instruction, a load nor a store of the trace.
fn is_said(line: &str) -> bool {
    !["I  ", " L ", " S ", " M "].iter().any(|kind| line.starts_with(kind))
}

/// Blocks that a program writes from its start to its end.
pub fn blocks(program: &mut Command) -> io::Result<u64> {
    let mut traced = Command::new("valgrind")
        .args(["--tool=lackey", "--trace-mem=yes", "--sim-hints=fallback-llsc"])
        .arg(program.get_program())
        .args(program.get_args())
        .stderr(Stdio::piped())
        .spawn()?;
    let trace = BufReader::new(traced.stderr.take().expect("a trace"));
    let (mut sweeps, mut said) = (Sweeps::default(), String::new());
    for (n, line) in trace.lines().enumerate() {
        let line = line?;
        if n == MOST_LINES {
            traced.kill()?;
            return Err(io::Error::other(
                "valgrind's trace does not end; does it know --sim-hints=fallback-llsc?",
            ));
        }
        match stored(&line) {
            Some((at, size)) => sweeps.store(at, size),
            None if is_said(&line) => said += &format!("{line}\n"),
            None => {}
        }
    }
    if !traced.wait()?.success() {
        return Err(io::Error::other(format!("valgrind, or what it ran, failed:\n{said}")));
    }
    Ok(sweeps.blocks)
}

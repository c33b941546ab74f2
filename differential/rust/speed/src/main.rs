//! The proved functions beside the unchanged Rust, turn by turn in one process; see README.md.

#[cfg(earlier)]
mod beside;
mod cases;
mod clock;
mod deck;
mod original;
mod page;
mod proved;
mod stack;

use std::{
    env, io,
    path::Path,
    process::{Command, ExitCode, Stdio},
};

use cases::{Case, LARGE, SMALL};
use page::{Amount, Row};

/// How often each side has its turn; its best counts.
const TURNS: usize = 15;

/// How often a call is made to count its instructions.
const COUNTED: u64 = 200;

fn timed(side: &mut dyn FnMut(), times: usize, turn: usize) -> f64 {
    let start = clock::thread();
    clock::at_depth(turn, &mut || (0..times).for_each(|_| side()));
    (clock::thread() - start) / times as f64
}

fn measured(mut case: Case) -> Row {
    let (mut proved, mut original, mut plain) = (f64::INFINITY, f64::INFINITY, [f64::INFINITY; 2]);
    for turn in 0..TURNS {
        proved = proved.min(timed(case.proved.as_mut(), case.times, turn));
        original = original.min(timed(case.original.as_mut(), case.times, turn));
        for (best, side) in plain.iter_mut().zip(case.plain.iter_mut().flatten()) {
            *best = best.min(timed(side.as_mut(), case.times, turn));
        }
    }
    Row {
        group: case.group,
        amount: case.bytes.map_or(Amount::Calls, Amount::Bytes),
        proved,
        original,
        plain: case.plain.map(|_| plain),
        instructions: case.counted.then(|| counted(case.group, &case.name)).flatten(),
        name: case.name,
    }
}

/// Instructions of so many calls of a side and of everything before them.
fn collected(group: &str, name: &str, side: &str, times: u64) -> Option<u64> {
    let out = Command::new("valgrind")
        .args(["--tool=callgrind", "--callgrind-out-file=/dev/null"])
        .arg(env::current_exe().ok()?)
        .args(["calls", group, name, side, &times.to_string()])
        .output()
        .ok()?;
    let said = String::from_utf8_lossy(&out.stderr);
    said.lines().find_map(|l| l.split_once("Collected :")).and_then(|(_, n)| n.trim().parse().ok())
}

/// Instructions of one call, proved and original: twice as many calls less as many.
fn counted(group: &str, name: &str) -> Option<(u64, u64)> {
    let one = |side| {
        let (few, many) =
            (collected(group, name, side, COUNTED)?, collected(group, name, side, 2 * COUNTED)?);
        Some((many - few) / COUNTED)
    };
    Some((one("proved")?, one("original")?))
}

fn calls(group: &str, name: &str, side: &str, times: usize) {
    let case = cases::all(SMALL).into_iter().find(|c| c.group == group && c.name == name).expect("a case");
    let mut side = if side == "proved" { case.proved } else { case.original };
    for _ in 0..times {
        side();
    }
}

/// Rows of a table, by the program that counts copies. `between` stands between copies and clears.
fn copies(between: &str) -> io::Result<String> {
    let out = Command::new(env::current_exe()?.with_file_name("copies"))
        .args(["rows", between])
        .stderr(Stdio::inherit())
        .output()?;
    if !out.status.success() {
        return Err(io::Error::other(format!("copies: {}", out.status)));
    }
    String::from_utf8(out.stdout).map_err(io::Error::other)
}

fn measure(docs: &str) -> io::Result<()> {
    let mut rows = Vec::new();
    for case in cases::all(LARGE) {
        rows.push(measured(case));
        println!("{}", rows[rows.len() - 1].line());
    }
    rows.push(deck::measured(TURNS)?);
    println!("{}", rows[rows.len() - 1].line());
    page::write(Path::new(docs), &rows, &copies(" | ")?, &stack::rows())
}

fn done(result: io::Result<()>) -> ExitCode {
    match result {
        Ok(()) => ExitCode::SUCCESS,
        Err(e) => {
            eprintln!("speed: {e}");
            ExitCode::FAILURE
        }
    }
}

fn main() -> ExitCode {
    let args: Vec<String> = env::args().skip(1).collect();
    let args: Vec<&str> = args.iter().map(String::as_str).collect();
    match args[..] {
        ["measure", docs] => done(measure(docs)),
        #[cfg(earlier)]
        ["beside", earlier, now] => done(beside::print(earlier, now)),
        ["calls", group, name, side, times] => {
            calls(group, name, side, times.parse().expect("a number"));
            ExitCode::SUCCESS
        }
        _ => {
            eprintln!(
                "usage: speed measure DOCS, or speed beside EARLIER NOW where an earlier revision is linked"
            );
            ExitCode::from(2)
        }
    }
}

//! Asks the unchanged Rust; see README.md and LANGUAGE.md.

mod asking;
mod blocks;
mod bounds;
mod cases;
mod compare;
mod decks;
mod files;
mod forgets;
mod loader;
mod nor;
mod operations;
mod oracle;
mod refusals;
mod scale;
mod selftest;
mod smallest;
mod stand;
mod text;
mod unchecked;
mod values;

use std::{
    fs,
    io::{self, BufRead, BufWriter, Write},
    process::ExitCode,
};

use cases::{Kind, SAMPLE_SEED};
use forgets::{forgets, shows};
use oracle::{Oracle, outside};
use scale::Programs;

/// The Rust's answers, or what a program must show for them. Whether every line was of the language and the Rust panicked
/// at none.
fn answer(is_shown: bool) -> io::Result<bool> {
    let mut oracle = Oracle::default();
    let mut out = BufWriter::new(io::stdout().lock());
    for line in io::stdin().lock().lines() {
        let line = line?;
        let rust = oracle.answer(&line);
        writeln!(out, "{}", if is_shown { shows(&line, &rust) } else { rust.as_str().into() })?;
    }
    out.flush()?;
    Ok(oracle.complaints().is_empty())
}

/// A program's answers to the cases of a file, with the distinction forgotten. Whether there was one for each line.
fn forgotten(file: &str) -> io::Result<bool> {
    let cases = fs::read_to_string(file)?;
    let ours = io::read_to_string(io::stdin())?;
    let mut out = BufWriter::new(io::stdout().lock());
    for (line, ours) in cases.lines().zip(ours.lines()) {
        writeln!(out, "{}", forgets(line, ours))?;
    }
    out.flush()?;
    Ok(cases.lines().count() == ours.lines().count())
}

fn generate(seed: u64, count: usize, kinds: &[Kind]) -> io::Result<bool> {
    eprintln!("seed {seed}");
    let mut out = BufWriter::new(io::stdout().lock());
    let mut lines = 0;
    for (_, case) in cases::generate(kinds, seed, count) {
        lines += case.len();
        for line in case {
            writeln!(out, "{line}")?;
        }
    }
    out.flush()?;
    eprintln!("seed {seed}, {lines} lines");
    Ok(true)
}

/// Lines that the Rust answers with `outside` are left out: by LANGUAGE.md that changes no other answer. Whether the Rust
/// panicked at none.
fn sample(kinds: &[Kind]) -> io::Result<bool> {
    let mut oracle = Oracle::default();
    let mut out = BufWriter::new(io::stdout().lock());
    for kind in kinds {
        for (_, case) in cases::generate(&[*kind], SAMPLE_SEED, kind.sample_lines()) {
            for line in case {
                if outside(&oracle.answer(&line)).is_none() {
                    writeln!(out, "{line}")?;
                }
            }
        }
    }
    out.flush()?;
    Ok(oracle.complaints().is_empty())
}

fn dispatch(args: &[&str]) -> Option<io::Result<bool>> {
    Some(match args {
        ["answer"] => answer(false),
        ["shown"] => answer(true),
        ["forgotten", file] => forgotten(file),
        ["generate", seed, count, kind] => {
            generate(seed.parse().ok()?, count.parse().ok()?, &Kind::named(kind)?)
        }
        ["sample", kind] => sample(&Kind::named(kind)?),
        ["compare", program, kind, seed, count] => {
            compare::compare(program, &Kind::named(kind)?, seed.parse().ok()?, count.parse().ok()?)
        }
        ["scale", seed, share, programs @ ..] => scale::scale(
            &Programs::read(programs)?,
            seed.parse().ok()?,
            share.parse().ok().filter(|share| *share > 0)?,
        ),
        ["selftest", page] => selftest::selftest(page),
        _ => return None,
    })
}

fn main() -> ExitCode {
    std::panic::set_hook(Box::new(oracle::tell_panic));
    let args: Vec<String> = std::env::args().skip(1).collect();
    let args: Vec<&str> = args.iter().map(String::as_str).collect();
    match dispatch(&args) {
        Some(Ok(true)) => ExitCode::SUCCESS,
        Some(Ok(false)) => ExitCode::FAILURE,
        Some(Err(e)) if e.kind() == io::ErrorKind::BrokenPipe => ExitCode::SUCCESS,
        Some(Err(e)) => {
            eprintln!("oracle: {e}");
            ExitCode::FAILURE
        }
        None => {
            eprintln!("oracle: not a command, kind or number: {}", args.join(" "));
            ExitCode::from(2)
        }
    }
}

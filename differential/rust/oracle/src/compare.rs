//! The same cases to the Rust and to another program, as a stream: what is held at a time does not grow with their
//! number.

use std::{
    collections::BTreeMap,
    io::{self, BufRead, BufReader, BufWriter, Write},
    process::ChildStdin,
    sync::{
        Arc,
        mpsc::{Receiver, SyncSender, sync_channel},
    },
    thread,
    time::Instant,
};

use crate::{
    asking::{Difference, next_answer, start},
    bounds::bound,
    cases::{Kind, generate, make::Case},
    forgets::{is_same, is_short, shows},
    oracle::{Oracle, outside},
    smallest::{LONGEST, smallest},
    text::Reason,
};

/// Lines handed on at once, and how often before they are answered: more lines than a program's output buffer can hold
/// answers of.
const BATCH: usize = 4096;
const WAITING: usize = 16;

/// Differences of a kind that are made small and printed; the others are counted.
pub const SHOWN: usize = 3;

/// Refusals that are counted, since cases have to meet them: those of a full store, a finish with FAILED, those that only a
/// NOR head has, and those of a loader file.
pub const COUNTED: [&str; 10] = ["58", "59", "15", "62", "63", "70", "71", "72", "73", "74"];

pub type Cases = Box<dyn Iterator<Item = Case> + Send>;

#[derive(Default)]
pub struct Count {
    pub cases: usize,
    pub calls: usize,
    /// Calls that the Rust does not have in the rules' domain, by why.
    pub outside: BTreeMap<Reason, usize>,
    pub differences: usize,
    /// Lines that were not of the language, panics that were not expected, and uploads without a check that were apart.
    pub complaints: usize,
    /// Images whose upload without a check was held to the one with it.
    pub images: usize,
    /// Calls that the Rust's side answered with each of `COUNTED`.
    pub met: [usize; COUNTED.len()],
    /// Calls whose sector operation moved fewer bytes than asked, by the Rust's side.
    pub short: usize,
    /// The first cases that differed, up to the line that did.
    pub found: Vec<Case>,
}

impl Count {
    pub fn add(&mut self, other: Count) {
        self.cases += other.cases;
        self.calls += other.calls;
        for (reason, n) in other.outside {
            *self.outside.entry(reason).or_default() += n;
        }
        self.differences += other.differences;
        self.complaints += other.complaints;
        self.images += other.images;
        for (n, more) in self.met.iter_mut().zip(other.met) {
            *n += more;
        }
        self.short += other.short;
        self.found.extend(other.found);
    }

    pub fn is_good(&self) -> bool {
        self.differences == 0 && self.complaints == 0
    }
}

/// Hands cases to the program and to the comparer, until either has ended. All that was handed over before is with the
/// program while this waits for the comparer.
fn feed(cases: Cases, stdin: ChildStdin, to: SyncSender<Arc<Vec<Case>>>) {
    let mut stdin = BufWriter::new(stdin);
    let mut cases = cases.peekable();
    while cases.peek().is_some() {
        let mut lines = 0;
        let mut batch = Vec::new();
        while lines < BATCH {
            let Some(case) = cases.next() else { break };
            lines += case.len();
            batch.push(case);
        }
        let batch = Arc::new(batch);
        if stdin.flush().is_err() || to.send(batch.clone()).is_err() {
            return;
        }
        for line in batch.iter().flatten() {
            if writeln!(stdin, "{line}").is_err() {
                return;
            }
        }
    }
}

/// Every answer of one program to these cases is compared with the Rust's.
pub fn compare_cases(program: &str, cases: Cases) -> io::Result<Count> {
    let mut child = start(program)?;
    let stdin = child.stdin.take().expect("piped");
    let mut answers = BufReader::with_capacity(1 << 17, child.stdout.take().expect("piped"));
    let (to, from) = sync_channel(WAITING);
    let feeder = thread::spawn(move || feed(cases, stdin, to));
    let mut count = compare_batches(from, &mut answers)?;
    feeder.join().expect("the feeder does not panic");
    drop(answers);
    let status = child.wait()?;
    if !status.success() {
        println!("the program ended with {status}");
        count.differences += 1;
    }
    Ok(count)
}

fn compare_batches(from: Receiver<Arc<Vec<Case>>>, answers: &mut impl BufRead) -> io::Result<Count> {
    let mut count = Count::default();
    let mut oracle = Oracle::default();
    let mut ours = String::new();
    for batch in from.iter() {
        for case in batch.iter() {
            if !compare_case(&mut oracle, answers, case, &mut ours, &mut count)? {
                return Ok(asked_of(&oracle, count));
            }
        }
    }
    if next_answer(answers, &mut ours)? {
        println!("the program answered more lines than it was asked");
        count.differences += 1;
    }
    Ok(asked_of(&oracle, count))
}

/// The count with what this oracle has kept.
fn asked_of(oracle: &Oracle, count: Count) -> Count {
    Count { complaints: oracle.complaints().len(), images: oracle.images(), ..count }
}

/// The number of an answer; before that of a block stands the block's own.
fn number<'a>(line: &str, answer: &'a str) -> Option<&'a str> {
    answer.split(' ').nth(usize::from(line.starts_with("blk ")))
}

/// Whether the program still answers.
pub fn compare_case(
    oracle: &mut Oracle,
    answers: &mut impl BufRead,
    case: &Case,
    ours: &mut String,
    count: &mut Count,
) -> io::Result<bool> {
    let mut is_first = true;
    count.cases += 1;
    for (i, line) in case.iter().enumerate() {
        let rust = oracle.answer(line);
        let answered = next_answer(answers, ours)?;
        count.calls += 1;
        let reason = outside(&rust);
        if let Some(reason) = reason {
            *count.outside.entry(reason).or_default() += 1;
        }
        if let Some(n) = COUNTED.iter().position(|counted| number(line, &rust) == Some(counted)) {
            count.met[n] += 1;
        }
        count.short += usize::from(is_short(line, &rust));
        if !answered || (reason.is_none() && !is_same(line, &rust, ours)) {
            count.differences += 1;
            if is_first && count.found.len() < SHOWN {
                count.found.push(case[..=i].to_vec());
            }
            is_first = false;
        }
        if !answered {
            println!("the program stopped answering");
            return Ok(false);
        }
    }
    Ok(true)
}

/// Prints the smallest case of each difference that is shown, where it is not that of one before.
pub fn print_found(program: &str, count: &Count) -> io::Result<()> {
    let mut printed = Vec::new();
    let until = Instant::now() + LONGEST;
    let mut found: Vec<&Case> = count.found.iter().collect();
    found.sort_by_key(|case| (case.len(), *case));
    for case in found.into_iter().take(SHOWN) {
        let Some(difference) = smallest(program, case, until)? else {
            println!("difference, gone when asked again:");
            case.iter().for_each(|line| println!("  > {line}"));
            continue;
        };
        if printed.contains(&difference.case) {
            continue;
        }
        println!("difference:");
        difference.case.iter().for_each(|line| println!("  > {line}"));
        println!("  rust: {}", difference.rust);
        print_shown(&difference);
        println!("  ours: {}", difference.ours);
        printed.push(difference.case);
    }
    Ok(())
}

/// Where the Rust has not the distinction that a program must show, what it must show.
fn print_shown(difference: &Difference) {
    let Difference { case, rust, .. } = difference;
    let shown = case.last().map_or(rust.into(), |line| shows(line, rust));
    if shown != *rust {
        println!("  must show: {shown}");
    }
}

pub fn print_count(name: &str, count: &Count) {
    let Count { cases, calls, differences, complaints, .. } = count;
    let outside: usize = count.outside.values().sum();
    println!("{name}cases {cases}, calls {calls}, outside {outside}, differences {differences}");
    if *complaints > 0 {
        println!(
            "{name}{complaints} lines were not of the language, panics that were not expected, or uploads without a check \
             that were apart"
        );
    }
}

/// How many uploads without a check were held to the ones with it.
pub fn print_images(name: &str, images: usize) {
    println!("{name}without a check too {images} images");
}

/// Whether no reason is above its bound.
pub fn is_kept(kind: Kind, count: &Count) -> bool {
    count.outside.iter().all(|(reason, n)| *n <= bound(kind, *reason, count.calls))
}

/// The calls of a kind that were not compared, by reason, and whether each reason kept its bound.
pub fn print_outside(kind: Kind, count: &Count) -> bool {
    for (reason, n) in &count.outside {
        let most = bound(kind, *reason, count.calls);
        let above = if *n > most { ", which is ABOVE it" } else { "" };
        println!("{}: outside {} {n}, bound {most}{above}", kind.name(), reason.word());
    }
    is_kept(kind, count)
}

/// Whether there was no difference, and no reason for `outside` above its bound.
pub fn compare(program: &str, kinds: &[Kind], seed: u64, count: usize) -> io::Result<bool> {
    let mut all = Count::default();
    let mut all_kept = true;
    for kind in kinds {
        let cases = generate(&[*kind], seed, count.div_ceil(kinds.len())).map(|(_, case)| case);
        let counted = compare_cases(program, Box::new(cases))?;
        print_found(program, &counted)?;
        print_count(&format!("{}: ", kind.name()), &counted);
        all_kept &= print_outside(*kind, &counted);
        if counted.images > 0 {
            print_images(&format!("{}: ", kind.name()), counted.images);
        }
        all.add(counted);
    }
    print_images("", all.images);
    print_count("", &all);
    Ok(all_kept && all.is_good())
}

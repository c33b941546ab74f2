//! Shows that each part works, and prints the faults of the Rust that the rules refuse.

mod loader;
mod nor;
mod unchecked;

use std::{collections::BTreeMap, fs, io};

use rockusb::{
    device::Transport,
    operation::{OperationSteps, UsbStep, read_lba, write_lba},
    protocol::{CommandBlock, CommandStatus, Status},
};
use rockusb_mock::MockDevice;

use crate::{
    bounds::bound,
    cases::{ALL, Kind, SAMPLE_SEED, generate, make::Case},
    compare::{Count, is_kept},
    decks,
    forgets::{forgets, is_same, is_short, shows},
    oracle::{LINE_LIMIT, Oracle, PANIC, caught, outside},
    scale::{LEAST_SHORT, wrong_short},
    text::Reason,
};

/// A call of the Rust that may panic: none where it did.
fn asked<R>(call: impl FnOnce() -> R) -> Option<R> {
    caught(call).ok()
}

/// Whether everything held.
pub fn selftest(page: &str) -> io::Result<bool> {
    let parts = [
        ("examples of LANGUAGE.md", examples(&fs::read_to_string(page)?)),
        ("proved examples of the rules", documented()),
        ("one tag is drawn by each constructor", draws()),
        ("generated cases are of the language", generated()),
        ("samples hold no `outside` and answer as in their full cases", samples()),
        ("a block's check is that of its place alone", places()),
        ("kind 13 is 46, behind 40 and before 42 and 43", unchecked::withdrawn()),
        ("the Rust's upload without a check is its checked one with 00 00 for the check", unchecked::held()),
        ("an upload without a check that is apart is a difference", unchecked::planted()),
        ("58 and 59 leave the device and the upload as the rules say", refused_by_the_store()),
        ("cases reach 65,536 sectors, data of 65,535 and a budget of 10,000", reached()),
        ("a reason above its bound fails a run, and so does a panic", bounded()),
        ("a short transfer is shown, and forgetting that leaves the Rust's answer", distinguished()),
        ("a transfer that is told wrongly is a difference", told_wrongly()),
        ("a NOR head is as document 02 says", nor::documented()),
        (
            "the sample of `nor` has 62, 63, 15, FAILED and writes over cells that were not erased",
            nor::sampled(),
        ),
        ("a kind that has not met its refusals fails a run", nor::unmet()),
        ("the records of a loader file are as in the Rust", loader::records()),
        ("walks over a loader file are as document 02 says", loader::documented()),
        ("the sample of `loader` has every number of every call", loader::sampled()),
        ("faults of the Rust", faults()),
    ];
    let mut held = true;
    for (name, bad) in parts {
        println!("{}: {name}", if bad.is_empty() { "ok" } else { "FAILED" });
        bad.iter().for_each(|line| println!("  {line}"));
        held &= bad.is_empty();
    }
    Ok(held)
}

fn check(bad: &mut Vec<String>, oracle: &mut Oracle, line: &str, wanted: &str) {
    hold(bad, line, &oracle.answer(line), wanted);
}

fn hold(bad: &mut Vec<String>, line: &str, got: &str, wanted: &str) {
    if got != wanted {
        bad.push(format!("{line}: wanted {wanted}, got {got}"));
    }
}

fn examples(page: &str) -> Vec<String> {
    let mut bad = Vec::new();
    let mut oracle = Oracle::default();
    let mut lines = page.lines();
    let mut count = 0;
    while let Some(line) = lines.next() {
        if let Some(call) = line.strip_prefix("> ") {
            count += 1;
            let rust = oracle.answer(call);
            hold(&mut bad, call, &shows(call, &rust), lines.next().unwrap_or_default());
        }
    }
    if count < 40 {
        bad.push(format!("only {count} examples"));
    }
    bad
}

/// P1, P3, P9 to P14; P2 by an image of `123456789`. P4 to P8 are uploads without a check.
fn documented() -> Vec<String> {
    let mut bad = Vec::new();
    let mut oracle = Oracle::default();
    for (line, wanted) in [
        (
            "cwr 31 0 rdl 16909060 64 2",
            "0 31 | 31:55534243010203040004000080000a14000000004000000200000000000000",
        ),
        ("all 1 x313233343536373839", "0 1 64 12 0 1 11:31323334353637383929b1"),
        ("all 1 x", "0 1 64 12 0 1 2:ffff"),
        ("sto x02000000", "0 1 1"),
        ("sto x00000080", "0 0 31"),
        ("sto x03000000", "14"),
        ("sto x00000000", "14"),
        ("dvd 65536", "0 | 65536#38d75dbe | 0 | 0"),
        ("opn fin 1", "0"),
        ("run 4", "0 11:8000000040000000000000 | 4 | 0: | 65536#38d75dbe | 0 | 0"),
        ("opn era 1 128 0", "0"),
        ("run 3", "0 | 3 | 0: | 65536#38d75dbe | 0 | 0"),
        ("opn era 1 128 1", "0"),
        ("run 3", "57 | 1 | 0: | 65536#38d75dbe | 0 | 0"),
    ] {
        check(&mut bad, &mut oracle, line, wanted);
    }
    bad.extend(documented_deck());
    bad
}

/// The three blocks that the rules give in whole.
fn documented_deck() -> Vec<String> {
    let mut oracle = Oracle::default();
    let lines = &Kind::Decks.exhaustive()[1];
    let dealt: Vec<String> = lines.iter().map(|line| oracle.answer(line)).collect();
    let wanted = ["1 0 0900000000000000", "2 0 512", "3 57 -"];
    let got: Vec<&String> = dealt.iter().skip(1).step_by(2).collect();
    if got == wanted { Vec::new() } else { vec![format!("the rules' deck: {got:?}")] }
}

/// Which blocks of the cases out of place, the last eight that need no seed, are 40 (`x`).
fn places() -> Vec<String> {
    let mut bad = same_checks();
    let wanted = ["xx---", "--xx", "---xxx", "xxxxx", "xxxxx", "xxxxx", "xxxxx", "xxxxx"];
    let cases = Kind::Decks.exhaustive();
    for (case, wanted) in cases[cases.len() - wanted.len()..].iter().zip(wanted) {
        let mut oracle = Oracle::default();
        let dealt = case.iter().map(|line| oracle.answer(line)).skip(1).step_by(2);
        let got: String = dealt.map(|line| if line.ends_with(" 40 -") { 'x' } else { '-' }).collect();
        hold(&mut bad, "blocks out of place", &got, wanted);
    }
    bad
}

/// Up to 65,535 every tag gives a block another check, and 39,360 alone the one over the bytes alone. Above there are tags
/// with the same check.
fn same_checks() -> Vec<String> {
    let block = [0x5a; decks::BLOCK];
    let of = |tag: u32| u16::from_be_bytes(decks::block_check(tag, &block));
    let tags: BTreeMap<u16, u32> = (1..=65_535).map(|tag| (of(tag), tag)).collect();
    let without = tags.get(&decks::check([&[], &block[..decks::CHECKED]]));
    if tags.len() == 65_535 && without == Some(&39_360) && of(1) == of(69_664) {
        return Vec::new();
    }
    vec![format!("{} checks, without a tag that of {without:?}", tags.len())]
}

fn draws() -> Vec<String> {
    let mut bad = Vec::new();
    let mut oracle = Oracle::default();
    for op in super::cases::operations::every_operation() {
        let before = fastrand::draws();
        oracle.answer(&op.start);
        if fastrand::draws() != before + 1 {
            bad.push(op.start);
        }
    }
    bad
}

fn cases_of(kind: Kind) -> Vec<Case> {
    generate(&[kind], SAMPLE_SEED, kind.sample_lines()).map(|(_, case)| case).collect()
}

fn generated() -> Vec<String> {
    let mut bad = Vec::new();
    for kind in ALL {
        let mut oracle = Oracle::default();
        for line in cases_of(kind).concat() {
            if line.len() >= LINE_LIMIT {
                bad.push(format!("too long: {line}"));
            }
            oracle.answer(&line);
        }
        bad.extend(oracle.complaints().iter().cloned());
    }
    bad
}

fn samples() -> Vec<String> {
    let mut bad = Vec::new();
    for kind in ALL {
        let (mut full, mut kept) = (Oracle::default(), Oracle::default());
        for line in cases_of(kind).concat() {
            let answer = full.answer(&line);
            if outside(&answer).is_none() {
                check(&mut bad, &mut kept, &line, &answer);
            }
        }
    }
    bad
}

fn refused_by_the_store() -> Vec<String> {
    let mut bad = Vec::new();
    let mut oracle = Oracle::default();
    for (line, wanted) in [
        ("dvc 32768 1 f 16 0 f 5 0 f 8 0 f 5 0 x", "0 | 0: | 0 | 0"),
        ("upl 5 r 4096 0", "0"),
        ("urn 9", "59 | 2 | 0: | 1 5 4096#c2db809d | 0"),
        ("ust 4096 0", "0 3 | 4096#8af9dada"),
        ("ctl 64 12 0 5 x", "0 | 0: | 1 5 4096#c2db809d | 0"),
        ("ctl 64 12 0 5 x00", "59 | 0: | 1 5 4096#c2db809d | 0"),
        ("dvc 7 1 f 16 0 f 5 0 f 8 0 f 5 0 x", "0 | 0: | 0 | 0"),
        ("ctl 64 12 0 1 x", "0 | 0: | 1 1 0: | 0"),
        ("ctl 64 12 0 1 x00", "59 | 0: | 1 1 0: | 0"),
        ("ctl 64 12 0 2 x", "0 | 0: | 2 1 0: 2 0: | 0"),
        ("ctl 64 12 0 3 x", "0 | 0: | 3 1 0: 2 0: 3 0: | 0"),
        ("ctl 64 12 0 4 x", "0 | 0: | 4 1 0: 2 0: 3 0: 4 0: | 0"),
        ("ctl 64 12 0 5 x", "0 | 0: | 5 1 0: 2 0: 3 0: 4 0: 5 0: | 0"),
        ("ctl 64 12 0 6 x", "0 | 0: | 6 1 0: 2 0: 3 0: 4 0: 5 0: 6 0: | 0"),
        ("ctl 64 12 0 7 x", "0 | 0: | 7 1 0: 2 0: 3 0: 4 0: 5 0: 6 0: 7 0: | 0"),
        ("ctl 64 12 0 8 x", "0 | 0: | 8 1 0: 2 0: 3 0: 4 0: 5 0: 6 0: 7 0: 8 0: | 0"),
        ("ctl 64 12 0 9 x00", "58 | 0: | 8 1 0: 2 0: 3 0: 4 0: 5 0: 6 0: 7 0: 8 0: | 0"),
        ("ctl 64 13 0 9 x00", "51 64 13 0 | 0: | 8 1 0: 2 0: 3 0: 4 0: 5 0: 6 0: 7 0: 8 0: | 0"),
    ] {
        check(&mut bad, &mut oracle, line, wanted);
    }
    bad
}

/// The largest sizes of the rules, in the cases that need no seed and in the answers to them.
fn reached() -> Vec<String> {
    let mut oracle = Oracle::default();
    let lines = Kind::Sizes.exhaustive().concat();
    let asked: Vec<(&str, String)> = lines.iter().map(|line| (line.as_str(), oracle.answer(line))).collect();
    let has = |call: &str, answer: &str| {
        asked.iter().any(|(line, got)| line.starts_with(call) && got.starts_with(answer))
    };
    let wanted = [
        ("dvc", "0 | 33554432#"),
        ("bwr s 33553920", "0 |"),
        ("brd 33553920", "0 |"),
        ("run 10000", "0 33553920 | 4 |"),
        ("run 4", "0 33553920 | 4 |"),
        ("urn 10000", "28 | 10000 |"),
    ];
    let missing = wanted.into_iter().filter(|(call, answer)| !has(call, answer));
    missing.map(|(call, answer)| format!("no {call} with the answer {answer}")).collect()
}

fn bounded() -> Vec<String> {
    let mut bad = Vec::new();
    let most = bound(Kind::Operations, Reason::NotAsked, 10_000);
    for (kind, reason, n, wanted) in [
        (Kind::Operations, Reason::NotAsked, most, true),
        (Kind::Operations, Reason::NotAsked, most + 1, false),
        (Kind::Device, Reason::NotAsked, 1, false),
        (Kind::Decks, Reason::Unreadable, 1, false),
    ] {
        let count = Count { calls: 10_000, outside: [(reason, n)].into(), ..Count::default() };
        if is_kept(kind, &count) != wanted {
            bad.push(format!("{}: {} {n}", kind.name(), reason.word()));
        }
    }
    if outside(PANIC).is_some() {
        bad.push("a panic is not compared".into());
    }
    bad
}

/// A call, the Rust's answer to it and what a program must show.
const SHOWN: [(&str, &str, &str); 4] = [
    ("stp 0 0", "0 3 7680 | 0: | 8192#00000001", "0 3 7680 8192 | 0: | 8192#00000001"),
    ("stp 2 7", "0 3 0 | 2:0707 | 512#00000001", "0 3 0 512 | 2:0707 | 512#00000001"),
    ("run 4", "0 511 | 4 | 512#00000001 | 0: | 0 | 0", "0 511 512 | 4 | 512#00000001 | 0: | 0 | 0"),
    ("run 1", "0 3 | 1 | 512#00000001 | 0: | 0 | 0", "0 3 512 | 1 | 512#00000001 | 0: | 0 | 0"),
];

/// Calls and answers that have nothing of the distinction.
const WITHOUT: [(&str, &str); 14] = [
    ("stp 0 0", "0 3 8192 | 0: | 8192#00000001"),
    ("stp 0 0", "0 3 0 | 0: | 0:"),
    ("stp 0 0", "0 3 1 3 | 0: | 0:"),
    ("stp 0 0", "0 3 5:4d4f434b21 | 0: | 0:"),
    ("stp 0 0", "0 3 | 0: | 0:"),
    ("stp 0 0", "0 2 13 | 0: | 512#00000001"),
    ("stp 0 0", "14 | 0: | 512#00000001"),
    ("run 4", "0 512 | 4 | 512#00000001 | 0: | 0 | 0"),
    ("run 4", "0 1 3 | 4 | 0: | 0: | 0 | 0"),
    ("run 4", "28 | 4 | 512#00000001 | 0: | 0 | 0"),
    ("giv x", "0 | 512#00000001"),
    ("brd 512 0", "0 | 512#00000001 | 0: | 0 | 0"),
    ("ust 4096 0", "0 3 | 4096#8af9dada"),
    ("idx 3", "0 1 3"),
];

/// `USBS`.
const SIGNATURE: &str = "x55534253";

/// What the answers to the sample of `operations` must have, of a read and of a write, by a whole status.
const BY_STATUS: [&str; 25] = [
    "0 3 0 | 0: | 0:",
    "14 | 0: | 0:",
    "0 3 512 |",
    "0 3 511 512 |",
    "0 3 1 512 |",
    "0 3 0 512 |",
    "14 | 0: | 512#",
    "0 3 8192 |",
    "0 3 8191 8192 |",
    "0 3 7681 8192 |",
    "0 3 7680 8192 |",
    "0 3 1 8192 |",
    "0 3 0 8192 |",
    "14 | 0: | 8192#",
    "0 3 65535 65536 |",
    "0 3 0 65536 |",
    "14 | 0: | 65536#",
    "0 0 | 1 | 0:",
    "14 | 1 | 0:",
    "0 512 | 1 |",
    "0 511 512 | 1 |",
    "0 0 512 | 1 |",
    "14 | 1 | 512#",
    "0 65535 65536 | 1 |",
    "0 0 65536 | 1 |",
];

/// The same of one of them, by `USBS` alone.
const BY_SIGNATURE: [(&str, &str); 9] = [
    ("rdl", "12 128 | 0: | 512#"),
    ("rdl", "12 128 | 0: | 0:"),
    ("rdl", "12 128 | 1 | 512#"),
    ("rdl", "12 128 | 1 | 0:"),
    ("wrl", "0 3 0 1024 |"),
    ("wrl", "0 3 0 | 0: | 0:"),
    ("wrl", "0 0 512 | 1 |"),
    ("wrl", "0 0 65536 | 1 |"),
    ("wrl", "0 0 | 1 | 0:"),
];

fn distinguished() -> Vec<String> {
    let mut bad = Vec::new();
    for (line, rust, shown) in SHOWN.into_iter().chain(WITHOUT.map(|(line, same)| (line, same, same))) {
        hold(&mut bad, line, &shows(line, rust), shown);
        hold(&mut bad, line, &forgets(line, shown), rust);
        if is_short(line, rust) != (rust != shown) || !is_same(line, rust, shown) {
            bad.push(format!("{line}: {rust} and {shown}"));
        }
    }
    ALL.into_iter().for_each(|kind| bad.extend(distinguished_in(kind)));
    bad.extend(missing());
    bad
}

/// On every line of a sample. Short transfers are in `operations` alone.
fn distinguished_in(kind: Kind) -> Vec<String> {
    let mut bad = Vec::new();
    let mut oracle = Oracle::default();
    let mut short = 0;
    for line in cases_of(kind).concat() {
        let rust = oracle.answer(&line);
        hold(&mut bad, &line, &forgets(&line, &shows(&line, &rust)), &rust);
        hold(&mut bad, &line, &forgets(&line, &rust), &rust);
        short += usize::from(is_short(&line, &rust));
    }
    if (short > 0) != (kind == Kind::Operations) {
        bad.push(format!("{}: short {short}", kind.name()));
    }
    bad
}

/// Of the answers that the sample of `operations` must have, those that it has not.
fn missing() -> Vec<String> {
    let both = ["rdl", "wrl"].into_iter().flat_map(|name| BY_STATUS.map(|answer| (name, false, answer)));
    let mut wanted: Vec<_> = both.chain(BY_SIGNATURE.map(|(name, answer)| (name, true, answer))).collect();
    let mut oracle = Oracle::default();
    let (mut operation, mut is_signature) = (String::new(), false);
    for line in cases_of(Kind::Operations).concat() {
        let rust = oracle.answer(&line);
        match line.split(' ').collect::<Vec<_>>()[..] {
            ["opn", name, ..] => operation = name.into(),
            ["giv", data, ..] => is_signature = data == SIGNATURE,
            _ => wanted.retain(|(name, alone, answer)| {
                *name != operation || *alone != is_signature || !shows(&line, &rust).starts_with(answer)
            }),
        }
    }
    let told = |alone| if alone { "USBS alone" } else { "a whole status" };
    wanted.iter().map(|(name, alone, answer)| format!("no {answer} of {name} by {}", told(*alone))).collect()
}

/// What a transfer was by the Rust, and answers that are not that.
fn told_wrongly() -> Vec<String> {
    let mut bad = Vec::new();
    for (line, rust, ours) in [
        ("stp 0 0", "0 3 7680 | 0: | 8192#00000001", "0 3 7680 | 0: | 8192#00000001"),
        ("stp 0 0", "0 3 7680 | 0: | 8192#00000001", "0 3 8192 7680 | 0: | 8192#00000001"),
        ("stp 0 0", "0 3 7680 | 0: | 8192#00000001", "0 3 7680 512 | 0: | 8192#00000001"),
        ("stp 0 0", "0 3 7680 | 0: | 8192#00000001", "0 3 15 16 | 0: | 8192#00000001"),
        ("stp 0 0", "0 3 7680 | 0: | 8192#00000001", "0 3 7680 8192 8192 | 0: | 8192#00000001"),
        ("stp 0 0", "0 3 8192 | 0: | 8192#00000001", "0 3 8192 8192 | 0: | 8192#00000001"),
        ("stp 0 0", "0 3 0 | 0: | 0:", "0 3 0 0 | 0: | 0:"),
        ("stp 0 0", "14 | 0: | 512#00000001", "0 3 0 512 | 0: | 512#00000001"),
        ("run 4", "0 512 | 4 | 512#00000001 | 0: | 0 | 0", "0 511 512 | 4 | 512#00000001 | 0: | 0 | 0"),
        ("run 4", "0 511 | 4 | 512#00000001 | 0: | 0 | 0", "0 511 | 4 | 512#00000001 | 0: | 0 | 0"),
    ] {
        if is_same(line, rust, ours) {
            bad.push(format!("{line}: {rust} and {ours}"));
        }
    }
    bad.extend(short_blocks());
    bad
}

/// The rules' deck has a write of one sector: had it moved less, that would be short, and a run at scale would fail.
fn short_blocks() -> Vec<String> {
    let mut bad = Vec::new();
    let block = &Kind::Decks.exhaustive()[1][3];
    if !is_short(block, "2 0 511") || is_short(block, "2 0 512") || is_short(block, "2 57 -") {
        bad.push(format!("short or not: {block}"));
    }
    for (kind, short, is_wrong) in [
        (Kind::Operations, 0, true),
        (Kind::Operations, LEAST_SHORT - 1, true),
        (Kind::Operations, LEAST_SHORT, false),
        (Kind::Runs, 0, false),
        (Kind::Runs, 1, true),
        (Kind::Nor, 0, false),
        (Kind::Nor, 1, true),
        (Kind::Decks, 1, true),
        (Kind::Sizes, 1, true),
    ] {
        if wrong_short(kind, short).is_some() != is_wrong {
            bad.push(format!("{}: short {short}", kind.name()));
        }
    }
    bad
}

fn faults() -> Vec<String> {
    let mut bad = Vec::new();
    bad.extend(narrowed_counts());
    bad.extend(narrowed_write());
    bad.extend(odd_lengths());
    bad.extend(short_outputs());
    bad
}

fn narrowed_counts() -> Vec<String> {
    let mut bad = Vec::new();
    for (len, wanted) in [(33_553_920, 65_535), (33_554_432, 0), (33_554_944, 1)] {
        let mut data = vec![0; len];
        let written = sent_count(write_lba(0, &data));
        let read = sent_count(read_lba(0, &mut data));
        println!("  {len} bytes: write_lba sends count {}, transfer length {}", written.0, written.1);
        println!("  {len} bytes: read_lba sends count {}, transfer length {}", read.0, read.1);
        if written.0 != wanted || read.0 != wanted {
            bad.push(format!("{len}: count {wanted} was wanted"));
        }
    }
    bad
}

fn sent_count<T>(mut operation: impl OperationSteps<T>) -> (u16, u32) {
    let UsbStep::WriteBulk { data } = operation.step() else {
        unreachable!("the first step of an operation")
    };
    let block = CommandBlock::from_bytes(data).expect("the operation's own command");
    (block.cd_length(), block.transfer_length())
}

/// The narrowed count is not noticed on the way either: one sector of 65,537 is written, and that is a success.
fn narrowed_write() -> Vec<String> {
    let data = vec![0; 33_554_944];
    let mut mock = MockDevice::default();
    let moved = mock.device().transport_mut().handle_operation(write_lba(0, &data)).map(u32::from);
    let changed = mock.flash().iter().filter(|byte| **byte == 0).count();
    println!("  33554944 bytes written to the mock: {moved:?}, {changed} bytes of its 65536 changed");
    if matches!(moved, Ok(512)) && changed == 512 { Vec::new() } else { vec!["512 was wanted".into()] }
}

fn odd_lengths() -> Vec<String> {
    let mut bad = Vec::new();
    for len in [1, 511, 513] {
        let mut data = vec![0; len];
        let write = asked(|| write_lba(0, &data)).is_none();
        let read = asked(|| read_lba(0, &mut data)).is_none();
        println!("  {len} bytes: write_lba {}, read_lba {}", panics(write), panics(read));
        if !write || !read {
            bad.push(format!("{len}: a panic was wanted"));
        }
    }
    bad
}

fn short_outputs() -> Vec<String> {
    let mut bad = Vec::new();
    for (len, wanted) in [(23, None), (24, Some(31)), (30, Some(31))] {
        let mut out = vec![0; len];
        let count = asked(|| CommandBlock::chip_info().to_bytes(&mut out));
        println!("  CommandBlock::to_bytes into {len} bytes: {}", answers(count));
        if count != wanted {
            bad.push(format!("{len}: {wanted:?} was wanted"));
        }
    }
    let status = CommandStatus { tag: 0, residue: 0, status: Status::SUCCESS };
    let count = asked(|| status.to_bytes(&mut [0; 12]));
    println!("  CommandStatus::to_bytes into 12 bytes: {}", answers(count));
    if count.is_some() {
        bad.push("12: a panic was wanted".into());
    }
    bad
}

fn answers(count: Option<usize>) -> String {
    count.map_or("panics".into(), |n| format!("answers {n}"))
}

fn panics(it_did: bool) -> &'static str {
    if it_did { "panics" } else { "goes on" }
}

//! Of the self-test, what is about the NOR head.

use std::collections::BTreeMap;

use rockusb::protocol::{CommandBlock, CommandCode};

use super::{cases_of, check};
use crate::{
    cases::{Kind, make::Case},
    compare::Count,
    oracle::Oracle,
    scale::met,
    text::{Tokens, show},
};

/// Of a configuration all but the block size and the flash.
const REPLIES: &str = "f 16 1 f 5 2 f 8 3 f 5 4";

/// What the sample of `nor` has to have, and how often at least.
const WANTED: [&str; 7] = [
    "62",
    "63",
    "15",
    "a FAILED status",
    "a write that erased cells took",
    "a write that cells took which were not erased",
    "the same by a run",
];
const LEAST: usize = 5;

/// Two sectors, each of one byte.
fn cells(first: u8, second: u8) -> String {
    show(&[[first; 512], [second; 512]].concat())
}

fn start(block: u16, flash: &str) -> String {
    format!("dvn 64 {block} {REPLIES} {flash}")
}

pub fn documented() -> Vec<String> {
    [written_over(), erased(), by_raw_calls(), started()].concat()
}

/// Operations, the step counts and answers of their runs, and the two sectors then; blocks are of two sectors.
fn runs(flash: &str, wanted: &[(&str, &str, String)]) -> Vec<String> {
    let mut bad = Vec::new();
    let mut oracle = Oracle::default();
    oracle.answer(&start(2, flash));
    for (operation, came, flash) in wanted {
        oracle.answer(&format!("opn {operation}"));
        let data = operation.split(" f ").nth(1).map_or("0:".into(), |data| {
            show(&Tokens::new(&format!("f {data}")).data().expect("data that stands here"))
        });
        check(&mut bad, &mut oracle, "run 9", &format!("{came} | {data} | {flash} | 0 | 0"));
    }
    bad
}

fn written_over() -> Vec<String> {
    runs(
        "f 1024 255",
        &[
            ("wrl 1 0 f 512 170", "0 512 | 4", cells(0xaa, 0xff)),
            ("wrl 2 0 f 512 170", "0 512 | 4", cells(0xaa, 0xff)),
            ("wrl 3 0 f 512 240", "15 | 4", cells(0xa0, 0xff)),
            ("wrl 4 0 f 1024 161", "15 | 4", cells(0xa0, 0xa1)),
            ("wrl 5 0 f 1024 32", "0 1024 | 4", cells(0x20, 0x20)),
            ("rdl 6 1 f 512 32", "0 512 | 4", cells(0x20, 0x20)),
            ("wrl 7 1 f 1024 0", "57 | 2", cells(0x20, 0x20)),
            ("sto 8", "0 1 4 | 4", cells(0x20, 0x20)),
            ("swi 9 1 4", "0 | 3", cells(0x20, 0x20)),
            ("swi 10 1 5", "15 | 3", cells(0x20, 0x20)),
            ("swi 11 0 4", "0 | 3", cells(0x20, 0x20)),
            ("wrl 12 0 f 512 0", "0 512 | 4", cells(0, 0x20)),
        ],
    )
}

fn erased() -> Vec<String> {
    runs(
        "f 1024 0",
        &[
            ("era 1 0 1", "63 | 1", cells(0, 0)),
            ("erf 2 1 0", "63 | 1", cells(0, 0)),
            ("era 3 1 1", "63 | 1", cells(0, 0)),
            ("erf 4 1 2", "57 | 1", cells(0, 0)),
            ("era 5 2 1", "57 | 1", cells(0, 0)),
            ("era 6 2 0", "0 | 3", cells(0, 0)),
            ("erf 7 0 0", "0 | 3", cells(0, 0)),
            ("era 8 0 2", "0 | 3", cells(0xff, 0xff)),
            ("wrl 9 0 f 512 8", "0 512 | 4", cells(8, 0xff)),
            ("erf 10 0 2", "0 | 3", cells(0xff, 0xff)),
        ],
    )
}

/// Commands with tag 9: a write of sector 0, a storage request, and switches.
fn by_raw_calls() -> Vec<String> {
    let mut bad = Vec::new();
    let mut oracle = Oracle::default();
    let command = |fields: &str| format!("bwr x5553424300000009{fields}00000000000000");
    let write = command("0002000000000a15000000000000000100");
    let storage = command("0400000080000a2b000000000000000000");
    let switch = |opcode: &str| command(&format!("0000000000000a2a{opcode}0000000000000000"));
    let status = |byte: &str| format!("0 | 13:555342530000000900000000{byte}");
    let (old, new) = (cells(0xa5, 0xa5), cells(0x05, 0xa5));
    for (line, wanted, flash) in [
        (start(2, "f 1024 165"), "0".into(), &old),
        (write.clone(), "0".into(), &old),
        ("bwr f 512 15".into(), "0".into(), &new),
        ("brd 13 7".into(), status("01"), &new),
        (storage.clone(), "0".into(), &new),
        ("brd 4 7".into(), "0 | 4:10000000".into(), &new),
        ("brd 13 7".into(), status("00"), &new),
        (storage, "0".into(), &new),
        ("brd 3 7".into(), "50 4 3 | 3:070707".into(), &new),
        ("brd 13 7".into(), format!("54 | {}", show(&[7; 13])), &new),
        (switch("04"), "0".into(), &new),
        ("brd 13 7".into(), status("00"), &new),
        (switch("05"), "0".into(), &new),
        ("brd 13 7".into(), status("01"), &new),
        (write.clone(), "0".into(), &new),
        ("bwr f 512 5".into(), "0".into(), &new),
        ("brd 13 7".into(), status("00"), &new),
        (write, "0".into(), &new),
        ("bwr f 512 7".into(), "0".into(), &new),
        (switch("04"), "55".into(), &new),
        (switch("04"), "0".into(), &new),
        ("brd 13 7".into(), status("00"), &new),
    ] {
        check(&mut bad, &mut oracle, &line, &format!("{wanted} | {flash} | 0 | 0"));
    }
    bad
}

/// 60, 61 and 62 in this order, what a block size of 0 leaves, and that the mock takes a NOR head's place.
fn started() -> Vec<String> {
    let mut bad = Vec::new();
    let mut oracle = Oracle::default();
    let (zeros, ones) = (cells(0, 0), show(&[0xff; 65_536]));
    for (line, wanted) in [
        (start(0, "f 511 0"), "60 511".into()),
        ("lst".into(), "outside not-there".into()),
        (start(0, "f 33554944 0"), "outside flash-too-large".into()),
        ("lst".into(), "outside not-there".into()),
        (start(0, "f 1024 0").replace("f 5 2", "f 6 2"), "outside array-size".into()),
        (start(0, "f 1024 0"), format!("62 | {zeros} | 0 | 0")),
        ("opn fin 1".into(), "0".into()),
        ("run 4".into(), format!("0 11:0200000000000404040404 | 4 | 0: | {zeros} | 0 | 0")),
        ("opn era 1 0 0".into(), "0".into()),
        ("run 4".into(), format!("0 | 3 | 0: | {zeros} | 0 | 0")),
        ("opn era 1 0 2".into(), "0".into()),
        ("run 4".into(), format!("63 | 1 | 0: | {zeros} | 0 | 0")),
        ("opn era 1 2 0".into(), "0".into()),
        ("run 4".into(), format!("63 | 1 | 0: | {zeros} | 0 | 0")),
        ("opn era 1 2 1".into(), "0".into()),
        ("run 4".into(), format!("57 | 1 | 0: | {zeros} | 0 | 0")),
        ("dvd 64".into(), format!("0 | {ones} | 0 | 0")),
        ("opn sto 1".into(), "0".into()),
        ("run 4".into(), format!("54 | 2 | 0: | {ones} | 0 | 0")),
        ("opn swi 1 1 4".into(), "0".into()),
        ("run 4".into(), format!("53 42 | 1 | 0: | {ones} | 0 | 0")),
    ] {
        check(&mut bad, &mut oracle, &line, &wanted);
    }
    bad
}

/// A line, the flash before it and its answer.
struct Asked {
    line: String,
    flash: Vec<u8>,
    answer: String,
}

fn asked(oracle: &mut Oracle, case: Case) -> Vec<Asked> {
    let mut ask = |line: String| {
        let flash = oracle.flash().unwrap_or_default().to_vec();
        Asked { answer: oracle.answer(&line), line, flash }
    };
    case.into_iter().map(&mut ask).collect()
}

/// Whether one of these sectors' cells is not erased.
fn is_used(flash: &[u8], first: usize, bytes: usize) -> bool {
    flash.iter().skip(first * 512).take(bytes).any(|cell| *cell != 0xff)
}

/// What a write came to whose command, data and status are these.
fn by_hand(calls: &[Asked]) -> Option<&'static str> {
    let [command, data, status] = calls else { return None };
    let block = Tokens::new(command.line.strip_prefix("bwr ")?).data().ok()?;
    let block = CommandBlock::from_bytes(&block).ok()?;
    let is_accepted = calls.iter().all(|call| call.answer.starts_with("0 |"));
    if block.cd_code() != CommandCode::WriteLBA || !data.line.starts_with("bwr ") || !is_accepted {
        return None;
    }
    let bytes = status.answer.strip_prefix("0 | 13:55534253")?.get(..18)?;
    let (first, len) = (block.cd_address() as usize, usize::from(block.cd_length()) * 512);
    match bytes.get(16..)? {
        "01" => Some("a FAILED status"),
        _ if is_used(&data.flash, first, len) => Some("a write that cells took which were not erased"),
        _ if len > 0 => Some("a write that erased cells took"),
        _ => None,
    }
}

/// Whether a run from an operation's start was a write over cells that were not erased, and they took it.
fn by_a_run(calls: &[Asked]) -> Option<&'static str> {
    let [start, run] = calls else { return None };
    let first = start.line.strip_prefix("opn wrl ")?.split(' ').nth(1)?.parse().ok()?;
    let (moved, _) = run.answer.strip_prefix("0 ")?.split_once(" | 4 | ")?;
    is_used(&run.flash, first, moved.parse().ok()?).then_some("the same by a run")
}

pub fn sampled() -> Vec<String> {
    let mut oracle = Oracle::default();
    let mut seen: BTreeMap<String, usize> = BTreeMap::new();
    for case in cases_of(Kind::Nor) {
        let calls = asked(&mut oracle, case);
        let numbers = calls.iter().filter_map(|call| call.answer.split(' ').next());
        let writes = calls.windows(3).filter_map(by_hand).chain(calls.windows(2).filter_map(by_a_run));
        for one in numbers.map(String::from).chain(writes.map(String::from)) {
            *seen.entry(one).or_default() += 1;
        }
    }
    let often = |wanted: &str| seen.get(wanted).copied().unwrap_or(0);
    let rare = WANTED.into_iter().filter(|wanted| often(wanted) < LEAST);
    rare.map(|wanted| format!("{wanted}: {}, and {LEAST} are wanted", often(wanted))).collect()
}

/// 58 and 59 of a full store; of a NOR head 15, 62 and 63 too; of a loader file 70 to 74.
pub fn unmet() -> Vec<String> {
    let mut bad = Vec::new();
    let count = Count { met: [1, 2, 3, 0, 5, 0, 7, 8, 9, 10], ..Count::default() };
    for (kind, wanted) in [
        (Kind::Blocks, &[][..]),
        (Kind::Runs, &[("58", 1), ("59", 2)]),
        (Kind::Nor, &[("58", 1), ("59", 2), ("15", 3), ("62", 0), ("63", 5)]),
        (Kind::Loader, &[("70", 0), ("71", 7), ("72", 8), ("73", 9), ("74", 10)]),
    ] {
        let got = met(kind, &count);
        if got != wanted {
            bad.push(format!("{}: {got:?}", kind.name()));
        }
    }
    bad
}

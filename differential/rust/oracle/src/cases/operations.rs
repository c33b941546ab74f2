//! Operations stepped by hand.

use super::{
    blocks::index_argument,
    device::configured,
    make::{Case, Rng, any_data, damage, status_bytes, x},
    replies::storage_words,
};

const TAG: u32 = 0x0102_0304;

/// Lengths of a sector operation's data, each with the residues of its rounds: whole, short by more and more, and above
/// the length. The longest, which is the most that a line may name, is for counts past 16 bits.
const TRANSFERS: [(usize, &[u32]); 3] = [
    (512, &[0, 1, 511, 512, 513]),
    (8192, &[0, 1, 511, 512, 8191, 8192, 8193]),
    (65_536, &[1, 65_536, 65_537]),
];

/// The same of operations that a run finishes, short ones first.
const RUN: [(usize, &[u32]); 3] = [(512, &[1, 512, 0, 513]), (65_536, &[1, 65_536]), (0, &[0, 1])];

/// An operation's start and what it will ask for.
#[derive(Clone)]
pub struct Op {
    pub start: String,
    pub tag: u32,
    /// Bytes it reads before the status.
    pub reads: usize,
    /// Bytes it sends before the status.
    pub writes: usize,
}

impl Op {
    fn steps_to_data(&self) -> bool {
        self.reads + self.writes > 0
    }
}

fn op(name: &str, args: &str, reads: usize, writes: usize) -> Op {
    let space = if args.is_empty() { "" } else { " " };
    Op { start: format!("opn {name} {TAG}{space}{args}"), tag: TAG, reads, writes }
}

pub fn every_operation() -> Vec<Op> {
    vec![
        op("chp", "", 16, 0),
        op("fid", "", 5, 0),
        op("fin", "", 11, 0),
        op("cap", "", 8, 0),
        op("sto", "", 4, 0),
        op("era", "5 6", 0, 0),
        op("erf", "4294967295 65535", 0, 0),
        op("rst", "3", 0, 0),
        op("swi", "1 4", 0, 0),
        op("rdl", "64 f 512 17", 512, 0),
        op("wrl", "64 r 1024 3", 0, 1024),
    ]
}

/// The same with no sectors, and with a number of the index that no name has.
fn other_operations() -> Vec<Op> {
    vec![op("rdl", "7 x", 0, 0), op("wrl", "7 x", 0, 0), op("swi", "0 3", 0, 0), op("swi", "0 255", 0, 0)]
}

/// One round from the command to the finish; nothing is given where `None` stands.
fn round(op: &Op, reply: Option<String>, status: Option<String>) -> Vec<String> {
    let mut lines = vec!["stp 31 0".to_string()];
    if op.steps_to_data() {
        lines.push("stp 0 0".into());
        if op.reads > 0 {
            lines.extend(reply.map(|data| format!("giv {data}")));
        }
    }
    lines.push("stp 3 170".into());
    lines.extend(status.map(|data| format!("giv {data}")));
    lines.push("stp 0 0".into());
    lines
}

fn case(op: &Op, rounds: &[Vec<String>]) -> Case {
    let mut lines = vec![op.start.clone()];
    lines.extend(rounds.concat());
    lines
}

fn reply(op: &Op) -> Option<String> {
    Some(if op.reads == 4 { "x00100000".into() } else { format!("r {} 1", op.reads) })
}

fn status(tag: u32, residue: u32, status: u8) -> Option<String> {
    Some(x(&status_bytes(tag, residue, status)))
}

/// A status of which `USBS` alone is given: the rest are the command's bytes.
fn signature() -> Option<String> {
    Some(x(b"USBS"))
}

pub fn exhaustive() -> Vec<Case> {
    let mut cases = Vec::new();
    for op in every_operation() {
        cases.extend(statuses(&op));
        cases.extend(replies(&op));
        cases.extend(rounds(&op));
        cases.extend(givings(&op));
    }
    for op in other_operations() {
        let given = [status(TAG, 0, 0), status(TAG, 1, 0), signature()];
        cases.push(case(&op, &given.map(|status| round(&op, None, status))));
    }
    cases.extend(transfers());
    cases.push(finished_by_a_run());
    cases.extend(storage_replies());
    cases.extend(refused_starts());
    cases
}

fn statuses(op: &Op) -> Vec<Case> {
    let mut given = Vec::new();
    let moved = (op.reads + op.writes) as u32;
    for residue in [0, 1, moved, moved + 1, u32::MAX] {
        given.push(status_bytes(TAG, residue, 0));
    }
    given.push(status_bytes(TAG, 0, 1));
    given.push(status_bytes(TAG + 1, 0, 1));
    given.push(status_bytes(TAG + 1, 0, 0));
    given.push(status_bytes(TAG.swap_bytes(), 0, 0));
    for bad in [2, 255] {
        given.push(status_bytes(TAG, 0, bad));
        given.push(status_bytes(TAG + 1, 0, bad));
    }
    for at in 0..4 {
        let mut bytes = status_bytes(TAG + 1, 0, 2);
        bytes[at] ^= 0x20;
        given.push(bytes);
    }
    given.push(b"USBC".to_vec());
    given.extend((0..=12).map(|len| status_bytes(TAG, 0, 0)[..len].to_vec()));
    let mut cases: Vec<Case> =
        given.iter().map(|bytes| case(op, &[round(op, reply(op), Some(x(bytes)))])).collect();
    cases.push(case(op, &[round(op, reply(op), None)]));
    cases
}

fn replies(op: &Op) -> Vec<Case> {
    if op.reads == 0 {
        return Vec::new();
    }
    let mut cases = vec![case(op, &[round(op, None, status(TAG, 0, 0))])];
    for len in [0, 1, 2, op.reads - 1, op.reads, op.reads + 1] {
        cases.push(case(op, &[round(op, Some(format!("s {len} 9")), status(TAG, 0, 0))]));
    }
    cases
}

fn rounds(op: &Op) -> Vec<Case> {
    let good = round(op, reply(op), status(TAG, 0, 0));
    let shorter = round(op, (op.reads > 0).then(|| "xf0e1".to_string()), status(TAG, 0, 0));
    let failed = round(op, reply(op), status(TAG, 0, 1));
    let garbled = round(op, None, Some("x00".into()));
    let silent = round(op, None, None);
    vec![
        case(op, &[good.clone(), shorter.clone(), good.clone()]),
        case(op, &[failed, silent.clone(), good.clone()]),
        case(op, &[garbled, good, silent, shorter]),
    ]
}

/// Givings that the Rust has no place for (`outside`), each followed by the right one where there is one.
fn givings(op: &Op) -> Vec<Case> {
    let good = x(&status_bytes(TAG, 0, 0));
    let mut early = vec![op.start.clone(), "giv x".into(), "stp 30 0".into(), "stp 0 0".into()];
    early.push("stp 64 85".into());
    early.push("giv x00".into());
    if op.steps_to_data() {
        early.push("stp 1 2".into());
        early.push(format!("giv f {} 5", op.reads + 1));
        early.push("giv x".into());
        early.push("giv x01".into());
    }
    early.push("stp 31 2".into());
    early.push(format!("giv {good}00"));
    early.push(format!("giv {good}"));
    early.push(format!("giv {good}"));
    early.push("stp 65 3".into());
    early.push(format!("giv {good}"));
    early.push("stp 65 3".into());
    vec![early]
}

/// A read and a write of so many bytes.
fn sector_operations(len: usize) -> [Op; 2] {
    let data = format!("64 f {len} 17");
    [op("rdl", &data, len, 0), op("wrl", &data, 0, len)]
}

/// A sector operation round after round. (No bytes at all are among `other_operations`, `USBS` alone is among
/// `statuses`.)
fn transfers() -> Vec<Case> {
    let mut cases = Vec::new();
    for (len, residues) in TRANSFERS {
        for op in sector_operations(len) {
            let rounds = residues.iter().map(|residue| round(&op, None, status(TAG, *residue, 0)));
            cases.push(case(&op, &rounds.collect::<Vec<_>>()));
        }
    }
    cases
}

/// A run takes the last step only: it finishes by a status that no device gave. The last round has `USBS` alone.
fn finished_by_a_run() -> Case {
    let mut lines = vec![configured(0, "x")];
    for (len, residues) in RUN {
        for op in sector_operations(len) {
            lines.push(op.start.clone());
            for given in residues.iter().map(|residue| status(TAG, *residue, 0)).chain([signature()]) {
                let steps = round(&op, None, given);
                lines.extend_from_slice(&steps[..steps.len() - 1]);
                lines.push("run 1".into());
            }
        }
    }
    lines
}

fn storage_replies() -> Vec<Case> {
    let storage = op("sto", "", 4, 0);
    let pick = |words: Vec<u32>| {
        let rounds: Vec<Vec<String>> = words
            .iter()
            .map(|word| round(&storage, Some(x(&word.to_le_bytes())), status(TAG, 0, 0)))
            .collect();
        case(&storage, &rounds)
    };
    vec![
        pick((0..32).step_by(5).map(|bit| 1 << bit).collect()),
        pick(storage_words().into_iter().step_by(90).collect()),
    ]
}

fn refused_starts() -> Vec<Case> {
    ["rdl 1 0 f 1 0", "wrl 1 0 f 511 0", "rdl 1 0 f 513 0", "wrl 1 0 x01"]
        .map(|start| vec![format!("opn {start}"), "stp 31 0".into(), "giv x".into()])
        .to_vec()
}

pub fn random_op(rng: &mut Rng, sectors: usize) -> Op {
    let tag = rng.word();
    let name = rng
        .pick(&["chp", "fid", "fin", "cap", "sto", "era", "erf", "rst", "swi", "rdl", "wrl", "rdl", "wrl"]);
    let first = if rng.one_in(6) { rng.word() } else { rng.below(sectors + 2) as u32 };
    let most = if rng.one_in(8) { 129 } else { 5 };
    let len = rng.below(most.min(sectors + 2)) * 512;
    let (args, reads, writes) = match name {
        "chp" => (String::new(), 16, 0),
        "fid" => (String::new(), 5, 0),
        "fin" => (String::new(), 11, 0),
        "cap" => (String::new(), 8, 0),
        "sto" => (String::new(), 4, 0),
        "era" | "erf" => {
            let count = if rng.one_in(6) { rng.half() } else { rng.below(sectors + 2) as u16 };
            (format!(" {first} {count}"), 0, 0)
        }
        "rst" => (format!(" {}", rng.below(5)), 0, 0),
        "swi" => (index_argument(rng), 0, 0),
        "rdl" => (format!(" {first} {}", any_data(rng, len)), len, 0),
        _ => (format!(" {first} {}", any_data(rng, len)), 0, len),
    };
    Op { start: format!("opn {name} {tag}{args}"), tag, reads, writes }
}

pub fn random(rng: &mut Rng) -> Case {
    let op = random_op(rng, 4);
    let mut lines = vec![op.start.clone()];
    for _ in 0..1 + rng.below(3) {
        random_round(rng, &op, &mut lines);
    }
    lines
}

fn random_round(rng: &mut Rng, op: &Op, lines: &mut Vec<String>) {
    let steps = if op.steps_to_data() { 4 } else { 3 };
    for step in 0..steps {
        let out = if step == 0 { 31 + rng.below(40) } else { rng.below(70) };
        lines.push(format!("stp {out} {}", rng.byte()));
        if step + 2 == steps {
            if !rng.one_in(8) {
                lines.push(format!("giv {}", random_status(rng, op)));
            }
        } else if step + 3 == steps && op.reads > 0 && !rng.one_in(6) {
            let len = if rng.one_in(3) { rng.below(op.reads + 2) } else { op.reads };
            lines.push(format!("giv {}", any_data(rng, len)));
        }
        if rng.one_in(12) {
            lines.push("giv x".into());
        }
    }
}

fn random_status(rng: &mut Rng, op: &Op) -> String {
    let moved = op.reads + op.writes;
    let residue = if rng.one_in(3) { rng.below(moved + 3) as u32 } else { 0 };
    let tag = if rng.one_in(6) { rng.word() } else { op.tag };
    let mut bytes = status_bytes(tag, residue, u8::from(rng.one_in(6)));
    if rng.one_in(3) {
        damage(rng, &mut bytes);
    }
    x(&bytes)
}

//! Operations and uploads run against the device with a budget.

use super::{
    device::{IN, OUT, READ_LBA, WRITE_LBA, configured, control, random_start, small, transaction, write},
    make::{Block, Case, Rng, any_data},
    operations::random_op,
};

const ON_SMALL: [&str; 22] = [
    "chp 1",
    "fid 2",
    "fin 3",
    "cap 4",
    "sto 5",
    "era 6 1 2",
    "erf 7 3 1",
    "era 8 4 0",
    "era 9 4 1",
    "erf 10 0 5",
    "rdl 11 1 f 1024 9",
    "rdl 12 3 f 1024 9",
    "rdl 13 4 x",
    "wrl 14 1 r 1024 1",
    "wrl 15 4 f 512 7",
    "wrl 16 0 x",
    "wrl 17 0 s 2048 3",
    "rst 18 0",
    "rst 19 4",
    "swi 20 1 4",
    "swi 21 0 255",
    "rdl 4294967295 0 f 2048 1",
];

pub fn exhaustive() -> Vec<Case> {
    let mut cases = vec![on_default()];
    cases.push(one_after_another());
    cases.extend(ON_SMALL.map(budgets));
    cases.extend(ON_SMALL.map(after_steps));
    cases.push(left_open());
    cases.push(command_sent_by_hand());
    cases.extend(uploads());
    cases
}

fn on_default() -> Case {
    let mut lines = vec!["dvd 65536".to_string()];
    for op in [
        "chp 1",
        "fid 2",
        "fin 3",
        "cap 4",
        "wrl 5 127 f 512 170",
        "wrl 6 128 f 512 170",
        "rdl 7 126 f 1024 0",
        "era 8 127 1",
        "erf 9 0 128",
        "era 10 0 129",
        "rdl 11 120 f 4096 3",
        "sto 12",
        "swi 13 1 1",
        "rst 14 2",
    ] {
        lines.extend([format!("opn {op}"), "run 4".into()]);
    }
    for (area, len) in [(1137, 0), (1138, 4094), (1137, 4096), (1138, 3)] {
        lines.extend([format!("upl {area} r {len} 0"), "urn 100".into()]);
    }
    lines
}

fn one_after_another() -> Case {
    let mut lines = vec![small()];
    for op in ON_SMALL {
        lines.extend([format!("opn {op}"), "run 5".into()]);
    }
    lines
}

/// Every budget up to what is needed, then on from where it stopped; twice round.
fn budgets(op: &str) -> Case {
    let mut lines = vec![small()];
    for budget in 0..=4 {
        lines.extend([format!("opn {op}"), format!("run {budget}"), "run 4".into()]);
    }
    lines.extend(["run 0", "run 1", "run 1", "run 1", "run 1"].map(String::from));
    lines
}

/// Steps taken by hand that the device never saw, and what comes of going on after its refusals.
pub fn after_steps(op: &str) -> Case {
    let mut lines = vec![small()];
    for steps in 1..=3 {
        lines.push(format!("opn {op}"));
        lines.extend((0..steps).map(|_| "stp 31 0".to_string()));
        lines.extend(["run 9", "run 9", "run 9"].map(String::from));
    }
    lines
}

/// A device in the middle of a transaction refuses the command and is free again.
pub fn left_open() -> Case {
    let mut lines = vec![small()];
    let open = [Block::of(READ_LBA, IN, 512), Block::of(WRITE_LBA, OUT, 512), Block::of(0xff, OUT, 0)];
    for block in open {
        for op in ["cap 4", "wrl 14 1 r 512 1"] {
            lines.extend([
                write(&block),
                format!("opn {op}"),
                "run 9".into(),
                format!("opn {op}"),
                "run 9".into(),
            ]);
        }
    }
    lines
}

pub fn command_sent_by_hand() -> Case {
    let mut lines = vec![small()];
    for tag in [77, 78] {
        lines.push("opn rdl 77 2 f 512 0".into());
        lines.push("stp 31 0".into());
        lines.push(write(&Block { tag, address: 2, count: 1, ..Block::of(READ_LBA, IN, 512) }));
        lines.push("run 9".into());
    }
    lines
}

/// In slots of 8,192 bytes.
pub fn uploads() -> Vec<Case> {
    let mut cases = Vec::new();
    for len in [0, 1, 4093, 4094, 4095, 4096, 8000, 8189] {
        let needed = len / 4096 + 4;
        let mut lines = vec![configured(65_536, "s 512 1")];
        for budget in 0..needed {
            lines.extend([format!("upl {} r {len} 7", 10 + budget), format!("urn {budget}"), "urn 9".into()]);
        }
        lines.extend(["urn 0", "urn 1", "urn 2"].map(String::from));
        lines.extend([format!("upl 9 f {len} 1"), "urn 1".into(), "ust 4096 0".into(), "urn 9".into()]);
        lines.extend(["upl 9 x0102".into(), "urn 9".into()]);
        cases.push(lines);
    }
    let mut full = vec![configured(32_776, "x"), "upl 5 f 4093 1".into(), "urn 9".into()];
    full.extend(["upl 5 x".into(), "urn 9".into(), "upl 6 x01".into(), "urn 9".into()]);
    cases.push(full);
    cases
}

pub fn random(rng: &mut Rng) -> Case {
    let store = if rng.one_in(10) { rng.pick(&[0, 64, 4096, 32_768]) } else { 65_536 };
    let (start, sectors) = random_start(rng, store);
    let mut lines = vec![start];
    let until = 20 + rng.below(60);
    while lines.len() < until {
        match rng.below(8) {
            // To areas of which one in ten finds no slot.
            0 => {
                let area = 100 + rng.below(9);
                random_upload(rng, area, &mut lines);
            }
            1 => lines.extend(transaction(rng, sectors).into_iter().take(1)),
            2 => lines.push(control(rng, 3)),
            _ => {
                let start = random_op(rng, sectors).start;
                random_run(rng, start, &mut lines);
            }
        }
    }
    lines
}

pub fn random_run(rng: &mut Rng, start: String, lines: &mut Vec<String>) {
    lines.push(start);
    if rng.one_in(8) {
        lines.push(format!("stp {} {}", 31 + rng.below(3), rng.byte()));
    }
    while rng.one_in(4) {
        lines.push(format!("run {}", rng.below(4)));
    }
    lines.push(format!("run {}", enough(rng)));
}

/// A budget that an operation, and most uploads, can't use up.
fn enough(rng: &mut Rng) -> usize {
    if rng.one_in(4) { 4 + rng.below(9_997) } else { 4 + rng.below(3) }
}

pub fn random_upload(rng: &mut Rng, area: usize, lines: &mut Vec<String>) {
    let mut len = rng.pick(&[0, 1, 2, 20, 50, 300, 4093, 4094, 4095, 4096, 5000, 8189]);
    for _ in 0..1 + rng.below(2) {
        lines.push(format!("upl {area} {}", any_data(rng, len)));
        if rng.one_in(8) {
            lines.push(format!("ust 4096 {}", rng.byte()));
        }
        while rng.one_in(3) {
            lines.push(format!("urn {}", rng.below(3)));
        }
        lines.push(format!("urn {}", enough(rng)));
        len = if len < 8000 { rng.below(50) } else { 0 };
    }
}

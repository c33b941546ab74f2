//! Raw calls on one device.

use super::make::{Block, CODES, Case, Rng, any_data, damage, x};

pub const READ_LBA: u8 = 0x14;
pub const WRITE_LBA: u8 = 0x15;
pub const ERASE_FORCE: u8 = 0x0b;
pub const ERASE_LBA: u8 = 0x25;
pub const RESET: u8 = 0xff;
pub const IN: u8 = 0x80;
pub const OUT: u8 = 0;

pub fn configured(store: usize, flash: &str) -> String {
    format!("dvc {store} 4660 r 16 100 x0102030405 xa1a2a3a4a5a6a7a8 xb1b2b3b4b5 {flash}")
}

/// Four sectors and slots of 64 bytes.
pub fn small() -> String {
    configured(512, "s 2048 7")
}

pub fn write(block: &Block) -> String {
    format!("bwr {}", x(&block.bytes()))
}

/// What the device answers with, or wants, for a command of one sector.
fn right_length(code: u8) -> usize {
    match code {
        0x01 => 5,
        0x1a => 11,
        0x1b => 16,
        0xaa => 8,
        READ_LBA | WRITE_LBA => 512,
        _ => 4,
    }
}

fn sector(code: u8, direction: u8, transfer: usize) -> Block {
    Block { address: 1, count: 1, opcode: 3, ..Block::of(code, direction, transfer as u32) }
}

pub fn exhaustive() -> Vec<Case> {
    let mut cases: Vec<Case> = CODES.iter().map(|code| every_state(*code)).collect();
    cases.push(unreadable());
    cases.extend([READ_LBA, WRITE_LBA, ERASE_LBA, ERASE_FORCE].map(ranges));
    cases.push(resets());
    cases.push(lengths_not_compared());
    cases.extend(controls());
    cases.extend(creations());
    cases.push(default_device());
    cases
}

/// One code in every state, with right and wrong directions and lengths.
fn every_state(code: u8) -> Case {
    let right = right_length(code);
    let mut lines = vec![small()];
    for direction in [IN, OUT] {
        let command = write(&sector(code, direction, right));
        for next in [
            format!("brd {right} 7"),
            format!("brd {} 7", right + 1),
            format!("bwr r {right} 9"),
            format!("bwr r {} 9", right - 1),
        ] {
            lines.extend([command.clone(), next, "brd 13 1".into()]);
        }
        let bare = write(&sector(code, direction, 0));
        lines.extend([bare.clone(), "brd 13 1".into()]);
        lines.extend([bare.clone(), "brd 12 1".into(), "brd 13 1".into()]);
        lines.extend([bare.clone(), bare, "brd 13 1".into()]);
    }
    lines
}

fn unreadable() -> Case {
    let good = sector(ERASE_LBA, OUT, 0).bytes();
    let mut lines = vec![small(), "brd 0 0".into(), "brd 13 0".into()];
    lines.extend([0, 1, 13, 30].map(|len| format!("bwr {}", x(&good[..len]))));
    for (at, byte) in [(3, b'S'), (12, 1), (15, 2), (12, 0x81), (15, 0xfe)] {
        let mut bytes = good.clone();
        bytes[at] = byte;
        lines.push(format!("bwr {}", x(&bytes)));
        lines.push("brd 13 5".into());
    }
    let mut long = good;
    long.extend([9; 9]);
    lines.extend([format!("bwr {}", x(&long)), "brd 13 5".into()]);
    lines
}

fn ranges(code: u8) -> Case {
    let mut lines = vec![small()];
    let edges = [
        (0, 0),
        (0, 1),
        (0, 4),
        (0, 5),
        (1, 2),
        (3, 1),
        (3, 2),
        (4, 0),
        (4, 1),
        (5, 0),
        (0, 65_535),
        (u32::MAX, 0),
        (u32::MAX, 65_535),
    ];
    for (address, count) in edges {
        let direction = if code == READ_LBA { IN } else { OUT };
        let erases = code == ERASE_LBA || code == ERASE_FORCE;
        let transfer = if erases { 0 } else { 512 };
        lines.push(write(&Block { address, count, ..Block::of(code, direction, transfer) }));
        let len = usize::from(count.min(5)) * 512;
        match code {
            READ_LBA => lines.push(format!("brd {len} 0")),
            WRITE_LBA => lines.push(format!("bwr s {len} {count}")),
            _ => {}
        }
        lines.push("brd 13 0".into());
    }
    lines
}

fn resets() -> Case {
    let mut lines = vec![small(), "lst".into()];
    for opcode in [0, 1, 2, 3, 4, 5, 0, 6, 255] {
        lines.push(write(&Block { opcode, ..Block::of(RESET, OUT, 0) }));
        lines.extend(["brd 13 0".into(), "lst".into()]);
    }
    lines
}

/// The transfer length only tells nothing from something.
fn lengths_not_compared() -> Case {
    let mut lines = vec![small()];
    for transfer in [1, 511, 513, u32::MAX] {
        lines.push(write(&sector(READ_LBA, IN, transfer as usize)));
        lines.extend(["brd 512 0".into(), "brd 13 0".into()]);
        lines.push(write(&sector(WRITE_LBA, OUT, transfer as usize)));
        lines.extend([format!("bwr s 512 {transfer}"), "brd 13 0".into()]);
    }
    lines
}

fn controls() -> Vec<Case> {
    let mut wrong = vec![small()];
    for header in ["0 12 0", "192 12 0", "64 11 0", "64 13 0", "64 12 1", "64 12 65535", "65 13 2"] {
        wrong.push(format!("ctl {header} 5 x01"));
    }
    wrong.push("are 5".into());

    let mut between = vec![small(), write(&sector(WRITE_LBA, OUT, 512)), "ctl 64 12 0 9 x0102".into()];
    between.extend([
        "bwr f 512 1".into(),
        "ctl 64 12 1 9 x03".into(),
        "ctl 64 12 0 9 x".into(),
        "brd 13 0".into(),
    ]);

    let mut filling = vec![small()];
    for area in [300, 2, 65_535, 0, 7, 9, 8, 1] {
        filling.push(format!("ctl 64 12 0 {area} r {} 5", area % 11));
    }
    filling.extend(
        ["ctl 64 12 0 3 x", "ctl 64 12 0 7 f 57 1", "ctl 64 12 0 7 x02", "ctl 64 12 0 9 f 56 3"]
            .map(String::from),
    );
    filling.extend(
        ["ctl 64 12 0 65535 f 64 4", "ctl 64 12 0 0 f 64 5", "ctl 64 12 0 0 x", "are 0", "are 3", "are 7"]
            .map(String::from),
    );

    let mut tiny =
        vec![configured(7, "x"), "ctl 64 12 0 4 x".into(), "ctl 64 12 0 4 x01".into(), "are 4".into()];
    tiny.extend(["ctl 64 12 0 5 x01".into(), "are 5".into()]);
    vec![wrong, between, filling, tiny]
}

pub fn creations() -> Vec<Case> {
    let mut cases = Vec::new();
    for len in [0, 1, 511, 512, 513, 1024] {
        let mut lines = vec![configured(80, &format!("r {len} 0"))];
        for code in [0x01, 0x1a, 0x1b, 0xaa] {
            lines.push(write(&Block::of(code, IN, 1)));
            lines.push(format!("brd {} 0", right_length(code)));
            lines.push("brd 13 0".into());
        }
        lines.push(write(&sector(ERASE_LBA, OUT, 0)));
        cases.push(lines);
    }
    cases
}

fn default_device() -> Case {
    let mut lines = vec!["dvd 65536".into(), "lst".into(), "are 1137".into()];
    for code in [0x01, 0x1a, 0x1b, 0xaa] {
        lines.push(write(&Block::of(code, IN, 9)));
        lines.push(format!("brd {} 0", right_length(code)));
        lines.push("brd 13 0".into());
    }
    for (address, count) in [(127, 1), (128, 1), (127, 2)] {
        lines.push(write(&Block { address, count, ..Block::of(WRITE_LBA, OUT, 512) }));
        lines.push(format!("bwr f {} 170", usize::from(count) * 512));
        lines.push("brd 13 0".into());
    }
    lines.push("ctl 64 12 0 1137 r 8192 0".into());
    lines.push("ctl 64 12 0 1137 x00".into());
    lines.push("ctl 64 12 0 1138 r 8190 1".into());
    lines
}

pub fn random_start(rng: &mut Rng, store: usize) -> (String, usize) {
    let sectors = if rng.one_in(60) { rng.pick(&[64, 127, 128]) } else { rng.pick(&[0, 1, 2, 4, 8, 16]) };
    let flash = any_data(rng, sectors * 512);
    let bytes = |rng: &mut Rng, len| x(&rng.bytes(len));
    let (chip, id, capability, extra) = (bytes(rng, 16), bytes(rng, 5), bytes(rng, 8), bytes(rng, 5));
    (format!("dvc {store} {} {chip} {id} {capability} {extra} {flash}", rng.half()), sectors)
}

/// A long sequence of raw calls, most of them parts of good transactions.
pub fn random(rng: &mut Rng) -> Case {
    sequence(rng, 40, 100)
}

/// The same, ten times as long.
pub fn random_long(rng: &mut Rng) -> Case {
    sequence(rng, 400, 1000)
}

fn sequence(rng: &mut Rng, least: usize, more: usize) -> Case {
    let store = rng.pick(&[0, 7, 8, 64, 200, 512, 4096, 65_536]);
    let (start, sectors) = random_start(rng, store);
    let mut lines = vec![start];
    let until = least + rng.below(more);
    while lines.len() < until {
        let calls = transaction(rng, sectors);
        lines.extend(disturbed(rng, calls));
        if rng.one_in(5) {
            lines.push(noise(rng));
        }
    }
    lines
}

/// One in four transactions has a call less, or more, or another.
pub fn disturbed(rng: &mut Rng, mut calls: Vec<String>) -> Vec<String> {
    if rng.one_in(4) {
        let at = rng.below(calls.len());
        match rng.below(3) {
            0 => drop(calls.remove(at)),
            1 => calls.insert(at, noise(rng)),
            _ => calls[at] = noise(rng),
        }
    }
    calls
}

pub fn transaction(rng: &mut Rng, sectors: usize) -> Vec<String> {
    let code = match rng.below(8) {
        0 => rng.pick(&CODES),
        1 => RESET,
        2 => rng.pick(&[0x01, 0x1a, 0x1b, 0xaa]),
        3 => rng.pick(&[ERASE_LBA, ERASE_FORCE]),
        4 | 5 => READ_LBA,
        _ => WRITE_LBA,
    };
    let most = if rng.one_in(20) { sectors.min(127) } else { sectors.min(6) };
    let mut count = rng.below(most + 1);
    if rng.one_in(10) {
        count += 1;
    }
    let address = if rng.one_in(12) { rng.word() } else { rng.below(sectors + 1) as u32 };
    let length = if code == READ_LBA || code == WRITE_LBA { count * 512 } else { right_length(code) };
    let bare = matches!(code, RESET | ERASE_LBA | ERASE_FORCE) || rng.one_in(15);
    let reads = if rng.one_in(15) { rng.one_in(2) } else { code != WRITE_LBA };
    let mut bytes = Block {
        tag: rng.word(),
        transfer: if bare { 0 } else { 1 + length as u32 },
        opcode: if rng.one_in(6) { rng.byte() } else { rng.below(5) as u8 },
        address,
        count: count as u16,
        ..Block::of(code, if reads { IN } else { OUT }, 0)
    }
    .bytes();
    if rng.one_in(12) {
        damage(rng, &mut bytes);
    }
    let mut calls = vec![format!("bwr {}", x(&bytes))];
    let length = if rng.one_in(15) { length + rng.below(3) } else { length };
    if !bare && reads {
        calls.push(format!("brd {length} {}", rng.byte()));
    } else if !bare {
        calls.push(format!("bwr {}", any_data(rng, length)));
    }
    calls.push(format!("brd 13 {}", rng.byte()));
    calls
}

pub fn noise(rng: &mut Rng) -> String {
    match rng.below(8) {
        0 => "lst".into(),
        1 => format!("are {}", rng.below(12)),
        2 => format!("brd {} {}", rng.below(30), rng.byte()),
        3 => {
            let len = rng.below(40);
            format!("bwr {}", any_data(rng, len))
        }
        _ => control(rng, 12),
    }
}

pub fn control(rng: &mut Rng, areas: usize) -> String {
    let len = if rng.one_in(4) { rng.below(600) } else { rng.below(20) };
    let header = if rng.one_in(8) {
        format!("{} {} {}", rng.byte(), rng.byte(), rng.half())
    } else {
        "64 12 0".into()
    };
    format!("ctl {header} {} {}", rng.below(areas), any_data(rng, len))
}

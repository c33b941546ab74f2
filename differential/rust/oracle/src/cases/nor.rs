//! A NOR head: raw calls, operations and uploads.

mod random;

use super::{
    device::{self, ERASE_FORCE, ERASE_LBA, IN, OUT, RESET, WRITE_LBA, configured, write},
    make::{Block, Case, x},
    runs,
};

pub use random::random;

const FLASH_ID: u8 = 0x01;
const FLASH_INFO: u8 = 0x1a;
const CHIP: u8 = 0x1b;
const SWITCH: u8 = 0x2a;
const STORAGE: u8 = 0x2b;
const CAPABILITY: u8 = 0xaa;
const SPI_NOR: u8 = 4;

/// The sectors of `small`.
const SECTORS: u32 = 10;

/// Bytes that are written over each other, each over each.
const BYTES: [u8; 8] = [0x00, 0x01, 0x0f, 0x80, 0xa5, 0xf0, 0xfe, 0xff];

/// Of the first and the last two only 0 is a multiple in ten sectors.
const BLOCK_SIZES: [u16; 9] = [0, 1, 2, 3, 4, 7, 10, 64, 65_535];

const ON_SMALL: [&str; 25] = [
    "chp 1",
    "fid 2",
    "fin 3",
    "cap 4",
    "sto 5",
    "era 6 4 4",
    "erf 7 0 8",
    "era 8 8 0",
    "era 9 2 4",
    "erf 10 4 2",
    "era 11 10 0",
    "erf 12 8 4",
    "rdl 13 1 f 1024 9",
    "rdl 14 9 f 1024 9",
    "rdl 15 10 x",
    "wrl 16 1 f 1024 0",
    "wrl 17 1 r 1024 1",
    "wrl 18 10 f 512 7",
    "wrl 19 0 x",
    "rst 20 0",
    "rst 21 4",
    "swi 22 1 4",
    "swi 23 1 1",
    "swi 24 0 255",
    "swi 25 0 4",
];

/// Of these, which are also run after steps that the head never saw.
const AFTER_STEPS: [&str; 5] = ["sto 5", "era 6 4 4", "wrl 16 1 f 1024 0", "wrl 17 1 r 1024 1", "swi 23 1 1"];

/// A mock's start as that of a NOR head with this block size.
fn nor(start: &str, block: u16) -> String {
    let block = block.to_string();
    let mut words: Vec<&str> = start.split(' ').collect();
    (words[0], words[2]) = ("dvn", &block);
    words.join(" ")
}

fn head(block: u16, flash: &str) -> String {
    nor(&configured(512, flash), block)
}

/// Ten sectors in blocks of four: two sectors stand behind the last whole block.
fn small() -> String {
    head(4, "s 5120 7")
}

fn on_small(mut case: Case) -> Case {
    case[0] = small();
    case
}

fn status() -> String {
    "brd 13 0".into()
}

/// A command without data, and its status.
fn told(block: Block) -> [String; 2] {
    [write(&block), status()]
}

/// A command, the reading of its reply, and its status.
fn asked(code: u8, len: usize) -> [String; 3] {
    [write(&Block::of(code, IN, len as u32)), format!("brd {len} 7"), status()]
}

fn erase(code: u8, address: u32, count: u16) -> Block {
    Block { address, count, ..Block::of(code, OUT, 0) }
}

fn switch(opcode: u8) -> Block {
    Block { opcode, ..Block::of(SWITCH, OUT, 0) }
}

/// A write's command, its data, and its status. That of no sectors awaits data too.
fn written(address: u32, count: u16, data: &str) -> [String; 3] {
    let transfer = u32::from(count).max(1) * 512;
    let command = Block { address, count, ..Block::of(WRITE_LBA, OUT, transfer) };
    [write(&command), format!("bwr {data}"), status()]
}

pub fn exhaustive() -> Vec<Case> {
    let mut cases = as_on_the_mock();
    cases.extend(BYTES.map(over_each_other));
    cases.extend([0, 1, 511, 512, 1023].map(one_cell));
    cases.extend([0, 300, 511].map(one_byte));
    cases.extend([next_statuses(), statuses_not_read(), status_after_controls()]);
    cases.extend(BLOCK_SIZES.map(|block| erases(block, [ERASE_LBA, ERASE_FORCE])));
    cases.push(erases(4, [ERASE_FORCE, ERASE_LBA]));
    cases.extend([switches(), storages(), replies_stay()]);
    cases.extend(device::creations().into_iter().map(|case| started_as(case, 0)));
    cases.extend([no_blocks(), restarts(), restarted_under_a_run()]);
    cases.extend(ON_SMALL.map(budgets));
    cases.extend(AFTER_STEPS.map(|op| on_small(runs::after_steps(op))));
    cases.extend([one_after_another(), rearmed(), on_large()]);
    cases.extend([runs::left_open(), runs::command_sent_by_hand()].map(on_small));
    cases.extend(runs::uploads().into_iter().step_by(2).map(|case| started_as(case, 2)));
    cases
}

fn started_as(mut case: Case, block: u16) -> Case {
    case[0] = nor(&case[0], block);
    case
}

/// What the kind `device` asks of a configured mock. In blocks of one sector every erase is of whole ones.
fn as_on_the_mock() -> Vec<Case> {
    let cases = device::exhaustive().into_iter().filter(|case| case[0].starts_with("dvc "));
    cases.map(|case| started_as(case, 1)).collect()
}

fn over_each_other(old: u8) -> Case {
    let mut lines = vec![head(4, &format!("f {} {old}", BYTES.len() * 512))];
    for (address, new) in (0..).zip(BYTES) {
        lines.extend(written(address, 1, &format!("f 512 {new}")));
    }
    lines
}

/// Of two sectors one cell is without a bit: writes that ask for the bit fail by this cell alone, and one that does not
/// is taken.
fn one_cell(at: usize) -> Case {
    let mut cells = [0xff; 512];
    cells[at % 512] = 0x7f;
    let mut lines = vec![head(1, "f 1024 255")];
    lines.extend(written(at as u32 / 512, 1, &x(&cells)));
    for byte in [0xff, 0x8f, 0x0f] {
        lines.extend(written(0, 2, &format!("f 1024 {byte}")));
    }
    lines
}

/// All cells are 0, and one byte that is asked is not.
fn one_byte(at: usize) -> Case {
    let mut bytes = [0; 512];
    bytes[at] = 1;
    let mut lines = vec![head(1, "f 1024 0")];
    lines.extend(written(1, 1, &x(&bytes)));
    lines.extend(told(erase(ERASE_LBA, 1, 1)));
    lines.extend(written(1, 1, &x(&bytes)));
    lines
}

/// A write that the cells refuse, by its calls up to the data.
fn failed() -> [String; 2] {
    let [command, data, _] = written(1, 1, "f 512 90");
    [command, data]
}

/// What can follow a write: each has a status of its own.
fn followers() -> Vec<Vec<String>> {
    vec![
        asked(CHIP, 16).to_vec(),
        asked(STORAGE, 4).to_vec(),
        told(erase(ERASE_LBA, 4, 4)).to_vec(),
        told(Block { opcode: 3, ..Block::of(RESET, OUT, 0) }).to_vec(),
        told(switch(SPI_NOR)).to_vec(),
        told(switch(1)).to_vec(),
        written(2, 1, "f 512 5").to_vec(),
        written(2, 1, "f 512 7").to_vec(),
        written(4, 0, "x").to_vec(),
    ]
}

/// The status of a refused write is read; the next command's is not that one, nor is a second reading.
fn next_statuses() -> Case {
    let mut lines = vec![head(4, "f 5120 165")];
    for next in followers() {
        lines.extend(failed());
        lines.push(status());
        lines.extend(next);
    }
    lines.push(status());
    lines
}

/// It is not read: the next call ends the transaction, and what follows has its own status.
fn statuses_not_read() -> Case {
    let mut lines = vec![head(4, "f 5120 165")];
    for next in followers() {
        lines.extend(failed());
        lines.push(next[0].clone());
        lines.push(status());
        lines.extend(next);
    }
    for len in [0, 4, 12, 14, 512] {
        for refused in [failed().to_vec(), vec![write(&switch(1))]] {
            lines.extend(refused);
            lines.extend([format!("brd {len} 7"), status()]);
        }
    }
    lines.extend(told(erase(ERASE_LBA, 0, 4)));
    lines.extend(written(0, 1, "f 512 90"));
    lines
}

/// Control calls, refused ones too, leave the pending status.
fn status_after_controls() -> Case {
    let mut lines = vec![head(4, "f 5120 165")];
    for control in ["64 12 0 9 x0102", "64 12 1 9 x03", "64 12 0 9 f 65 1", "64 12 0 8 x"] {
        for open in [failed().to_vec(), written(2, 1, "f 512 5")[..2].to_vec(), vec![write(&switch(9))]] {
            lines.extend(open);
            lines.extend([format!("ctl {control}"), status()]);
        }
    }
    lines
}

/// Addresses and counts around the blocks, the flash's end and what stands behind its last whole block.
fn edges(block: u16) -> Vec<(u32, u16)> {
    let size = u32::from(block);
    let last = SECTORS - SECTORS.checked_rem(size).unwrap_or(SECTORS);
    let behind = (SECTORS - last) as u16;
    let mut edges =
        vec![(0, 0), (size, 0), (1, 0), (0, 1), (last, 0), (last, behind), (SECTORS, 0), (0, block)];
    edges.extend([(size, block), (size, 1), (1, block), (0, block.saturating_add(1)), (size + 1, block)]);
    edges.extend([(last, block), (SECTORS, 1), (SECTORS + 1, 0), (SECTORS + 1, 1), (u32::MAX, u16::MAX)]);
    let mut once: Vec<(u32, u16)> = Vec::new();
    for edge in edges {
        if !once.contains(&edge) {
            once.push(edge);
        }
    }
    once
}

/// Both codes in turn, over cells that are not erased; then all cells are 0 and two blocks are erased at once.
fn erases(block: u16, codes: [u8; 2]) -> Case {
    let mut lines = vec![head(block, "s 5120 7")];
    for ((address, count), code) in edges(block).into_iter().zip(codes.into_iter().cycle()) {
        lines.extend(told(erase(code, address, count)));
    }
    lines.extend(written(0, SECTORS as u16, "f 5120 0"));
    for code in codes {
        lines.extend(told(erase(code, 0, block.saturating_mul(2))));
    }
    lines
}

/// In either direction, and whatever the fields say that a switch has no use for.
fn switches() -> Case {
    let mut lines = vec![small()];
    for opcode in (0..=15).chain([16, 20, 36, 68, 127, 128, 132, 252, 255]) {
        lines.extend(told(switch(opcode)));
    }
    for opcode in [SPI_NOR, 5] {
        let unused = Block { address: 4, count: 4, lun: 4, cdb_length: 4, ..switch(opcode) };
        lines.extend(told(Block { direction: IN, ..unused }));
        lines.extend(told(unused));
        // With data it is a command like any other.
        for direction in [IN, OUT] {
            let command = write(&Block { direction, transfer: 1, ..switch(opcode) });
            for next in ["brd 1 7", "brd 13 7", "bwr x04"] {
                lines.extend([command.clone(), next.into(), status()]);
            }
        }
    }
    lines
}

fn storages() -> Case {
    let mut lines = vec![small()];
    for len in [0, 3, 4, 5, 13] {
        lines.extend(asked(STORAGE, 4));
        let at = lines.len() - 2;
        lines[at] = format!("brd {len} 7");
    }
    for transfer in [1, 13, u32::MAX] {
        lines.extend([write(&Block::of(STORAGE, IN, transfer)), "brd 4 7".into(), status()]);
    }
    let out = write(&Block::of(STORAGE, OUT, 4));
    for next in ["brd 4 7", "brd 13 7", "bwr x10000000"] {
        lines.extend([out.clone(), next.into(), status()]);
    }
    lines.extend(told(Block::of(STORAGE, IN, 0)));
    lines
}

/// Whatever is switched to, the storage and all else is told as before.
fn replies_stay() -> Case {
    let mut lines = vec![small()];
    for opcode in [1, SPI_NOR] {
        lines.extend(told(switch(opcode)));
        for (code, len) in [(STORAGE, 4), (FLASH_ID, 5), (CAPABILITY, 8), (FLASH_INFO, 11), (CHIP, 16)] {
            lines.extend(asked(code, len));
        }
    }
    lines
}

/// A block size of 0: erases of 0 sectors at 0 are of whole blocks, and no others.
fn no_blocks() -> Case {
    let mut lines = vec![head(0, "f 2048 165")];
    lines.extend(asked(FLASH_INFO, 11));
    lines.extend(written(0, 1, "f 512 5"));
    lines.extend(written(1, 1, "f 512 7"));
    for (address, count) in [(0, 0), (0, 4), (4, 0), (0, 5), (5, 0), (2, 2)] {
        for code in [ERASE_LBA, ERASE_FORCE] {
            lines.extend(told(erase(code, address, count)));
        }
    }
    for op in ["fin 1", "era 2 0 0", "erf 3 0 4", "wrl 4 0 f 512 1", "wrl 5 0 f 512 2", "sto 6"] {
        lines.extend([format!("opn {op}"), "run 9".into()]);
    }
    lines
}

/// A start leaves nothing of the head before it, and a refused one leaves no head.
fn restarts() -> Case {
    let mut lines = vec![small(), "ctl 64 12 0 5 x0102".into()];
    lines.extend(told(Block { opcode: 2, ..Block::of(RESET, OUT, 0) }));
    lines.extend(failed());
    lines.extend([head(0, "f 512 165"), "are 5".into(), "lst".into(), status()]);
    lines.push(write(&switch(1)));
    lines.extend([head(0, "f 511 165"), head(2, "f 513 165"), small(), status()]);
    lines
}

/// The operation stands where it stood; what it left open is gone.
fn restarted_under_a_run() -> Case {
    let mut lines = vec![small()];
    for op in ["wrl 1 0 f 512 0", "wrl 2 0 f 512 255", "swi 3 1 4", "sto 4"] {
        for budget in [1, 3] {
            lines.extend([format!("opn {op}"), format!("run {budget}"), small(), "run 9".into()]);
        }
    }
    lines
}

/// Every budget past what is needed, then on from where it stopped; twice round.
fn budgets(op: &str) -> Case {
    let mut lines = vec![small()];
    for budget in 0..=5 {
        lines.extend([format!("opn {op}"), format!("run {budget}"), "run 4".into()]);
    }
    lines.extend(["run 0", "run 1", "run 1", "run 1", "run 1"].map(String::from));
    lines
}

fn one_after_another() -> Case {
    let mut lines = vec![small()];
    for op in ON_SMALL {
        lines.extend([format!("opn {op}"), "run 5".into()]);
    }
    lines
}

/// An operation that ended in 15 stands at its command again: it ends so until an erase made room for it.
fn rearmed() -> Case {
    let mut lines = vec![small(), "opn wrl 7 2 r 1024 1".into()];
    lines.extend(["run 9", "run 9", "run 3", "run 1", "run 2", "run 2"].map(String::from));
    lines.extend(told(erase(ERASE_LBA, 0, 4)));
    lines.extend(["run 9", "run 2", "run 2"].map(String::from));
    lines.extend(
        ["opn wrl 8 2 r 1024 2", "run 4", "opn wrl 9 2 f 1024 0", "run 4", "run 4"].map(String::from),
    );
    lines.extend(["opn swi 10 1 1", "run 9", "run 2", "run 1", "run 0", "run 9"].map(String::from));
    lines
}

/// 128 erased sectors in blocks of 64.
fn on_large() -> Case {
    let mut lines = vec![head(64, "f 65536 255")];
    for op in [
        "wrl 1 126 s 1024 3",
        "wrl 2 126 s 1024 3",
        "wrl 3 127 s 512 4",
        "era 4 64 32",
        "era 5 32 64",
        "era 6 0 64",
        "rdl 7 126 f 1024 0",
        "erf 8 64 64",
        "wrl 9 0 s 16384 9",
        "wrl 10 31 f 1024 254",
        "wrl 11 32 f 1024 254",
        "era 12 0 129",
        "era 13 64 128",
        "erf 14 128 0",
        "era 15 0 128",
    ] {
        lines.extend([format!("opn {op}"), "run 4".into()]);
    }
    lines
}

//! The largest sizes: flashes to 65,536 sectors, sector data of up to 65,535, uploads of 10,000 transfers, budgets to
//! 10,000.

use super::{
    device::{IN, OUT, READ_LBA, WRITE_LBA, configured, write},
    make::{Block, Case, Rng, any_data},
    operations::random_op,
};

const SECTOR: usize = 512;
const MOST_FLASH: usize = 65_536;
const MOST_DATA: usize = 65_535;
const MOST_BUDGET: usize = 10_000;

/// A slot takes 10,240 transfers.
const STORE: usize = 335_544_320;

fn run(lines: &mut Vec<String>, operation: &str, budget: usize) {
    lines.extend([format!("opn {operation}"), format!("run {budget}")]);
}

pub fn exhaustive() -> Vec<Case> {
    vec![largest_flash(), largest_by_hand(), long_upload()]
}

/// All 65,536 sectors, by operations of 65,535, 65,534 and 1.
fn largest_flash() -> Case {
    let most = MOST_DATA * SECTOR;
    let mut lines = vec![configured(65_536, &format!("s {} 7", MOST_FLASH * SECTOR))];
    run(&mut lines, "fin 1", MOST_BUDGET);
    run(&mut lines, &format!("wrl 2 1 s {most} 9"), MOST_BUDGET);
    run(&mut lines, &format!("rdl 3 0 f {most} 0"), 4);
    run(&mut lines, &format!("wrl 4 2 r {most} 9"), 4);
    run(&mut lines, &format!("rdl 5 2 f {} 0", most - SECTOR), 4);
    run(&mut lines, "wrl 6 65535 f 512 1", 4);
    run(&mut lines, "rdl 7 65536 x", 4);
    run(&mut lines, "wrl 8 65536 f 512 1", 4);
    run(&mut lines, "era 9 65535 1", 3);
    run(&mut lines, "erf 10 1 65535", 3);
    run(&mut lines, "era 11 2 65535", 3);
    run(&mut lines, "era 12 0 65535", 3);
    lines
}

/// The same lengths by raw calls.
fn largest_by_hand() -> Case {
    let most = MOST_DATA * SECTOR;
    let mut lines = vec![configured(8, &format!("r {most} 3"))];
    for (code, direction, call) in
        [(WRITE_LBA, OUT, format!("bwr s {most} 4")), (READ_LBA, IN, format!("brd {most} 5"))]
    {
        lines.push(write(&Block { count: MOST_DATA as u16, ..Block::of(code, direction, most as u32) }));
        lines.extend([call, "brd 13 0".into()]);
    }
    lines
}

/// 10,001 transfers and the finish, with budgets to 10,000; then a slot filled by two more.
fn long_upload() -> Case {
    let mut lines = vec![configured(STORE, "s 512 1")];
    lines.extend(["upl 7 s 40960000 5".into(), "urn 9999".into(), "urn 1".into(), "urn 10000".into()]);
    lines.extend(["upl 8 r 40960000 5".into(), "urn 10000".into(), "urn 2".into(), "urn 0".into()]);
    lines.extend(["upl 7 f 1000000 1".into(), "urn 10000".into(), "urn 10000".into()]);
    lines
}

fn sectors(rng: &mut Rng) -> usize {
    match rng.below(4) {
        0 => rng.pick(&[129, 255, 256, 4_096, 32_767, 32_768, 65_535, 65_536]),
        1 => 129 + rng.below(1_000),
        _ => 129 + rng.below(MOST_FLASH - 128),
    }
}

/// Reads and writes of up to the whole flash, at its ends and anywhere.
fn moved(rng: &mut Rng, flash: usize) -> String {
    let count = match rng.below(3) {
        0 => flash.min(MOST_DATA),
        1 => rng.below(flash.min(MOST_DATA) + 1),
        _ => rng.below(300),
    };
    let room = flash.saturating_sub(count);
    let first = match rng.below(3) {
        0 => room,
        1 => rng.below(room + 1),
        _ => room + rng.below(2),
    };
    let name = rng.pick(&["rdl", "wrl"]);
    format!("{name} {} {first} {}", rng.word(), any_data(rng, count * SECTOR))
}

pub fn random(rng: &mut Rng) -> Case {
    let flash = sectors(rng);
    let data = any_data(rng, flash * SECTOR);
    let mut lines = vec![configured(65_536, &data)];
    for _ in 0..3 + rng.below(4) {
        let start =
            if rng.one_in(3) { random_op(rng, flash).start } else { format!("opn {}", moved(rng, flash)) };
        lines.extend([start, format!("run {}", rng.below(MOST_BUDGET + 1))]);
    }
    lines
}

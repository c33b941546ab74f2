//! Uploads, whole and cut.

use super::make::{Case, Rng, any_data};

const SIZES: [usize; 16] =
    [0, 1, 2, 4092, 4093, 4094, 4095, 4096, 4097, 4098, 8190, 8191, 8192, 8193, 12_285, 12_288];
const LARGER: [usize; 5] = [20_000, 40_958, 65_535, 65_536, 99_999];

pub fn exhaustive() -> Vec<Case> {
    let mut cases = Vec::new();
    for len in SIZES {
        cases.push(stepped(&format!("upl 1137 r {len} 3"), len, 4096, 0));
        cases.push(stepped(&format!("upl 65535 f {len} 255"), len, 4097 + len % 3, 170));
        cases.push(lists(&format!("s {len} 5"), len));
    }
    cases.extend(LARGER.map(|len| lists(&format!("s {len} 77"), len)));
    cases.push(vec!["upl 5 r 5000 0".into(), "ust 4095 0".into(), "ust 0 0".into(), "ust 4096 1".into()]);
    cases
}

/// Steps to the finish and past it.
fn stepped(start: &str, len: usize, out: usize, fill: u8) -> Case {
    let mut lines = vec![start.to_string()];
    lines.extend((0..len / 4096 + 4).map(|_| format!("ust {out} {fill}")));
    lines
}

fn lists(image: &str, len: usize) -> Case {
    let mut cuts =
        vec!["1 4096", "1 4095", "1 4097", "2 1000 0", "3 0 1 4095", "5 7 13 0 8192 1", "2 4094 2"]
            .into_iter()
            .map(String::from)
            .collect::<Vec<_>>();
    if len <= 8193 {
        cuts.push("1 1".into());
        cuts.push("2 0 3".into());
    }
    if len > 0 {
        cuts.push(format!("1 {len}"));
        cuts.push(format!("3 {} 1 0", len - 1));
    }
    let mut lines = vec![format!("all 1138 {image}")];
    lines.extend(cuts.iter().map(|cut| format!("cut 1138 {cut} {image}")));
    lines
}

/// Lengths that the run at scale has every one of.
pub const EVERY: std::ops::RangeInclusive<usize> = 0..=12_300;

/// Cuts into single bytes, of which each part costs as much as a block: where a block ends, and short images.
fn in_single_bytes(len: usize) -> bool {
    len <= 100 || (4092..=4097).contains(&len) || (8190..=8193).contains(&len)
}

/// Two images of one length: step by step, as a list, and the same list under several cuts.
pub fn of_every_length(rng: &mut Rng, len: usize) -> Vec<Case> {
    let mut cases = Vec::new();
    for _ in 0..2 {
        let area = rng.half();
        let image = any_data(rng, len);
        cases.push(stepped(&format!("upl {area} {image}"), len, 4096 + rng.below(3), rng.byte()));
        let mut lines = vec![format!("all {area} {image}")];
        let mut cuts = ["1 4095", "1 4096", "1 4097"].map(String::from).to_vec();
        cuts.push(format!("2 {} 0", len / 8 + 1));
        cuts.push(random_cut(rng, len));
        if in_single_bytes(len) {
            cuts.push("1 1".into());
        }
        lines.extend(cuts.iter().map(|cut| format!("cut {area} {cut} {image}")));
        cases.push(lines);
    }
    cases
}

/// A length near the places where a block is full, or any.
fn near_a_block(rng: &mut Rng, blocks: usize) -> usize {
    let full = rng.below(blocks + 1) * 4096;
    match rng.below(4) {
        0 => full + rng.below(4096),
        _ => (full + 3).saturating_sub(rng.below(8)),
    }
}

fn random_cut(rng: &mut Rng, len: usize) -> String {
    let count = 1 + rng.below(12);
    let mut sizes: Vec<usize> = (0..count)
        .map(|_| match rng.below(6) {
            0 => 0,
            1 => 1 + rng.below(9),
            2 => 4091 + rng.below(10),
            3 => rng.below(len + 1),
            4 => 8190 + rng.below(5),
            _ => rng.below(5000),
        })
        .collect();
    // Few enough parts that a program answers soon.
    if sizes.iter().sum::<usize>() < len / 2000 + 1 {
        sizes[0] = 1000;
    }
    let sizes: String = sizes.iter().map(|n| format!(" {n}")).collect();
    format!("{count}{sizes}")
}

pub fn random(rng: &mut Rng) -> Case {
    let blocks = rng.pick(&[1, 2, 3, 6, 23]);
    of_length(rng, blocks)
}

pub fn large(rng: &mut Rng) -> Case {
    let blocks = rng.pick(&[50, 300, 1023]);
    of_length(rng, blocks)
}

fn of_length(rng: &mut Rng, blocks: usize) -> Case {
    let len = near_a_block(rng, blocks);
    let area = rng.half();
    let image = any_data(rng, len);
    if len < 30_000 && rng.one_in(2) {
        let out = 4096 + rng.below(3);
        return stepped(&format!("upl {area} {image}"), len, out, rng.byte());
    }
    let mut lines = vec![format!("all {area} {image}")];
    for _ in 0..3 {
        lines.push(format!("cut {area} {} {image}", random_cut(rng, len)));
    }
    lines
}

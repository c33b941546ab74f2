//! Numbers and command blocks.

use super::make::{Block, Case, Rng, damage, each, x};

const GOOD: Block = Block {
    tag: 0x0102_0304,
    transfer: 0x0a0b_0c0d,
    direction: 0x80,
    lun: 0x21,
    cdb_length: 0x0a,
    code: 0x14,
    opcode: 0x31,
    address: 0x4142_4344,
    count: 0x5152,
};

pub fn exhaustive() -> Vec<Case> {
    let mut lines = Vec::new();
    for name in ["dir", "cod", "rst", "idx"] {
        lines.extend((0..=255).map(|n| format!("{name} {n}")));
    }
    lines.extend((0..=255).map(|code| format!("crd {}", x(&Block { code, ..GOOD }.bytes()))));
    lines.extend((0..=255).map(|direction| format!("crd {}", x(&Block { direction, ..GOOD }.bytes()))));
    lines.extend(lengths());
    lines.extend(signatures());
    lines.extend(each_byte());
    lines.extend(orders());
    lines.extend(written());
    each(lines)
}

fn lengths() -> Vec<String> {
    let mut long = GOOD.bytes();
    long.extend(24..40);
    let mut lines = Vec::new();
    for len in 0..=40 {
        lines.push(format!("crd {}", x(&long[..len])));
        lines.push(format!("crd f {len} 85"));
        lines.push(format!("cnv {} 170 {}", 31 + len % 10, x(&long[..len])));
        lines.push(format!("cnv {len} 7 {}", x(&GOOD.bytes())));
        lines.push(format!("cnv {len} 7 {}", x(&long[..30])));
    }
    lines
}

fn signatures() -> Vec<String> {
    let mut lines = Vec::new();
    for at in 0..4 {
        for byte in [0, b'U', b'S', b'B', b'C', b'c', 0xff] {
            let mut bytes = GOOD.bytes();
            bytes[at] = byte;
            lines.push(format!("crd {}", x(&bytes)));
        }
    }
    lines.push(format!("crd x55534253{}", "00".repeat(27)));
    lines
}

/// Every place of a block with another byte, read and written again: 21 and 24 to 30 must not matter.
fn each_byte() -> Vec<String> {
    let mut lines = Vec::new();
    for at in 0..31 {
        for byte in [0x01, 0x80, 0xff] {
            let mut bytes = GOOD.bytes();
            bytes[at] = byte;
            lines.push(format!("crd {}", x(&bytes)));
            lines.push(format!("cnv 33 {byte} {}", x(&bytes)));
        }
    }
    lines
}

/// Two or more faults at once: which one is named.
fn orders() -> Vec<String> {
    let mut lines = Vec::new();
    for faults in 0..16 {
        let mut bytes = Block {
            direction: if faults & 1 == 0 { 0 } else { 1 },
            code: if faults & 2 == 0 { 0x15 } else { 2 },
            ..GOOD
        }
        .bytes();
        bytes[0] = if faults & 4 == 0 { b'U' } else { b'u' };
        bytes.truncate(if faults & 8 == 0 { 31 } else { 30 });
        lines.push(format!("crd {}", x(&bytes)));
        lines.push(format!("cnv 31 0 {}", x(&bytes)));
    }
    lines
}

fn written() -> Vec<String> {
    let mut lines = Vec::new();
    for op in ["chp", "fid", "fin", "cap", "sto"] {
        for (len, fill, tag) in
            [(31, 0, 0), (32, 255, 1), (64, 170, u32::MAX), (65, 1, 0x0102_0304), (30, 0, 5), (24, 0, 5)]
        {
            lines.push(format!("cwr {len} {fill} {op} {tag}"));
        }
    }
    for op in ["era", "erf", "rdl", "wrl"] {
        for (first, count) in
            [(0, 0), (0, 1), (64, 2), (0x0102_0304, 0x0506), (u32::MAX, 65_535), (1, 256), (256, 255)]
        {
            lines.push(format!("cwr 31 0 {op} 16909060 {first} {count}"));
            lines.push(format!("cwr 40 170 {op} 4294967295 {first} {count}"));
        }
        lines.extend((0..31).step_by(6).map(|len| format!("cwr {len} 3 {op} 1 2 3")));
    }
    lines.extend((0..5).map(|opcode| format!("cwr 33 9 rst 77 {opcode}")));
    lines.extend((0..13).map(|index| format!("cwr 33 9 swi 78 1 {index}")));
    lines.extend([0, 3, 12, 13, 31, 255].map(|index| format!("cwr 33 9 swi 78 0 {index}")));
    lines
}

pub fn random(rng: &mut Rng) -> Case {
    let mut bytes = Block::random(rng).bytes();
    if rng.one_in(2) {
        damage(rng, &mut bytes);
    }
    let len = 31 + rng.below(40);
    vec![match rng.below(4) {
        0 => random_write(rng, len),
        1 => format!("cnv {len} {} {}", rng.byte(), x(&bytes)),
        2 => {
            let len = 24 + rng.below(17);
            format!("crd {}", x(&rng.bytes(len)))
        }
        _ => format!("crd {}", x(&bytes)),
    }]
}

fn random_write(rng: &mut Rng, len: usize) -> String {
    let op = rng.pick(&["chp", "fid", "fin", "cap", "sto", "era", "erf", "rdl", "wrl", "rst", "swi"]);
    let args = match op {
        "era" | "erf" | "rdl" | "wrl" => format!(" {} {}", rng.word(), rng.half()),
        "rst" => format!(" {}", rng.below(5)),
        "swi" => index_argument(rng),
        _ => String::new(),
    };
    format!("cwr {len} {} {op} {}{args}", rng.byte(), rng.word())
}

pub fn index_argument(rng: &mut Rng) -> String {
    if rng.one_in(2) { format!(" 1 {}", rng.below(13)) } else { format!(" 0 {}", rng.byte()) }
}

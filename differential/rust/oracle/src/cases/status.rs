//! Status blocks.

use super::make::{Case, Rng, damage, each, status_bytes, x};

const TAG: u32 = 0x0102_0304;
const RESIDUE: u32 = 0x0a0b_0c0d;

pub fn exhaustive() -> Vec<Case> {
    let mut lines: Vec<String> = (0..=255).map(|n| format!("sta {n}")).collect();
    for status in 0..=255 {
        let bytes = x(&status_bytes(TAG, RESIDUE, status));
        lines.push(format!("srd {bytes}"));
        lines.push(format!("smp {bytes}"));
    }
    let mut long = status_bytes(TAG, RESIDUE, 1);
    long.extend(13..40);
    for len in 0..=40 {
        lines.push(format!("srd {}", x(&long[..len])));
        lines.push(format!("smp {}", x(&long[..len])));
        lines.push(format!("smp f {len} 7"));
        lines.push(format!("swr {len} 170 {TAG} {RESIDUE} {}", len % 2));
    }
    lines.extend(signatures());
    lines.extend(written());
    each(lines)
}

fn signatures() -> Vec<String> {
    let mut lines = Vec::new();
    for at in 0..4 {
        for byte in [0, b'U', b'S', b'B', b'C', b's', 0xff] {
            for status in [0, 2] {
                let mut bytes = status_bytes(TAG, RESIDUE, status);
                bytes[at] = byte;
                lines.push(format!("srd {}", x(&bytes)));
                lines.push(format!("smp {}", x(&bytes)));
            }
        }
    }
    lines
}

fn written() -> Vec<String> {
    let edges = [0, 1, 255, 256, 65_535, 65_536, 0x0102_0304, u32::MAX];
    let mut lines = Vec::new();
    for tag in edges {
        for residue in edges {
            lines.push(format!("swr 13 0 {tag} {residue} {}", (tag ^ residue) & 1));
        }
    }
    lines
}

pub fn random(rng: &mut Rng) -> Case {
    let mut bytes = status_bytes(rng.word(), rng.word(), rng.pick(&[0, 1]));
    if rng.one_in(2) {
        damage(rng, &mut bytes);
    }
    vec![match rng.below(4) {
        0 => format!(
            "swr {} {} {} {} {}",
            10 + rng.below(60),
            rng.byte(),
            rng.word(),
            rng.word(),
            rng.below(2)
        ),
        1 => format!("smp {}", x(&bytes)),
        _ => format!("srd {}", x(&bytes)),
    }]
}

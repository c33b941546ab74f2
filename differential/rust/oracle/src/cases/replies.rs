//! Replies and sector sizes.

use super::make::{Case, Rng, any_data, each, x};

pub fn exhaustive() -> Vec<Case> {
    let mut lines = Vec::new();
    for len in 0..=20 {
        lines.extend(["chp", "fid", "fin", "cap", "sto"].map(|name| format!("{name} r {len} 200")));
    }
    for place in 0..2 {
        for byte in 0..=255 {
            let mut bytes = [0; 8];
            bytes[place] = byte;
            lines.push(format!("cap {}", x(&bytes)));
        }
    }
    for place in 0..11 {
        for byte in [1, 0x80, 0xff] {
            let mut bytes = [0; 11];
            bytes[place] = byte;
            lines.push(format!("fin {}", x(&bytes)));
        }
    }
    lines.extend(storage_words().iter().map(|word| format!("sto {}", x(&word.to_le_bytes()))));
    lines.extend(sector_sizes().iter().map(|len| format!("sec {len}")));
    each(lines)
}

/// No bit, every one bit, every pair of bits, and their opposites for the single ones.
pub fn storage_words() -> Vec<u32> {
    let mut words = vec![0, u32::MAX];
    for low in 0..32 {
        words.push(1 << low);
        words.push(!(1 << low));
        words.extend((low + 1..32).map(|high| (1 << low) | (1 << high)));
    }
    words
}

fn sector_sizes() -> Vec<u64> {
    let mut sizes = vec![0, 1, 2, 256, u64::from(u32::MAX), 1 << 32, u64::MAX];
    for sectors in [1, 2, 3, 16, 128, 129, 255, 256, 257, 65_534, 65_535, 65_536, 65_537, 131_072, 131_073] {
        let len = sectors * 512;
        sizes.extend([len - 1, len, len + 1, len + 256]);
    }
    sizes
}

pub fn random(rng: &mut Rng) -> Case {
    let (name, len) = rng.pick(&[("chp", 16), ("fid", 5), ("fin", 11), ("cap", 8), ("sto", 4), ("sec", 0)]);
    vec![match name {
        "sec" => format!("sec {}", rng.below(70_000) * rng.pick(&[511, 512, 512, 512])),
        "sto" if rng.one_in(2) => format!("sto {}", x(&(1u32 << rng.below(32)).to_le_bytes())),
        _ => format!("{name} {}", any_data(rng, len)),
    }]
}

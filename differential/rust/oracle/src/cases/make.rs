//! What all makers of cases share.

use crate::text::hex;

/// A start line and the lines that follow it.
pub type Case = Vec<String>;

/// SplitMix64.
pub struct Rng(u64);

impl Rng {
    pub fn new(seed: u64) -> Self {
        Rng(seed)
    }

    /// One to draw apart from this one, whose draws stay the same.
    pub fn apart(&self) -> Rng {
        Rng(!self.0)
    }

    pub fn next(&mut self) -> u64 {
        self.0 = self.0.wrapping_add(0x9e37_79b9_7f4a_7c15);
        let mut z = self.0;
        z = (z ^ (z >> 30)).wrapping_mul(0xbf58_476d_1ce4_e5b9);
        z = (z ^ (z >> 27)).wrapping_mul(0x94d0_49bb_1331_11eb);
        z ^ (z >> 31)
    }

    pub fn below(&mut self, limit: usize) -> usize {
        (self.next() % limit as u64) as usize
    }

    pub fn one_in(&mut self, n: usize) -> bool {
        self.below(n) == 0
    }

    pub fn pick<T: Copy>(&mut self, from: &[T]) -> T {
        from[self.below(from.len())]
    }

    pub fn byte(&mut self) -> u8 {
        match self.below(4) {
            0 => self.pick(&[0, 1, 2, 4, 12, 13, 0x7f, 0x80, 0xff]),
            _ => self.next() as u8,
        }
    }

    pub fn word(&mut self) -> u32 {
        match self.below(3) {
            0 => self.pick(&[0, 1, 255, 256, 65_535, 65_536, 0x7fff_ffff, 0x8000_0000, u32::MAX]),
            1 => self.below(300) as u32,
            _ => self.next() as u32,
        }
    }

    pub fn half(&mut self) -> u16 {
        match self.below(3) {
            0 => self.pick(&[0, 1, 127, 128, 255, 256, 32_768, 65_535]),
            1 => self.below(20) as u16,
            _ => self.next() as u16,
        }
    }

    pub fn bytes(&mut self, len: usize) -> Vec<u8> {
        (0..len).map(|_| self.byte()).collect()
    }
}

pub const CODES: [u8; 27] = [
    0x00, 0x01, 0x03, 0x04, 0x05, 0x06, 0x0b, 0x14, 0x15, 0x16, 0x17, 0x18, 0x19, 0x1a, 0x1b, 0x1e, 0x1f,
    0x20, 0x21, 0x22, 0x23, 0x24, 0x25, 0x2a, 0x2b, 0xaa, 0xff,
];

/// A command block by its fields, so that cases can hold blocks that no constructor makes.
#[derive(Clone, Copy)]
pub struct Block {
    pub tag: u32,
    pub transfer: u32,
    pub direction: u8,
    pub lun: u8,
    pub cdb_length: u8,
    pub code: u8,
    pub opcode: u8,
    pub address: u32,
    pub count: u16,
}

impl Block {
    pub const fn of(code: u8, direction: u8, transfer: u32) -> Block {
        Block {
            tag: 0x0102_0304,
            transfer,
            direction,
            lun: 0,
            cdb_length: 6,
            code,
            opcode: 0,
            address: 0,
            count: 0,
        }
    }

    pub fn bytes(&self) -> Vec<u8> {
        let mut bytes = b"USBC".to_vec();
        bytes.extend(self.tag.to_be_bytes());
        bytes.extend(self.transfer.to_le_bytes());
        bytes.extend([self.direction, self.lun, self.cdb_length, self.code, self.opcode]);
        bytes.extend(self.address.to_be_bytes());
        bytes.push(0);
        bytes.extend(self.count.to_be_bytes());
        bytes.extend([0; 7]);
        bytes
    }

    pub fn random(rng: &mut Rng) -> Block {
        Block {
            tag: rng.word(),
            transfer: rng.word(),
            direction: rng.pick(&[0, 0x80]),
            lun: rng.byte(),
            cdb_length: rng.byte(),
            code: rng.pick(&CODES),
            opcode: rng.byte(),
            address: rng.word(),
            count: rng.half(),
        }
    }
}

pub fn status_bytes(tag: u32, residue: u32, status: u8) -> Vec<u8> {
    let mut bytes = b"USBS".to_vec();
    bytes.extend(tag.to_be_bytes());
    bytes.extend(residue.to_le_bytes());
    bytes.push(status);
    bytes
}

pub fn x(bytes: &[u8]) -> String {
    format!("x{}", hex(bytes))
}

/// Data of a length, in any of the ways to say it.
pub fn any_data(rng: &mut Rng, len: usize) -> String {
    match rng.below(if len <= 40 { 4 } else { 3 }) {
        0 => format!("f {len} {}", rng.byte()),
        1 => format!("r {len} {}", rng.byte()),
        2 => format!("s {len} {}", rng.word()),
        _ => x(&rng.bytes(len)),
    }
}

/// One change to bytes that were good: a byte, a bit, two bytes in each other's place, an end cut off or grown.
pub fn damage(rng: &mut Rng, bytes: &mut Vec<u8>) {
    if bytes.is_empty() {
        bytes.push(rng.byte());
        return;
    }
    let at = rng.below(bytes.len());
    match rng.below(6) {
        0 | 1 => bytes[at] = rng.byte(),
        2 => bytes[at] ^= 1 << rng.below(8),
        3 => {
            let other = rng.below(bytes.len());
            bytes.swap(at, other);
        }
        4 => bytes.truncate(at),
        _ => {
            let more = 1 + rng.below(9);
            let tail = rng.bytes(more);
            bytes.extend(tail);
        }
    }
}

pub fn each(lines: impl IntoIterator<Item = String>) -> Vec<Case> {
    lines.into_iter().map(|line| vec![line]).collect()
}

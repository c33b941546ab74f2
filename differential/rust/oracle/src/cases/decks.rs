//! Decks: a fresh bench, and blocks dealt to it. A block gets its check when it is dealt, by its place in the case.

use crate::decks::{CHECKED, check};

use super::make::{Case, Rng, x};

/// What a block's check is over.
#[derive(Clone, Copy)]
enum Over {
    /// Its tag, then its bytes.
    Place,
    /// Its bytes alone, as in decks that were made before.
    Bytes,
    /// A tag so much above its own, then its bytes.
    OtherPlace(u32),
    /// Its tag with the low byte first, then its bytes.
    LowByteFirst,
    /// Its bytes, then its tag.
    PlaceLast,
}

/// A block that was not dealt yet, of any damage.
struct Block {
    /// Those before the check.
    bytes: Vec<u8>,
    over: Over,
    /// The place of a bit that is wrong, and its value in its byte.
    flipped: Option<(usize, u8)>,
}

fn block(kind: u8, word: u32, half: u16, byte: u8) -> Block {
    let mut bytes = vec![0; CHECKED];
    bytes[0] = kind;
    bytes[1..5].copy_from_slice(&word.to_be_bytes());
    bytes[5..7].copy_from_slice(&half.to_be_bytes());
    bytes[7] = byte;
    Block { bytes, over: Over::Place, flipped: None }
}

impl Block {
    /// Its 512 bytes as the block with this tag.
    fn dealt(&self, tag: u32) -> Vec<u8> {
        let check = match self.over {
            Over::Place => check([&tag.to_be_bytes(), &self.bytes]),
            Over::Bytes => check([&[], &self.bytes]),
            Over::OtherPlace(above) => check([&tag.wrapping_add(above).to_be_bytes(), &self.bytes]),
            Over::LowByteFirst => check([&tag.to_le_bytes(), &self.bytes]),
            Over::PlaceLast => check([&self.bytes, &tag.to_be_bytes()]),
        };
        let mut block = [&self.bytes[..], &check.to_be_bytes()].concat();
        if let Some((at, bit)) = self.flipped {
            block[at] ^= bit;
        }
        block
    }
}

fn dealt(blocks: impl IntoIterator<Item = Block>) -> Vec<Vec<u8>> {
    (1..).zip(blocks).map(|(tag, block)| block.dealt(tag)).collect()
}

fn deal(block: &[u8]) -> String {
    format!("blk {}", x(block))
}

/// Each block as it is, followed by the whole device.
fn shown_as(blocks: Vec<Vec<u8>>) -> Case {
    let mut lines = vec!["dck".to_string()];
    for block in blocks {
        lines.extend([deal(&block), "dev".into()]);
    }
    lines
}

fn shown(blocks: impl IntoIterator<Item = Block>) -> Case {
    shown_as(dealt(blocks))
}

pub fn exhaustive() -> Vec<Case> {
    let documented = [block(4, 0, 0, 0), block(8, 127, 1, 0xaa), block(8, 128, 1, 0xaa)];
    let mut cases = vec![
        shown([]),
        shown(documented),
        shown((1..=13).map(|kind| block(kind, 3, 2, 1))),
        shown(edges()),
        shown(refused()),
        shown(full_areas()),
        shown(one_area_filled()),
        short(&block(8, 0, 1, 9), 511),
        short(&block(12, 9, 1, 9), 1),
    ];
    cases.extend(out_of_place());
    cases.extend(over_other_bytes());
    cases
}

/// Reads, writes and erases at the ends of the flash.
fn edges() -> Vec<Block> {
    let mut blocks = Vec::new();
    for (first, count) in
        [(127, 1), (127, 2), (128, 0), (128, 1), (112, 16), (113, 16), (0, 16), (u32::MAX, 1)]
    {
        blocks.push(block(8, first, count, count as u8 + 1));
        blocks.push(block(7, first, count, 0));
    }
    for (kind, first, count) in [
        (5, 127, 1),
        (6, 0, 1),
        (5, 126, 3),
        (6, 129, 0),
        (5, 64, 64),
        (6, 0, 65_535),
        (5, 0, 129),
        (5, 0, 128),
    ] {
        blocks.push(block(kind, first, count, 0));
    }
    blocks
}

/// Every refusal of a block, one and two at a time: which one is named, and that the device is not touched.
fn refused() -> Vec<Block> {
    let mut blocks = vec![block(8, 5, 1, 7)];
    for (kind, word, half, byte) in [
        (0, 0, 0, 0),
        (13, 9, 1, 1),
        (14, 0, 0, 0),
        (255, 0, 0, 0),
        (7, 0, 17, 0),
        (8, 0, 17, 1),
        (8, 0, 65_535, 1),
        (12, 8_193, 1, 1),
        (13, u32::MAX, 1, 1),
        (9, 0, 0, 5),
        (9, 0, 0, 255),
        (9, 0, 17, 4),
        (5, 8_193, 17, 9),
    ] {
        blocks.push(block(kind, word, half, byte));
    }
    for at in [8, 9, 255, 256, 508, 509] {
        for kind in [8, 0, 9, 13] {
            let mut block = block(kind, 1, 17, 9);
            block.bytes[at] = 1;
            blocks.push(block);
        }
    }
    for at in [0, 7, 8, 509, 510, 511] {
        blocks.push(Block { flipped: Some((at, 1)), ..block(8, 5, 1, 9) });
        blocks.push(Block { flipped: Some((at, 1)), ..block(13, 5, 1, 9) });
    }
    blocks
}

/// Eight areas, then a ninth (58); what is held still grows, but not by an upload without a check (46).
fn full_areas() -> Vec<Block> {
    let mut blocks: Vec<_> =
        [9, 1, 65_535, 0, 3, 700, 2, 8].map(|area| block(12, u32::from(area) % 11, area, 0x5a)).into();
    blocks.extend([block(12, 0, 4, 1), block(12, 8_192, 5, 1), block(12, 5, 700, 2), block(12, 0, 4, 1)]);
    blocks.push(block(13, 5, 700, 2));
    blocks
}

/// To the slot's last byte, past it (59), and images that do not fit in an empty one: their first transfers stay.
fn one_area_filled() -> Vec<Block> {
    let mut blocks = Vec::new();
    for (length, area) in [
        (8_190, 1),
        (0, 1),
        (8_189, 2),
        (0, 2),
        (8_191, 3),
        (8_192, 4),
        (4_093, 5),
        (4_094, 5),
        (4_095, 6),
        (4_094, 6),
        (4_096, 7),
        (4_000, 7),
    ] {
        blocks.push(block(12, length, area, area as u8));
    }
    blocks
}

/// A short last block: nothing is dealt behind it.
fn short(block: &Block, length: usize) -> Case {
    let mut blocks = [1, 2, 3].map(|tag| block.dealt(tag));
    blocks[1].truncate(length);
    shown_as(blocks.into())
}

/// An erase, a write behind it, and three more.
fn ordered() -> [Block; 5] {
    [block(5, 0, 128, 0), block(8, 3, 2, 0x5a), block(12, 7, 9, 1), block(7, 3, 2, 0), block(9, 0, 0, 3)]
}

/// Two blocks exchanged, one dropped, one repeated: each has the check of the place that it had.
fn out_of_place() -> [Case; 3] {
    let mut decks = [(); 3].map(|()| dealt(ordered()));
    decks[0].swap(0, 1);
    decks[1].remove(2);
    let twice = decks[2][2].clone();
    decks[2].insert(3, twice);
    decks.map(shown_as)
}

/// Every block of a deck with a check that is not over its own tag and then its bytes.
fn over_other_bytes() -> [Case; 5] {
    [Over::Bytes, Over::OtherPlace(1), Over::OtherPlace(u32::MAX), Over::LowByteFirst, Over::PlaceLast]
        .map(|over| shown(ordered().map(|block| Block { over, ..block })))
}

fn good(rng: &mut Rng) -> Block {
    let first = match rng.below(5) {
        0 => rng.pick(&[0, 1, 111, 112, 113, 126, 127, 128, 129, u32::MAX]),
        _ => rng.below(130) as u32,
    };
    let count = if rng.one_in(8) { rng.half() } else { rng.below(18) as u16 };
    match rng.below(10) {
        0 => block(1 + rng.below(4) as u8, rng.word(), rng.half(), rng.byte()),
        1 | 2 => block(5 + rng.below(2) as u8, first, count, rng.byte()),
        3 => block(7, first, count, rng.byte()),
        4..=6 => block(8, first, count, rng.byte()),
        7 => block(9 + rng.below(3) as u8, rng.word(), rng.half(), rng.below(6) as u8),
        _ => upload(rng),
    }
}

/// To few areas, so that they fill; one in eight of kind 13, which is 46.
fn upload(rng: &mut Rng) -> Block {
    let length = match rng.below(3) {
        0 => rng.pick(&[0, 1, 4_093, 4_094, 4_095, 4_096, 8_188, 8_189, 8_190, 8_191, 8_192, 8_193]),
        1 => rng.below(300),
        _ => rng.below(8_194),
    };
    let kind = if rng.one_in(8) { 13 } else { 12 };
    block(kind, length as u32, rng.below(11) as u16, rng.byte())
}

/// One thing wrong, or two.
fn damaged(rng: &mut Rng) -> Block {
    let mut block = good(rng);
    for _ in 0..1 + rng.below(2) {
        match rng.below(4) {
            0 => block.bytes[0] = rng.byte(),
            1 => block.bytes[8 + rng.below(502)] = rng.byte(),
            2 => block.bytes[rng.below(8)] = rng.byte(),
            _ => {
                block.flipped = Some((rng.below(512), 1 << rng.below(8)));
                return block;
            }
        }
    }
    block
}

/// Mostly what it must be over; else nothing but the bytes, or another place.
fn over(rng: &mut Rng) -> Over {
    match rng.below(24) {
        0 => Over::Bytes,
        1 => Over::OtherPlace(rng.word()),
        _ => Over::Place,
    }
}

/// What the checks are over is drawn apart from the blocks.
pub fn random(rng: &mut Rng) -> Case {
    let mut places = rng.apart();
    let mut lines = vec!["dck".to_string()];
    let mut tag = 0;
    let until = 20 + rng.below(100);
    while lines.len() < until {
        let block = if rng.one_in(6) { damaged(rng) } else { good(rng) };
        tag += 1;
        lines.push(deal(&Block { over: over(&mut places), ..block }.dealt(tag)));
        if rng.one_in(2) {
            lines.push("dev".into());
        }
    }
    if rng.one_in(3) {
        let length = 1 + rng.below(511);
        lines.push(deal(&good(rng).dealt(tag + 1)[..length]));
    }
    lines.push("dev".into());
    lines
}

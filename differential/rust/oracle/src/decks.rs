//! The current deck: the Rust's default device, and blocks dealt to it. What the Rust has none of is worked out here
//! from the rules: the block's number and tag, and 40 to 46.

use std::ops::Range;

use crate::{
    operations,
    stand::Stand,
    text::{Answer, Reason, Stop, Tokens, hex},
    unchecked::Beside,
};

pub const BLOCK: usize = 512;
/// A block's bytes before its check.
pub const CHECKED: usize = 510;
const STORE: usize = 65_536;
const MOST_SECTORS: u16 = 16;
const MOST_IMAGE: u32 = 8_192;
const MOST_RESET: u8 = 4;
/// Upload without a check.
const WITHDRAWN: u8 = 13;

/// CRC-16/IBM-3740 of parts one after the other, bit by bit.
pub fn check(parts: [&[u8]; 2]) -> u16 {
    parts.into_iter().flatten().fold(0xffff, |crc, byte| {
        (0..8).fold(crc ^ (u16::from(*byte) << 8), |crc: u16, _| {
            if crc & 0x8000 == 0 { crc << 1 } else { (crc << 1) ^ 0x1021 }
        })
    })
}

/// The check that the block with this tag must have, over the tag and the bytes before the check.
pub fn block_check(tag: u32, block: &[u8]) -> [u8; 2] {
    check([&tag.to_be_bytes(), &block[..CHECKED]]).to_be_bytes()
}

pub struct Deck {
    stand: Stand,
    number: u64,
    tag: u32,
    is_open: bool,
}

pub fn start(tokens: &mut Tokens) -> Result<(Deck, String), Stop> {
    tokens.end()?;
    let deck = Deck { stand: Stand::fresh(STORE), number: 0, tag: 0, is_open: true };
    let answer = deck.shown();
    Ok((deck, answer))
}

/// A whole block's fields.
struct Fields {
    kind: u8,
    word: u32,
    half: u16,
    byte: u8,
}

fn fields(block: &[u8]) -> Fields {
    Fields {
        kind: block[0],
        word: u32::from_be_bytes([block[1], block[2], block[3], block[4]]),
        half: u16::from_be_bytes([block[5], block[6]]),
        byte: block[7],
    }
}

/// The block's own first broken rule, or what it asks for.
fn read(tag: u32, block: &[u8]) -> Result<Fields, u8> {
    if block.len() < BLOCK {
        return Err(44);
    }
    if block_check(tag, block) != block[CHECKED..] {
        return Err(40);
    }
    let asks = fields(block);
    if asks.kind == WITHDRAWN {
        return Err(46);
    }
    if !(1..=12).contains(&asks.kind) {
        return Err(41);
    }
    if block[8..CHECKED].iter().any(|byte| *byte != 0) {
        return Err(42);
    }
    let is_long = match asks.kind {
        7 | 8 => asks.half > MOST_SECTORS,
        12 => asks.word > MOST_IMAGE,
        _ => false,
    };
    if is_long {
        return Err(43);
    }
    if asks.kind == 9 && asks.byte > MOST_RESET {
        return Err(45);
    }
    Ok(asks)
}

/// The bytes that the operation of the block with this tag is to move, where it is one over sectors.
pub fn sector_bytes(tag: u32, block: &[u8]) -> Option<u64> {
    let asks = read(tag, block).ok()?;
    matches!(asks.kind, 7 | 8).then_some(u64::from(asks.half) * 512)
}

/// The arguments of the language's `opn`.
fn operation(asks: &Fields, tag: u32) -> String {
    let Fields { kind, word, half, byte } = *asks;
    let len = usize::from(half) * 512;
    match kind {
        1 => format!("chp {tag}"),
        2 => format!("fid {tag}"),
        3 => format!("fin {tag}"),
        4 => format!("cap {tag}"),
        5 => format!("era {tag} {word} {half}"),
        6 => format!("erf {tag} {word} {half}"),
        7 => format!("rdl {tag} {word} f {len} 0"),
        8 => format!("wrl {tag} {word} f {len} {byte}"),
        9 => format!("rst {tag} {byte}"),
        10 => format!("sto {tag}"),
        _ => format!("swi {tag} {} {byte}", u8::from(byte <= 12)),
    }
}

/// The value of a line, from what a run said.
fn value(kind: u8, said: &str) -> String {
    let mut words = said.split(' ');
    let number = words.next().unwrap_or_default();
    let value = words.next().unwrap_or_default();
    match kind {
        _ if number != "0" => format!("{number} -"),
        1..=4 => format!("0 {}", value.split(':').nth(1).unwrap_or_default()),
        7 | 8 => format!("0 {value}"),
        _ => "0 -".into(),
    }
}

impl Deck {
    fn shown(&self) -> String {
        format!("0 | {}", self.stand.show())
    }

    fn carry_out(&mut self, asks: &Fields, beside: &mut Beside) -> Result<String, Stop> {
        let Fields { kind, word, half, byte } = *asks;
        if kind == 12 {
            let image = format!("{half} f {word} {byte}");
            return Ok(operations::start_upload(&mut Tokens::new(&image), beside)?.ended(&mut self.stand));
        }
        let start = operation(asks, self.tag);
        Ok(operations::start(&mut Tokens::new(&start))?.ended(&mut self.stand))
    }

    pub fn deal(&mut self, tokens: &mut Tokens, beside: &mut Beside) -> Answer {
        let block = tokens.data()?;
        tokens.end()?;
        if block.len() > BLOCK {
            return Err(Stop(Reason::Unreadable));
        }
        if !self.is_open {
            return Err(Stop(Reason::NotThere));
        }
        self.is_open = block.len() == BLOCK;
        self.number += 1;
        self.tag = self.tag.wrapping_add(1);
        let came = match read(self.tag, &block) {
            Ok(asks) => value(asks.kind, &self.carry_out(&asks, beside)?),
            Err(refusal) => format!("{refusal} -"),
        };
        Ok(format!("{} {came}", self.number))
    }

    pub fn device(&mut self, tokens: &mut Tokens) -> Answer {
        tokens.end()?;
        Ok(self.shown())
    }
}

/// A line that deals a block right for the one tag, as the line that deals it right for the other; any other as it is.
fn moved(line: &str, from: u32, to: u32) -> String {
    let block = line.strip_prefix("blk ").and_then(|data| Tokens::new(data).data().ok());
    match block {
        Some(mut block) if block.len() == BLOCK && block_check(from, &block) == block[CHECKED..] => {
            let check = block_check(to, &block);
            block[CHECKED..].copy_from_slice(&check);
            format!("blk x{}", hex(&block))
        }
        _ => line.into(),
    }
}

/// The lines without some of them: a block that was right at its place is right at the one that it then has.
pub fn without(lines: &[String], dropped: Range<usize>) -> Vec<String> {
    let (mut from, mut to) = (0, 0);
    let mut kept = Vec::new();
    for (at, line) in lines.iter().enumerate() {
        let is_kept = !dropped.contains(&at);
        if line == "dck" {
            (from, to) = (0, if is_kept { 0 } else { to });
        }
        let is_block = line.starts_with("blk ");
        from += u32::from(is_block);
        to += u32::from(is_block && is_kept);
        if is_kept {
            kept.push(moved(line, from, to));
        }
    }
    kept
}

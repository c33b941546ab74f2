//! Long sequences on a NOR head: raw calls, runs and uploads by turns, most of them good.

use crate::{
    cases::{
        device::{self, ERASE_FORCE, ERASE_LBA, IN, OUT, READ_LBA, WRITE_LBA, control, disturbed, noise},
        make::{Block, Case, Rng, any_data, damage, x},
        operations::random_op,
        runs::{random_run, random_upload},
    },
    text::Tokens,
};

use super::{SPI_NOR, STORAGE, SWITCH};

const SECTOR: usize = 512;

/// What a head is thought to hold, by which data is picked that its cells take or refuse. It is a guess: calls that the
/// head refuses count as well.
struct Guess {
    cells: Vec<u8>,
    block: usize,
}

impl Guess {
    fn sectors(&self) -> usize {
        self.cells.len() / SECTOR
    }

    fn range(&mut self, first: usize, count: usize) -> &mut [u8] {
        let end = self.cells.len();
        &mut self.cells[(first * SECTOR).min(end)..((first + count) * SECTOR).min(end)]
    }

    fn write(&mut self, first: usize, data: &str) {
        let bytes = Tokens::new(data).data().expect("data that was made here");
        let cells = self.range(first, bytes.len() / SECTOR);
        cells.iter_mut().zip(bytes).for_each(|(cell, byte)| *cell &= byte);
    }
}

pub fn random(rng: &mut Rng) -> Case {
    let store = rng.pick(&[7, 64, 200, 512, 4096, 65_536, 65_536, 65_536]);
    let (start, mut guess) = random_start(rng, store);
    let mut lines = vec![start];
    if rng.one_in(8) {
        // A refused start before it.
        let flash = 1 + rng.below(511);
        let block = rng.below(2);
        lines.insert(0, format!("dvn {store} {block} f 16 0 f 5 0 f 8 0 f 5 0 f {flash} 255"));
    }
    let until = 40 + rng.below(100);
    while lines.len() < until {
        match rng.below(12) {
            0 => {
                let area = 100 + rng.below(6);
                random_upload(rng, area, &mut lines);
            }
            1 => lines.push(control(rng, 5)),
            2 => lines.push(noise(rng)),
            3..=7 => {
                let calls = transaction(rng, &mut guess);
                lines.extend(disturbed(rng, calls));
            }
            _ => {
                let start = operation(rng, &mut guess);
                random_run(rng, start, &mut lines);
            }
        }
    }
    lines
}

/// Blocks are mostly small, so that erases can be of whole ones; a flash is erased half of the time.
fn random_start(rng: &mut Rng, store: usize) -> (String, Guess) {
    let sectors =
        if rng.one_in(60) { rng.pick(&[64, 127, 128]) } else { rng.pick(&[0, 1, 2, 4, 4, 6, 8, 10, 12, 16]) };
    let block = match rng.below(12) {
        0 => 0,
        1 => rng.half(),
        2 => rng.pick(&[16, 64, 128, 65_535]),
        _ => rng.pick(&[1, 1, 2, 2, 3, 4, 4, 5, 7, 8]),
    };
    let len = sectors * SECTOR;
    let flash = if rng.one_in(2) { format!("f {len} 255") } else { any_data(rng, len) };
    let bytes = |rng: &mut Rng, len| x(&rng.bytes(len));
    let (chip, id, capability, extra) = (bytes(rng, 16), bytes(rng, 5), bytes(rng, 8), bytes(rng, 5));
    let cells = Tokens::new(&flash).data().expect("data that was made here");
    let start = format!("dvn {store} {block} {chip} {id} {capability} {extra} {flash}");
    (start, Guess { cells, block: block.into() })
}

/// A first sector and a count, in the flash but for one in ten.
fn sectors(rng: &mut Rng, guess: &Guess) -> (usize, usize) {
    let most = guess.sectors().min(if rng.one_in(20) { 127 } else { 5 });
    let count = if most == 0 || rng.one_in(8) { 0 } else { 1 + rng.below(most) };
    let first = rng.below(guess.sectors() - count + 1);
    if rng.one_in(10) { (first + rng.below(3), count + rng.below(2)) } else { (first, count) }
}

/// The same for an erase: of whole blocks but for one in four.
fn blocks(rng: &mut Rng, guess: &Guess) -> (usize, usize) {
    if rng.one_in(4) {
        return sectors(rng, guess);
    }
    let whole = guess.sectors().checked_div(guess.block).unwrap_or(0);
    let count = rng.below(whole.min(2) + 1);
    let first = rng.below(whole - count + 1);
    (first * guess.block, count * guess.block)
}

/// Data for these sectors: any at all, or by the cells. A byte that has no bit which its cell is without is taken.
fn data(rng: &mut Rng, guess: &mut Guess, first: usize, count: usize) -> String {
    let cells = guess.range(first, count);
    let common = cells.iter().fold(0xff, |all, cell| all & cell);
    let taken = common & rng.byte();
    let len = count * SECTOR;
    match rng.below(8) {
        0 | 1 => any_data(rng, len),
        2 => format!("f {len} {}", taken | 1 << rng.below(8)),
        3 | 4 if cells.len() == len && count == 1 => spelled(rng, cells),
        _ => format!("f {len} {taken}"),
    }
}

/// The cells as they are, or some of their bits; in half of the cases one byte asks for more.
fn spelled(rng: &mut Rng, cells: &[u8]) -> String {
    let mut bytes = cells.to_vec();
    if rng.one_in(2) {
        bytes.iter_mut().for_each(|byte| *byte &= rng.byte());
    }
    if rng.one_in(2) {
        let at = rng.pick(&[0, 1, 255, 256, 510, 511]);
        bytes[at] |= !cells[at] & rng.byte();
    }
    x(&bytes)
}

/// What is thought to be held after an erase of these sectors, if it was of whole blocks.
fn erased(guess: &mut Guess, first: usize, count: usize) {
    if first.is_multiple_of(guess.block) && count.is_multiple_of(guess.block) {
        guess.range(first, count).fill(0xff);
    }
}

fn transaction(rng: &mut Rng, guess: &mut Guess) -> Vec<String> {
    let block = Block { tag: rng.word(), ..Block::of(0, OUT, 0) };
    let (mut block, mut calls) = match rng.below(10) {
        0 => return device::transaction(rng, guess.sectors()),
        1 => {
            let opcode = if rng.one_in(2) { SPI_NOR } else { rng.byte() };
            (Block { code: SWITCH, opcode, ..block }, Vec::new())
        }
        2 => {
            let len = if rng.one_in(5) { rng.below(14) } else { 4 };
            let calls = vec![format!("brd {len} {}", rng.byte())];
            (Block { code: STORAGE, direction: IN, transfer: 4, ..block }, calls)
        }
        3 => reads(rng, guess, block),
        4 | 5 => {
            let (first, count) = blocks(rng, guess);
            erased(guess, first, count);
            let code = rng.pick(&[ERASE_LBA, ERASE_FORCE]);
            (Block { code, address: first as u32, count: count as u16, ..block }, Vec::new())
        }
        _ => writes(rng, guess, block),
    };
    if rng.one_in(20) {
        block.transfer = rng.word();
    }
    let mut bytes = block.bytes();
    if rng.one_in(20) {
        damage(rng, &mut bytes);
    }
    calls.insert(0, format!("bwr {}", x(&bytes)));
    calls.push(format!("brd {} {}", if rng.one_in(12) { rng.below(20) } else { 13 }, rng.byte()));
    calls
}

fn reads(rng: &mut Rng, guess: &Guess, block: Block) -> (Block, Vec<String>) {
    let (first, count) = sectors(rng, guess);
    let (address, transfer) = (first as u32, 1 + (count * SECTOR) as u32);
    let calls = vec![format!("brd {} {}", count * SECTOR, rng.byte())];
    (Block { code: READ_LBA, direction: IN, transfer, address, count: count as u16, ..block }, calls)
}

fn writes(rng: &mut Rng, guess: &mut Guess, block: Block) -> (Block, Vec<String>) {
    let (first, count) = sectors(rng, guess);
    let data = data(rng, guess, first, count);
    guess.write(first, &data);
    let (address, transfer) = (first as u32, 1 + (count * SECTOR) as u32);
    let calls = vec![format!("bwr {data}")];
    (Block { code: WRITE_LBA, transfer, address, count: count as u16, ..block }, calls)
}

/// The start of one, by the language's `opn`.
fn operation(rng: &mut Rng, guess: &mut Guess) -> String {
    let tag = rng.word();
    match rng.below(10) {
        0..=2 => random_op(rng, guess.sectors()).start,
        3 => format!("opn sto {tag}"),
        4 => {
            let index = if rng.one_in(2) { SPI_NOR } else { rng.below(13) as u8 };
            format!("opn swi {tag} 1 {index}")
        }
        5 | 6 => {
            let (first, count) = blocks(rng, guess);
            erased(guess, first, count);
            format!("opn {} {tag} {first} {}", rng.pick(&["era", "erf"]), count as u16)
        }
        _ => {
            let (first, count) = sectors(rng, guess);
            let data = data(rng, guess, first, count);
            guess.write(first, &data);
            format!("opn wrl {tag} {first} {data}")
        }
    }
}

//! Blocks of a deck per second: `bench` as a process beside one that does the same with the unchanged Rust.

use std::{
    env,
    fs::{self, File},
    io,
    path::PathBuf,
    process::{Command, Stdio},
};

use crate::{
    clock, original,
    page::{Amount, Row},
};

const BLOCKS: usize = 40_000;

/// Kind, address, count and byte, dealt over and over: every kind but the uploads, whose bounded store the Rust has
/// not.
const DEALT: [(u8, u32, u16, u8); 13] = [
    (1, 0, 0, 0),
    (2, 0, 0, 0),
    (3, 0, 0, 0),
    (4, 0, 0, 0),
    (5, 32, 16, 0),
    (8, 32, 1, 0xA5),
    (8, 64, 16, 0x5A),
    (7, 32, 1, 0),
    (7, 64, 16, 0),
    (6, 64, 8, 0),
    (9, 0, 0, 3),
    (10, 0, 0, 0),
    (11, 0, 0, 1),
];

fn block(tag: u32) -> [u8; 512] {
    let (kind, word, half, byte) = DEALT[(tag as usize - 1) % DEALT.len()];
    let mut block = [0; 512];
    block[0] = kind;
    block[1..5].copy_from_slice(&word.to_be_bytes());
    block[5..7].copy_from_slice(&half.to_be_bytes());
    block[7] = byte;
    let check = original::block_check(tag, &block);
    block[510..].copy_from_slice(&check);
    block
}

fn run(program: &PathBuf, deck: &PathBuf) -> io::Result<(f64, Vec<u8>)> {
    let start = clock::children();
    let out = Command::new(program).stdin(File::open(deck)?).stderr(Stdio::inherit()).output()?;
    Ok((clock::children() - start, out.stdout))
}

pub fn measured(turns: usize) -> io::Result<Row> {
    let bench = PathBuf::from(env::var("BENCH").map_err(io::Error::other)?);
    let theirs = env::current_exe()?.with_file_name("dealt");
    let deck = env::current_exe()?.with_file_name("speed.deck");
    let blocks: Vec<u8> = (1..=BLOCKS as u32).flat_map(block).collect();
    fs::write(&deck, blocks)?;
    let (mut proved, mut original) = (f64::INFINITY, f64::INFINITY);
    for _ in 0..turns {
        let ours = run(&bench, &deck)?;
        let other = run(&theirs, &deck)?;
        assert!(ours.1 == other.1, "bench and the Rust print the same");
        proved = proved.min(ours.0);
        original = original.min(other.0);
    }
    fs::remove_file(&deck)?;
    Ok(Row {
        group: "deck",
        name: format!("{BLOCKS} blocks, as a process"),
        amount: Amount::Blocks(BLOCKS),
        proved,
        original,
        plain: None,
        instructions: None,
    })
}

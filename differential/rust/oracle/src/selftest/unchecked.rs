//! Of the self-test, what is about uploads without a check: kind 13 of a deck, and the Rust's `write_area_no_crc`.

use rockusb::operation::{write_area, write_area_no_crc};

use super::{check, hold};
use crate::{
    compare::{Count, compare_case},
    decks::{BLOCK, CHECKED, block_check},
    oracle::Oracle,
    text::hex,
    unchecked::{Start, Transfer, apart, no_finish, transfers},
};

/// The first block of a deck, as a line: bytes 0 to 7, the byte at 8, and what is added to the check.
fn first_block(fields: [u8; 8], eighth: u8, wrong: u8) -> String {
    let mut block = [0; BLOCK];
    block[..8].copy_from_slice(&fields);
    block[8] = eighth;
    let sum = block_check(1, &block);
    block[CHECKED..].copy_from_slice(&[sum[0], sum[1].wrapping_add(wrong)]);
    format!("blk x{}", hex(&block))
}

pub fn withdrawn() -> Vec<String> {
    let mut bad = Vec::new();
    for (kind, long, eighth, wrong, wanted) in [
        (13, 0, 0, 0, "1 46 -"),
        (13, 0, 1, 0, "1 46 -"),
        (13, 255, 0, 0, "1 46 -"),
        (13, 255, 1, 0, "1 46 -"),
        (13, 0, 0, 1, "1 40 -"),
        (0, 0, 1, 0, "1 41 -"),
        (14, 0, 1, 0, "1 41 -"),
        (255, 255, 1, 0, "1 41 -"),
        (12, 0, 1, 0, "1 42 -"),
        (12, 255, 0, 0, "1 43 -"),
        (12, 0, 0, 0, "1 0 -"),
    ] {
        let mut oracle = Oracle::default();
        oracle.answer("dck");
        check(&mut bad, &mut oracle, &first_block([kind, long, 0, 0, 3, 0, 1, 9], eighth, wrong), wanted);
    }
    bad
}

/// P4 to P8, and the same sizes of the checked upload; then lengths around full blocks.
pub fn held() -> Vec<String> {
    let mut bad = Vec::new();
    for (length, sizes) in [
        (0, vec![2]),
        (4093, vec![4095]),
        (4094, vec![4096, 1]),
        (4095, vec![4096, 2]),
        (4096, vec![4096, 2]),
    ] {
        let image = vec![0; length];
        for list in [transfers(write_area(1, &image)), transfers(write_area_no_crc(1, &image))] {
            let got: Vec<usize> = list.iter().map(|one| one.data.len()).collect();
            hold(&mut bad, &format!("sizes of {length}"), &format!("{got:?}"), &format!("{sizes:?}"));
        }
        let zeros = transfers(write_area_no_crc(1, &image));
        if zeros.iter().flat_map(|one| &one.data).any(|byte| *byte != 0) {
            bad.push(format!("{length} zeros: not all is zero"));
        }
    }
    for length in (0..9).chain(4090..4100).chain(8186..8196) {
        let (checked, unchecked) = both(length);
        bad.extend(apart(length, &checked, &unchecked).map(|why| format!("{length}: {why}")));
    }
    bad
}

fn both(length: usize) -> (Vec<Transfer>, Vec<Transfer>) {
    let image: Vec<u8> = (0..length).map(|i| (i % 251) as u8 + 1).collect();
    (transfers(write_area(7, &image)), transfers(write_area_no_crc(7, &image)))
}

/// The lists of the same image with one thing wrong in the unchecked one.
fn damaged(length: usize) -> Vec<(&'static str, Vec<Transfer>)> {
    let list = both(length).1;
    let with = |change: fn(&mut Vec<Transfer>)| {
        let mut list = list.clone();
        change(&mut list);
        list
    };
    vec![
        ("the checked list itself", both(length).0),
        ("bytes that are missing", with(|list| list[0].data.truncate(1))),
        ("another area", with(|list| list[0].header = "64 12 0 8".into())),
        ("a transfer less", with(|list| list.truncate(list.len() - 1))),
        ("a transfer more", with(|list| list.push(list[0].clone()))),
    ]
}

/// Each byte of the lists that is another alone, and not found: the image's, the pad, the check's and the zero behind it.
fn missed(length: usize) -> Vec<String> {
    let (checked, mut list) = both(length);
    let mut bad = Vec::new();
    for at in 0..list.len() {
        for place in 0..list[at].data.len() {
            list[at].data[place] ^= 1;
            if apart(length, &checked, &list).is_none() {
                bad.push(format!("{length}: byte {place} of transfer {at} is not found"));
            }
            list[at].data[place] ^= 1;
        }
    }
    bad
}

/// Two lists that are as they should be, but of uploads that come to no finish.
fn unended(length: usize) -> Option<String> {
    let (mut checked, mut unchecked) = both(length);
    checked.push(no_finish());
    unchecked.push(no_finish());
    apart(length, &checked, &unchecked)
        .is_none()
        .then(|| format!("{length}: that there is no finish is not found"))
}

/// Uploads in place of the Rust's without a check: with one, of another image, and to another area.
const PLANTED: [Start; 3] = [
    write_area,
    |area, image| write_area_no_crc(area, &image[..image.len() - 1]),
    |area, image| write_area_no_crc(area ^ 1, image),
];

pub fn planted() -> Vec<String> {
    let mut bad = Vec::new();
    for length in [0, 5, 4093, 4094, 4095, 4096] {
        let checked = both(length).0;
        for (what, list) in damaged(length) {
            if apart(length, &checked, &list).is_none() {
                bad.push(format!("{length}: {what} is not found"));
            }
        }
        bad.extend(unended(length));
    }
    [0, 5, 4093, 4094, 4095, 4096].into_iter().for_each(|length| bad.extend(missed(length)));
    PLANTED.into_iter().for_each(|start| bad.extend(asked(start)));
    bad
}

/// Every call that uploads answers with what is apart, and a program that answers as the Rust then differs.
fn asked(start: Start) -> Vec<String> {
    let mut bad = Vec::new();
    let block = first_block([12, 0, 0, 0, 3, 0, 1, 9], 0, 0);
    for case in [
        vec!["upl 1 f 4095 7".to_string()],
        vec!["all 1 f 4095 7".into()],
        vec!["cut 1 1 9 f 4095 7".into()],
        vec!["dck".into(), block],
    ] {
        let mut rust = Oracle::default();
        let answers: String = case.iter().map(|line| rust.answer(line) + "\n").collect();
        let (mut oracle, mut count) = (Oracle::with_unchecked(start), Count::default());
        let went = compare_case(&mut oracle, &mut answers.as_bytes(), &case, &mut String::new(), &mut count);
        let told = oracle.complaints().iter().any(|told| told.contains(": write_area_no_crc: "));
        if !went.is_ok_and(|went| went) || count.differences != 1 || !told || oracle.images() != 1 {
            bad.push(format!("{}: what is apart is not found", case[case.len() - 1]));
        }
    }
    bad
}

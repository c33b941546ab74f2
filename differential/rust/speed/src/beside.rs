//! An earlier revision beside this one: the archives of both in one process, turn by turn.

use std::{hint::black_box, io};

use crate::{
    TURNS,
    cases::{LARGE, noise},
    copies,
    page::{Amount, share},
    proved::{ARCHIVES, Proved, row},
    stack, timed,
};

/// Seconds of the check and of the whole upload of one image, each the best of its turns.
#[derive(Clone, Copy)]
struct Best {
    check: f64,
    upload: f64,
}

/// The check, and what the upload left in the output.
fn answers(proved: &Proved, image: &[u8]) -> (u16, Vec<u8>) {
    let mut out = vec![0; 4096];
    assert_eq!(proved.upload_whole(image, &mut out), 0);
    (proved.update(0xFFFF, image), out)
}

fn measured(image: &[u8]) -> [Best; 2] {
    let mut out = vec![0; 4096];
    let mut best = [Best { check: f64::INFINITY, upload: f64::INFINITY }; 2];
    for turn in 0..TURNS {
        for (proved, best) in ARCHIVES.iter().zip(&mut best) {
            let mut check = || {
                black_box(proved.update(0xFFFF, black_box(image)));
            };
            best.check = best.check.min(timed(&mut check, 1, turn));
            let mut upload = || {
                black_box(proved.upload_whole(black_box(image), &mut out));
            };
            best.upload = best.upload.min(timed(&mut upload, 1, turn));
        }
    }
    best
}

fn speeds() -> String {
    let image = noise(LARGE.image);
    let amount = Amount::Bytes(image.len());
    assert!(answers(&ARCHIVES[0], &image) == answers(&ARCHIVES[1], &image), "both revisions give the same");
    let best = measured(&image);
    row("whole upload of 64 MiB", best.iter().map(|b| amount.figure(b.upload)))
        + &row("check of 64 MiB (`crc::update`)", best.iter().map(|b| amount.figure(b.check)))
        + &row(
            "share of the check's speed that the upload has",
            best.iter().map(|b| share(b.check, b.upload)),
        )
}

/// The revisions are told as their trees tell them.
pub fn print(earlier: &str, now: &str) -> io::Result<()> {
    print!("| | earlier, {earlier} | now, {now} |\n|---|---|---|\n");
    print!("| **copies, clears** | | |\n{}", copies(", ")?);
    print!("| **bytes of stack** | | |\n{}", stack::rows());
    print!("| **speed, the best of {TURNS} turns** | | |\n{}", speeds());
    Ok(())
}

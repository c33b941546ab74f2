//! What is measured. Every case is shown once to give the same on all its sides before it is timed.

use std::{cell::RefCell, hint::black_box, rc::Rc};

use rockusb_mock::MockDevice;

use crate::{
    original,
    proved::{self, AREA, NOW},
};

/// How long the image is, and how many sectors the flash has.
#[derive(Clone, Copy)]
pub struct Scale {
    pub image: usize,
    pub sectors: usize,
}

/// For the clock.
pub const LARGE: Scale = Scale { image: 64 << 20, sectors: 65_536 };
/// For counting instructions of single calls.
pub const SMALL: Scale = Scale { image: 4096, sectors: 8 };

const BLOCK: usize = 4096;

unsafe extern "C" {
    fn loops_make();
    fn loops_bytewise(crc: u16, bytes: *const u8, length: usize) -> u16;
    fn loops_by_eight(crc: u16, bytes: *const u8, length: usize) -> u16;
}

/// One way to do the work of a case, once.
pub type Side = Box<dyn FnMut()>;

pub struct Case {
    pub group: &'static str,
    pub name: String,
    /// Bytes that one time moves; without them a row is in time per call.
    pub bytes: Option<usize>,
    /// How many times make a turn long enough to be timed.
    pub times: usize,
    /// Too short for the clock alone.
    pub counted: bool,
    pub proved: Side,
    pub original: Side,
    /// The check by a C table loop, and by one that takes eight bytes at a time.
    pub plain: Option<[Side; 2]>,
}

/// Bytes that no compiler foresees.
pub fn noise(length: usize) -> Vec<u8> {
    let mut x: u32 = 1;
    let mut next = || {
        x = x.wrapping_mul(1_664_525).wrapping_add(1_013_904_223);
        (x >> 24) as u8
    };
    (0..length).map(|_| next()).collect()
}

fn many(n: usize, what: &str) -> String {
    format!("{n} {what}{}", if n == 1 { "" } else { "s" })
}

fn bytewise(bytes: &[u8]) -> u16 {
    unsafe { loops_bytewise(0xFFFF, bytes.as_ptr(), bytes.len()) }
}

fn by_eight(bytes: &[u8]) -> u16 {
    unsafe { loops_by_eight(0xFFFF, bytes.as_ptr(), bytes.len()) }
}

type Update = fn(u16, &[u8]) -> u16;

fn check(image: &Rc<Vec<u8>>, length: usize, update: Update, form: &str) -> Case {
    let whole = length == image.len();
    let (a, b, c, d) = (image.clone(), image.clone(), image.clone(), image.clone());
    let bytes = &image[..length];
    assert_eq!(update(0xFFFF, bytes), original::check(bytes));
    assert_eq!(bytewise(bytes), original::check(bytes));
    assert_eq!(by_eight(bytes), original::check(bytes));
    let size = if whole { "64 MiB".into() } else { many(length, "byte") };
    Case {
        group: "check",
        name: format!("{size}{form}"),
        bytes: whole.then_some(length),
        times: if whole { 1 } else { 200_000 / length.max(8) },
        counted: !whole,
        proved: Box::new(move || {
            black_box(update(0xFFFF, black_box(&a[..length])));
        }),
        original: Box::new(move || {
            black_box(original::check(black_box(&b[..length])));
        }),
        plain: Some([
            Box::new(move || {
                black_box(bytewise(black_box(&c[..length])));
            }),
            Box::new(move || {
                black_box(by_eight(black_box(&d[..length])));
            }),
        ]),
    }
}

/// A whole upload, or one in parts of `size` bytes. The Rust has no parts: its whole upload stands beside them.
fn upload(image: &Rc<Vec<u8>>, size: Option<usize>) -> Case {
    let (a, b) = (image.clone(), image.clone());
    let length = image.len();
    let whole = move |image: &[u8], out: &mut [u8]| match size {
        None => NOW.upload_whole(image, out),
        Some(size) => NOW.upload_parts(size, image, out, u64::MAX),
    };
    let mut out = vec![0; BLOCK];
    assert_eq!(whole(image, &mut out), 0);
    assert_eq!(out[..2], original::upload(AREA, image).0);
    let name = size.map_or("whole".into(), |size| format!("parts of {size}"));
    Case {
        group: "upload of 64 MiB",
        name,
        bytes: Some(length),
        times: 1,
        counted: false,
        proved: Box::new(move || {
            black_box(whole(black_box(&a), &mut out));
        }),
        original: Box::new(move || {
            black_box(original::upload(AREA, black_box(&b)));
        }),
        plain: None,
    }
}

fn command_write() -> Case {
    let (mut ours, mut theirs) = ([0; 31], [0; 31]);
    assert_eq!(proved::command_write(0, 64, 2, &mut ours), 0);
    assert_eq!(original::command_write(64, 2, &mut theirs), 31);
    assert_eq!(ours, theirs);
    Case {
        group: "command",
        name: "write".into(),
        bytes: None,
        times: 100_000,
        counted: true,
        proved: Box::new(move || {
            proved::command_write(0, black_box(64), black_box(2), black_box(&mut ours));
        }),
        original: Box::new(move || {
            original::command_write(black_box(64), black_box(2), black_box(&mut theirs));
        }),
        plain: None,
    }
}

fn command_read() -> Case {
    let mut bytes = [0; 31];
    proved::command_write(0, 64, 2, &mut bytes);
    assert_eq!(proved::command_read(&bytes), original::command_read(&bytes));
    Case {
        group: "command",
        name: "read".into(),
        bytes: None,
        times: 100_000,
        counted: true,
        proved: Box::new(move || {
            black_box(proved::command_read(black_box(&bytes)));
        }),
        original: Box::new(move || {
            black_box(original::command_read(black_box(&bytes)));
        }),
        plain: None,
    }
}

const FIRST: u32 = 1;

struct Bench {
    flash: Vec<u8>,
    mock: MockDevice,
}

fn sector_times(sectors: usize) -> usize {
    (1 << 16) / (sectors + 31) + 1
}

/// All of `length` bytes were moved, and the Rust, which tells how many were moved alone, says the same.
fn assert_whole(counts: [u32; 2], transferred: u32, length: usize) {
    assert_eq!(counts, [length as u32; 2]);
    assert_eq!(counts[0], transferred);
}

fn read(bench: &Rc<RefCell<Bench>>, sectors: usize) -> Case {
    let (a, b) = (bench.clone(), bench.clone());
    let length = sectors * 512;
    let (mut ours, mut theirs) = (vec![0; length], vec![1; length]);
    let mut both = bench.borrow_mut();
    let mut counts = [0; 2];
    assert_eq!(proved::read_sectors(FIRST, &mut both.flash, &mut ours, &mut counts), 0);
    assert_whole(counts, original::read_sectors(&mut both.mock, FIRST, &mut theirs), length);
    assert!(ours == theirs);
    Case {
        group: "sector read",
        name: many(sectors, "sector"),
        bytes: Some(length),
        times: sector_times(sectors),
        counted: sectors == 1,
        proved: Box::new(move || {
            proved::read_sectors(
                FIRST,
                &mut a.borrow_mut().flash,
                black_box(&mut ours),
                black_box(&mut counts),
            );
        }),
        original: Box::new(move || {
            original::read_sectors(&mut b.borrow_mut().mock, FIRST, black_box(&mut theirs));
        }),
        plain: None,
    }
}

fn write(bench: &Rc<RefCell<Bench>>, sectors: usize) -> Case {
    let (a, b) = (bench.clone(), bench.clone());
    let length = sectors * 512;
    let data = noise(length + 1)[1..].to_vec();
    let again = data.clone();
    let mut both = bench.borrow_mut();
    let mut counts = [0; 2];
    assert_eq!(proved::write_sectors(FIRST, &mut both.flash, &data, &mut counts), 0);
    assert_whole(counts, original::write_sectors(&mut both.mock, FIRST, &data), length);
    assert!(both.flash == both.mock.flash());
    Case {
        group: "sector write",
        name: many(sectors, "sector"),
        bytes: Some(length),
        times: sector_times(sectors),
        counted: sectors == 1,
        proved: Box::new(move || {
            proved::write_sectors(FIRST, &mut a.borrow_mut().flash, black_box(&data), black_box(&mut counts));
        }),
        original: Box::new(move || {
            original::write_sectors(&mut b.borrow_mut().mock, FIRST, black_box(&again));
        }),
        plain: None,
    }
}

const SIZES: [usize; 8] = [1, 2, 8, 64, 512, 4096, 16_384, 65_535];

const PARTS: [usize; 3] = [512, 4096, 65_536];

pub fn all(scale: Scale) -> Vec<Case> {
    unsafe { loops_make() };
    let image = Rc::new(noise(scale.image));
    let flash = noise(scale.sectors * 512);
    let bench = Rc::new(RefCell::new(Bench { mock: original::device(flash.clone()), flash }));
    let update: Update = |crc, bytes| NOW.update(crc, bytes);
    let by_table: Update = |crc, bytes| NOW.update_by_table(crc, bytes);
    let mut cases: Vec<Case> = [scale.image, 1, 8, 64, 512].map(|n| check(&image, n, update, "")).into();
    cases.extend([scale.image, 1, 8, 64].map(|n| check(&image, n, by_table, ", by the table")));
    cases.push(upload(&image, None));
    cases.extend(PARTS.map(|n| upload(&image, Some(n))));
    cases.extend([command_write(), command_read()]);
    let sizes = || SIZES.into_iter().filter(|n| *n < scale.sectors);
    cases.extend(sizes().map(|n| read(&bench, n)));
    cases.extend(sizes().map(|n| write(&bench, n)));
    cases
}

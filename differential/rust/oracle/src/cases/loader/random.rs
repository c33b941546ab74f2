//! Loader files by a seed.

use super::{ENTRY, Entry, HEADER, Header, LONGEST, List, SPELLED, entry, header, list, put};
use crate::cases::make::{Case, Rng, any_data, damage, x};

pub fn random(rng: &mut Rng) -> Case {
    if !rng.one_in(8) {
        return vec![record(rng)];
    }
    let mut case = match rng.below(40) {
        0 => long(rng),
        1..=8 => anything(rng),
        _ => made(rng),
    };
    let until = case.len() + 6 + rng.below(24);
    case.extend(["exa".into(), "wlk".into()]);
    let mut record = (0, 0);
    while case.len() < until {
        case.push(asked(rng, &mut record));
    }
    case
}

/// One record, whole or damaged.
fn record(rng: &mut Rng) -> String {
    let (name, len) = rng.pick(&[("tim", 7), ("lis", 6), ("ent", ENTRY), ("hdr", HEADER), ("hdr", HEADER)]);
    if rng.one_in(12) {
        let len = len + rng.below(20);
        return format!("{name} {}", any_data(rng, len.saturating_sub(10)));
    }
    let mut bytes = if name == "hdr" { any_header(rng).bytes() } else { rng.bytes(len) };
    for _ in 0..rng.below(3) {
        damage(rng, &mut bytes);
    }
    if name == "hdr" && bytes.len() > 4 && rng.one_in(8) {
        bytes.swap(rng.below(4), rng.below(4));
    }
    format!("{name} {}", x(&bytes))
}

fn any_header(rng: &mut Rng) -> Header {
    let lists = [(); 3].map(|()| list(rng.byte(), rng.word(), rng.byte()));
    Header {
        tag: rng.pick(&[*b"BOOT", *b"LDR "]),
        size: rng.half(),
        version: rng.word(),
        merge: rng.word(),
        time: [(); 7].map(|()| rng.byte()),
        chip: [(); 4].map(|()| rng.byte()),
        flags: [rng.byte(), rng.byte()],
        rest: rng.byte(),
        ..header(lists)
    }
}

/// A length near the file's end, a small one, or any.
fn edge(rng: &mut Rng, end: u32) -> u32 {
    match rng.below(4) {
        0 => end.wrapping_add(rng.below(5) as u32).wrapping_sub(2),
        1 => rng.below(end as usize + 2) as u32,
        2 => end.wrapping_sub(rng.below(2 * ENTRY) as u32),
        _ => rng.word(),
    }
}

/// Most of them with data that the file has.
fn any_entry(rng: &mut Rng, len: u32) -> Entry {
    let place = rng.below(len as usize + 1) as u32;
    let length = if rng.one_in(4) { len - place } else { rng.below((len - place) as usize + 1) as u32 };
    let mut made = Entry {
        size: if rng.one_in(2) { 57 } else { rng.byte() },
        of_type: rng.word(),
        delay: rng.word(),
        ..entry("", place, length)
    };
    for unit in made.name.iter_mut().take(rng.below(21)) {
        *unit = rng.half();
    }
    match rng.below(40) {
        0 => made.place = edge(rng, len),
        1 => made.length = edge(rng, len.saturating_sub(made.place)),
        2 => (made.place, made.length) = (rng.word(), rng.word()),
        3 => (made.place, made.length) = (len, 0),
        _ => {}
    }
    made
}

/// A file as a tool would make it, then up to three changes to it.
fn made(rng: &mut Rng) -> Case {
    let mut lists = [(); 3].map(|()| {
        let count = rng.pick(&[0, 1, 1, 1, 2, 2, 3, 4]);
        list(count, 0, rng.pick(&[57, 57, 57, 57, 58, 64, 80, 255]))
    });
    let mut end = HEADER;
    for one in &mut lists {
        one.offset = (end + if rng.one_in(3) { rng.below(9) } else { 0 }) as u32;
        end = one.offset as usize + usize::from(one.count) * usize::from(one.size);
    }
    let len = end + rng.below(60);
    let mut file = vec![rng.byte(); len];
    file[..HEADER].copy_from_slice(&Header { lists, ..any_header(rng) }.bytes());
    for one in lists {
        for n in 0..usize::from(one.count) {
            let at = one.offset as usize + n * usize::from(one.size);
            file[at..at + ENTRY].copy_from_slice(&any_entry(rng, len as u32).bytes());
        }
    }
    if rng.one_in(3) {
        for _ in 0..1 + rng.below(3) {
            change(rng, &mut file);
        }
    }
    start(&file)
}

/// One field of a list, a byte, or the file's end.
fn change(rng: &mut Rng, file: &mut Vec<u8>) {
    let at = 25 + 6 * rng.below(3);
    let len = file.len() as u32;
    if file.len() < HEADER {
        return damage(rng, file);
    }
    match rng.below(8) {
        0 => file[at] = rng.pick(&[0, 1, 2, 3, 4, 255]),
        1 => file[at + 5] = rng.pick(&[0, 1, 55, 56, 57, 58, 114, 255]),
        2 | 3 => file[at + 1..at + 5].copy_from_slice(&edge(rng, len).to_le_bytes()),
        4 => damage(rng, file),
        5 => file.truncate(file.len() - rng.below(ENTRY)),
        6 if rng.one_in(3) => file[rng.below(4)] = rng.byte(),
        _ => file.truncate(file.len() - 1),
    }
}

fn start(file: &[u8]) -> Case {
    if file.len() <= SPELLED {
        return vec![format!("fil {}", x(file))];
    }
    let mut case = vec![format!("fil f {} {}", file.len(), file[file.len() - 1])];
    case.extend(file.chunks(SPELLED).enumerate().map(|(n, part)| put(n * SPELLED, part)));
    case
}

/// Lists with any fields over a file of any bytes, or of zeros, which are right entries.
fn anything(rng: &mut Rng) -> Case {
    let len = if rng.one_in(9) { rng.below(HEADER + 2) } else { HEADER + rng.below(900) };
    let byte = if rng.one_in(2) { 0 } else { rng.byte() };
    let first =
        if rng.one_in(4) { format!("fil s {len} {}", rng.word()) } else { format!("fil f {len} {byte}") };
    let lists = [(); 3].map(|()| any_list(rng, len as u32));
    let tag = if rng.one_in(9) { *b"BOO\0" } else { rng.pick(&[*b"BOOT", *b"LDR "]) };
    let mut case = vec![first, put(0, &Header { tag, ..header(lists) }.bytes()[..45])];
    for _ in 0..rng.below(3) {
        let at = match rng.below(2) {
            0 => rng.below(len + 1),
            _ => lists[rng.below(3)].offset as usize % (len + 1),
        };
        case.push(put(at, &any_entry(rng, len as u32).bytes()));
    }
    case
}

fn any_list(rng: &mut Rng, len: u32) -> List {
    let count = if rng.one_in(3) { rng.byte() } else { rng.below(5) as u8 };
    let size = if rng.one_in(6) { rng.byte() } else { 57 + rng.below(9) as u8 };
    if rng.one_in(3) {
        return list(count, edge(rng, len), size);
    }
    let wanted = u32::from(count) * u32::from(size);
    list(count, len.saturating_sub(wanted).saturating_add(rng.below(2) as u32).saturating_sub(1), size)
}

/// Many entries in a long file of zeros, some of which have fields.
fn long(rng: &mut Rng) -> Case {
    let len = HEADER + ENTRY + rng.below(LONGEST - HEADER - ENTRY + 1);
    let lists = [(); 3].map(|()| {
        let size = rng.pick(&[57, 57, 58, 64, 100, 255]);
        let most = (len - HEADER - ENTRY) / usize::from(size) + 1;
        let any = rng.below(256);
        let count = rng.pick(&[most, most, most + 1, 255, any]).min(255);
        list(count as u8, HEADER as u32, size)
    });
    let mut case = vec![format!("fil f {len} 0"), put(0, &header(lists).bytes()[..45])];
    for _ in 0..1 + rng.below(4) {
        let one = lists[rng.below(3)];
        let n = rng.below(usize::from(one.count) + 1);
        let at = (one.offset as usize + n * usize::from(one.size)).min(len);
        case.push(put(at, &any_entry(rng, len as u32).bytes()));
    }
    case
}

/// A call about the file. The record goes on as a walk's mostly would.
fn asked(rng: &mut Rng, record: &mut (u8, u16)) -> String {
    match rng.below(12) {
        0 => "exa".into(),
        1 => "wlk".into(),
        2 => {
            let place = if rng.one_in(4) { rng.next() } else { rng.below(700) as u64 };
            let length = if rng.one_in(4) { rng.next() } else { rng.below(200) as u64 };
            format!("dat {place} {length}")
        }
        3 => format!("nxt {} {}", rng.byte(), rng.half()),
        4 => format!("nxt {} {}", rng.below(4), rng.below(260)),
        _ => {
            let (list, entry) = *record;
            *record = if rng.one_in(3) { (list.saturating_add(1) % 4, 0) } else { (list, entry + 1) };
            format!("nxt {list} {entry}")
        }
    }
}

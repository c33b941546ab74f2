//! Loader files: the records, and walks over files that are right, wrong in one place or in several.

mod random;

use std::{iter::once, ops::Range};

use super::make::{Case, each, x};

pub use random::random;

/// The most that a file has here.
pub const LONGEST: usize = 65_536;
/// The most bytes of a file that one line spells, and that it spells behind a header.
pub const SPELLED: usize = 1_900;
pub const HEADER: usize = 102;
/// What of a header is looked at.
const READ: usize = 45;
pub const ENTRY: usize = 57;
/// Where the three lists stand in a header.
const LISTS: usize = 25;

#[derive(Clone, Copy)]
pub struct List {
    pub count: u8,
    pub offset: u32,
    pub size: u8,
}

pub const fn list(count: u8, offset: u32, size: u8) -> List {
    List { count, offset, size }
}

/// None of its entries is looked at.
const WILD: List = list(0, u32::MAX, 0);

impl List {
    fn bytes(&self) -> Vec<u8> {
        let mut bytes = vec![self.count];
        bytes.extend(self.offset.to_le_bytes());
        bytes.push(self.size);
        bytes
    }
}

#[derive(Clone, Copy)]
pub struct Header {
    pub tag: [u8; 4],
    pub size: u16,
    pub version: u32,
    pub merge: u32,
    pub time: [u8; 7],
    pub chip: [u8; 4],
    pub lists: [List; 3],
    pub flags: [u8; 2],
    /// Every byte behind those that are looked at.
    pub rest: u8,
}

/// As the vendor's tools make it, but for the lists.
pub const fn header(lists: [List; 3]) -> Header {
    Header {
        tag: *b"LDR ",
        size: HEADER as u16,
        version: 0x0102_0304,
        merge: 0x0506_0708,
        time: [0xe8, 0x07, 11, 16, 18, 36, 59],
        chip: *b"8853",
        lists,
        flags: [1, 0],
        rest: 0,
    }
}

impl Header {
    pub fn bytes(&self) -> Vec<u8> {
        let mut bytes = self.tag.to_vec();
        bytes.extend(self.size.to_le_bytes());
        bytes.extend(self.version.to_le_bytes());
        bytes.extend(self.merge.to_le_bytes());
        bytes.extend(self.time);
        bytes.extend(self.chip);
        self.lists.iter().for_each(|list| bytes.extend(list.bytes()));
        bytes.extend(self.flags);
        bytes.resize(HEADER, self.rest);
        bytes
    }
}

#[derive(Clone, Copy)]
pub struct Entry {
    pub size: u8,
    pub of_type: u32,
    pub name: [u16; 20],
    pub place: u32,
    pub length: u32,
    pub delay: u32,
}

pub fn entry(name: &str, place: u32, length: u32) -> Entry {
    let mut units = [0; 20];
    name.encode_utf16().zip(&mut units).for_each(|(unit, at)| *at = unit);
    Entry { size: ENTRY as u8, of_type: 1, name: units, place, length, delay: 0x0a0b_0c0d }
}

impl Entry {
    pub fn bytes(&self) -> Vec<u8> {
        let mut bytes = vec![self.size];
        bytes.extend(self.of_type.to_le_bytes());
        self.name.iter().for_each(|unit| bytes.extend(unit.to_le_bytes()));
        [self.place, self.length, self.delay].iter().for_each(|word| bytes.extend(word.to_le_bytes()));
        bytes
    }
}

pub fn put(place: usize, bytes: &[u8]) -> String {
    format!("put {place} {}", x(bytes))
}

/// A file of zeros that starts with a header. A list whose entries are zeros is right: their data is of length 0 at 0.
fn zeros(len: usize, lists: [List; 3]) -> Case {
    vec![format!("fil f {len} 0"), put(0, &header(lists).bytes()[..READ])]
}

/// The three lists of the current file, from here on.
fn with_lists(lists: [List; 3]) -> String {
    put(LISTS, &header(lists).bytes()[LISTS..LISTS + 18])
}

fn whole() -> [String; 2] {
    ["exa".into(), "wlk".into()]
}

fn next(list: u8, entry: u16) -> String {
    format!("nxt {list} {entry}")
}

pub fn exhaustive() -> Vec<Case> {
    let mut cases = records();
    cases.extend([vendors(*b"BOOT"), vendors(*b"LDR ")]);
    cases.extend(short_files());
    cases.extend(sizes());
    cases.extend([refusals(), ends_of_data(), ends_of_entries(), past_32_bits(), empty()]);
    cases.extend([apart(), laid_over(), farthest()]);
    cases.extend(parts());
    cases
}

fn records() -> Vec<Case> {
    let one = entry("FlashData", 0x0102_0304, 0xfffe_fdfc).bytes();
    let all = header([list(1, 0x0203_0405, 57), list(2, 0x8090_a0b0, 58), list(255, u32::MAX, 255)]).bytes();
    let mut lines = Vec::new();
    for (name, bytes) in [("tim", &all[14..21]), ("lis", &all[25..31]), ("ent", &one)] {
        lines.extend(one_record(name, bytes, 0, &[1, 2, 100, 300]));
    }
    // its first four bytes are those of `tags`
    lines.extend(one_record("hdr", &all, 4, &[1, 2, 57, 102, 300, 1_000, SPELLED]));
    for extreme in [0, 255] {
        let mut bytes = [extreme; HEADER + 1];
        bytes[..4].copy_from_slice(b"BOOT");
        lines.extend([HEADER, HEADER + 1].map(|len| format!("hdr {}", x(&bytes[..len]))));
    }
    lines.extend([0, 1, 3, 4, 5, 44, 45, 46, 57, 100, 101].map(|len| format!("hdr f {len} 66")));
    lines.extend(tags().iter().map(|tag| format!("hdr {}", x(&[&tag[..], &all[4..]].concat()))));
    each(lines)
}

/// A record that is short by each number of bytes, whole, with each byte changed from a place on, and with so many bytes
/// behind it; and some that are made.
fn one_record(name: &str, bytes: &[u8], from: usize, behind: &[usize]) -> Vec<String> {
    let mut all: Vec<Vec<u8>> = (0..bytes.len()).map(|len| bytes[..len].to_vec()).collect();
    all.extend(single_bytes(bytes, from..bytes.len()));
    let more = |n: &usize| [bytes, &(0..*n).map(|i| i as u8 ^ 0xa5).collect::<Vec<_>>()].concat();
    all.extend(behind.iter().map(more));
    let mut lines: Vec<String> = all.iter().map(|bytes| format!("{name} {}", x(bytes))).collect();
    for len in [bytes.len(), bytes.len() + 1, 200, LONGEST] {
        lines.extend(["f", "r", "s"].map(|form| format!("{name} {form} {len} 255")));
    }
    lines
}

/// The bytes, and the same with one byte the other way round, for each of these places.
fn single_bytes(bytes: &[u8], places: Range<usize>) -> impl Iterator<Item = Vec<u8>> + use<> {
    let bytes = bytes.to_vec();
    once(bytes.clone()).chain(places.map(move |place| {
        let mut other = bytes.clone();
        other[place] = !other[place];
        other
    }))
}

/// Both tags, with one byte changed, with each other's bytes, and backwards.
fn tags() -> Vec<[u8; 4]> {
    let mut tags = vec![*b"TOOB", *b" RDL", *b"boot", *b"ldr ", *b"LDR\0", [0; 4], [255; 4], *b"OOTB"];
    for (tag, other) in [(*b"BOOT", *b"LDR "), (*b"LDR ", *b"BOOT")] {
        tags.push(tag);
        for at in 0..4 {
            for byte in [tag[at] ^ 1, tag[at] ^ 32, other[at]] {
                let mut near = tag;
                near[at] = byte;
                tags.push(near);
            }
            tags.push([&tag[..at], &other[at..]].concat().try_into().expect("four bytes"));
        }
    }
    tags
}

/// Two entries, one and two, then their data; steps from records of any values, and the data.
fn vendors(tag: [u8; 4]) -> Case {
    let lists = [list(2, 102, 57), list(1, 216, 57), list(2, 273, 57)];
    let mut file = Header { tag, ..header(lists) }.bytes();
    let names =
        [("DDR", 387, 16), ("", 403, 1), ("usbplug", 404, 0), ("FlashData", 404, 64), ("FlashBoot", 468, 32)];
    names.iter().for_each(|(name, place, length)| file.extend(entry(name, *place, *length).bytes()));
    file.extend((0..113).map(|n| n as u8 ^ 0xa5));
    let mut lines = vec![format!("fil {}", x(&file))];
    lines.extend(whole());
    lines.extend(records_of_walks());
    lines.extend(names.iter().map(|(_, place, length)| format!("dat {place} {length}")));
    lines
}

fn records_of_walks() -> Vec<String> {
    let entries = [0, 1, 2, 3, 254, 255, 256, 300, 65_535];
    [0, 1, 2, 3, 4, 7, 255].iter().flat_map(|list| entries.map(|entry| next(*list, entry))).collect()
}

/// 70 comes before 71, and both before all else, whatever a walk's record is.
fn short_files() -> Vec<Case> {
    let lists = [list(1, 0, 0), list(1, 0, 57), WILD];
    let good = header(lists).bytes();
    let tagged = |tag: &[u8; 4]| Header { tag: *tag, ..header(lists) }.bytes();
    let mut files: Vec<Vec<u8>> = [0, 1, 4, 101, 102].map(|len| good[..len].to_vec()).into();
    files.push(tagged(b"LDR!")[..101].to_vec());
    files.extend([b"LDR!", b"BOO ", b"\0\0\0\0"].map(tagged));
    let asked = |file: &Vec<u8>| {
        let mut lines = vec![format!("fil {}", x(file))];
        lines.extend(whole());
        for (list, entry) in [(0, 0), (0, 1), (1, 0), (2, 0), (7, 300), (255, 65_535)] {
            lines.push(next(list, entry));
        }
        lines.push("dat 0 1".into());
        lines
    };
    files.iter().map(asked).collect()
}

/// Each size field at the edge with 1, 2 and 255 entries, in each list: the file ends with the last entry, and one byte
/// before that.
fn sizes() -> Vec<Case> {
    let mut cases = Vec::new();
    for (size, count) in [
        (0, 1),
        (1, 255),
        (56, 1),
        (56, 2),
        (57, 1),
        (57, 2),
        (57, 255),
        (58, 2),
        (58, 255),
        (128, 3),
        (255, 2),
        (255, 255),
    ] {
        let last = HEADER + usize::from(size) * (usize::from(count) - 1);
        for less in [0, 1] {
            let mut case =
                vec![format!("fil f {} 0", last + ENTRY - less), put(0, &header([WILD; 3]).bytes()[..READ])];
            case.push(put(last, &entry("last", 0, 102).bytes()));
            for at in 0..3 {
                let mut lists = [WILD; 3];
                lists[at] = list(count, HEADER as u32, size);
                case.push(with_lists(lists));
                case.extend(whole());
                let (at, count) = (at as u8, u16::from(count));
                case.extend([0, count - 1, count].map(|entry| next(at, entry)));
            }
            cases.push(case);
        }
    }
    cases
}

/// Each list empty, right, and wrong in each way, with each of the others: which refusal comes first, and where.
fn refusals() -> Case {
    let len = 400;
    let bad = 300;
    let ways = [
        WILD,
        list(2, 110, 57),
        list(2, 110, 56),
        list(2, len - 113, 57),
        list(1, len - 56, 57),
        list(2, bad - 57, 57),
        list(1, bad, 200),
    ];
    let mut case = zeros(len as usize, [WILD; 3]);
    case.push(put(bad as usize, &entry("", len, 1).bytes()));
    // an entry that passes the end, and whose data would too: those of its bytes that the file has say so
    case.push(put(len as usize - 3, &[255; 3]));
    for a in ways {
        for b in ways {
            for c in ways {
                case.push(with_lists([a, b, c]));
                case.extend(whole());
            }
            case.extend([next(0, 1), next(1, 0)]);
        }
    }
    case
}

/// Data at a file's end: what ends with it, what passes it by one, and what has no bytes.
fn ends_of_data() -> Case {
    let len: u32 = 300;
    let mut case = zeros(len as usize, [list(1, 102, 57), WILD, WILD]);
    let most = u32::MAX;
    for (place, length) in [
        (0, 0),
        (0, len),
        (0, len + 1),
        (1, len - 1),
        (1, len),
        (len - 1, 0),
        (len - 1, 1),
        (len - 1, 2),
        (len, 0),
        (len, 1),
        (len + 1, 0),
        (len + 1, 1),
        (len + 1, most),
        (0, most),
        (1, most),
        (len, most),
        (most, 0),
        (most, 1),
        (most, 2),
        (most, len),
        (most, len + 1),
        (most, most),
        (most - len + 1, len),
        (1 << 31, 1 << 31),
        ((1 << 31) + 1, 1 << 31),
    ] {
        case.push(put(102, &entry("end", place, length).bytes()));
        case.extend(["exa".into(), next(0, 0), format!("dat {place} {length}")]);
    }
    case
}

/// An entry that passes the end by 1 to 57 bytes; data that passes it too is not looked at.
fn ends_of_entries() -> Case {
    let len: u32 = 300;
    let mut case = zeros(len as usize, [WILD; 3]);
    let past = entry("past", len + 1, 0).bytes();
    for by in [0, 1, 2, 4, 8, 12, 56, 57, 58] {
        let offset = len - 57 + by;
        case.push(put(offset as usize, &past));
        case.push(with_lists([WILD, list(1, offset, 255), list(1, offset, 57)]));
        case.extend(whole());
        case.extend([next(0, 0), next(2, 0)]);
    }
    case
}

/// Places of entries at 2^32 and past it: in 32 bits they would be in the file.
fn past_32_bits() -> Case {
    let mut case = zeros(15_000, [WILD; 3]);
    let mut ask = |count: u8, offset: u32, size: u8, entries: &[u16]| {
        let one = list(count, offset, size);
        case.push(with_lists([WILD, one, one]));
        case.extend(whole());
        case.extend(entries.iter().map(|entry| next(1, *entry)));
    };
    ask(255, u32::MAX, 255, &[0, 1, 2, 254, 255]);
    ask(255, u32::MAX - 56, 57, &[0, 1, 2, 3, 254]);
    ask(255, u32::MAX - 57 * 100 + 1, 57, &[0, 99, 100, 101, 102, 254]);
    ask(2, u32::MAX - 254, 255, &[0, 1]);
    ask(2, u32::MAX - 127, 128, &[0, 1]);
    ask(2, 1 << 31, 57, &[0, 1]);
    ask(1, 14_943, 57, &[0, 1]);
    ask(1, 14_944, 57, &[0, 1]);
    case
}

/// Nothing of a list with count 0 is looked at, wherever it stands.
fn empty() -> Case {
    let mut case = zeros(300, [WILD; 3]);
    let wild = [WILD, list(0, 0, 0), list(0, 300, 56), list(0, u32::MAX, 255)];
    for full in 0..8 {
        let lists = [0, 1, 2].map(|at| {
            let is_full = full >> at & 1 == 1;
            if is_full { list(1 + at, 102, 57) } else { wild[usize::from(at + full) % 4] }
        });
        case.push(with_lists(lists));
        case.extend(whole());
        case.extend([next(0, 0), next(1, 1), next(2, 0), next(2, 3)]);
    }
    case
}

/// Three lists of 255 entries behind each other, some of which have fields.
fn apart() -> Case {
    let lists = [list(255, 102, 57), list(255, 102 + 255 * 57, 57), list(255, 102 + 510 * 57, 57)];
    let len = HEADER + 765 * ENTRY;
    let mut case = zeros(len, lists);
    for n in [0, 1, 127, 254, 255, 256, 509, 510, 600, 764] {
        case.push(put(HEADER + n * ENTRY, &entry(&format!("entry {n}"), n as u32, n as u32).bytes()));
    }
    case.extend(whole());
    case.extend([next(0, 254), next(0, 255), next(1, 254), next(1, 256), next(2, 254), next(2, 255)]);
    case.push(put(HEADER + 764 * ENTRY, &entry("", len as u32, 1).bytes()));
    case.extend(whole());
    case
}

/// Three lists of 255 entries over the same bytes, at distances of 57, of 64 and of 57 again, one byte later.
fn laid_over() -> Case {
    let mut case = zeros(102 + 254 * 64 + 57, [list(255, 102, 57), list(255, 102, 64), list(255, 103, 57)]);
    for at in [102, 102 + 57 * 64, 7_000, 14_000] {
        case.push(put(at, &[0, 1, 2, 3]));
    }
    case.extend(whole());
    case
}

/// Distances of 255: the last of 255 entries starts at 64,872.
fn farthest() -> Case {
    let one = list(255, 102, 255);
    let mut case = zeros(LONGEST, [one, one, one]);
    case.push(put(102 + 254 * 255, &entry("far", 0, 65_536).bytes()));
    case.extend(whole());
    case.push(put(102 + 254 * 255, &entry("far", 0, 65_537).bytes()));
    case.extend(whole());
    case.extend([next(0, 253), next(0, 254), next(1, 0)]);
    case
}

/// Data by place and length, to the end of 64 bits.
fn parts() -> Vec<Case> {
    let asked = |len: u64| {
        let mut lines = vec![format!("fil s {len} 7")];
        let most = u64::MAX;
        for place in [0, 1, len.saturating_sub(1), len, len + 1, 1 << 32, most - len, most - 1, most] {
            for length in [0, 1, len.saturating_sub(place), len, len + 1, (1 << 32) - 1, most - place, most] {
                lines.push(format!("dat {place} {length}"));
            }
        }
        lines
    };
    [0, 1, 300, LONGEST as u64].map(asked).into()
}

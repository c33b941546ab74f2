//! Of the self-test, what is about loader files.

use std::collections::BTreeMap;

use super::{cases_of, check};
use crate::{cases::Kind, oracle::Oracle};

/// What the sample of `loader` has to have: the call and how its answer begins. Each at least `LEAST` times.
const WANTED: [(&str, &str); 28] = [
    ("tim", "0"),
    ("tim", "70"),
    ("lis", "0"),
    ("lis", "70"),
    ("ent", "0"),
    ("ent", "70"),
    ("hdr", "0"),
    ("hdr", "70"),
    ("hdr", "71"),
    ("nxt", "0 0"),
    ("nxt", "0 1"),
    ("nxt", "70"),
    ("nxt", "71"),
    ("nxt", "72"),
    ("nxt", "73"),
    ("nxt", "74"),
    ("wlk", "0 0"),
    ("wlk", "70"),
    ("wlk", "71"),
    ("wlk", "72"),
    ("wlk", "73"),
    ("wlk", "74"),
    ("exa", "0"),
    ("exa", "70"),
    ("exa", "71"),
    ("exa", "72"),
    ("exa", "73"),
    ("exa", "74"),
];
const LEAST: usize = 5;

/// Calls with the answers that they have to get, one after the other.
type Wanted = Vec<(String, String)>;

fn answered(lines: &[(String, String)]) -> Vec<String> {
    let mut bad = Vec::new();
    let mut oracle = Oracle::default();
    lines.iter().for_each(|(line, wanted)| check(&mut bad, &mut oracle, line, wanted));
    bad
}

/// So many zeros behind a space each.
fn zeros(n: usize) -> String {
    " 0".repeat(n)
}

/// Of an entry with data: its 57 bytes, and its fields. The name is `A` and U+1234.
fn an_entry(place: u8, length: u8) -> (String, String) {
    let bytes =
        format!("39010203044100{}{}{place:02x}000000{length:02x}00000000000080", "3412", "00".repeat(36));
    (bytes, format!("57 67305985 65 4660{} {place} {length} 2147483648", zeros(18)))
}

/// A header's bytes before the lists: the chip's stand the other way round in the record.
const BEFORE: &str = "6600010000000200000007e90c1f173b3c01020304";
const SHOWN: &str = "102 1 2 59655 12 31 23 59 60 4 3 2 1";

/// With lists, and 57 bytes behind what is looked at.
fn a_header(tag: &str, lists: &str) -> String {
    format!("{tag}{BEFORE}{lists}0506{}", "ff".repeat(57))
}

const BOOT: &str = "424f4f54";
const LDR: &str = "4c445220";

pub fn records() -> Vec<String> {
    let lists = "01660000003902ffffffff3800fe0000ff00";
    let fields = format!("{SHOWN} 1 102 57 2 4294967295 56 0 4278190334 0 5 6");
    let (entry, of_entry) = an_entry(9, 8);
    let (boot, ldr) = (a_header(BOOT, lists), a_header(LDR, lists));
    let short = &boot[..202];
    let mut lines = not_looked_at(&boot, &format!("0 | 66 79 79 84 {fields}"));
    lines.extend([
        ("tim xe8070b10122a3b".into(), "0 | 2024 11 16 18 42 59".into()),
        ("tim xe8070b10122a3bff".into(), "0 | 2024 11 16 18 42 59".into()),
        ("tim xe8070b10122a".into(), format!("70 6 |{}", zeros(6))),
        ("tim x".into(), format!("70 0 |{}", zeros(6))),
        ("lis x02010203043a".into(), "0 | 2 67305985 58".into()),
        ("lis x0201020304".into(), format!("70 5 |{}", zeros(3))),
        (format!("ent x{entry}"), format!("0 | {of_entry}")),
        (format!("ent x{entry}0102"), format!("0 | {of_entry}")),
        (format!("ent x{}", &entry[2..]), format!("70 56 |{}", zeros(25))),
        (format!("hdr x{boot}"), format!("0 | 66 79 79 84 {fields}")),
        (format!("hdr x{ldr}00"), format!("0 | 76 68 82 32 {fields}")),
        (format!("hdr x{short}"), format!("70 101 |{}", zeros(28))),
        ("hdr f 102 66".into(), format!("71 66 66 66 66 |{}", zeros(28))),
        (format!("hdr x{}", ldr.replace(LDR, "4c445200")), format!("71 76 68 82 0 |{}", zeros(28))),
        (format!("hdr x{}", &short.replace(BOOT, "00000000")), format!("70 101 |{}", zeros(28))),
    ]);
    answered(&lines)
}

/// A header with each of the bytes changed that nothing is read from, and with others behind it.
fn not_looked_at(header: &str, wanted: &str) -> Wanted {
    let changed = (45..102).map(|at| format!("{}0a{}", &header[..2 * at], &header[2 * at + 2..]));
    let behind = [1, 102, 1_900].map(|n| format!("{header}{}", "42".repeat(n)));
    changed.chain(behind).map(|bytes| (format!("hdr x{bytes}"), wanted.into())).collect()
}

/// Of a file of 300 bytes the lists: one entry at 110, none, and two at 110 and 167.
const RIGHT: &str = "016e00000039 00ffffffff00 026e00000039";

/// Other lists of that file, what it is told as a whole then, and what a step at the first entry of its last list is.
const OTHERS: [(&str, &str, &str); 9] = [
    ("016e00000038 00ffffffff00 026e00000039", "72 0 0", FIRST),
    ("016e00000039 016e00000038 026e00000000", "72 1 0", "72 2 0"),
    ("01f400000039 016e00000038 00ffffffff00", "73 0 0", "0 0"),
    ("01f300000039 016e00000038 02f300000039", "72 1 0", LAST),
    ("01f300000039 00ffffffff00 02f300000039", "73 2 1", LAST),
    ("01e000000039 01f400000039 01f400000038", "74 0 0", "72 2 0"),
    ("016e00000039 01e000000039 02ffffffff39", "74 1 0", "73 2 0"),
    ("00ffffffff00 00ffffffff00 00ffffffff00", "0 0 0 0", "0 0"),
    ("00ffffffff00 00ffffffff00 02f0ffffff80", "73 2 0", "73 2 0"),
];

/// The entry at 110, and the one that ends with the file.
const FIRST: &str = "0 1 2 0 44 200";
const LAST: &str = "0 1 2 0 0 0";

pub fn documented() -> Vec<String> {
    let none = zeros(25);
    let mut lines = without_a_header(&none);
    lines.extend(right_lists(&none));
    lines.extend(parts_of_it());
    lines.extend(other_lists(&none));
    lines.extend([("fil x4c4452".into(), "0 3".into()), ("exa".into(), "70 3".into())]);
    lines.push(("nxt 3 0".into(), format!("70 3 |{none} | 3 0")));
    answered(&lines)
}

fn without_a_header(none: &str) -> Wanted {
    vec![
        ("wlk".into(), "outside not-there".into()),
        ("fil f 300 0".into(), "0 300".into()),
        ("exa".into(), "71 0 0 0 0".into()),
        ("wlk".into(), "71 0 0 0 0 | 0 00000001 | 0 0".into()),
        ("nxt 7 300".into(), format!("71 0 0 0 0 |{none} | 7 300")),
    ]
}

fn right_lists(none: &str) -> Wanted {
    let ((first, fields), (second, others)) = (an_entry(44, 200), an_entry(44, 0));
    vec![
        (format!("put 0 x{}", a_header(LDR, &RIGHT.replace(' ', ""))), "0 300".into()),
        (format!("put 110 x{first}"), "0 300".into()),
        (format!("put 167 x{second}"), "0 300".into()),
        ("exa".into(), "0 1 0 2".into()),
        ("wlk".into(), "0 0 | 3 6249a313 | 2 2".into()),
        ("nxt 0 0".into(), format!("0 1 0 0 44 200 | {fields} | 0 1")),
        ("nxt 0 1".into(), format!("{FIRST} | {fields} | 2 1")),
        ("nxt 0 300".into(), format!("{FIRST} | {fields} | 2 1")),
        ("nxt 1 65535".into(), format!("{FIRST} | {fields} | 2 1")),
        ("nxt 2 1".into(), format!("0 1 2 1 44 0 | {others} | 2 2")),
        ("nxt 2 2".into(), format!("0 0 |{none} | 2 2")),
        ("nxt 3 0".into(), format!("0 0 |{none} | 3 0")),
        ("nxt 7 300".into(), format!("0 0 |{none} | 7 300")),
    ]
}

fn parts_of_it() -> Wanted {
    vec![
        ("dat 110 2".into(), "0 2:3901".into()),
        ("dat 299 1".into(), "0 1:00".into()),
        ("dat 299 2".into(), "0 0:".into()),
        ("dat 300 0".into(), "0 0:".into()),
        ("dat 18446744073709551615 2".into(), "0 0:".into()),
    ]
}

fn other_lists(none: &str) -> Wanted {
    let fields = an_entry(44, 200).1;
    let last = format!("0 0{} 11264 1 256{} 0 0 4278190080", zeros(10), zeros(7));
    // the data of an entry at 224 passes the end by one byte
    let mut lines: Wanted =
        vec![("put 269 x2c01000001".into(), "0 300".into()), ("put 299 xffff".into(), "0 300".into())];
    for (lists, whole, step) in OTHERS {
        let wanted = match step {
            FIRST => format!("{step} | {fields} | 2 1"),
            LAST => format!("{step} | {last} | 2 1"),
            _ => format!("{step} |{none} | 2 0"),
        };
        lines.push((format!("put 25 x{}", lists.replace(' ', "")), "0 300".into()));
        lines.extend([("exa".into(), whole.into()), ("nxt 2 0".into(), wanted)]);
    }
    // 2^32 + 112
    lines.push(("nxt 2 1".into(), format!("73 2 1 |{none} | 2 1")));
    lines
}

pub fn sampled() -> Vec<String> {
    let mut oracle = Oracle::default();
    let mut seen: BTreeMap<(&str, &str), usize> = BTreeMap::new();
    for line in cases_of(Kind::Loader).concat() {
        let answer = oracle.answer(&line);
        let is_met = |(call, begin): &&(&str, &str)| {
            line.starts_with(call) && (answer == *begin || answer.starts_with(&format!("{begin} ")))
        };
        WANTED.iter().filter(is_met).for_each(|wanted| *seen.entry(*wanted).or_default() += 1);
    }
    let often = |wanted: &(&str, &str)| seen.get(wanted).copied().unwrap_or(0);
    let rare = WANTED.iter().filter(|wanted| often(wanted) < LEAST);
    rare.map(|wanted| format!("{} {}: {}, and {LEAST} are wanted", wanted.0, wanted.1, often(wanted)))
        .collect()
}

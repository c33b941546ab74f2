//! The one distinction that the Rust has not: a finished sector operation tells `MOVED` where all was moved, and
//! `MOVED ASKED` where fewer bytes were moved than asked. The Rust's `Transferred` is `MOVED` alone.

use std::borrow::Cow;

use crate::{decks, text::Tokens};

/// Before each section of an answer.
const BAR: &str = " | ";

/// A finish with data of the caller's, which only a sector operation has.
struct Finish<'a> {
    /// What stands before the values.
    said: &'static str,
    values: &'a str,
    sections: &'a str,
    /// The length of the caller's data.
    asked: u64,
}

impl Finish<'_> {
    fn with(&self, values: &str) -> String {
        format!("{}{values}{BAR}{}", self.said, self.sections)
    }
}

fn number(word: &str) -> Option<u64> {
    if word.bytes().all(|byte| byte.is_ascii_digit()) { word.parse().ok() } else { None }
}

/// The caller's data is the second section of a step and of a run.
fn finish<'a>(line: &str, answer: &'a str) -> Option<Finish<'a>> {
    let said = match line.split(' ').next()? {
        "stp" => "0 3 ",
        "run" => "0 ",
        _ => return None,
    };
    let (values, sections) = answer.strip_prefix(said)?.split_once(BAR)?;
    let asked = number(sections.split(BAR).nth(1)?.split([':', '#']).next()?)?;
    (asked > 0).then_some(Finish { said, values, sections, asked })
}

/// What is left of a program's answer with the distinction forgotten: the form of the Rust's.
pub fn forgets<'a>(line: &str, ours: &'a str) -> Cow<'a, str> {
    let forgotten = || {
        let finish = finish(line, ours)?;
        let (moved, asked) = finish.values.split_once(' ')?;
        (number(moved).is_some() && number(asked).is_some()).then(|| finish.with(moved))
    };
    forgotten().map_or(Cow::Borrowed(ours), Cow::Owned)
}

/// What a program must answer where the Rust answers so.
pub fn shows<'a>(line: &str, rust: &'a str) -> Cow<'a, str> {
    let shown = || {
        let finish = finish(line, rust)?;
        let moved = number(finish.values)?;
        (moved < finish.asked).then(|| finish.with(&format!("{moved} {}", finish.asked)))
    };
    shown().map_or(Cow::Borrowed(rust), Cow::Owned)
}

/// Whether a program's answer is the Rust's with the distinction forgotten, and shows it as it must.
pub fn is_same(line: &str, rust: &str, ours: &str) -> bool {
    forgets(line, ours) == rust && ours == shows(line, rust)
}

/// Whether fewer bytes were moved than asked, by the Rust's answer. Of a block, the block says what it asked.
pub fn is_short(line: &str, rust: &str) -> bool {
    shows(line, rust) != rust || is_short_block(line, rust).unwrap_or(false)
}

fn is_short_block(line: &str, rust: &str) -> Option<bool> {
    let data = line.strip_prefix("blk ")?;
    let mut words = rust.split(' ');
    let tag = number(words.next()?)? as u32;
    let moved = number(words.nth(1)?)?;
    let block = Tokens::new(data).data().ok()?;
    Some(moved < decks::sector_bytes(tag, &block)?)
}

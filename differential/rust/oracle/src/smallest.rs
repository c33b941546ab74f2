//! A case that differs, made as small as it gets: lines left out, then numbers and spelled bytes made less.

use std::{
    io,
    time::{Duration, Instant},
};

use crate::{
    asking::{Difference, differ},
    cases::make::Case,
    decks,
};

/// The two sides are asked no more for the differences of a kind after so long.
pub const LONGEST: Duration = Duration::from_secs(20);

/// A block of an upload and a sector: some lengths only differ at such distances.
const STEPS: [u64; 2] = [4096, 512];

struct Search<'a> {
    program: &'a str,
    until: Instant,
    best: Difference,
}

/// None where the case does not differ when it is asked alone.
pub fn smallest(program: &str, case: &Case, until: Instant) -> io::Result<Option<Difference>> {
    let Some(best) = differ(program, case)? else {
        return Ok(None);
    };
    let mut search = Search { program, until, best };
    loop {
        let before = search.best.case.clone();
        search.drop_lines()?;
        search.lessen()?;
        if search.best.case == before || Instant::now() >= search.until {
            return Ok(Some(search.best));
        }
    }
}

impl Search<'_> {
    /// Whether a smaller case differs too; it then takes the place of the best.
    fn took(&mut self, case: Case) -> io::Result<bool> {
        if Instant::now() >= self.until {
            return Ok(false);
        }
        let found = differ(self.program, &case)?;
        let is_found = found.is_some();
        if let Some(found) = found {
            self.best = found;
        }
        Ok(is_found)
    }

    /// Halves, quarters and so on down to single lines; never the last line alone.
    fn drop_lines(&mut self) -> io::Result<()> {
        let mut size = self.best.case.len() / 2;
        while size > 0 {
            let mut at = 0;
            while at + size < self.best.case.len() {
                let case = decks::without(&self.best.case, at..at + size);
                if !self.took(case)? {
                    at += size;
                }
            }
            size /= 2;
        }
        Ok(())
    }

    /// From a line's end, where its data stands: a short image is soon cut into small parts.
    fn lessen(&mut self) -> io::Result<()> {
        let mut at = 0;
        while at < self.best.case.len() {
            for word in (1..self.best.case[at].split(' ').count()).rev() {
                self.lessen_word(at, word)?;
            }
            at += 1;
        }
        Ok(())
    }

    fn word(&self, line: usize, word: usize) -> String {
        self.best.case.get(line).and_then(|line| line.split(' ').nth(word)).unwrap_or_default().to_string()
    }

    fn took_word(&mut self, line: usize, word: usize, with: String) -> io::Result<bool> {
        let mut case = self.best.case.clone();
        let Some(old) = case.get_mut(line) else {
            return Ok(false);
        };
        let mut words: Vec<String> = old.split(' ').map(String::from).collect();
        words[word] = with;
        *old = words.join(" ");
        self.took(case)
    }

    fn lessen_word(&mut self, line: usize, word: usize) -> io::Result<()> {
        let text = self.word(line, word);
        if let Ok(number) = text.parse::<u64>() {
            return self.descend(line, word, number, |n| n.to_string());
        }
        if text == "s" || text == "r" {
            self.took_word(line, word, "f".into())?;
            return Ok(());
        }
        let Some(digits) = text.strip_prefix('x').map(String::from) else {
            return Ok(());
        };
        self.descend(line, word, digits.len() as u64 / 2, |n| format!("x{}", &digits[..n as usize * 2]))?;
        for at in (1..self.word(line, word).len()).step_by(2) {
            let mut text = self.word(line, word);
            if text.get(at..at + 2).is_some_and(|byte| byte != "00") {
                text.replace_range(at..at + 2, "00");
                self.took_word(line, word, text)?;
            }
        }
        Ok(())
    }

    /// Less by a half, a quarter and so on, then by whole blocks and sectors, for as long as the case still differs.
    fn descend(
        &mut self,
        line: usize,
        word: usize,
        from: u64,
        show: impl Fn(u64) -> String,
    ) -> io::Result<()> {
        let mut now = from;
        let mut less = now;
        while less > 0 {
            if less <= now && self.took_word(line, word, show(now - less))? {
                now -= less;
            } else {
                less /= 2;
            }
        }
        for step in STEPS {
            while now >= step && self.took_word(line, word, show(now - step))? {
                now -= step;
            }
        }
        Ok(())
    }
}

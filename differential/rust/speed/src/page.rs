//! The table and the picture, docs/speed.md and docs/speed.svg.

use std::{fmt::Write, fs, io, path::Path, process::Command};

/// What a row's figures are of.
#[derive(Clone, Copy)]
pub enum Amount {
    Bytes(usize),
    Blocks(usize),
    Calls,
}

/// Seconds, each the best of its turns; instructions are of one call.
pub struct Row {
    pub group: &'static str,
    pub name: String,
    pub amount: Amount,
    pub proved: f64,
    pub original: f64,
    /// The C loops, byte by byte and eight bytes at a time.
    pub plain: Option<[f64; 2]>,
    pub instructions: Option<(u64, u64)>,
}

impl Amount {
    pub fn figure(self, seconds: f64) -> String {
        match self {
            Amount::Bytes(n) => format!("{:.0} MB/s", n as f64 / seconds / 1e6),
            Amount::Blocks(n) => format!("{:.0} a second", n as f64 / seconds),
            Amount::Calls => format!("{:.1} ns", seconds * 1e9),
        }
    }
}

impl Row {
    fn figure(&self, seconds: f64) -> String {
        self.amount.figure(seconds)
    }

    /// How many times as fast as the Rust.
    fn ratio(&self) -> f64 {
        self.original / self.proved
    }

    pub fn line(&self) -> String {
        let (proved, original) = (self.figure(self.proved), self.figure(self.original));
        format!("{}, {}: proved {proved}, Rust {original}, ratio {:.2}", self.group, self.name, self.ratio())
    }
}

fn table(rows: &[Row]) -> String {
    let mut text = String::from(
        "| | | proved | Rust | ratio | C at -O2, by a table, by eight | instructions, proved and Rust |\n|---|---|---|---|---|---|---|\n",
    );
    let mut group = "";
    for row in rows {
        let first = if row.group == group { "" } else { row.group };
        group = row.group;
        let plain = row.plain.map_or(String::new(), |[a, b]| format!("{}, {}", row.figure(a), row.figure(b)));
        let instructions = row.instructions.map_or(String::new(), |(p, o)| format!("{p}, {o}"));
        let (proved, original) = (row.figure(row.proved), row.figure(row.original));
        let (name, ratio) = (&row.name, row.ratio());
        let _ = writeln!(
            text,
            "| {first} | {name} | {proved} | {original} | {ratio:.2} | {plain} | {instructions} |"
        );
    }
    text
}

/// At what share of the speed of the check alone an upload of the same image runs, by the seconds of both.
pub fn share(check: f64, upload: f64) -> String {
    format!("{:.3}", check / upload)
}

fn share_of(rows: &[Row]) -> String {
    let seconds = |group, name| {
        let row = rows.iter().find(|row| row.group == group && row.name == name);
        row.expect("the check and the whole upload have a row").proved
    };
    share(seconds("check", "64 MiB"), seconds("upload of 64 MiB", "whole"))
}

const LEFT: f64 = 300.0;
const MIDDLE: f64 = 560.0;
const RIGHT: f64 = 860.0;
const LINE: usize = 18;

/// Ratios stand on a scale of doublings.
fn place(ratio: f64) -> f64 {
    MIDDLE + (ratio.log2() * 60.0).clamp(LEFT - MIDDLE, RIGHT - MIDDLE)
}

fn picture(rows: &[Row]) -> String {
    let height = rows.len() * LINE + 70;
    let mut text = format!(
        "<svg xmlns=\"http://www.w3.org/2000/svg\" width=\"1120\" height=\"{height}\" font-family=\"sans-serif\" font-size=\"12\">\n\
         <rect width=\"1120\" height=\"{height}\" fill=\"#fff\"/>\n\
         <text x=\"10\" y=\"22\" font-size=\"15\">The proved functions beside the Rust: how many times as fast</text>\n"
    );
    for power in -4..=5 {
        let (x, ratio) = (place(2f64.powi(power)), 2f64.powi(power));
        let colour = if power == 0 { "#444" } else { "#ddd" };
        let _ = writeln!(text, "<path d=\"M{x:.0} 50V{}\" stroke=\"{colour}\"/>", height - 14);
        let _ =
            writeln!(text, "<text x=\"{x:.0}\" y=\"44\" text-anchor=\"middle\" fill=\"#666\">{ratio}</text>");
    }
    for (i, row) in rows.iter().enumerate() {
        let (y, to) = (56 + i * LINE, place(row.ratio()));
        let (x, width) = (to.min(MIDDLE), (to - MIDDLE).abs().max(1.0));
        let colour = if row.ratio() < 1.0 { "#c4652a" } else { "#2a7ac4" };
        let (proved, original) = (row.figure(row.proved), row.figure(row.original));
        let _ = writeln!(text, "<text x=\"10\" y=\"{}\">{}, {}</text>", y + 11, row.group, row.name);
        let _ = writeln!(
            text,
            "<rect x=\"{x:.0}\" y=\"{y}\" width=\"{width:.0}\" height=\"{}\" fill=\"{colour}\"/>",
            LINE - 5
        );
        let _ = writeln!(text, "<text x=\"875\" y=\"{}\">{proved}, Rust {original}</text>", y + 11);
    }
    text + "</svg>\n"
}

/// The processor as the machine names it.
fn machine() -> String {
    let out = Command::new("lscpu").env("LC_ALL", "C").output();
    let said = out.map(|o| String::from_utf8_lossy(&o.stdout).into_owned()).unwrap_or_default();
    let named = said.lines().find_map(|l| l.strip_prefix("Model name:")).map(|n| n.trim().to_string());
    format!("{} ({})", named.unwrap_or_else(|| "unknown".into()), std::env::consts::ARCH)
}

pub fn write(docs: &Path, rows: &[Row], copies: &str, stack: &str) -> io::Result<()> {
    let library = std::env::var("LIBRARY").map_err(io::Error::other)?;
    let text = include_str!("page.md")
        .replace("{library}", &library)
        .replace("{machine}", &machine())
        .replace("{table}", table(rows).trim_end())
        .replace("{share}", &share_of(rows))
        .replace("{copies}", copies.trim_end())
        .replace("{stack}", stack.trim_end());
    fs::write(docs.join("speed.md"), text)?;
    fs::write(docs.join("speed.svg"), picture(rows))
}

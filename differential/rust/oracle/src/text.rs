//! Tokens of a line, data arguments, and how bytes are shown: the rules of LANGUAGE.md.

/// Why the Rust has no answer to a line in the rules' domain.
#[derive(Clone, Copy, Debug, PartialEq, Eq, PartialOrd, Ord)]
pub enum Reason {
    /// 20: the Rust panics or writes less.
    ShortOutput,
    /// 21.
    TooManyGiven,
    /// 22.
    NotAsked,
    /// 23: the Rust panics.
    NotSectors,
    /// 24: the Rust narrows.
    TooManySectors,
    /// 61.
    FlashTooLarge,
    /// An array of another size than the Rust's.
    ArraySize,
    /// An operation, upload, device, deck or loader file that was not started, was refused at its start, or is over.
    NotThere,
    /// Not of the language.
    Unreadable,
}

impl Reason {
    pub const ALL: [Reason; 9] = [
        Reason::ShortOutput,
        Reason::TooManyGiven,
        Reason::NotAsked,
        Reason::NotSectors,
        Reason::TooManySectors,
        Reason::FlashTooLarge,
        Reason::ArraySize,
        Reason::NotThere,
        Reason::Unreadable,
    ];

    pub fn word(self) -> &'static str {
        match self {
            Reason::ShortOutput => "short-output",
            Reason::TooManyGiven => "too-many-given",
            Reason::NotAsked => "not-asked",
            Reason::NotSectors => "not-sectors",
            Reason::TooManySectors => "too-many-sectors",
            Reason::FlashTooLarge => "flash-too-large",
            Reason::ArraySize => "array-size",
            Reason::NotThere => "not-there",
            Reason::Unreadable => "unreadable",
        }
    }
}

/// Why a line has no answer from the Rust.
#[derive(Debug, PartialEq, Eq)]
pub struct Stop(pub Reason);

pub type Answer = Result<String, Stop>;

/// The oracle takes more than the programs need to: the faults of the Rust begin at 33,554,432 bytes.
const DATA_LIMIT: u64 = 64 << 20;

const UNREADABLE: Stop = Stop(Reason::Unreadable);

pub struct Tokens<'a>(std::str::Split<'a, char>);

impl<'a> Tokens<'a> {
    pub fn new(line: &'a str) -> Self {
        Tokens(line.split(' '))
    }

    pub fn word(&mut self) -> Result<&'a str, Stop> {
        match self.0.next() {
            Some(word) if !word.is_empty() => Ok(word),
            _ => Err(UNREADABLE),
        }
    }

    pub fn up_to(&mut self, limit: u64) -> Result<u64, Stop> {
        let word = self.word()?;
        let plain = word.bytes().all(|b| b.is_ascii_digit()) && (word == "0" || !word.starts_with('0'));
        let number = word.parse().map_err(|_| UNREADABLE)?;
        if plain && number <= limit { Ok(number) } else { Err(UNREADABLE) }
    }

    pub fn u8(&mut self) -> Result<u8, Stop> {
        Ok(self.up_to(u8::MAX.into())? as u8)
    }

    pub fn u16(&mut self) -> Result<u16, Stop> {
        Ok(self.up_to(u16::MAX.into())? as u16)
    }

    pub fn u32(&mut self) -> Result<u32, Stop> {
        Ok(self.up_to(u32::MAX.into())? as u32)
    }

    pub fn len(&mut self) -> Result<usize, Stop> {
        Ok(self.up_to(DATA_LIMIT)? as usize)
    }

    pub fn flag(&mut self) -> Result<bool, Stop> {
        Ok(self.up_to(1)? == 1)
    }

    pub fn data(&mut self) -> Result<Vec<u8>, Stop> {
        let word = self.word()?;
        if let Some(digits) = word.strip_prefix('x') {
            return unhex(digits).ok_or(UNREADABLE);
        }
        let len = self.len()?;
        match word {
            "f" => Ok(vec![self.u8()?; len]),
            "r" => Ok(ramp(len, self.u8()?)),
            "s" => Ok(seeded(len, self.u32()?)),
            _ => Err(UNREADABLE),
        }
    }

    /// Data of exactly N bytes; another size has no such call in the Rust.
    pub fn array<const N: usize>(&mut self) -> Result<[u8; N], Stop> {
        self.data()?.try_into().map_err(|_| Stop(Reason::ArraySize))
    }

    pub fn end(&mut self) -> Result<(), Stop> {
        if self.0.next().is_none() { Ok(()) } else { Err(UNREADABLE) }
    }
}

fn unhex(digits: &str) -> Option<Vec<u8>> {
    let value = |b: u8| match b {
        b'0'..=b'9' => Some(b - b'0'),
        b'a'..=b'f' => Some(b - b'a' + 10),
        _ => None,
    };
    if !digits.len().is_multiple_of(2) {
        return None;
    }
    digits.as_bytes().chunks(2).map(|pair| Some(value(pair[0])? * 16 + value(pair[1])?)).collect()
}

pub fn hex(bytes: &[u8]) -> String {
    bytes.iter().map(|b| format!("{b:02x}")).collect()
}

pub fn ramp(len: usize, start: u8) -> Vec<u8> {
    (0..len).map(|i| ((usize::from(start) + i) % 251) as u8).collect()
}

pub fn seeded(len: usize, seed: u32) -> Vec<u8> {
    let mut state = seed;
    let mut next = || {
        state = state.wrapping_mul(1664525).wrapping_add(1013904223);
        (state >> 24) as u8
    };
    (0..len).map(|_| next()).collect()
}

/// Of bytes, or of numbers below 2^32.
pub fn digest(numbers: impl Iterator<Item = u64>) -> u64 {
    numbers.fold(1, |h, n| (h * 16777619 + n + 1) % 4294967291)
}

pub fn show(bytes: &[u8]) -> String {
    if bytes.len() <= 64 {
        format!("{}:{}", bytes.len(), hex(bytes))
    } else {
        format!("{}#{:08x}", bytes.len(), digest(bytes.iter().map(|byte| (*byte).into())))
    }
}

pub fn four(bytes: &[u8; 4]) -> String {
    let [a, b, c, d] = bytes;
    format!("{a} {b} {c} {d}")
}

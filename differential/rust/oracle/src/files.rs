//! Loader files: the records, which the Rust reads, and the current file, which the second reader walks.

use rockfile::{RkBootEntry, RkBootHeader, RkBootHeaderEntry, RkTime};

use crate::{
    loader::{self, Listed, Listing, Place, Refusal, data_of},
    text::{Answer, Stop, Tokens, digest, show},
};

// How many fields a record has.
const TIME_FIELDS: usize = 6;
const LIST_FIELDS: usize = 3;
const ENTRY_FIELDS: usize = 25;
const HEADER_FIELDS: usize = 28;

/// A record's fields as numbers.
trait Fields {
    fn numbers(&self) -> Vec<u32>;
}

/// They are private: its `Debug` form has them all.
impl Fields for RkTime {
    fn numbers(&self) -> Vec<u32> {
        let text = format!("{self:?}");
        let words = text.split(|c: char| !c.is_ascii_digit()).filter(|word| !word.is_empty());
        words.map(|word| word.parse().expect("a number")).collect()
    }
}

impl Fields for RkBootHeaderEntry {
    fn numbers(&self) -> Vec<u32> {
        vec![self.count.into(), self.offset, self.size.into()]
    }
}

impl Fields for RkBootEntry {
    fn numbers(&self) -> Vec<u32> {
        let mut numbers = vec![self.size.into(), self.type_];
        numbers.extend(self.name.map(u32::from));
        numbers.extend([self.data_offset, self.data_size, self.data_delay]);
        numbers
    }
}

impl Fields for RkBootHeader {
    fn numbers(&self) -> Vec<u32> {
        let mut numbers = self.tag.map(u32::from).to_vec();
        numbers.extend([self.size.into(), self.version, self.merge_version]);
        numbers.extend(self.release.numbers());
        numbers.extend(self.supported_chip.map(u32::from));
        for list in [&self.entry_471, &self.entry_472, &self.entry_loader] {
            numbers.extend(list.numbers());
        }
        numbers.extend([self.sign_flag, self.rc4_flag].map(u32::from));
        numbers
    }
}

fn listed(numbers: &[u32]) -> String {
    numbers.iter().map(u32::to_string).collect::<Vec<_>>().join(" ")
}

/// The number and the fields; zeros stand where nothing was read.
fn read<T: Fields>(came: Result<T, Refusal>, count: usize) -> String {
    let (said, numbers) = match came {
        Ok(record) => ("0".into(), record.numbers()),
        Err(refusal) => (refusal.show(), vec![0; count]),
    };
    assert_eq!(numbers.len(), count, "every field and no other");
    format!("{said} | {}", listed(&numbers))
}

pub fn record(name: &str, tokens: &mut Tokens) -> Answer {
    let data = tokens.data()?;
    tokens.end()?;
    Ok(match name {
        "tim" => read(loader::time(&data), TIME_FIELDS),
        "lis" => read(loader::list(&data), LIST_FIELDS),
        "ent" => read(loader::entry(&data), ENTRY_FIELDS),
        _ => read(loader::header(&data), HEADER_FIELDS),
    })
}

/// The current file, and what the second reader made of it.
pub struct File {
    bytes: Vec<u8>,
    listing: Result<Listing, Refusal>,
}

pub fn start(tokens: &mut Tokens) -> Result<(File, String), Stop> {
    let bytes = tokens.data()?;
    tokens.end()?;
    let file = File { listing: Listing::of(&bytes), bytes };
    let answer = file.shown();
    Ok((file, answer))
}

impl File {
    fn shown(&self) -> String {
        format!("0 {}", self.bytes.len())
    }

    /// What passes the file's end is left out.
    pub fn put(&mut self, tokens: &mut Tokens) -> Answer {
        let place = tokens.len()?;
        let data = tokens.data()?;
        tokens.end()?;
        let room = self.bytes.iter_mut().skip(place);
        room.zip(data).for_each(|(byte, with)| *byte = with);
        self.listing = Listing::of(&self.bytes);
        Ok(self.shown())
    }

    fn stepped(&self, record: Place) -> (String, Vec<u32>, Place) {
        let none = vec![0; ENTRY_FIELDS];
        let listing = match &self.listing {
            Ok(listing) => listing,
            Err(refusal) => return (refusal.show(), none, record),
        };
        match listing.from(record) {
            None => ("0 0".into(), none, record),
            Some(Listed { came: Err(refusal), .. }) => (refusal.show(), none, record),
            Some(Listed { place: (list, entry), came: Ok(found) }) => {
                let said = format!("0 1 {list} {entry} {} {}", found.data_offset, found.data_size);
                (said, found.numbers(), (*list, entry + 1))
            }
        }
    }

    pub fn step(&mut self, tokens: &mut Tokens) -> Answer {
        let record = (tokens.u8()?, tokens.u16()?);
        tokens.end()?;
        let (said, fields, (list, entry)) = self.stepped(record);
        Ok(format!("{said} | {} | {list} {entry}", listed(&fields)))
    }

    /// Steps from the start until one finds no entry: what that one says stands first.
    pub fn walk(&mut self, tokens: &mut Tokens) -> Answer {
        tokens.end()?;
        let (found, refusal) = match &self.listing {
            Ok(listing) => listing.walked(),
            Err(refusal) => (Vec::new(), Some(*refusal)),
        };
        let told = found.iter().flat_map(|Listed { place, came }| {
            let entry = came.as_ref().expect("it was found");
            let mut numbers = vec![place.0.into(), place.1.into(), entry.data_offset, entry.data_size];
            numbers.extend(entry.numbers());
            numbers
        });
        let digest = digest(told.map(u64::from));
        let (list, entry) = found.last().map_or((0, 0), |last| (last.place.0, last.place.1 + 1));
        let said = refusal.map_or("0 0".into(), |refusal| refusal.show());
        Ok(format!("{said} | {} {digest:08x} | {list} {entry}", found.len()))
    }

    pub fn examine(&mut self, tokens: &mut Tokens) -> Answer {
        tokens.end()?;
        let came = self.listing.as_ref().map_err(|refusal| *refusal).and_then(Listing::examined);
        Ok(match came {
            Ok([a, b, c]) => format!("0 {a} {b} {c}"),
            Err(refusal) => refusal.show(),
        })
    }

    pub fn data(&mut self, tokens: &mut Tokens) -> Answer {
        let (place, length) = (tokens.up_to(u64::MAX)?, tokens.up_to(u64::MAX)?);
        tokens.end()?;
        Ok(format!("0 {}", show(data_of(&self.bytes, place, length))))
    }
}

//! The second reader of loader files. The Rust reads the records; the walk over them, what is refused and where the data
//! stands is worked out here from document 02, L1, since the Rust has none of it. All entries of a file are listed first,
//! each with what it comes to by itself; a step and the whole file are looked up in that list.

use rockfile::{
    RkBootEntry, RkBootEntryBytes, RkBootHeader, RkBootHeaderBytes, RkBootHeaderEntry,
    RkBootHeaderEntryBytes, RkTime, RkTimeBytes,
};

use crate::text::four;

const HEADER: usize = size_of::<RkBootHeaderBytes>();
const ENTRY: usize = size_of::<RkBootEntryBytes>();

#[derive(Clone, Copy, Debug, PartialEq, Eq)]
pub enum Refusal {
    /// 70: the bytes that there are.
    Short(usize),
    /// 71.
    Tag([u8; 4]),
    /// 72 to 74, with the list and the entry.
    At(u8, Place),
}

/// A list (0 is 471, 1 is 472, 2 is loader) and one of its entries; and a walk's record.
pub type Place = (u8, u16);

impl Refusal {
    pub fn show(&self) -> String {
        match self {
            Refusal::Short(n) => format!("70 {n}"),
            Refusal::Tag(tag) => format!("71 {}", four(tag)),
            Refusal::At(number, (list, entry)) => format!("{number} {list} {entry}"),
        }
    }
}

/// The first N bytes, as the Rust wants them.
fn first<const N: usize>(bytes: &[u8]) -> Result<&[u8; N], Refusal> {
    bytes.first_chunk().ok_or(Refusal::Short(bytes.len()))
}

pub fn time(bytes: &[u8]) -> Result<RkTime, Refusal> {
    first::<{ size_of::<RkTimeBytes>() }>(bytes).map(RkTime::from_bytes)
}

pub fn list(bytes: &[u8]) -> Result<RkBootHeaderEntry, Refusal> {
    first::<{ size_of::<RkBootHeaderEntryBytes>() }>(bytes).map(RkBootHeaderEntry::from_bytes)
}

pub fn entry(bytes: &[u8]) -> Result<RkBootEntry, Refusal> {
    first::<ENTRY>(bytes).map(RkBootEntry::from_bytes)
}

pub fn header(bytes: &[u8]) -> Result<RkBootHeader, Refusal> {
    let bytes = first::<HEADER>(bytes)?;
    RkBootHeader::from_bytes(bytes).ok_or(Refusal::Tag([bytes[0], bytes[1], bytes[2], bytes[3]]))
}

/// An entry of a file, whatever it comes to.
#[derive(Clone)]
pub struct Listed {
    pub place: Place,
    pub came: Result<RkBootEntry, Refusal>,
}

/// All entries of all lists in their order. A list with count 0 has none.
pub struct Listing {
    counts: [u8; 3],
    entries: Vec<Listed>,
}

/// What is at `place` with so many bytes, where the file has all of it. No sum here comes near the end of 128 bits.
fn within(file: &[u8], place: u128, length: u128) -> Option<&[u8]> {
    if place + length > file.len() as u128 {
        return None;
    }
    Some(&file[place as usize..(place + length) as usize])
}

/// 72, 73, 74 in this order.
fn came(file: &[u8], list: &RkBootHeaderEntry, place: Place) -> Result<RkBootEntry, Refusal> {
    let refused = |number| Refusal::At(number, place);
    if usize::from(list.size) < ENTRY {
        return Err(refused(72));
    }
    let start = u128::from(list.offset) + u128::from(place.1) * u128::from(list.size);
    let bytes = within(file, start, ENTRY as u128).ok_or(refused(73))?;
    let found = entry(bytes)?;
    within(file, found.data_offset.into(), found.data_size.into()).ok_or(refused(74))?;
    Ok(found)
}

impl Listing {
    pub fn of(file: &[u8]) -> Result<Listing, Refusal> {
        let header = header(file)?;
        let lists = [&header.entry_471, &header.entry_472, &header.entry_loader];
        let mut entries = Vec::new();
        for (number, list) in lists.into_iter().enumerate() {
            for entry in 0..u16::from(list.count) {
                let place = (number as u8, entry);
                entries.push(Listed { place, came: came(file, list, place) });
            }
        }
        Ok(Listing { counts: lists.map(|list| list.count), entries })
    }

    /// The first entry at a walk's record or behind it; none at the end.
    pub fn from(&self, record: Place) -> Option<&Listed> {
        self.entries.iter().find(|entry| entry.place >= record)
    }

    /// The entries that a walk from the start finds, and the refusal that stops it.
    pub fn walked(&self) -> (Vec<Listed>, Option<Refusal>) {
        let good = self.entries.iter().take_while(|entry| entry.came.is_ok()).cloned().collect();
        (good, self.entries.iter().find_map(|entry| entry.came.as_ref().err().copied()))
    }

    /// The number of entries of each list, or the first refusal.
    pub fn examined(&self) -> Result<[u8; 3], Refusal> {
        self.walked().1.map_or(Ok(self.counts), Err)
    }
}

/// The bytes at a place, none where the file does not have all of them.
pub fn data_of(file: &[u8], place: u64, length: u64) -> &[u8] {
    within(file, place.into(), length.into()).unwrap_or_default()
}

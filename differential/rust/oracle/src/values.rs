//! Values of the Rust that calls of several sections read or show, and the lengths that the rules let through.

use rockusb::protocol::{FlashId, ResetOpcode, SECTOR_SIZE, StorageIndex};

use crate::text::{Reason, Stop, Tokens};

/// Above it the Rust narrows the sector count.
pub const SECTOR_BYTES_LIMIT: u64 = 65_535 * SECTOR_SIZE;

/// 23 and 24, in this order: the Rust panics at the one and narrows at the other, and is asked at neither.
pub fn whole_sectors(len: u64) -> Result<(), Stop> {
    if !len.is_multiple_of(SECTOR_SIZE) {
        return Err(Stop(Reason::NotSectors));
    }
    if len > SECTOR_BYTES_LIMIT {
        return Err(Stop(Reason::TooManySectors));
    }
    Ok(())
}

/// 20: the Rust panics, or answers more than the output has, and is not asked.
pub fn long_enough(out: &[u8], wanted: usize) -> Result<(), Stop> {
    if out.len() < wanted { Err(Stop(Reason::ShortOutput)) } else { Ok(()) }
}

/// The OUTLEN bytes of FILL that a call writes to.
pub fn output(tokens: &mut Tokens) -> Result<Vec<u8>, Stop> {
    let len = tokens.len()?;
    Ok(vec![tokens.u8()?; len])
}

pub fn show_index(index: StorageIndex) -> String {
    match index {
        StorageIndex::Unknown(v) => format!("0 {v}"),
        named => format!("1 {}", u8::from(named)),
    }
}

pub fn storage_index(tokens: &mut Tokens) -> Result<StorageIndex, Stop> {
    let named = tokens.flag()?;
    let index = tokens.u8()?;
    if !named {
        return Ok(StorageIndex::Unknown(index));
    }
    StorageIndex::VARIANTS.get(usize::from(index)).copied().ok_or(Stop(Reason::Unreadable))
}

pub fn reset_opcode(tokens: &mut Tokens) -> Result<ResetOpcode, Stop> {
    ResetOpcode::try_from(tokens.u8()?).map_err(|_| Stop(Reason::Unreadable))
}

/// `FlashId` hands its bytes out only as text; its `Debug` form has them all.
pub fn flash_id_bytes(id: &FlashId) -> Vec<u8> {
    let text = format!("{id:?}");
    let list = text.trim_start_matches("FlashId([").trim_end_matches("])");
    list.split(", ").map(|n| n.parse().expect("a byte")).collect()
}

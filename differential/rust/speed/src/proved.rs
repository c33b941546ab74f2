//! The proved functions by their C names. The archive expects numbers below 32 bits extended, so they are handed over
//! as 32 bits.

#![allow(dead_code)]

/// Of every upload.
pub const AREA: u16 = 0x471;

unsafe extern "C" {
    fn otterarch_command_write(tag: u32, first: u32, sectors: u32, out: *mut u8, room: usize) -> u8;
    fn otterarch_command_read(bytes: *const u8, length: usize) -> u64;
    fn otterarch_read_sectors(
        first: u32,
        flash: *mut u8,
        size: usize,
        data: *mut u8,
        length: usize,
        counts: *mut u32,
    ) -> u8;
    fn otterarch_write_sectors(
        first: u32,
        flash: *mut u8,
        size: usize,
        data: *const u8,
        length: usize,
        counts: *mut u32,
    ) -> u8;
}

/// Functions of an archive, each with its C name, the one that it has in an earlier archive, and its signature.
macro_rules! archives {
    ($($call:ident, $now:ident, $earlier:ident: ($($name:ident: $of:ty),*) -> $gives:ty;)*) => {
        unsafe extern "C" {
            $(fn $now($($name: $of),*) -> $gives;)*
        }
        #[cfg(earlier)]
        unsafe extern "C" {
            $(fn $earlier($($name: $of),*) -> $gives;)*
        }
        #[repr(C)]
        pub struct Proved {
            $($call: unsafe extern "C" fn($($of),*) -> $gives,)*
        }
        pub const NOW: Proved = Proved { $($call: $now,)* };
        #[cfg(earlier)]
        pub const EARLIER: Proved = Proved { $($call: $earlier,)* };
    };
}

archives! {
    update, otterarch_crc_update, earlier_otterarch_crc_update:
        (crc: u32, bytes: *const u8, length: usize) -> u16;
    update_by_table, otterarch_crc_update_by_table, earlier_otterarch_crc_update_by_table:
        (crc: u32, bytes: *const u8, length: usize) -> u16;
    upload_whole, otterarch_upload_whole, earlier_otterarch_upload_whole:
        (area: u32, image: *const u8, length: usize, out: *mut u8, room: usize, budget: u32) -> u8;
    upload_parts, otterarch_upload_parts, earlier_otterarch_upload_parts:
        (area: u32, size: usize, image: *const u8, length: usize, out: *mut u8, room: usize, budget: u64) -> u8;
}

/// What is linked, an earlier revision first.
pub const ARCHIVES: &[Proved] = &[
    #[cfg(earlier)]
    EARLIER,
    NOW,
];

/// A row of a table, with a figure of each archive.
pub fn row(name: &str, figures: impl Iterator<Item = String>) -> String {
    let figures: Vec<String> = figures.collect();
    format!("| {name} | {} |\n", figures.join(" | "))
}

impl Proved {
    pub fn update(&self, crc: u16, bytes: &[u8]) -> u16 {
        unsafe { (self.update)(crc.into(), bytes.as_ptr(), bytes.len()) }
    }

    pub fn update_by_table(&self, crc: u16, bytes: &[u8]) -> u16 {
        unsafe { (self.update_by_table)(crc.into(), bytes.as_ptr(), bytes.len()) }
    }

    /// To the finish, which is 0, or to a refusal.
    pub fn upload_whole(&self, image: &[u8], out: &mut [u8]) -> u8 {
        let (room, out) = (out.len(), out.as_mut_ptr());
        unsafe { (self.upload_whole)(AREA.into(), image.as_ptr(), image.len(), out, room, u32::MAX) }
    }

    pub fn upload_parts(&self, size: usize, image: &[u8], out: &mut [u8], budget: u64) -> u8 {
        let (room, out, n) = (out.len(), out.as_mut_ptr(), image.len());
        unsafe { (self.upload_parts)(AREA.into(), size, image.as_ptr(), n, out, room, budget) }
    }
}

pub fn command_write(tag: u32, first: u32, sectors: u16, out: &mut [u8]) -> u8 {
    unsafe { otterarch_command_write(tag, first, sectors.into(), out.as_mut_ptr(), out.len()) }
}

pub fn command_read(bytes: &[u8]) -> u64 {
    unsafe { otterarch_command_read(bytes.as_ptr(), bytes.len()) }
}

/// `counts` are the bytes that were moved and those that were asked for.
pub fn read_sectors(first: u32, flash: &mut [u8], data: &mut [u8], counts: &mut [u32; 2]) -> u8 {
    let (size, flash, n) = (flash.len(), flash.as_mut_ptr(), data.len());
    unsafe { otterarch_read_sectors(first, flash, size, data.as_mut_ptr(), n, counts.as_mut_ptr()) }
}

pub fn write_sectors(first: u32, flash: &mut [u8], data: &[u8], counts: &mut [u32; 2]) -> u8 {
    let (size, flash, n) = (flash.len(), flash.as_mut_ptr(), data.len());
    unsafe { otterarch_write_sectors(first, flash, size, data.as_ptr(), n, counts.as_mut_ptr()) }
}

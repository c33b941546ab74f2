//! The unchanged Rust, asked for the same.

#![allow(dead_code)]

use std::hint::black_box;

use rockusb::{
    device::Transport,
    operation::{self, MaskRomOperation, OperationSteps, UsbStep},
    protocol::CommandBlock,
};
use rockusb_mock::{MockDevice, MockDeviceConfig};

/// As rockusb/src/operation.rs has it.
const CRC: crc::Crc<u16> = crc::Crc::<u16>::new(&crc::CRC_16_IBM_3740);

pub fn check(bytes: &[u8]) -> u16 {
    let mut digest = CRC.digest();
    digest.update(bytes);
    digest.finalize()
}

/// The check of a deck's block, over its tag and its bytes before the check.
pub fn block_check(tag: u32, block: &[u8; 512]) -> [u8; 2] {
    let mut digest = CRC.digest();
    digest.update(&tag.to_be_bytes());
    digest.update(&block[..510]);
    digest.finalize().to_be_bytes()
}

/// Steps to the finish; what the last transfer began with, and how many there were.
fn drive(mut operation: MaskRomOperation<'_>) -> ([u8; 2], u32) {
    let (mut last, mut transfers) = ([0; 2], 0);
    while let UsbStep::WriteControl { data, .. } = operation.step() {
        transfers += 1;
        last = [data[0], *data.get(1).unwrap_or(&0)];
        black_box(data);
    }
    (last, transfers)
}

pub fn upload(area: u16, image: &[u8]) -> ([u8; 2], u32) {
    drive(operation::write_area(area, image))
}

pub fn command_write(first: u32, sectors: u16, out: &mut [u8]) -> usize {
    CommandBlock::read_lba(first, sectors).to_bytes(out)
}

pub fn command_read(bytes: &[u8]) -> u64 {
    let block = CommandBlock::from_bytes(bytes).expect("a command");
    u64::from(u8::from(block.cd_code()))
        + (u64::from(block.cd_address()) << 8)
        + (u64::from(block.cd_length()) << 40)
}

pub fn device(flash: Vec<u8>) -> MockDevice {
    MockDevice::new(MockDeviceConfig { flash, ..Default::default() }).expect("whole sectors")
}

pub fn read_sectors(mock: &mut MockDevice, first: u32, data: &mut [u8]) -> u32 {
    let done = mock.device().transport_mut().handle_operation(operation::read_lba(first, data));
    done.expect("sectors of the flash").into()
}

pub fn write_sectors(mock: &mut MockDevice, first: u32, data: &[u8]) -> u32 {
    let done = mock.device().transport_mut().handle_operation(operation::write_lba(first, data));
    done.expect("sectors of the flash").into()
}

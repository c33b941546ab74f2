//! A deck dealt to the unchanged Rust and its mock, in the lines that `bench` prints. Uploads are left out: their
//! bounded store is not the Rust's.

mod original;

use std::io::{self, BufReader, BufWriter, Read, Write};

use rockusb::{
    device::{Error, Transport},
    operation::{self, OperationSteps},
    protocol::{ResetOpcode, StorageIndex},
};
use rockusb_mock::{MockDevice, MockState, MockTransportError};

const MOST_SECTORS: u16 = 16;

/// The number of a block's refusal.
type Dealt<T> = Result<T, u8>;

fn run<T>(state: &mut MockState, operation: impl OperationSteps<T>) -> Dealt<T> {
    state.handle_operation(operation).map_err(|e| match e {
        Error::UsbError(MockTransportError::UnknownCommand(_)) => 53,
        Error::UsbError(MockTransportError::UnexpectedRead) => 54,
        Error::UsbError(MockTransportError::OutOfRange) => 57,
        e => panic!("{e}"),
    })
}

fn hex(bytes: &[u8]) -> String {
    bytes.iter().map(|b| format!("{b:02x}")).collect()
}

fn value(state: &mut MockState, tag: u32, block: &[u8; 512]) -> Dealt<String> {
    if original::block_check(tag, block) != block[510..] {
        return Err(40);
    }
    if block[0] == 13 {
        return Err(46);
    }
    if !(1..=11).contains(&block[0]) {
        return Err(41);
    }
    if block[8..510].iter().any(|b| *b != 0) {
        return Err(42);
    }
    let first = u32::from_be_bytes([block[1], block[2], block[3], block[4]]);
    let count = u16::from_be_bytes([block[5], block[6]]);
    if matches!(block[0], 7 | 8) && count > MOST_SECTORS {
        return Err(43);
    }
    let mut data = [block[7]; MOST_SECTORS as usize * 512];
    let bytes = usize::from(count) * 512;
    let nothing = "-".to_string();
    Ok(match block[0] {
        1 => hex(run(state, operation::chip_info())?.inner()),
        2 => hex(run(state, operation::flash_id())?.to_str().as_bytes()),
        3 => hex(run(state, operation::flash_info())?.inner()),
        4 => hex(run(state, operation::capability())?.inner()),
        5 => run(state, operation::erase_lba(first, count)).map(|()| nothing)?,
        6 => run(state, operation::erase_force(first, count)).map(|()| nothing)?,
        7 => u32::from(run(state, operation::read_lba(first, &mut data[..bytes]))?).to_string(),
        8 => u32::from(run(state, operation::write_lba(first, &data[..bytes]))?).to_string(),
        9 => {
            let opcode = ResetOpcode::try_from(block[7]).map_err(|_| 45u8)?;
            run(state, operation::reset_device(opcode)).map(|()| nothing)?
        }
        10 => run(state, operation::storage()).map(|_| nothing)?,
        _ => run(state, operation::switch_storage(StorageIndex::from(block[7]))).map(|()| nothing)?,
    })
}

fn main() -> io::Result<()> {
    let mut mock = MockDevice::default();
    let mut input = BufReader::with_capacity(1 << 16, io::stdin().lock());
    let mut out = BufWriter::with_capacity(1 << 16, io::stdout().lock());
    let mut block = [0; 512];
    for number in 1u64.. {
        if input.read_exact(&mut block).is_err() {
            break;
        }
        match value(mock.device().transport_mut(), number as u32, &block) {
            Ok(value) => writeln!(out, "{number} 0 {value}")?,
            Err(refusal) => writeln!(out, "{number} {refusal} -")?,
        }
    }
    out.flush()
}

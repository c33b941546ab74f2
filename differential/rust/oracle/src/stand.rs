//! The current device: the mock or a NOR head, asked through `Transport::handle_operation`.

use std::collections::{BTreeMap, BTreeSet};

use rockusb::{
    device::{Error, Transport},
    operation::{OperationSteps, UsbStep},
    protocol::{ResetOpcode, SECTOR_SIZE},
};
use rockusb_mock::{MockConfigError, MockDevice, MockDeviceConfig};

use crate::{
    nor::{Nor, Refusal},
    refusals::{operation_refusal, transport_refusal},
    text::{Answer, Reason, Stop, Tokens, show},
    values::output,
};

const SLOTS: usize = 8;
/// Slots for images of 10,000 transfers.
const STORE_LIMIT: u64 = 335_544_320;
const FLASH_LIMIT: usize = 65_536 * SECTOR_SIZE as usize;

/// The bounded store of the rules, which neither head has: only whether a write fits, or is 58 or 59.
pub struct Room {
    slot: usize,
    held: BTreeMap<u16, usize>,
}

impl Room {
    pub fn take(&mut self, area: u16, more: usize) -> Result<(), u8> {
        if !self.held.contains_key(&area) && self.held.len() == SLOTS {
            return Err(58);
        }
        let after = self.held.get(&area).unwrap_or(&0) + more;
        if after > self.slot {
            return Err(59);
        }
        self.held.insert(area, after);
        Ok(())
    }
}

enum Head {
    Mock(MockDevice),
    Nor(Nor),
}

impl Head {
    fn flash(&self) -> &[u8] {
        match self {
            Head::Mock(mock) => mock.flash(),
            Head::Nor(nor) => nor.flash(),
        }
    }

    fn area(&self, area: u16) -> Option<&[u8]> {
        match self {
            Head::Mock(mock) => mock.maskrom_area(area),
            Head::Nor(nor) => nor.area(area),
        }
    }

    fn last_reset(&self) -> Option<ResetOpcode> {
        match self {
            Head::Mock(mock) => mock.last_reset(),
            Head::Nor(nor) => nor.last_reset(),
        }
    }
}

pub struct Stand {
    head: Head,
    store: usize,
    /// Every area number that was ever asked for; a head only looks areas up.
    named: BTreeSet<u16>,
}

/// A refusal as its number and values.
fn told<T, E>(result: Result<T, Error<E>>, refusal: impl Fn(&E) -> String) -> Result<T, String> {
    result.map_err(|e| match e {
        Error::UsbError(e) => refusal(&e),
        Error::OperationError(e) => operation_refusal(&e),
    })
}

/// One raw call, then the finish.
struct Once<'a>(Option<UsbStep<'a, ()>>);

impl OperationSteps<()> for Once<'_> {
    fn step(&mut self) -> UsbStep<'_, ()> {
        self.0.take().unwrap_or(UsbStep::Finished(Ok(())))
    }
}

pub fn start_default(tokens: &mut Tokens) -> Result<(Stand, String), Stop> {
    let store = tokens.up_to(STORE_LIMIT)? as usize;
    tokens.end()?;
    Ok(Stand::fresh(store).started(0))
}

/// The store's length and the configuration.
fn configuration(tokens: &mut Tokens) -> Result<(usize, MockDeviceConfig), Stop> {
    let store = tokens.up_to(STORE_LIMIT)? as usize;
    let config = MockDeviceConfig {
        block_size_sectors: tokens.u16()?,
        chip_info: tokens.array()?,
        flash_id: tokens.array()?,
        capability: tokens.array()?,
        flash_info_extra: tokens.array()?,
        flash: tokens.data()?,
    };
    tokens.end()?;
    Ok((store, config))
}

/// The device of an accepted configuration (its number is 0, or 62), or none where its flash's length is refused (60).
fn start(head: Result<(Head, u8), usize>, store: usize) -> Result<(Option<Stand>, String), Stop> {
    match head {
        Err(len) => Ok((None, format!("60 {len}"))),
        Ok((head, _)) if head.flash().len() > FLASH_LIMIT => Err(Stop(Reason::FlashTooLarge)),
        Ok((head, number)) => {
            let (stand, answer) = Stand { head, store, named: BTreeSet::new() }.started(number);
            Ok((Some(stand), answer))
        }
    }
}

/// No device where the Rust refuses the configuration.
pub fn start_configured(tokens: &mut Tokens) -> Result<(Option<Stand>, String), Stop> {
    let (store, config) = configuration(tokens)?;
    let head = MockDevice::new(config).map(|mock| (Head::Mock(mock), 0));
    start(head.map_err(|MockConfigError::FlashSize(len)| len), store)
}

/// A NOR head, which is there with a block size of 0 too: that is told, and it goes on.
pub fn start_nor(tokens: &mut Tokens) -> Result<(Option<Stand>, String), Stop> {
    let (store, config) = configuration(tokens)?;
    let head = Nor::new(config).map(|nor| {
        let number = if nor.has_no_blocks() { 62 } else { 0 };
        (Head::Nor(nor), number)
    });
    start(head, store)
}

impl Stand {
    /// The Rust's default device.
    pub fn fresh(store: usize) -> Stand {
        Stand { head: Head::Mock(MockDevice::default()), store, named: BTreeSet::new() }
    }

    fn started(self, number: u8) -> (Stand, String) {
        let answer = format!("{number} | {}", self.show());
        (self, answer)
    }

    /// What an operation comes to, by the head's own loop over its steps.
    pub fn handle<T>(&mut self, operation: impl OperationSteps<T>) -> Result<T, String> {
        match &mut self.head {
            Head::Mock(mock) => {
                told(mock.device().transport_mut().handle_operation(operation), transport_refusal)
            }
            Head::Nor(nor) => told(nor.handle_operation(operation), Refusal::show),
        }
    }

    pub fn flash(&self) -> &[u8] {
        self.head.flash()
    }

    pub fn expect(&mut self, area: u16) {
        self.named.insert(area);
    }

    fn held(&self) -> impl Iterator<Item = (u16, &[u8])> {
        self.named.iter().filter_map(|area| Some((*area, self.head.area(*area)?)))
    }

    pub fn room(&self) -> Room {
        Room {
            slot: self.store / SLOTS,
            held: self.held().map(|(area, bytes)| (area, bytes.len())).collect(),
        }
    }

    pub fn show(&self) -> String {
        let areas: Vec<String> =
            self.held().map(|(area, bytes)| format!(" {area} {}", show(bytes))).collect();
        let flash = show(self.flash());
        format!("{flash} | {}{} | {}", areas.len(), areas.concat(), self.reset())
    }

    fn reset(&self) -> String {
        match self.head.last_reset() {
            Some(opcode) => format!("1 {}", u8::from(opcode)),
            None => "0".into(),
        }
    }

    fn call(&mut self, step: UsbStep<'_, ()>) -> String {
        self.handle(Once(Some(step))).map_or_else(|refusal| refusal, |()| "0".into())
    }

    pub fn write_bulk(&mut self, tokens: &mut Tokens) -> Answer {
        let data = tokens.data()?;
        tokens.end()?;
        let said = self.call(UsbStep::WriteBulk { data: &data });
        Ok(format!("{said} | {}", self.show()))
    }

    pub fn read_bulk(&mut self, tokens: &mut Tokens) -> Answer {
        let mut data = output(tokens)?;
        tokens.end()?;
        let said = self.call(UsbStep::ReadBulk { data: &mut data });
        Ok(format!("{said} | {} | {}", show(&data), self.show()))
    }

    pub fn write_control(&mut self, tokens: &mut Tokens) -> Answer {
        let (request_type, request) = (tokens.u8()?, tokens.u8()?);
        let (value, index) = (tokens.u16()?, tokens.u16()?);
        let data = tokens.data()?;
        tokens.end()?;
        let an_area = (request_type, request, value) == (0x40, 0xc, 0);
        if an_area && let Err(number) = self.room().take(index, data.len()) {
            return Ok(format!("{number} | {}", self.show()));
        }
        self.expect(index);
        let said = self.call(UsbStep::WriteControl { request_type, request, value, index, data: &data });
        Ok(format!("{said} | {}", self.show()))
    }

    pub fn area(&self, tokens: &mut Tokens) -> Answer {
        let area = tokens.u16()?;
        tokens.end()?;
        Ok(match self.head.area(area) {
            Some(bytes) => format!("0 1 {}", show(bytes)),
            None => "0 0".into(),
        })
    }

    pub fn last_reset(&self, tokens: &mut Tokens) -> Answer {
        tokens.end()?;
        Ok(format!("0 {}", self.reset()))
    }
}

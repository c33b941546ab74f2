//! The NOR head: the second variety of the stand-in, which the Rust does not have. It is written from the documents (01,
//! "Stand-in device", and L6 of 02) and apart from the code that is compared with it. Commands are read and statuses
//! written by the Rust, and what runs on it are the Rust's operations.

use std::{collections::BTreeMap, mem, ops::Range};

use rockusb::{
    device::{Error, Transport},
    operation::{OperationSteps, UsbStep},
    protocol::{
        COMMAND_STATUS_BYTES, CommandBlock, CommandBlockParseError, CommandCode, CommandStatus, Direction,
        ResetOpcode, SECTOR_SIZE, Status,
    },
};
use rockusb_mock::{MockDeviceConfig, MockTransportError};

use crate::refusals::transport_refusal;

const SECTOR: usize = SECTOR_SIZE as usize;
const ERASED: u8 = 0xff;
/// The place of SPI NOR: the bit of the storage reply, and the only opcode that a switch succeeds with.
const SPI_NOR: u8 = 4;

pub enum Refusal {
    /// One that both varieties have, by the mock's name for it.
    Common(MockTransportError),
    /// 63.
    NotWholeBlocks,
}

impl Refusal {
    /// The number and its values.
    pub fn show(&self) -> String {
        match self {
            Refusal::Common(e) => transport_refusal(e),
            Refusal::NotWholeBlocks => "63".into(),
        }
    }
}

impl From<MockTransportError> for Refusal {
    fn from(e: MockTransportError) -> Self {
        Refusal::Common(e)
    }
}

impl From<CommandBlockParseError> for Refusal {
    fn from(e: CommandBlockParseError) -> Self {
        Refusal::Common(MockTransportError::CommandBlockError(e))
    }
}

#[derive(Default)]
enum Transaction {
    #[default]
    None,
    AwaitsData(CommandBlock),
    /// With the status that is pending.
    AwaitsStatus(CommandBlock, Status),
}

pub struct Nor {
    flash: Vec<u8>,
    /// What it was started with but the flash.
    config: MockDeviceConfig,
    areas: BTreeMap<u16, Vec<u8>>,
    last_reset: Option<ResetOpcode>,
    transaction: Transaction,
}

impl Nor {
    /// 60 with the flash's length, where it is not of whole sectors.
    pub fn new(mut config: MockDeviceConfig) -> Result<Nor, usize> {
        let flash = mem::take(&mut config.flash);
        if flash.len() % SECTOR != 0 {
            return Err(flash.len());
        }
        Ok(Nor { flash, config, areas: BTreeMap::new(), last_reset: None, transaction: Transaction::None })
    }

    /// 62, told when it is started and at no other time.
    pub fn has_no_blocks(&self) -> bool {
        self.config.block_size_sectors == 0
    }

    pub fn flash(&self) -> &[u8] {
        &self.flash
    }

    pub fn area(&self, area: u16) -> Option<&[u8]> {
        self.areas.get(&area).map(Vec::as_slice)
    }

    pub fn last_reset(&self) -> Option<ResetOpcode> {
        self.last_reset
    }

    /// The bytes of a command's sectors: they fit exactly if address plus count is at most the flash's sectors (57).
    fn range(&self, command: &CommandBlock) -> Result<Range<usize>, Refusal> {
        let first = command.cd_address() as usize;
        let behind = first + usize::from(command.cd_length());
        if behind > self.flash.len() / SECTOR {
            return Err(MockTransportError::OutOfRange.into());
        }
        Ok(first * SECTOR..behind * SECTOR)
    }

    /// Any bulk write: whatever comes of it, the transaction was set to none first.
    fn write_bulk(&mut self, data: &[u8]) -> Result<(), Refusal> {
        self.transaction = match mem::take(&mut self.transaction) {
            Transaction::None => self.begin(CommandBlock::from_bytes(data)?)?,
            Transaction::AwaitsData(command) => {
                let status = self.receive(&command, data)?;
                Transaction::AwaitsStatus(command, status)
            }
            Transaction::AwaitsStatus(..) => return Err(MockTransportError::UnexpectedWrite.into()),
        };
        Ok(())
    }

    fn begin(&mut self, command: CommandBlock) -> Result<Transaction, Refusal> {
        if command.transfer_length() != 0 {
            return Ok(Transaction::AwaitsData(command));
        }
        let status = self.carry_out(&command)?;
        Ok(Transaction::AwaitsStatus(command, status))
    }

    /// A command that has no data.
    fn carry_out(&mut self, command: &CommandBlock) -> Result<Status, Refusal> {
        match command.cd_code() {
            CommandCode::EraseLBA | CommandCode::EraseForce => self.erase(command)?,
            CommandCode::DeviceReset => {
                let opcode = command.cd_opcode();
                let reset =
                    ResetOpcode::try_from(opcode).map_err(|_| MockTransportError::InvalidReset(opcode))?;
                self.last_reset = Some(reset);
            }
            CommandCode::SwitchStorage if command.cd_opcode() != SPI_NOR => return Ok(Status::FAILED),
            CommandCode::SwitchStorage => {}
            code => return Err(MockTransportError::UnknownCommand(code).into()),
        }
        Ok(Status::SUCCESS)
    }

    /// 57, then 63. With a block size of 0 only 0 is a multiple of it.
    fn erase(&mut self, command: &CommandBlock) -> Result<(), Refusal> {
        let range = self.range(command)?;
        let block = u32::from(self.config.block_size_sectors);
        let is_whole = |sectors: u32| sectors.is_multiple_of(block);
        if !is_whole(command.cd_address()) || !is_whole(command.cd_length().into()) {
            return Err(Refusal::NotWholeBlocks);
        }
        self.flash[range].fill(ERASED);
        Ok(())
    }

    /// The data of a command, and the status that comes of it.
    fn receive(&mut self, command: &CommandBlock, data: &[u8]) -> Result<Status, Refusal> {
        if command.direction() != Direction::Out || command.cd_code() != CommandCode::WriteLBA {
            return Err(MockTransportError::UnexpectedWrite.into());
        }
        let range = self.range(command)?;
        same_length(range.len(), data.len())?;
        let cells = &mut self.flash[range];
        cells.iter_mut().zip(data).for_each(|(cell, asked)| *cell &= asked);
        Ok(if cells == data { Status::SUCCESS } else { Status::FAILED })
    }

    /// Any bulk read: whatever comes of it, the transaction was set to none first.
    fn read_bulk(&mut self, data: &mut [u8]) -> Result<(), Refusal> {
        match mem::take(&mut self.transaction) {
            Transaction::AwaitsData(command) if command.direction() == Direction::In => {
                let reply = self.reply(&command)?;
                same_length(reply.len(), data.len())?;
                data.copy_from_slice(&reply);
                self.transaction = Transaction::AwaitsStatus(command, Status::SUCCESS);
                Ok(())
            }
            Transaction::AwaitsStatus(command, status) if data.len() == COMMAND_STATUS_BYTES => {
                CommandStatus { tag: command.tag(), residue: 0, status }.to_bytes(data);
                Ok(())
            }
            _ => Err(MockTransportError::UnexpectedRead.into()),
        }
    }

    /// The bytes that a command asks for.
    fn reply(&self, command: &CommandBlock) -> Result<Vec<u8>, Refusal> {
        Ok(match command.cd_code() {
            CommandCode::ReadFlashId => self.config.flash_id.to_vec(),
            CommandCode::ReadFlashInfo => self.flash_info(),
            CommandCode::ReadChipInfo => self.config.chip_info.to_vec(),
            CommandCode::ReadCapability => self.config.capability.to_vec(),
            CommandCode::GetStorageMedia => (1u32 << SPI_NOR).to_le_bytes().to_vec(),
            CommandCode::ReadLBA => self.flash[self.range(command)?].to_vec(),
            _ => return Err(MockTransportError::UnexpectedRead.into()),
        })
    }

    /// Sectors and block size, little-endian, then the five bytes of the configuration.
    fn flash_info(&self) -> Vec<u8> {
        let sectors = (self.flash.len() / SECTOR) as u32;
        let block = self.config.block_size_sectors;
        [&sectors.to_le_bytes()[..], &block.to_le_bytes(), &self.config.flash_info_extra].concat()
    }

    /// 51, or the area grows; whether there is room is not looked at here (58, 59).
    fn write_control(&mut self, header: (u8, u8, u16), area: u16, data: &[u8]) -> Result<(), Refusal> {
        let (request_type, request, value) = header;
        if header != (0x40, 0xc, 0) {
            return Err(MockTransportError::UnsupportedControl { request_type, request, value }.into());
        }
        self.areas.entry(area).or_default().extend(data);
        Ok(())
    }
}

/// 50.
fn same_length(expected: usize, actual: usize) -> Result<(), Refusal> {
    if expected == actual {
        return Ok(());
    }
    Err(MockTransportError::InvalidTransferLength { expected, actual }.into())
}

impl Transport for Nor {
    type TransportError = Refusal;

    fn handle_operation<O, T>(&mut self, mut operation: O) -> Result<T, Error<Refusal>>
    where
        O: OperationSteps<T>,
    {
        loop {
            let came = match operation.step() {
                UsbStep::WriteControl { request_type, request, value, index, data } => {
                    self.write_control((request_type, request, value), index, data)
                }
                UsbStep::WriteBulk { data } => self.write_bulk(data),
                UsbStep::ReadBulk { data } => self.read_bulk(data),
                UsbStep::Finished(result) => return result.map_err(Error::OperationError),
            };
            came.map_err(Error::UsbError)?;
        }
    }
}

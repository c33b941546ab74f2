//! Numbers, command and status blocks, replies.

use std::sync::OnceLock;

use rockusb::{
    operation::{OperationSteps, UsbOperationError, UsbStep},
    protocol::{
        COMMAND_BLOCK_BYTES, COMMAND_STATUS_BYTES, Capability, ChipInfo, CommandBlock, CommandCode,
        CommandStatus, Direction, FlashId, FlashInfo, ResetOpcode, Status, StorageIndex,
    },
};

use crate::{
    refusals::{command_refusal, operation_refusal, status_refusal},
    text::{Answer, Reason, Stop, Tokens, show},
    values::{
        SECTOR_BYTES_LIMIT, flash_id_bytes, long_enough, output, reset_opcode, show_index, storage_index,
        whole_sectors,
    },
};

pub fn number(name: &str, tokens: &mut Tokens) -> Answer {
    let n = tokens.u8()?;
    tokens.end()?;
    let read = match name {
        "dir" => Direction::try_from(n).map(u8::from).map_err(|e| (3, e.number)),
        "cod" => CommandCode::try_from(n).map(u8::from).map_err(|e| (4, e.number)),
        "sta" => Status::try_from(n).map(u8::from).map_err(|e| (7, e.number)),
        "rst" => ResetOpcode::try_from(n).map(u8::from).map_err(|e| (52, e.number)),
        _ => return Ok(format!("0 {}", show_index(StorageIndex::from(n)))),
    };
    Ok(match read {
        Ok(value) => format!("0 {value}"),
        Err((refusal, value)) => format!("{refusal} {value}"),
    })
}

pub fn read_command(tokens: &mut Tokens) -> Answer {
    let data = tokens.data()?;
    tokens.end()?;
    Ok(match CommandBlock::from_bytes(&data) {
        Ok(block) => format!("0 {}", fields(&block)),
        Err(e) => command_refusal(&e),
    })
}

/// `lun` and `cdb_length` have no accessor: they are taken from where the block writes them.
fn fields(block: &CommandBlock) -> String {
    let mut written = [0; COMMAND_BLOCK_BYTES];
    block.to_bytes(&mut written);
    format!(
        "{} {} {} {} {} {} {} {} {}",
        block.tag(),
        block.transfer_length(),
        u8::from(block.direction()),
        written[13],
        written[14],
        u8::from(block.cd_code()),
        block.cd_opcode(),
        block.cd_address(),
        block.cd_length()
    )
}

pub fn write_command(tokens: &mut Tokens) -> Answer {
    let mut out = output(tokens)?;
    let block = constructed(tokens)?;
    tokens.end()?;
    write_block(&block, &mut out)
}

pub fn convert_command(tokens: &mut Tokens) -> Answer {
    let mut out = output(tokens)?;
    let data = tokens.data()?;
    tokens.end()?;
    match CommandBlock::from_bytes(&data) {
        Ok(block) => write_block(&block, &mut out),
        Err(e) => Ok(format!("{} | {}", command_refusal(&e), show(&out))),
    }
}

fn write_block(block: &CommandBlock, out: &mut [u8]) -> Answer {
    long_enough(out, COMMAND_BLOCK_BYTES)?;
    let count = block.to_bytes(out);
    Ok(format!("0 {count} | {}", show(out)))
}

fn constructed(tokens: &mut Tokens) -> Result<CommandBlock, Stop> {
    let op = tokens.word()?;
    fastrand::choose(tokens.u32()?);
    Ok(match op {
        "chp" => CommandBlock::chip_info(),
        "fid" => CommandBlock::flash_id(),
        "fin" => CommandBlock::flash_info(),
        "cap" => CommandBlock::capability(),
        "sto" => CommandBlock::storage(),
        "era" => CommandBlock::erase_lba(tokens.u32()?, tokens.u16()?),
        "erf" => CommandBlock::erase_force(tokens.u32()?, tokens.u16()?),
        "rdl" => CommandBlock::read_lba(tokens.u32()?, tokens.u16()?),
        "wrl" => CommandBlock::write_lba(tokens.u32()?, tokens.u16()?),
        "rst" => CommandBlock::reset_device(reset_opcode(tokens)?),
        "swi" => CommandBlock::switch_storage(storage_index(tokens)?),
        _ => return Err(Stop(Reason::Unreadable)),
    })
}

pub fn read_status(tokens: &mut Tokens) -> Answer {
    let data = tokens.data()?;
    tokens.end()?;
    Ok(match CommandStatus::from_bytes(&data) {
        Ok(status) => format!("0 {} {} {}", status.tag, status.residue, u8::from(status.status)),
        Err(e) => status_refusal(&e),
    })
}

pub fn map_status(tokens: &mut Tokens) -> Answer {
    let data = tokens.data()?;
    tokens.end()?;
    Ok(match CommandStatus::from_bytes(&data).map_err(UsbOperationError::from) {
        Ok(_) => "0".into(),
        Err(e) => operation_refusal(&e),
    })
}

pub fn write_status(tokens: &mut Tokens) -> Answer {
    let mut out = output(tokens)?;
    let (tag, residue) = (tokens.u32()?, tokens.u32()?);
    let status = Status::try_from(tokens.u8()?).map_err(|_| Stop(Reason::Unreadable))?;
    tokens.end()?;
    long_enough(&out, COMMAND_STATUS_BYTES)?;
    let count = CommandStatus { tag, residue, status }.to_bytes(&mut out);
    Ok(format!("0 {count} | {}", show(&out)))
}

pub fn reply(name: &str, tokens: &mut Tokens) -> Answer {
    let value = match name {
        "chp" => show(ChipInfo::from_bytes(tokens.array()?).inner()),
        "fid" => show(&flash_id_bytes(&FlashId::from_bytes(tokens.array()?))),
        "fin" => show_flash_info(&FlashInfo::from_bytes(tokens.array()?)),
        _ => show_capability(&Capability::from_bytes(tokens.array()?)),
    };
    tokens.end()?;
    Ok(format!("0 {value}"))
}

fn show_flash_info(info: &FlashInfo) -> String {
    let bytes = show(info.inner());
    format!("{} {} {} {bytes}", info.sectors(), info.size(), info.block_size_sectors())
}

fn show_capability(capability: &Capability) -> String {
    let flags = [
        capability.direct_lba(),
        capability.vendor_storage(),
        capability.first_4m_access(),
        capability.read_lba(),
        capability.read_com_log(),
        capability.read_idb_config(),
        capability.read_secure_mode(),
        capability.new_idb(),
        capability.switch_storage(),
    ];
    let shown: String = flags.iter().map(|f| format!("{} ", u8::from(*f))).collect();
    shown + &show(capability.inner())
}

/// The Rust reads a storage reply only inside the `storage` operation: it is stepped with this reply and a good status.
pub fn storage_reply(tokens: &mut Tokens) -> Answer {
    let reply: [u8; 4] = tokens.array()?;
    tokens.end()?;
    fastrand::choose(0);
    let mut operation = rockusb::operation::storage();
    operation.step();
    give(operation.step(), &reply);
    give(operation.step(), b"USBS\0\0\0\0\0\0\0\0\0");
    let UsbStep::Finished(result) = operation.step() else {
        unreachable!("the fourth step of an operation with data")
    };
    Ok(match result {
        Ok(index) => format!("0 {}", show_index(index)),
        Err(e) => operation_refusal(&e),
    })
}

fn give<T>(step: UsbStep<'_, T>, bytes: &[u8]) {
    if let UsbStep::ReadBulk { data } = step {
        data.copy_from_slice(bytes);
    }
}

/// The count that a sector write of LEN bytes carries in its command.
pub fn sectors(tokens: &mut Tokens) -> Answer {
    let len = tokens.up_to(u64::MAX)?;
    tokens.end()?;
    whole_sectors(len)?;
    // Made once: it has up to 33,553,920 bytes, of which only the length counts.
    static ZEROS: OnceLock<Vec<u8>> = OnceLock::new();
    let zeros = ZEROS.get_or_init(|| vec![0; SECTOR_BYTES_LIMIT as usize]);
    let mut operation = rockusb::operation::write_lba(0, &zeros[..len as usize]);
    let UsbStep::WriteBulk { data: command } = operation.step() else {
        unreachable!("the first step of an operation")
    };
    let block = CommandBlock::from_bytes(command).expect("the operation's own command");
    Ok(format!("0 {}", block.cd_length()))
}

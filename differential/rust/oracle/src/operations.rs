//! The current operation and the current upload: stepped by hand, or run against the device.

use std::marker::PhantomData;

use rockusb::{
    operation::{OperationSteps, Transferred, UsbOperationError, UsbStep},
    protocol::{COMMAND_BLOCK_BYTES, Capability, ChipInfo, FlashId, FlashInfo, StorageIndex},
};

use crate::{
    refusals::operation_refusal,
    stand::{Room, Stand},
    text::{Answer, Reason, Stop, Tokens, show},
    unchecked::Beside,
    values::{flash_id_bytes, long_enough, output, reset_opcode, show_index, storage_index, whole_sectors},
};

/// What a finished operation gives, with a space before it.
trait Value {
    fn show(&self) -> String;
}

impl Value for ChipInfo {
    fn show(&self) -> String {
        format!(" {}", show(self.inner()))
    }
}

impl Value for FlashId {
    fn show(&self) -> String {
        format!(" {}", show(&flash_id_bytes(self)))
    }
}

impl Value for FlashInfo {
    fn show(&self) -> String {
        format!(" {}", show(self.inner()))
    }
}

impl Value for Capability {
    fn show(&self) -> String {
        format!(" {}", show(self.inner()))
    }
}

impl Value for StorageIndex {
    fn show(&self) -> String {
        format!(" {}", show_index(*self))
    }
}

impl Value for Transferred {
    fn show(&self) -> String {
        format!(" {}", u32::from(*self))
    }
}

impl Value for () {
    fn show(&self) -> String {
        String::new()
    }
}

/// A slice that the Rust lent at a read step; it stays good until the operation is stepped again or dropped.
#[derive(Clone, Copy)]
struct Asked {
    start: *mut u8,
    len: usize,
}

enum Step {
    Write(Vec<u8>),
    Read(Asked),
    Control { header: String, data: Vec<u8> },
    Finished(Result<String, UsbOperationError>),
}

#[derive(Clone, Copy)]
enum Last {
    Nothing,
    Sent,
    Asked(Asked),
    Finished,
}

/// How a run ended.
enum End {
    Finished(String),
    Refused(String),
    OutOfSteps,
    /// 58 or 59.
    NoRoom(u8),
}

struct Ran {
    end: End,
    steps: u64,
    last: Last,
}

/// `OperationSteps` with its result's type hidden.
trait Steps {
    fn step(&mut self) -> Step;
    fn run(&mut self, stand: &mut Stand, budget: u64) -> Ran;
}

struct Typed<O, T>(O, PhantomData<T>);

fn typed<O: OperationSteps<T> + 'static, T: Value + 'static>(operation: O) -> Box<dyn Steps> {
    Box::new(Typed(operation, PhantomData))
}

fn asked_slice(data: &mut [u8]) -> Asked {
    Asked { start: data.as_mut_ptr(), len: data.len() }
}

impl<O: OperationSteps<T>, T: Value> Steps for Typed<O, T> {
    fn step(&mut self) -> Step {
        match self.0.step() {
            UsbStep::WriteBulk { data } => Step::Write(data.to_vec()),
            UsbStep::ReadBulk { data } => Step::Read(asked_slice(data)),
            UsbStep::WriteControl { request_type, request, value, index, data } => Step::Control {
                header: format!("{request_type} {request} {value} {index}"),
                data: data.to_vec(),
            },
            UsbStep::Finished(result) => Step::Finished(result.map(|v| v.show())),
        }
    }

    fn run(&mut self, stand: &mut Stand, budget: u64) -> Ran {
        let mut budgeted = Budgeted {
            operation: &mut self.0,
            left: budget,
            steps: 0,
            last: Last::Nothing,
            cut_short: None,
            room: stand.room(),
        };
        let result = stand.handle(&mut budgeted);
        let end = match (budgeted.cut_short.take(), result) {
            (Some(end), _) => end,
            (None, Ok(value)) => End::Finished(value.show()),
            (None, Err(refusal)) => End::Refused(refusal),
        };
        let last = match (&end, budgeted.last) {
            // A transport that was served has had its giving.
            (End::OutOfSteps, Last::Asked(_)) => Last::Sent,
            (_, last) => last,
        };
        Ran { end, steps: budgeted.steps, last }
    }
}

/// Counts the steps that a transport takes, and ends its loop when the budget or the store is used up.
struct Budgeted<'a, O> {
    operation: &'a mut O,
    left: u64,
    steps: u64,
    last: Last,
    cut_short: Option<End>,
    room: Room,
}

impl<O: OperationSteps<T>, T> OperationSteps<T> for &mut Budgeted<'_, O> {
    fn step(&mut self) -> UsbStep<'_, T> {
        // Leaves the transport's loop; `cut_short` says that the refusal is not one of the Rust's.
        let leave = UsbStep::Finished(Err(UsbOperationError::TagMismatch));
        if self.left == 0 {
            self.cut_short = Some(End::OutOfSteps);
            return leave;
        }
        self.left -= 1;
        self.steps += 1;
        let mut step = self.operation.step();
        self.last = match &mut step {
            UsbStep::ReadBulk { data } => Last::Asked(asked_slice(data)),
            UsbStep::Finished(_) => Last::Finished,
            UsbStep::WriteControl { index, data, .. } => {
                if let Err(number) = self.room.take(*index, data.len()) {
                    self.cut_short = Some(End::NoRoom(number));
                    return leave;
                }
                Last::Sent
            }
            UsbStep::WriteBulk { .. } => Last::Sent,
        };
        step
    }
}

/// Bytes that stay at one place while an operation or upload borrows them; freed after it.
struct Lent(*mut [u8]);

impl Lent {
    fn new(bytes: Vec<u8>) -> Self {
        Lent(Box::into_raw(bytes.into_boxed_slice()))
    }

    fn bytes(&self) -> &'static [u8] {
        unsafe { &*self.0 }
    }

    fn bytes_mut(&self) -> &'static mut [u8] {
        unsafe { &mut *self.0 }
    }
}

impl Drop for Lent {
    fn drop(&mut self) {
        drop(unsafe { Box::from_raw(self.0) });
    }
}

pub struct Operation {
    // Before `data`, which it borrows: fields are dropped in this order.
    steps: Box<dyn Steps>,
    data: Lent,
    asked: Option<Asked>,
    at_command: bool,
}

pub fn start(tokens: &mut Tokens) -> Result<Operation, Stop> {
    let op = tokens.word()?;
    fastrand::choose(tokens.u32()?);
    let mut data = Lent::new(Vec::new());
    let steps = match op {
        "chp" => typed(rockusb::operation::chip_info()),
        "fid" => typed(rockusb::operation::flash_id()),
        "fin" => typed(rockusb::operation::flash_info()),
        "cap" => typed(rockusb::operation::capability()),
        "sto" => typed(rockusb::operation::storage()),
        "era" => typed(rockusb::operation::erase_lba(tokens.u32()?, tokens.u16()?)),
        "erf" => typed(rockusb::operation::erase_force(tokens.u32()?, tokens.u16()?)),
        "rst" => typed(rockusb::operation::reset_device(reset_opcode(tokens)?)),
        "swi" => typed(rockusb::operation::switch_storage(storage_index(tokens)?)),
        "rdl" | "wrl" => {
            let first = tokens.u32()?;
            data = Lent::new(tokens.data()?);
            start_sectors(op, first, &data)?
        }
        _ => return Err(Stop(Reason::Unreadable)),
    };
    tokens.end()?;
    Ok(Operation { steps, data, asked: None, at_command: true })
}

fn start_sectors(op: &str, first: u32, data: &Lent) -> Result<Box<dyn Steps>, Stop> {
    whole_sectors(data.bytes().len() as u64)?;
    Ok(match op {
        "rdl" => typed(rockusb::operation::read_lba(first, data.bytes_mut())),
        _ => typed(rockusb::operation::write_lba(first, data.bytes())),
    })
}

impl Operation {
    pub fn step(&mut self, tokens: &mut Tokens) -> Answer {
        let mut out = output(tokens)?;
        tokens.end()?;
        if self.at_command {
            long_enough(&out, COMMAND_BLOCK_BYTES)?;
        }
        let at_command = self.at_command;
        self.at_command = false;
        self.asked = None;
        let said = match self.steps.step() {
            Step::Write(data) => {
                if at_command {
                    out[..data.len()].copy_from_slice(&data);
                }
                format!("0 1 {}", show(&data))
            }
            Step::Read(asked) => {
                self.asked = Some(asked);
                format!("0 2 {}", asked.len)
            }
            Step::Finished(result) => {
                self.at_command = true;
                finished(result)
            }
            Step::Control { .. } => unreachable!("an operation sends no control transfer"),
        };
        Ok(format!("{said} | {} | {}", show(&out), show(self.data.bytes())))
    }

    pub fn give(&mut self, tokens: &mut Tokens) -> Answer {
        let bytes = tokens.data()?;
        tokens.end()?;
        let asked = self.asked.ok_or(Stop(Reason::NotAsked))?;
        if bytes.len() > asked.len {
            return Err(Stop(Reason::TooManyGiven));
        }
        unsafe { std::ptr::copy(bytes.as_ptr(), asked.start, bytes.len()) };
        self.asked = None;
        Ok(format!("0 | {}", show(self.data.bytes())))
    }

    pub fn run(&mut self, tokens: &mut Tokens, stand: &mut Stand) -> Answer {
        let budget = tokens.u32()?;
        tokens.end()?;
        let ran = self.steps.run(stand, budget.into());
        match ran.last {
            Last::Nothing => {}
            Last::Sent => self.stand_at(None, false),
            Last::Asked(asked) => self.stand_at(Some(asked), false),
            Last::Finished => self.stand_at(None, true),
        }
        let data = show(self.data.bytes());
        Ok(format!("{} | {} | {data} | {}", said(ran.end), ran.steps, stand.show()))
    }

    /// What a run without a budget comes to.
    pub fn ended(&mut self, stand: &mut Stand) -> String {
        said(self.steps.run(stand, u64::MAX).end)
    }

    fn stand_at(&mut self, asked: Option<Asked>, at_command: bool) {
        self.asked = asked;
        self.at_command = at_command;
    }
}

fn said(end: End) -> String {
    match end {
        End::Finished(value) => format!("0{value}"),
        End::Refused(refusal) => refusal,
        End::OutOfSteps => "28".into(),
        End::NoRoom(number) => number.to_string(),
    }
}

pub struct Upload {
    steps: Box<dyn Steps>,
    area: u16,
    _image: Lent,
}

pub fn start_upload(tokens: &mut Tokens, beside: &mut Beside) -> Result<Upload, Stop> {
    let area = tokens.u16()?;
    let image = tokens.data()?;
    tokens.end()?;
    Ok(upload_of(area, image, beside))
}

/// The upload of an image; the one without a check is looked at beside it.
fn upload_of(area: u16, image: Vec<u8>, beside: &mut Beside) -> Upload {
    let image = Lent::new(image);
    beside.look(area, image.bytes());
    Upload { steps: typed(rockusb::operation::write_area(area, image.bytes())), area, _image: image }
}

pub const UPLOAD_OUTPUT: usize = 4096;

impl Upload {
    pub fn step(&mut self, tokens: &mut Tokens) -> Answer {
        let mut out = output(tokens)?;
        tokens.end()?;
        long_enough(&out, UPLOAD_OUTPUT)?;
        let said = match self.steps.step() {
            Step::Control { header, data } => {
                out[..data.len()].copy_from_slice(&data);
                format!("0 4 {header} {}", data.len())
            }
            Step::Finished(result) => finished(result),
            _ => unreachable!("an upload has no bulk transfers"),
        };
        Ok(format!("{said} | {}", show(&out)))
    }

    pub fn run(&mut self, tokens: &mut Tokens, stand: &mut Stand) -> Answer {
        let budget = tokens.u32()?;
        tokens.end()?;
        stand.expect(self.area);
        let ran = self.steps.run(stand, budget.into());
        Ok(format!("{} | {} | {}", said(ran.end), ran.steps, stand.show()))
    }

    /// What a run without a budget comes to.
    pub fn ended(&mut self, stand: &mut Stand) -> String {
        stand.expect(self.area);
        said(self.steps.run(stand, u64::MAX).end)
    }

    fn list(&mut self) -> String {
        let mut transfers = Vec::new();
        while let Step::Control { header, data } = self.steps.step() {
            transfers.push(format!(" {header} {}", show(&data)));
        }
        format!("0 {}{}", transfers.len(), transfers.concat())
    }
}

fn finished(result: Result<String, UsbOperationError>) -> String {
    match result {
        Ok(value) => format!("0 3{value}"),
        Err(e) => operation_refusal(&e),
    }
}

pub fn whole_list(tokens: &mut Tokens, beside: &mut Beside) -> Answer {
    Ok(start_upload(tokens, beside)?.list())
}

const CUT_LIMIT: u64 = 16;

/// The Rust has no part-wise upload; the third demand says that every cut gives the whole upload's list.
pub fn cut_list(tokens: &mut Tokens, beside: &mut Beside) -> Answer {
    let area = tokens.u16()?;
    let count = tokens.up_to(CUT_LIMIT)?;
    let mut some = false;
    for _ in 0..count {
        some |= tokens.len()? > 0;
    }
    let image = tokens.data()?;
    tokens.end()?;
    if !some {
        return Err(Stop(Reason::Unreadable));
    }
    Ok(upload_of(area, image, beside).list())
}

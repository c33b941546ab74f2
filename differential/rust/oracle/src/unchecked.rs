//! The Rust's upload without a check beside its upload with one. The rules have it as a definition alone, and the proofs
//! tie that to the checked upload: the same transfers, but for two zero bytes in place of the check. So is the Rust's held
//! to its own, wherever an image is uploaded.

use rockusb::operation::{MaskRomOperation, OperationSteps, UsbStep, write_area, write_area_no_crc};

const BLOCK: usize = 4096;
const CHECK: usize = 2;

/// A control write: `TYPE REQUEST VALUE INDEX`, and its bytes.
#[derive(Clone)]
pub struct Transfer {
    pub header: String,
    pub data: Vec<u8>,
}

/// Starts an upload of an image to an area.
pub type Start = for<'a> fn(u16, &'a [u8]) -> MaskRomOperation<'a>;

/// What stands in the place of a header where an upload does not come to a finish that repeats.
const NO_FINISH: &str = "no finish";

/// The next transfer, or whether the step is the finish.
fn next(operation: &mut MaskRomOperation<'_>) -> Result<Transfer, bool> {
    match operation.step() {
        UsbStep::WriteControl { request_type, request, value, index, data } => {
            Ok(Transfer { header: format!("{request_type} {request} {value} {index}"), data: data.to_vec() })
        }
        step => Err(matches!(step, UsbStep::Finished(Ok(())))),
    }
}

pub fn no_finish() -> Transfer {
    Transfer { header: NO_FINISH.into(), data: Vec::new() }
}

/// All transfers of an upload, from its start to the first step that is none; where that step and the one behind it are
/// not the finish, `no_finish` as well.
pub fn transfers(mut operation: MaskRomOperation<'_>) -> Vec<Transfer> {
    let mut list = Vec::new();
    loop {
        match next(&mut operation) {
            Ok(transfer) => list.push(transfer),
            Err(true) if matches!(next(&mut operation), Err(true)) => return list,
            Err(_) => {
                list.push(no_finish());
                return list;
            }
        }
    }
}

/// Where the check of an image begins in the bytes of all transfers: behind the image, and behind its pad if it has one.
fn check_place(length: usize) -> usize {
    length + usize::from(length % BLOCK == BLOCK - 1)
}

/// In what the unchecked upload of an image of this length is not as its checked one says, if in anything.
pub fn apart(length: usize, checked: &[Transfer], unchecked: &[Transfer]) -> Option<String> {
    let place = check_place(length);
    let (count, wanted) = (unchecked.len(), checked.len());
    if count != wanted {
        return Some(format!("{count} transfers, and {wanted} were wanted"));
    }
    if unchecked.last().is_none_or(|last| last.header == NO_FINISH) {
        return Some("it does not come to a finish that repeats".into());
    }
    let mut at = 0;
    for (n, (got, checked)) in unchecked.iter().zip(checked).enumerate() {
        let mut wanted = checked.clone();
        for (byte, at) in wanted.data.iter_mut().zip(at..) {
            *byte = if (place..place + CHECK).contains(&at) { 0 } else { *byte };
        }
        if let Some(apart) = transfer_apart(got, &wanted) {
            return Some(format!("transfer {} of {count}: {apart}", n + 1));
        }
        at += wanted.data.len();
    }
    (at < place + CHECK).then(|| format!("{at} bytes in all, and a check at {place} was wanted"))
}

fn transfer_apart(got: &Transfer, wanted: &Transfer) -> Option<String> {
    if got.header != wanted.header {
        return Some(format!("{}, and {} was wanted", got.header, wanted.header));
    }
    if got.data.len() != wanted.data.len() {
        return Some(format!("{} bytes, and {} were wanted", got.data.len(), wanted.data.len()));
    }
    let at = got.data.iter().zip(&wanted.data).position(|(got, wanted)| got != wanted)?;
    Some(format!("byte {at} is {:02x}, and {:02x} was wanted", got.data[at], wanted.data[at]))
}

/// How many images were looked at, and what the first one was apart in that was not told yet.
pub struct Beside {
    start: Start,
    images: usize,
    apart: Option<String>,
}

impl Default for Beside {
    fn default() -> Beside {
        Beside::of(write_area_no_crc)
    }
}

impl Beside {
    /// With another upload in place of the Rust's without a check.
    pub fn of(start: Start) -> Beside {
        Beside { start, images: 0, apart: None }
    }

    pub fn images(&self) -> usize {
        self.images
    }

    pub fn look(&mut self, area: u16, image: &[u8]) {
        let checked = transfers(write_area(area, image));
        let unchecked = transfers((self.start)(area, image));
        self.images += 1;
        let apart = apart(image.len(), &checked, &unchecked);
        self.apart = self.apart.take().or(apart);
    }

    /// What an image that was looked at is apart in, once.
    pub fn told(&mut self) -> Option<String> {
        self.apart.take().map(|apart| format!("write_area_no_crc: {apart}"))
    }
}

//! Stand-in for rockusb/src/device.rs, which can't be had: only what rockusb-mock uses, passing everything on.

use crate::operation::{OperationSteps, UsbOperationError};

#[derive(Debug, thiserror::Error)]
pub enum Error<E> {
    #[error("usb: {0:?}")]
    UsbError(E),
    #[error("operation: {0}")]
    OperationError(UsbOperationError),
}

pub trait Transport {
    type TransportError;

    fn handle_operation<O, T>(&mut self, operation: O) -> Result<T, Error<Self::TransportError>>
    where
        O: OperationSteps<T>;
}

pub struct Device<T> {
    transport: T,
}

impl<T: Transport> Device<T> {
    pub fn new(transport: T) -> Self {
        Device { transport }
    }

    pub fn transport(&self) -> &T {
        &self.transport
    }

    pub fn transport_mut(&mut self) -> &mut T {
        &mut self.transport
    }
}

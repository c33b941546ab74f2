//! The Rust's errors as numbers and values.

use rockusb::{
    operation::UsbOperationError,
    protocol::{CommandBlockParseError, CommandStatusParseError},
};
use rockusb_mock::MockTransportError;

use crate::text::four;

pub fn command_refusal(e: &CommandBlockParseError) -> String {
    match e {
        CommandBlockParseError::InvalidLength(n) => format!("1 {n}"),
        CommandBlockParseError::InvalidSignature(s) => format!("2 {}", four(s)),
        CommandBlockParseError::UnknownFlags(b) => format!("3 {b}"),
        CommandBlockParseError::UnknownCommandCode(b) => format!("4 {b}"),
    }
}

pub fn status_refusal(e: &CommandStatusParseError) -> String {
    match e {
        CommandStatusParseError::InvalidLength(n) => format!("5 {n}"),
        CommandStatusParseError::InvalidSignature(s) => format!("6 {}", four(s)),
        CommandStatusParseError::InvalidStatus(b) => format!("7 {b}"),
    }
}

pub fn operation_refusal(e: &UsbOperationError) -> String {
    match e {
        UsbOperationError::TagMismatch => "10".into(),
        UsbOperationError::InvalidStatusSignature(s) => format!("11 {}", four(s)),
        UsbOperationError::InvalidStatusStatus(b) => format!("12 {b}"),
        UsbOperationError::InvalidStatusLength => "13".into(),
        UsbOperationError::ReplyParseFailure => "14".into(),
        UsbOperationError::FailedStatus => "15".into(),
    }
}

pub fn transport_refusal(e: &MockTransportError) -> String {
    match e {
        MockTransportError::InvalidTransferLength { expected, actual } => format!("50 {expected} {actual}"),
        MockTransportError::UnsupportedControl { request_type, request, value } => {
            format!("51 {request_type} {request} {value}")
        }
        MockTransportError::InvalidReset(opcode) => format!("52 {opcode}"),
        MockTransportError::UnknownCommand(code) => format!("53 {}", u8::from(*code)),
        MockTransportError::UnexpectedRead => "54".into(),
        MockTransportError::UnexpectedWrite => "55".into(),
        MockTransportError::CommandBlockError(e) => format!("56 {}", command_refusal(e)),
        MockTransportError::OutOfRange => "57".into(),
    }
}

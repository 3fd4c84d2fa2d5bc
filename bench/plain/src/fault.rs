//! What is wrong with a line or a message.

use std::borrow::Cow;

/// What is wrong with a value: P1 to P9.
#[derive(Clone, Copy)]
pub enum ValueFault {
    GtinLength,
    GtinDigit,
    GtinCheck,
    EmptyCode,
    LongCode,
    /// The place of the first wrong byte, from one.
    CodeCharacter(usize),
    Expiry,
    Market,
    Moment,
}

/// The first fault of a line or a message: M1 to M8.
pub enum Fault {
    NoJson,
    NoObject,
    Missing(&'static str),
    Unknown(String),
    WrongType(&'static str),
    WrongValue(&'static str, ValueFault),
    WrongNumber(&'static str),
    WrongLength(&'static str),
}

impl ValueFault {
    /// Its number.
    pub fn code(self) -> &'static str {
        match self {
            ValueFault::GtinLength => "P1",
            ValueFault::GtinDigit => "P2",
            ValueFault::GtinCheck => "P3",
            ValueFault::EmptyCode => "P4",
            ValueFault::LongCode => "P5",
            ValueFault::CodeCharacter(_) => "P6",
            ValueFault::Expiry => "P7",
            ValueFault::Market => "P8",
            ValueFault::Moment => "P9",
        }
    }
}

impl Fault {
    /// Its number.
    pub fn code(&self) -> &'static str {
        match self {
            Fault::NoJson => "M1",
            Fault::NoObject => "M2",
            Fault::Missing(_) => "M3",
            Fault::Unknown(_) => "M4",
            Fault::WrongType(_) => "M5",
            Fault::WrongValue(..) => "M6",
            Fault::WrongNumber(_) => "M7",
            Fault::WrongLength(_) => "M8",
        }
    }

    /// The field that it is a fault of.
    pub fn field(&self) -> Option<Cow<'_, str>> {
        match self {
            Fault::NoJson | Fault::NoObject => None,
            Fault::Unknown(field) => Some(Cow::from(field)),
            Fault::Missing(field)
            | Fault::WrongType(field)
            | Fault::WrongValue(field, _)
            | Fault::WrongNumber(field)
            | Fault::WrongLength(field) => Some(Cow::from(*field)),
        }
    }
}

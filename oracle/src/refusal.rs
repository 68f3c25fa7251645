//! The refusals of the rule book that the crate or the rules around it give.

use std::fmt;

use cea708_types::{ParserError, WriterError};

pub enum Refusal {
    Cea608AfterCea708(usize),
    WouldOverflow(usize),
    ReadOnly,
    EmptyService,
    BadNumber,
    BadRun,
    BadRate,
    OutShort(usize),
    Full,
    BadValue,
    FrameLengthWrong(usize, usize),
    /// Of a packet or a block. The crate tells neither which nor where: 13, 14 or 15, without its offset.
    LengthMismatch(usize, usize),
    BadMark,
    BadSection,
    BadSum,
    CountersDiffer,
    NotNewer,
    UnknownLength,
    CodeCutShort,
}

impl Refusal {
    /// The crate's error of a frame, which it says to be one byte shorter than it has to be.
    pub fn of_frame(error: ParserError) -> Self {
        match error {
            ParserError::LengthMismatch { expected, actual } => {
                Self::FrameLengthWrong(expected + 1, actual)
            }
            other => other.into(),
        }
    }
}

impl From<ParserError> for Refusal {
    fn from(error: ParserError) -> Self {
        match error {
            ParserError::LengthMismatch { expected, actual } => {
                Self::LengthMismatch(expected, actual)
            }
            ParserError::Cea608AfterCea708 { byte_pos } => Self::Cea608AfterCea708(byte_pos),
        }
    }
}

impl From<WriterError> for Refusal {
    fn from(error: WriterError) -> Self {
        match error {
            WriterError::WouldOverflow(over) => Self::WouldOverflow(over),
            WriterError::ReadOnly => Self::ReadOnly,
            WriterError::EmptyService => Self::EmptyService,
        }
    }
}

/// The number of the table, then the values that the refusal carries.
impl fmt::Display for Refusal {
    fn fmt(&self, f: &mut fmt::Formatter) -> fmt::Result {
        match self {
            Self::Cea608AfterCea708(byte_pos) => write!(f, "2 {byte_pos}"),
            Self::WouldOverflow(over) => write!(f, "3 {over}"),
            Self::ReadOnly => write!(f, "4"),
            Self::EmptyService => write!(f, "5"),
            Self::BadNumber => write!(f, "6"),
            Self::BadRun => write!(f, "7"),
            Self::BadRate => write!(f, "8"),
            Self::OutShort(needed) => write!(f, "9 {needed}"),
            Self::Full => write!(f, "10"),
            Self::BadValue => write!(f, "11"),
            Self::FrameLengthWrong(expected, actual) => write!(f, "12 {expected} {actual}"),
            Self::LengthMismatch(expected, actual) => write!(f, "13-15 {expected} {actual}"),
            Self::BadMark => write!(f, "16"),
            Self::BadSection => write!(f, "17"),
            Self::BadSum => write!(f, "18"),
            Self::CountersDiffer => write!(f, "19"),
            Self::NotNewer => write!(f, "20"),
            Self::UnknownLength => write!(f, "21"),
            Self::CodeCutShort => write!(f, "22"),
        }
    }
}

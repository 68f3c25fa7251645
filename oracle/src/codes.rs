//! A payload cut into codes. The crate's own tables are left behind, so this is by the rule book's ranges.

use crate::refusal::Refusal::{self, CodeCutShort, UnknownLength};

/// How many bytes a code has that begins with 0x10, by the byte behind that.
fn extended(second: u8) -> Result<usize, Refusal> {
    match second {
        0x00..=0x07 | 0x20..=0x7F | 0xA0..=0xFF => Ok(2),
        0x08..=0x0F => Ok(3),
        0x10..=0x17 => Ok(4),
        0x18..=0x1F => Ok(5),
        0x80..=0x87 => Ok(6),
        0x88..=0x8F => Ok(7),
        0x90..=0x9F => Err(UnknownLength),
    }
}

/// How many bytes the code at the front has.
fn length(first: u8, behind: &[u8]) -> Result<usize, Refusal> {
    match first {
        0x00..=0x0F | 0x20..=0x87 | 0x8E..=0x8F | 0x93..=0x96 | 0xA0..=0xFF => Ok(1),
        0x10 => extended(*behind.first().ok_or(CodeCutShort)?),
        0x11..=0x17 | 0x88..=0x8D => Ok(2),
        0x18..=0x1F | 0x90 | 0x92 => Ok(3),
        0x91 => Ok(4),
        0x97 => Ok(5),
        0x98..=0x9F => Ok(7),
    }
}

/// The lengths of the codes of a payload, from the left.
pub fn lengths(payload: &[u8]) -> Result<Vec<usize>, Refusal> {
    let (mut rest, mut found) = (payload, vec![]);
    while let [first, behind @ ..] = rest {
        let size = length(*first, behind)?;
        rest = rest.get(size..).ok_or(CodeCutShort)?;
        found.push(size);
    }
    Ok(found)
}

//! The tidy packet reader, which the crate does not have, over the crate's block reader.

use cea708_types::{DTVCCPacket, Service};

use crate::refusal::Refusal;

/// The header's sequence number and the bytes in all that it says.
fn header(byte: u8) -> (u8, usize) {
    let n = (byte & 0x3F) as usize;
    (byte >> 6, if n == 0 { 128 } else { 2 * n })
}

/// The bytes of a block that has been read: its header and its advertised size.
fn advertised(byte: u8) -> usize {
    let size = (byte & 0x1F) as usize;
    let header = if byte >> 5 == 7 && size != 0 { 2 } else { 1 };
    header + size
}

/// Whether a header of number 0 stands at the front, in one byte or in two: from there on all is fill.
fn is_null(bytes: &[u8]) -> bool {
    match bytes {
        [0..=0x1F, ..] => true,
        [0xE1..=0xFF, second, ..] => second & 0x3F == 0,
        _ => false,
    }
}

pub fn read(bytes: &[u8]) -> Result<DTVCCPacket, Refusal> {
    let Some(&first) = bytes.first() else {
        return Err(Refusal::LengthMismatch(1, 0));
    };
    let (sequence, size) = header(first);
    if bytes.len() != size {
        return Err(Refusal::LengthMismatch(size, bytes.len()));
    }
    let mut packet = DTVCCPacket::new(sequence);
    let mut rest = &bytes[1..];
    while let Some(&byte) = rest.first() {
        if is_null(rest) {
            break;
        }
        let service = Service::parse(rest)?;
        if !service.is_empty() {
            packet.push_service(service).expect("what was read fits");
        }
        rest = &rest[advertised(byte)..];
    }
    Ok(packet)
}

//! How values are printed.

use cea708_types::{Cea608, DTVCCPacket, Service};

/// Capitals without spaces; `-` for none.
pub fn hex(bytes: &[u8]) -> String {
    if bytes.is_empty() {
        return "-".to_string();
    }
    bytes.iter().map(|b| format!("{b:02X}")).collect()
}

/// Numbers with a space between them.
pub fn row(numbers: &[usize]) -> String {
    let words: Vec<_> = numbers.iter().map(usize::to_string).collect();
    words.join(" ")
}

/// The bytes of all runs of a block.
pub fn payload(s: &Service) -> Vec<u8> {
    s.codes()
        .iter()
        .flat_map(|c| c.bytes().iter().copied())
        .collect()
}

/// The sequence number, then `number:payload` for each block.
pub fn packet_text(p: &DTVCCPacket) -> String {
    let blocks = p
        .services()
        .iter()
        .map(|s| format!(" {}:{}", s.number(), hex(&payload(s))));
    p.sequence_no().to_string() + &blocks.collect::<String>()
}

pub fn pair_text(pair: &Cea608) -> String {
    match pair {
        Cea608::Field1(a, b) => format!("field1 {}", hex(&[*a, *b])),
        Cea608::Field2(a, b) => format!("field2 {}", hex(&[*a, *b])),
    }
}

//! Caption distribution packets (SMPTE ST 334-2), which the crate does not know: read and written by the rule book alone.

use crate::refusal::Refusal::{self, BadMark, BadSection, BadSum, CountersDiffer, NotNewer};

/// The bytes of a packet beside its triples.
const AROUND: usize = 13;
/// The flags of a time code and of service information, neither of which is taken up.
const NOT_TAKEN: u8 = 0xA0;

/// How many triples a count's byte says.
fn count(byte: u8) -> usize {
    (byte & 0x1F) as usize
}

fn is_rate(code: u8) -> bool {
    (1..=8).contains(&code)
}

fn sum(bytes: &[u8]) -> u8 {
    bytes.iter().fold(0, |sum, byte| sum.wrapping_add(*byte))
}

/// What a packet says.
pub struct Said {
    pub rate: u8,
    pub counter: u16,
    pub frame: Vec<u8>,
}

/// A reader, with the counter of the last packet that it accepted.
#[derive(Default)]
pub struct Reader {
    last: Option<u16>,
}

impl Reader {
    fn is_newer(&self, counter: u16) -> bool {
        let ahead = |last| counter.wrapping_sub(last);
        self.last.map_or(true, |last| (1..=0x7FFF).contains(&ahead(last)))
    }

    pub fn read(&mut self, bytes: &[u8]) -> Result<Said, Refusal> {
        let [0x96, 0x69, rest @ ..] = bytes else {
            return Err(BadMark);
        };
        let [len, rate, flags, high, low, 0x72, counted, triples @ .., 0x74, high_again, low_again, _] = rest else {
            return Err(BadSection);
        };
        let (rate, lengths) = (rate >> 4, [*len as usize, AROUND + 3 * count(*counted)]);
        if lengths != [bytes.len(); 2] || !is_rate(rate) || flags & NOT_TAKEN != 0 {
            return Err(BadSection);
        }
        if sum(bytes) != 0 {
            return Err(BadSum);
        }
        if (high, low) != (high_again, low_again) {
            return Err(CountersDiffer);
        }
        let counter = u16::from_be_bytes([*high, *low]);
        if !self.is_newer(counter) {
            return Err(NotNewer);
        }
        self.last = Some(counter);
        let frame = [&[0xC0 | counted & 0x1F, 0xFF], triples].concat();
        Ok(Said { rate, counter, frame })
    }
}

/// A writer, with the counter of its next packet.
#[derive(Default)]
pub struct Writer {
    pub next: u16,
}

impl Writer {
    /// The packet of a frame, and the writer behind it.
    pub fn packet(&self, rate: u8, frame: &[u8]) -> Result<(Vec<u8>, Self), Refusal> {
        let [first, _, triples @ ..] = frame else {
            return Err(BadSection);
        };
        if triples.len() != 3 * count(*first) || !is_rate(rate) {
            return Err(BadSection);
        }
        let [high, low] = self.next.to_be_bytes();
        let mut packet = vec![0x96, 0x69, (AROUND + triples.len()) as u8, rate << 4 | 0x0F, 0x43, high, low, 0x72, 0xE0 | first & 0x1F];
        packet.extend_from_slice(triples);
        packet.extend_from_slice(&[0x74, high, low]);
        packet.push(sum(&packet).wrapping_neg());
        Ok((packet, Self { next: self.next.wrapping_add(1) }))
    }
}

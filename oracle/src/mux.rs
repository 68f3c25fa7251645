//! The crate's multiplexer with the rule book's sizes, its rates, its true count and its lent output.

use cea708_types::{CCDataWriter, Cea608, DTVCCPacket, Framerate};

use crate::refusal::Refusal::{self, BadRate, Full, OutShort};

const MOST_PACKETS: usize = 16;
const MOST_QUEUED: u128 = 64;

/// What was done to the crate's writer since it was fresh. It cannot be copied, so a write that
/// must not have happened is undone by doing everything else again.
enum Done {
    Switch(bool, bool),
    Packet(DTVCCPacket),
    Pair(Cea608),
    Write(Framerate),
    Flush,
}

#[derive(Default)]
pub struct Mux {
    writer: CCDataWriter,
    done: Vec<Done>,
    /// packets pushed of which no triple has left
    queued: usize,
    true_count: bool,
}

/// k · denom / numer, rounded as the rule book says.
fn rounded(k: u64, rate: Framerate) -> u64 {
    let (numer, denom) = (rate.numer() as u64, rate.denom() as u64);
    (2 * k * denom + numer) / (2 * numer)
}

/// Refusal 8.
fn accepted(rate: Framerate) -> bool {
    rate.numer() != 0 && rounded(60, rate) != 0 && rounded(600, rate) <= 31
}

/// The frame with its count mended: the triples that follow.
fn mended(mut frame: Vec<u8>) -> Vec<u8> {
    frame[0] = frame[0] & 0xE0 | ((frame.len() - 2) / 3) as u8;
    frame
}

fn apply(writer: &mut CCDataWriter, step: &Done) -> Vec<u8> {
    let mut frame = vec![];
    match step {
        Done::Switch(pairs, output) => {
            writer.set_output_cea608_padding(*pairs);
            writer.set_output_padding(*output);
        }
        Done::Packet(packet) => writer.push_packet(crate::machine::copy(packet)),
        Done::Pair(pair) => writer.push_cea608(*pair),
        Done::Write(rate) => writer.write(*rate, &mut frame).expect("a Vec takes all"),
        Done::Flush => writer.flush(),
    }
    frame
}

impl Mux {
    fn step(&mut self, step: Done) -> Vec<u8> {
        let frame = apply(&mut self.writer, &step);
        self.done.push(step);
        frame
    }

    pub fn switch(&mut self, pairs: bool, output: bool, true_count: bool) {
        self.step(Done::Switch(pairs, output));
        self.true_count = true_count;
    }

    pub fn flush(&mut self) {
        self.step(Done::Flush);
        self.queued = 0;
    }

    pub fn push_packet(&mut self, packet: &DTVCCPacket) -> Result<(), Refusal> {
        if packet.is_empty() {
            return Ok(());
        }
        if self.queued == MOST_PACKETS {
            return Err(Full);
        }
        self.queued += 1;
        self.step(Done::Packet(crate::machine::copy(packet)));
        Ok(())
    }

    /// The places taken in a field's queue are told by its duration, which grows with each.
    fn places(&self, field1: bool) -> u128 {
        let duration = if field1 {
            self.writer.buffered_cea608_field1_duration()
        } else {
            self.writer.buffered_cea608_field2_duration()
        };
        duration.as_micros() * 60_000 / 1_001_000_000
    }

    pub fn push_pair(&mut self, field1: bool, a: u8, b: u8) -> Result<(), Refusal> {
        let null = (a, b) == (0x80, 0x80);
        if !null && self.places(field1) == MOST_QUEUED {
            return Err(Full);
        }
        self.step(Done::Pair(if field1 {
            Cea608::Field1(a, b)
        } else {
            Cea608::Field2(a, b)
        }));
        Ok(())
    }

    pub fn durations(&self) -> String {
        let field1 = self.writer.buffered_cea608_field1_duration().as_micros();
        let field2 = self.writer.buffered_cea608_field2_duration().as_micros();
        let packets = self.writer.buffered_packet_duration().as_micros();
        format!("{field1} {field2} {packets}")
    }

    pub fn write(&mut self, rate: Framerate, out: &mut [u8]) -> Result<String, Refusal> {
        if !accepted(rate) {
            return Err(BadRate);
        }
        let written = self.step(Done::Write(rate));
        let frame = if self.true_count { mended(written) } else { written };
        if out.len() < frame.len() {
            self.done.pop();
            self.writer = CCDataWriter::default();
            for step in &self.done {
                apply(&mut self.writer, step);
            }
            return Err(OutShort(frame.len()));
        }
        out[..frame.len()].copy_from_slice(&frame);
        self.queued -= frame[2..]
            .chunks(3)
            .filter(|triple| triple[0] == 0xFF)
            .count();
        Ok(frame.len().to_string())
    }
}

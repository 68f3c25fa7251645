//! The crate's demultiplexer with the rule book's sizes and its draw.

use std::collections::VecDeque;

use cea708_types::{CCDataParser, Cea608, DTVCCPacket};

use crate::refusal::Refusal;

const MOST_WAITING: usize = 32;

pub enum Item {
    Pair(Cea608),
    Packet(DTVCCPacket),
}

/// What was done to the crate's parser since it was fresh. It cannot be copied, so a frame that
/// must not have happened is undone by doing all the others again.
enum Done {
    On608,
    Frame(Vec<u8>),
}

/// The packets are taken out of the crate's parser at once and wait here, as do the pairs.
#[derive(Default)]
pub struct Demux {
    parser: CCDataParser,
    done: Vec<Done>,
    pairs: VecDeque<Cea608>,
    waiting: VecDeque<DTVCCPacket>,
}

impl Demux {
    pub fn handle_cea608(&mut self) {
        self.parser.handle_cea608();
        self.done.push(Done::On608);
        self.pairs = self.list();
    }

    pub fn flush(&mut self) {
        self.parser.flush();
        self.done.clear();
        self.waiting.clear();
        self.pairs = self.list();
    }

    /// The crate's pair list, none if 608 is off.
    fn list(&mut self) -> VecDeque<Cea608> {
        self.parser
            .cea608()
            .unwrap_or_default()
            .iter()
            .copied()
            .collect()
    }

    fn replayed(&self) -> CCDataParser {
        let mut parser = CCDataParser::new();
        for step in &self.done {
            match step {
                Done::On608 => parser.handle_cea608(),
                Done::Frame(frame) => drop(parser.push(frame)),
            }
        }
        while parser.pop_packet().is_some() {}
        parser
    }

    pub fn push(&mut self, frame: &[u8]) -> Result<(), Refusal> {
        let answer = self.parser.push(frame);
        let delivered: Vec<_> = std::iter::from_fn(|| self.parser.pop_packet()).collect();
        if self.waiting.len() + delivered.len() > MOST_WAITING {
            self.parser = self.replayed();
            return Err(Refusal::Full);
        }
        self.done.push(Done::Frame(frame.to_vec()));
        self.waiting.extend(delivered);
        self.pairs = self.list();
        answer.map_err(Refusal::of_frame)
    }

    pub fn draw(&mut self) -> Option<Item> {
        let pair = self.pairs.pop_front().map(Item::Pair);
        pair.or_else(|| self.waiting.pop_front().map(Item::Packet))
    }
}

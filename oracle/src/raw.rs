//! A block and a packet whose raw fields can be set, by the operations `B`, `K` and `Z`.
//!
//! The crate's fields are private, so the places of the port's values stand here beside the crate's value. Places past a
//! count keep what they held until something is written over them. Where raw fields break a limit of the rule book there is
//! no value of the crate's, and every call on it is refused with 11.

use std::collections::BTreeSet;

use cea708_types::{tables::Code, DTVCCPacket, Service};

use crate::refusal::Refusal::{self, BadValue};
use crate::text::payload;

fn service(number: u8, payload: &[u8]) -> Service {
    let mut s = Service::new(number);
    if let Some(run) = Code::new(payload) {
        s.push_code(&run)
            .expect("at most 31 bytes, and not of block 0");
    }
    s
}

/// A block and its places.
pub struct Block {
    value: Option<Service>,
    payload: [u8; 31],
}

impl Block {
    pub fn new(value: Service) -> Self {
        let mut block = Self {
            value: None,
            payload: [0; 31],
        };
        block.hold(value);
        block
    }

    /// What a push leaves: the payload laid over the places.
    pub fn hold(&mut self, value: Service) {
        let bytes = payload(&value);
        self.payload[..bytes.len()].copy_from_slice(&bytes);
        self.value = Some(value);
    }

    pub fn value(&self) -> Result<&Service, Refusal> {
        self.value.as_ref().ok_or(BadValue)
    }

    pub fn set(&mut self, number: u8, len: usize) {
        let within = number <= 63 && len <= 31 && (number != 0 || len == 0);
        self.value = within.then(|| service(number, &self.payload[..len]));
    }
}

/// The numbers of the blocks, each once.
fn numbers(value: &DTVCCPacket) -> BTreeSet<u8> {
    value.services().iter().map(Service::number).collect()
}

/// The set of services: bit k is 1 if a block has number k.
fn set_of(value: &DTVCCPacket) -> u64 {
    numbers(value).into_iter().map(|number| 1u64 << number).sum()
}

/// A packet and its places.
pub struct Packet {
    value: Option<DTVCCPacket>,
    sequence: u8,
    count: usize,
    services: u64,
    numbers: [u8; 63],
    sizes: [usize; 63],
    payload: [u8; 127],
}

impl Packet {
    pub fn new(value: DTVCCPacket) -> Self {
        let mut packet = Self {
            value: None,
            sequence: 0,
            count: 0,
            services: 0,
            numbers: [0; 63],
            sizes: [0; 63],
            payload: [0; 127],
        };
        packet.hold(value);
        packet
    }

    /// What a push leaves: the blocks laid over the places.
    pub fn hold(&mut self, value: DTVCCPacket) {
        let mut used = 0;
        for (place, s) in value.services().iter().enumerate() {
            let bytes = payload(s);
            self.numbers[place] = s.number();
            self.sizes[place] = bytes.len();
            self.payload[used..used + bytes.len()].copy_from_slice(&bytes);
            used += bytes.len();
        }
        self.sequence = value.sequence_no();
        self.count = value.services().len();
        self.services = set_of(&value);
        self.value = Some(value);
    }

    pub fn value(&self) -> Result<&DTVCCPacket, Refusal> {
        self.value.as_ref().ok_or(BadValue)
    }

    /// The set of services, and how many they are.
    pub fn services(&self) -> Result<(u64, usize), Refusal> {
        self.value().map(|value| (set_of(value), numbers(value).len()))
    }

    pub fn set(&mut self, sequence: u8, count: usize) {
        (self.sequence, self.count) = (sequence, count);
        self.value = self.within();
    }

    pub fn set_services(&mut self, services: u64) {
        self.services = services;
        self.value = self.within();
    }

    /// The packet of the first places, where all is within the limits and the set is that of its services.
    fn within(&self) -> Option<DTVCCPacket> {
        if self.sequence > 3 || self.count > 63 {
            return None;
        }
        let mut packet = DTVCCPacket::new(self.sequence);
        let mut rest = &self.payload[..];
        for (&number, &size) in self.numbers[..self.count].iter().zip(&self.sizes) {
            if !(1..=63).contains(&number) || !(1..=31).contains(&size) || rest.len() < size {
                return None;
            }
            let (bytes, behind) = rest.split_at(size);
            packet.push_service(service(number, bytes)).ok()?;
            rest = behind;
        }
        (self.services == set_of(&packet)).then_some(packet)
    }
}

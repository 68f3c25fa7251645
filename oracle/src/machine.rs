//! The block, the packet and the machines that a script works on, and its operations.

use cea708_types::{tables::Code, DTVCCPacket, Framerate, Service};

use crate::codes;
use crate::demux::{Demux, Item};
use crate::distribution::{Reader, Writer};
use crate::mux::Mux;
use crate::raw::{Block, Packet};
use crate::refusal::Refusal::{self, BadNumber, BadRun, BadValue, OutShort};
use crate::text::{hex, packet_text, pair_text, payload, row};
use crate::tidy;

/// What the script's operations work on.
pub struct Machine {
    s: Block,
    p: Packet,
    /// None: its counts break a limit
    r: Option<Demux>,
    w: Option<Mux>,
    reader: Reader,
    writer: Writer,
}

/// What one record prints.
pub enum Line {
    Ok(String),
    Refused(Refusal, String),
    Bad,
}

type Answer = Result<String, Refusal>;

/// The packet with the same blocks; the crate's is not `Clone`.
pub fn copy(p: &DTVCCPacket) -> DTVCCPacket {
    let mut q = DTVCCPacket::new(p.sequence_no());
    for s in p.services() {
        q.push_service(s.clone()).expect("a copy fits");
    }
    q
}

/// What a draw gives.
fn drawn(item: Option<Item>) -> String {
    match item {
        Some(Item::Pair(pair)) => pair_text(&pair),
        Some(Item::Packet(packet)) => format!("packet {}", packet_text(&packet)),
        None => "none".to_string(),
    }
}

/// Refusal 6 for a service number.
fn service_number(number: u8) -> Result<u8, Refusal> {
    if number > 63 {
        Err(BadNumber)
    } else {
        Ok(number)
    }
}

/// Refusal 7 for a run.
fn run(bytes: &[u8]) -> Result<Code, Refusal> {
    Code::new(bytes).ok_or(BadRun)
}

/// Bytes put into a lent output: refusal 9, or the count written.
fn put(out: &mut [u8], bytes: &[u8]) -> Answer {
    if out.len() < bytes.len() {
        return Err(OutShort(bytes.len()));
    }
    out[..bytes.len()].copy_from_slice(bytes);
    Ok(bytes.len().to_string())
}

/// A call that writes to a lent output of `len` bytes, which is printed afterwards.
fn lent(len: u8, call: impl FnOnce(&mut [u8]) -> Answer) -> Line {
    let mut out = vec![0xA5; len as usize];
    match call(&mut out) {
        Ok(values) => Line::Ok(format!("{values} {}", hex(&out))),
        Err(why) => Line::Refused(why, format!(" {}", hex(&out))),
    }
}

fn line(answer: Answer) -> Line {
    match answer {
        Ok(values) => Line::Ok(values),
        Err(why) => Line::Refused(why, String::new()),
    }
}

/// An operation that prints nothing after `ok`.
fn done() -> Line {
    Line::Ok(String::new())
}

/// One that prints nothing after `ok`, and can be refused.
fn plain(answer: Result<(), Refusal>) -> Line {
    line(answer.map(|()| String::new()))
}

/// A machine whose counts are within the limits.
fn within<T>(machine: &mut Option<T>) -> Result<&mut T, Refusal> {
    machine.as_mut().ok_or(BadValue)
}

impl Machine {
    pub fn fresh() -> Self {
        Self {
            s: Block::new(Service::new(1)),
            p: Packet::new(DTVCCPacket::new(0)),
            r: Some(Demux::default()),
            w: Some(Mux::default()),
            reader: Reader::default(),
            writer: Writer::default(),
        }
    }

    fn new_service(&mut self, number: u8) -> Answer {
        self.s = Block::new(Service::new(service_number(number)?));
        Ok(String::new())
    }

    fn new_packet(&mut self, sequence: u8) -> Answer {
        if sequence > 3 {
            return Err(BadNumber);
        }
        self.p = Packet::new(DTVCCPacket::new(sequence));
        Ok(String::new())
    }

    fn read_service(&mut self, bytes: &[u8]) -> Answer {
        let s = Service::parse(bytes)?;
        let text = format!("{} {}", s.number(), hex(&payload(&s)));
        self.s = Block::new(s);
        Ok(text)
    }

    fn packet_read(&mut self, read: Result<DTVCCPacket, Refusal>) -> Answer {
        let p = read?;
        let text = packet_text(&p);
        self.p = Packet::new(p);
        Ok(text)
    }

    fn push_service_run(&mut self, bytes: &[u8]) -> Answer {
        let mut s = self.s.value()?.clone();
        s.push_code(&run(bytes)?)?;
        self.s.hold(s);
        Ok(String::new())
    }

    fn push_service(&mut self) -> Answer {
        let mut p = copy(self.p.value()?);
        p.push_service(self.s.value()?.clone())?;
        self.p.hold(p);
        Ok(String::new())
    }

    fn push_run(&mut self, number: u8, bytes: &[u8], single: bool) -> Answer {
        let mut p = copy(self.p.value()?);
        let number = service_number(number)?;
        let code = run(bytes)?;
        if single {
            p.push_code_into_single_service(number, code)?;
        } else {
            p.push_code(number, code)?;
        }
        self.p.hold(p);
        Ok(String::new())
    }

    fn measure_service(&self) -> Answer {
        let s = self.s.value()?;
        let empty = s.is_empty() as u8;
        Ok(format!(
            "{} {} {} {empty}",
            s.number(),
            s.len(),
            s.free_space()
        ))
    }

    fn measure_packet(&self) -> Answer {
        let p = self.p.value()?;
        let blocks = p.services().len();
        Ok(format!(
            "{} {} {} {blocks}",
            p.sequence_no(),
            p.len(),
            p.free_space()
        ))
    }

    fn write_service(&self, out: &mut [u8]) -> Answer {
        let mut bytes = vec![];
        self.s.value()?.write(&mut bytes).expect("a Vec takes all");
        put(out, &bytes)
    }

    fn write_packet(&self, out: &mut [u8]) -> Answer {
        let mut bytes = vec![];
        self.p.value()?.write(&mut bytes).expect("a Vec takes all");
        put(out, &bytes)
    }

    /// How many codes each block has.
    fn count_codes(&self) -> Answer {
        let blocks = self.p.value()?.services().iter();
        let counts = blocks.map(|s| codes::lengths(&payload(s)).map(|found| found.len()));
        Ok(row(&counts.collect::<Result<Vec<_>, _>>()?))
    }

    fn read_distribution(&mut self, bytes: &[u8]) -> Answer {
        let said = self.reader.read(bytes)?;
        Ok(format!("{} {} {}", said.rate, said.counter, hex(&said.frame)))
    }

    fn write_distribution(&mut self, rate: u8, frame: &[u8], out: &mut [u8]) -> Answer {
        let (packet, behind) = self.writer.packet(rate, frame)?;
        let written = put(out, &packet)?;
        self.writer = behind;
        Ok(written)
    }

    /// Operations on the block and the packet, and on payloads.
    fn values(&mut self, op: u8, args: &[u8]) -> Option<Line> {
        Some(match (op, args) {
            (b'b', &[number]) => line(self.new_service(number)),
            (b'c', bytes) => line(self.push_service_run(bytes)),
            (b'm', []) => line(self.measure_service()),
            (b'e', &[len]) => lent(len, |out| self.write_service(out)),
            (b'd', bytes) => line(self.read_service(bytes)),
            (b'y', bytes) => Line::Ok(hex(&Service::parse(bytes).map_or(vec![], |s| payload(&s)))),
            (b'k', &[sequence]) => line(self.new_packet(sequence)),
            (b'v', []) => line(self.push_service()),
            (b'a', [number, bytes @ ..]) => line(self.push_run(*number, bytes, false)),
            (b'i', [number, bytes @ ..]) => line(self.push_run(*number, bytes, true)),
            (b'l', []) => line(self.measure_packet()),
            (b'o', &[len]) => lent(len, |out| self.write_packet(out)),
            (b'p', bytes) => line(self.packet_read(DTVCCPacket::parse(bytes).map_err(Into::into))),
            (b't', bytes) => line(self.packet_read(tidy::read(bytes))),
            (b'g', bytes) => line(codes::lengths(bytes).map(|found| row(&found))),
            (b'G', []) => line(self.count_codes()),
            (b'B', &[number, len]) => {
                self.s.set(number, len as usize);
                done()
            }
            (b'K', &[sequence, count]) => {
                self.p.set(sequence, count as usize);
                done()
            }
            (b'z', []) => line(self.p.services().map(|(set, many)| format!("{set:016X} {many}"))),
            (b'Z', &[a, b, c, d, e, f, g, h]) => {
                self.p.set_services(u64::from_be_bytes([a, b, c, d, e, f, g, h]));
                done()
            }
            _ => return None,
        })
    }

    /// Operations on the demultiplexer.
    fn demux(&mut self, op: u8, args: &[u8]) -> Option<Line> {
        let r = &mut self.r;
        Some(match (op, args) {
            (b'R', []) => {
                *r = Some(Demux::default());
                done()
            }
            (b'D', &[pairs, pending, waiting]) => {
                let broken = pairs > 31 || pending > 126 || pending % 2 == 1 || waiting > 32;
                assert!(
                    broken,
                    "counts that may be within the limits are not known here"
                );
                *r = None;
                done()
            }
            (b'H', []) => plain(within(r).map(|r| r.handle_cea608())),
            (b'F', []) => plain(within(r).map(|r| r.flush())),
            (b'f', frame) => plain(within(r).and_then(|r| r.push(frame))),
            (b'n', []) => line(within(r).map(|r| drawn(r.draw()))),
            _ => return None,
        })
    }

    /// Operations on the multiplexer.
    fn mux(&mut self, op: u8, args: &[u8]) -> Option<Line> {
        let Self { w, p, .. } = self;
        Some(match (op, args) {
            (b'W', []) => {
                *w = Some(Mux::default());
                done()
            }
            (b'Q', &[packets, sent, field1, field2]) => {
                let broken =
                    packets > 16 || sent > 128 || sent % 2 == 1 || field1 > 64 || field2 > 64;
                assert!(
                    broken,
                    "counts that may be within the limits are not known here"
                );
                *w = None;
                done()
            }
            (b'S', &[bits]) => plain(within(w).map(|w| w.switch(bits & 1 == 1, bits & 2 == 2, bits & 8 == 8))),
            (b'x', []) => plain(within(w).map(|w| w.flush())),
            (b'q', []) => plain(within(w).and_then(|w| w.push_packet(p.value()?))),
            (b'1' | b'2', &[a, b]) => plain(within(w).and_then(|w| w.push_pair(op == b'1', a, b))),
            (b'w', &[n3, n2, n1, n0, d3, d2, d1, d0, len]) => {
                let numer = u32::from_be_bytes([n3, n2, n1, n0]);
                let denom = u32::from_be_bytes([d3, d2, d1, d0]);
                lent(len, |out| {
                    within(w)?.write(Framerate::new(numer, denom), out)
                })
            }
            (b'u', []) => line(within(w).map(|w| w.durations())),
            _ => return None,
        })
    }

    /// Operations on the reader and the writer of distribution packets.
    fn distribution(&mut self, op: u8, args: &[u8]) -> Option<Line> {
        Some(match (op, args) {
            (b'X', []) => {
                self.reader = Reader::default();
                done()
            }
            (b'<', bytes) => line(self.read_distribution(bytes)),
            (b'Y', &[high, low]) => {
                self.writer.next = u16::from_be_bytes([high, low]);
                done()
            }
            (b'>', [rate, len, frame @ ..]) => lent(*len, |out| self.write_distribution(*rate, frame, out)),
            _ => return None,
        })
    }

    pub fn operation(&mut self, record: &[u8]) -> Line {
        let Some((&op, args)) = record.split_first() else {
            return Line::Bad;
        };
        self.values(op, args)
            .or_else(|| self.demux(op, args))
            .or_else(|| self.mux(op, args))
            .or_else(|| self.distribution(op, args))
            .unwrap_or(Line::Bad)
    }
}

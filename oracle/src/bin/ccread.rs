//! What the port's `ccread` prints, by the crate: records of frames and of distribution packets from standard input, and what each holds.

#[allow(dead_code)]
#[path = "../distribution.rs"]
mod distribution;
#[allow(dead_code)]
#[path = "../refusal.rs"]
mod refusal;

use std::io::{Read, Write};

use cea708_types::{CCDataParser, Cea608, ParserError};
use distribution::Reader;

fn hex(bytes: &[u8]) -> String {
    let mut text = String::with_capacity(2 * bytes.len());
    for byte in bytes {
        text.push(b"0123456789ABCDEF"[(byte >> 4) as usize] as char);
        text.push(b"0123456789ABCDEF"[(byte & 15) as usize] as char);
    }
    text
}

fn print_items(parser: &mut CCDataParser, out: &mut impl Write) -> std::io::Result<()> {
    for pair in parser.cea608().unwrap_or_default() {
        match pair {
            Cea608::Field1(a, b) => writeln!(out, "field1 {}", hex(&[*a, *b]))?,
            Cea608::Field2(a, b) => writeln!(out, "field2 {}", hex(&[*a, *b]))?,
        }
    }
    while let Some(packet) = parser.pop_packet() {
        writeln!(out, "packet {}", packet.sequence_no())?;
        for service in packet.services() {
            let payload: Vec<u8> = service.codes().iter().flat_map(|code| code.bytes().iter().copied()).collect();
            writeln!(out, "block {} {}", service.number(), hex(&payload))?;
        }
    }
    Ok(())
}

/// What a record holds.
enum Record<'a> {
    Frame(&'a [u8]),
    Distribution(&'a [u8]),
}

/// The record at the start of the bytes and its whole length, if a whole record is there.
fn record(data: &[u8]) -> Option<(Record<'_>, usize)> {
    let [0xCC, mark @ (0xDA | 0xCD), len, rest @ ..] = data else {
        return None;
    };
    let content = rest.get(..*len as usize)?;
    let held = if *mark == 0xDA { Record::Frame(content) } else { Record::Distribution(content) };
    Some((held, 3 + content.len()))
}

fn print_frame(parser: &mut CCDataParser, number: usize, frame: &[u8], out: &mut impl Write) -> std::io::Result<()> {
    match parser.push(frame) {
        Ok(()) => {
            writeln!(out, "frame {number} ok")?;
            print_items(parser, out)
        }
        Err(ParserError::LengthMismatch { .. }) => writeln!(out, "frame {number} refused 12"),
        Err(ParserError::Cea608AfterCea708 { .. }) => writeln!(out, "frame {number} refused 2"),
    }
}

fn main() -> std::io::Result<()> {
    let mut data = Vec::new();
    std::io::stdin().read_to_end(&mut data)?;
    let mut out = std::io::BufWriter::new(std::io::stdout());
    let (mut parser, mut reader) = (CCDataParser::new(), Reader::default());
    parser.handle_cea608();
    let (mut at, mut records) = (0, 0);
    while at < data.len() {
        let Some((held, len)) = record(&data[at..]) else {
            writeln!(out, "stopped at byte {at}")?;
            return out.flush();
        };
        match held {
            Record::Frame(frame) => print_frame(&mut parser, records, frame, &mut out)?,
            Record::Distribution(packet) => match reader.read(packet) {
                Ok(said) => {
                    writeln!(out, "cdp {records} ok {} {}", said.rate, said.counter)?;
                    print_frame(&mut parser, records, &said.frame, &mut out)?;
                }
                Err(why) => writeln!(out, "cdp {records} refused {why}")?,
            },
        }
        at += len;
        records += 1;
    }
    writeln!(out, "end {records}")?;
    out.flush()
}

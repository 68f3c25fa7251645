//! Reads one packet, or a thousand frames of 95 bytes, a million times with the crate: what `crates/read_speed` does with
//! the port. With the word `make` it writes such frames instead.

use std::io::{Read, Write};

use cea708_types::{tables, CCDataParser, CCDataWriter, DTVCCPacket, Framerate, Service};

const READINGS: usize = 1_000_000;

/// The most bytes of a packet: more are frames.
const MOST_PACKET: usize = 128;

/// A packet of three blocks of 12 bytes.
fn packet(n: usize) -> DTVCCPacket {
    let mut packet = DTVCCPacket::new((n % 4) as u8);
    for number in 1..4u8 {
        let run: Vec<u8> = (0..12).map(|i| 0x20 + ((n + i) % 64) as u8).collect();
        let mut service = Service::new(number);
        service.push_code(&tables::Code::new(&run).unwrap()).unwrap();
        packet.push_service(service).unwrap();
    }
    packet
}

fn make() -> Vec<u8> {
    let mut writer = CCDataWriter::default();
    writer.set_output_padding(true);
    let mut frames = Vec::new();
    for n in 0..1000 {
        writer.push_packet(packet(2 * n));
        writer.push_packet(packet(2 * n + 1));
        writer.write(Framerate::new(600, 31), &mut frames).unwrap();
    }
    frames
}

/// 31 times the sum and x, without the carry.
fn mix(sum: u64, x: u64) -> u64 {
    sum.wrapping_mul(31).wrapping_add(x)
}

/// The sum with every block of the packet, and with the set of its services, bit k for service k.
fn with_packet(packet: &DTVCCPacket, before: u64) -> u64 {
    let mut services = 0;
    let sum = packet.services().iter().fold(before, |sum, service| {
        let (first, size) = match service.codes().first() {
            Some(code) => (code.bytes()[0], code.byte_len()),
            None => (0, 0),
        };
        services |= 1u64 << service.number();
        mix(sum, service.number() as u64 + first as u64 + size as u64)
    });
    mix(sum, services)
}

fn read_frames(frames: &[u8]) -> (u64, u64) {
    let mut parser = CCDataParser::new();
    parser.handle_cea608();
    let (mut items, mut sum) = (0, 0);
    for i in 0..READINGS {
        let at = i % 1000 * 95;
        // a frame that is refused leaves nothing to draw
        let _ = parser.push(&frames[at..at + 95]);
        items += parser.cea608().map_or(0, |pairs| pairs.len()) as u64;
        while let Some(packet) = parser.pop_packet() {
            items += 1;
            sum = with_packet(&packet, sum);
        }
    }
    (items, sum)
}

fn read_packets(data: &mut [u8]) -> (u64, u64) {
    let mut sum = 0;
    for i in 0..READINGS {
        data[0] = data[0] % 64 + (i % 4) as u8 * 64;
        let packet = DTVCCPacket::parse(data).expect("the bytes read as a packet");
        sum = with_packet(&packet, sum);
    }
    (READINGS as u64, sum)
}

fn main() -> std::io::Result<()> {
    if std::env::args().any(|word| word == "make") {
        return std::io::stdout().write_all(&make());
    }
    let mut bytes = Vec::new();
    std::io::stdin().read_to_end(&mut bytes)?;
    let (items, sum) = if bytes.len() <= MOST_PACKET {
        read_packets(&mut bytes)
    } else {
        read_frames(&bytes)
    };
    println!("{items} {sum}");
    Ok(())
}

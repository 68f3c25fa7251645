//! Writes a thousand frames for each byte of its input at about 30000/1001 with the crate, both paddings on: what `crates/write_speed` does with the port.

use std::io::Read;

use cea708_types::{tables, CCDataWriter, Cea608, DTVCCPacket, Framerate, Service};

/// A block of 12 bytes.
fn block(number: u8) -> Service {
    let mut service = Service::new(number);
    service.push_code(&tables::Code::new(b"twelve bytes").unwrap()).unwrap();
    service
}

/// A packet of three blocks.
fn packet(i: usize, blocks: &[Service; 3]) -> DTVCCPacket {
    let mut packet = DTVCCPacket::new((i % 4) as u8);
    for block in blocks {
        packet.push_service(block.clone()).unwrap();
    }
    packet
}

/// Whether a packet goes in before frame i. A frame takes 18 of its 20 triples, so the first 20 packets leave two of them waiting.
fn due(i: usize) -> bool {
    i < 20 || 0 < i % 10
}

fn main() {
    let mut input = Vec::new();
    std::io::stdin().read_to_end(&mut input).unwrap();
    let more = 65536 * *input.first().unwrap_or(&0) as u32;
    let blocks = [block(1), block(2), block(3)];
    let mut writer = CCDataWriter::default();
    writer.set_output_cea608_padding(true);
    writer.set_output_padding(true);
    let mut frame = Vec::new();
    let (mut bytes, mut sum) = (0, 0u64);
    for i in 0..1000 * input.len() {
        let byte = 0x20 + (i % 64) as u8;
        writer.push_cea608(Cea608::Field1(byte, 0x31));
        writer.push_cea608(Cea608::Field2(0x32, byte));
        if due(i) {
            writer.push_packet(packet(i, &blocks));
        }
        let last = frame.get(61).copied().unwrap_or(0);
        frame.clear();
        writer.write(Framerate::new(30000 + more + last as u32, 1001 + more), &mut frame).unwrap();
        bytes += frame.len();
        sum = frame.iter().fold(sum, |sum, b| sum.wrapping_mul(31).wrapping_add(*b as u64));
    }
    println!("{bytes} {sum}");
}

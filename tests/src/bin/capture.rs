//! Writes a capture file of IPDR/SP messages, in the octets of the static library, and a list of their fields:
//! `capture COUNT SEED DIRECTORY`. `tests/tshark_check.py` compares the two by an outside reader of the protocol.

use outside::inputs::sound_ipdr_parts;
use outside::library::{self, ACCEPTED};
use outside::model::ipdr::{self, Layout, INNER_LENGTH_OCTETS, LAYOUTS};
use outside::model::message::HEADER_OCTETS;
use outside::random::Random;
use outside::text::words::hex;
use std::fs;
use std::path::Path;
use std::process::ExitCode;

const USAGE: &str = "usage: capture COUNT SEED DIRECTORY
  writes COUNT messages of each of the ten numbers to DIRECTORY/ipdr.pcap, a TCP stream of one message a packet, and
  their fields to DIRECTORY/ipdr.fields: packet from 1, name, offset from the message's first octet, octets in hex";

/// The port that IPDR/SP has.
const PORT: u16 = 4737;

/// The fields of the header by their names in 002, with their widths.
const HEADER: [(&str, usize); 5] =
    [("version", 1), ("messageId", 1), ("sessionId", 1), ("messageFlags", 1), ("messageLen", 4)];

/// The output that the library writes to; the longest message has 1,050 octets.
const OUTPUT_OCTETS: usize = 2_000;

fn main() -> ExitCode {
    let arguments: Vec<String> = std::env::args().skip(1).collect();
    let [count, seed, directory] = &arguments[..] else {
        eprintln!("{USAGE}");
        return ExitCode::from(2);
    };
    let (Ok(count), Ok(seed)) = (count.parse(), seed.parse()) else {
        eprintln!("{USAGE}");
        return ExitCode::from(2);
    };
    match capture(count, seed, Path::new(directory)) {
        Ok(messages) => {
            println!("capture: {messages} messages in {directory}");
            ExitCode::SUCCESS
        }
        Err(reason) => {
            eprintln!("capture: {reason}");
            ExitCode::from(1)
        }
    }
}

/// Writes both files and answers how many messages there are.
fn capture(count: usize, seed: u64, directory: &Path) -> Result<usize, String> {
    if !library::is_linked() {
        return Err("a static library was not there when this was built".to_string());
    }
    let mut random = Random::from_parts(&[0xca97, seed]);
    let (mut packets, mut fields, mut sequence) = (file_header(), String::new(), 1);
    let layouts: Vec<&Layout> = (0..count).flat_map(|_| &LAYOUTS).collect();
    for (place, layout) in layouts.iter().enumerate() {
        let (message, expected) = message(&mut random, layout);
        packets.extend(packet(place as u32, sequence, &message));
        sequence = sequence.wrapping_add(message.len() as u32);
        fields += &field_lines(place + 1, layout, &expected);
    }
    fs::create_dir_all(directory)
        .and_then(|()| fs::write(directory.join("ipdr.pcap"), packets))
        .and_then(|()| fs::write(directory.join("ipdr.fields"), fields))
        .map_err(|error| format!("{}: {error}", directory.display()))?;
    Ok(layouts.len())
}

/// A message of a layout as the library writes it, and as the model does. One whose text is too long is not written,
/// and another is made up.
fn message(random: &mut Random, layout: &Layout) -> (Vec<u8>, Vec<u8>) {
    loop {
        let octets = sound_ipdr_parts(random, layout).octets();
        let mut out = vec![0; OUTPUT_OCTETS];
        let answer = library::edition_read_again(ipdr::VERSION, &octets, &mut out);
        if answer >= ACCEPTED {
            out.truncate((answer - ACCEPTED) as usize);
            let mut expected = vec![0; octets.len()];
            let (said, part) = ipdr::read(&octets).expect("a sound message");
            ipdr::write(&said, part, &mut expected).expect("an output of the message's length");
            return (out, expected);
        }
    }
}

/// A line for each field of a message.
fn field_lines(packet: usize, layout: &Layout, octets: &[u8]) -> String {
    let mut fields = HEADER.to_vec();
    fields.extend(layout.fields.iter().map(|field| (field.name, field.kind.octets())));
    if let Some(text) = layout.text {
        fields.extend([("length", INNER_LENGTH_OCTETS), (text, octets.len() - layout.least_octets())]);
    }
    let (mut lines, mut offset) = (String::new(), 0);
    for (name, width) in fields {
        lines += &format!("{packet} {name} {offset} {}\n", hex(&octets[offset..offset + width]));
        offset += width;
    }
    assert!(offset == octets.len() && offset >= HEADER_OCTETS, "the fields are the whole message");
    lines
}

/// The capture file's header: packets are raw IPv4.
fn file_header() -> Vec<u8> {
    let mut header = 0xa1b2_c3d4u32.to_le_bytes().to_vec();
    header.extend([2, 0, 4, 0]);
    header.extend([0; 8]);
    header.extend(65_535u32.to_le_bytes());
    header.extend(101u32.to_le_bytes());
    header
}

/// A packet of the capture file: a record header, an IPv4 and a TCP header, and the message.
fn packet(place: u32, sequence: u32, message: &[u8]) -> Vec<u8> {
    let addresses = [10, 0, 0, 1, 10, 0, 0, 2];
    let mut tcp = 40_000u16.to_be_bytes().to_vec();
    tcp.extend(PORT.to_be_bytes());
    tcp.extend(sequence.to_be_bytes());
    tcp.extend([0, 0, 0, 1, 0x50, 0x18, 0xff, 0xff, 0, 0, 0, 0]);
    tcp.extend(message);
    let pseudo = [&addresses[..], &[0, 6], &(tcp.len() as u16).to_be_bytes(), &tcp].concat();
    tcp[16..18].copy_from_slice(&checksum(&pseudo).to_be_bytes());

    let mut ip = vec![0x45, 0];
    ip.extend((20 + tcp.len() as u16).to_be_bytes());
    ip.extend((place as u16).to_be_bytes());
    ip.extend([0, 0, 64, 6, 0, 0]);
    ip.extend(addresses);
    let sum = checksum(&ip);
    ip[10..12].copy_from_slice(&sum.to_be_bytes());

    let length = (ip.len() + tcp.len()) as u32;
    let head = [place, 0, length, length].map(u32::to_le_bytes).concat();
    [head, ip, tcp].concat()
}

/// The Internet checksum of octets whose own checksum is 0.
fn checksum(octets: &[u8]) -> u16 {
    let words = octets.chunks(2).map(|pair| u32::from(pair[0]) << 8 | u32::from(*pair.get(1).unwrap_or(&0)));
    let sum: u32 = words.sum();
    let folded = (sum & 0xffff) + (sum >> 16);
    !((folded & 0xffff) + (folded >> 16)) as u16
}

//! Tests of IPDR/SP's messages.

use super::ipdr::{layout, read, write, Message, LAYOUTS};
use super::message;
use super::tests_support::hex;

/// A message by hand: its octets, what it says, and the place of its text or record with the octets.
struct Example {
    number: u8,
    octets: &'static str,
    values: &'static [u64],
    text: Option<(usize, &'static str)>,
}

const EXAMPLES: [Example; 10] = [
    Example { number: 0x01, octets: "02010700 00000008", values: &[], text: None },
    Example {
        number: 0x03,
        octets: "02030700 00000011 0102 00000003 616263",
        values: &[0x0102],
        text: Some((14, "616263")),
    },
    Example {
        number: 0x05,
        octets: "02050000 0000001c c0a80001 1281 00000006 0000003c 00000002 4142",
        values: &[0xc0a8_0001, 0x1281, 6, 60],
        text: Some((26, "4142")),
    },
    Example {
        number: 0x06,
        octets: "02060000 00000014 00000002 0000012c 00000000",
        values: &[2, 300],
        text: Some((20, "")),
    },
    Example { number: 0x07, octets: "02070000 00000008", values: &[], text: None },
    Example {
        number: 0x08,
        octets: "02080700 00000035 5e0be100 0102030405060708 1112131415161718 01 0000000a 00000064 \
                 000102030405060708090a0b0c0d0e0f",
        values: &[
            0x5e0b_e100,
            0x0102_0304_0506_0708,
            0x1112_1314_1516_1718,
            1,
            10,
            100,
            0x0001_0203_0405_0607,
            0x0809_0a0b_0c0d_0e0f,
        ],
        text: None,
    },
    Example { number: 0x09, octets: "02090700 0000000f 0007 00000001 ff", values: &[7], text: Some((14, "ff")) },
    Example {
        number: 0x20,
        octets: "02200700 0000001b 0003 0105 01 fffffffffffffffe 00000002 0005",
        values: &[3, 0x0105, 1, u64::MAX - 1],
        text: Some((25, "0005")),
    },
    Example {
        number: 0x21,
        octets: "02210700 00000012 0105 0000000100000002",
        values: &[0x0105, 0x0000_0001_0000_0002],
        text: None,
    },
    Example {
        number: 0x23,
        octets: "02230700 00000013 5e0be100 8004 00000001 00",
        values: &[0x5e0b_e100, 0x8004],
        text: Some((18, "00")),
    },
];

impl Example {
    fn octets(&self) -> Vec<u8> {
        hex(self.octets)
    }

    fn message(&self) -> Message {
        let layout = layout(self.number).expect("one of the ten");
        Message { layout, session: self.octets()[2], values: self.values.to_vec() }
    }

    fn text(&self) -> Vec<u8> {
        self.text.map_or(Vec::new(), |(_, octets)| hex(octets))
    }
}

/// The refusal of reading, or 0.
fn refusal(octets: &[u8]) -> u8 {
    read(octets).err().unwrap_or(0)
}

/// Octets with the length field set to their number.
fn with_length(mut octets: Vec<u8>) -> Vec<u8> {
    let length = (octets.len() as u32).to_be_bytes();
    octets[4..8].copy_from_slice(&length);
    octets
}

#[test]
fn each_message_is_read() {
    for example in &EXAMPLES {
        let octets = example.octets();
        let (message, part) = read(&octets).expect("a message");
        assert_eq!(message, example.message());
        let at = example.text.map_or(0, |(at, _)| at);
        assert!(std::ptr::eq(part, &octets[at..at + example.text().len()]), "number {:x}", example.number);
    }
}

#[test]
fn each_message_is_written() {
    for example in &EXAMPLES {
        let octets = example.octets();
        let mut out = vec![0xee; octets.len() + 3];
        assert_eq!(write(&example.message(), &example.text(), &mut out), Ok(octets.len()));
        assert_eq!(out, [octets.as_slice(), &[0xee; 3]].concat());
    }
}

#[test]
fn layouts_have_their_lengths() {
    let lengths: Vec<(u8, usize)> = LAYOUTS.iter().map(|layout| (layout.number, layout.least_octets())).collect();
    let expected = [(1, 8), (3, 14), (5, 26), (6, 20), (7, 8), (8, 53), (9, 14), (0x20, 25), (0x21, 18), (0x23, 18)];
    assert_eq!(lengths, expected);
}

#[test]
fn reading_refuses_in_order() {
    assert_eq!(refusal(&[]), 3);
    assert_eq!(refusal(&hex("01ff0700 000000")), 3);
    for version in [0, 1, 3, 255] {
        assert_eq!(refusal(&[version, 0xff, 7, 0, 0, 0, 0, 9]), 4);
    }
    assert_eq!(refusal(&hex("02ff0700 00000009")), 5);
    assert_eq!(refusal(&hex("02010700 00000007")), 5);
    assert_eq!(refusal(&hex("02010700 01000008")), 5);
    for number in 0..=255u8 {
        let expected = match number {
            0x01 | 0x07 => 0,
            0x03 | 0x05 | 0x06 | 0x08 | 0x09 | 0x20 | 0x21 | 0x23 => 8,
            _ => 7,
        };
        assert_eq!(refusal(&[2, number, 7, 0, 0, 0, 0, 8]), expected, "number {number:x}");
    }
}

#[test]
fn every_shortened_or_lengthened_message_is_refused() {
    for example in &EXAMPLES {
        let octets = example.octets();
        for length in 0..octets.len() {
            assert_eq!(refusal(&octets[..length]), if length < 8 { 3 } else { 5 });
            if length >= 8 {
                assert_eq!(refusal(&with_length(octets[..length].to_vec())), 8);
            }
        }
        let longer = [octets, vec![0]].concat();
        assert_eq!(refusal(&longer), 5);
        assert_eq!(refusal(&with_length(longer)), 8);
    }
}

#[test]
fn inner_lengths_must_be_exact() {
    for example in EXAMPLES.iter().filter(|example| example.text.is_some()) {
        let octets = example.octets();
        let at = octets.len() - example.text().len() - 4;
        let left = example.text().len() as u32;
        for inner in [left + 1, left.wrapping_sub(1), left + 256, left + 65_536, left | 1 << 31, u32::MAX] {
            let mut other = octets.clone();
            other[at..at + 4].copy_from_slice(&inner.to_be_bytes());
            assert_eq!(refusal(&other), 8, "number {:x} inner length {inner}", example.number);
        }
    }
}

#[test]
fn flags_and_booleans() {
    for octet in 0..=255u8 {
        let mut data = EXAMPLES[7].octets();
        data[3] = octet;
        data[12] = octet;
        let mut start = EXAMPLES[5].octets();
        start[28] = octet;
        for (octets, place, expected) in [(data, 12, octet % 2), (start, 28, octet.min(1))] {
            let (message, part) = read(&octets).expect("a message");
            let mut out = vec![0xee; octets.len()];
            assert_eq!(write(&message, part, &mut out), Ok(octets.len()));
            let value = if place == 12 { message.values[2] } else { message.values[3] };
            assert_eq!((value, out[place], out[3]), (u64::from(expected), expected, 0));
            out[place] = octets[place];
            out[3] = octets[3];
            assert_eq!(out, octets);
        }
    }
}

#[test]
fn writing_refuses_long_texts_then_short_outputs() {
    for example in EXAMPLES.iter().filter(|example| example.text.is_some()) {
        let (message, front) = (example.message(), example.octets().len() - example.text().len());
        assert_eq!(write(&message, &[0; 1_025], &mut []), Err(17));
        assert_eq!(write(&message, &[0; 1_025], &mut [0; 2_000]), Err(17));
        let mut out = vec![0xee; front + 1_024];
        assert_eq!(write(&message, &[7; 1_024], &mut out[1..]), Err(12));
        assert!(out.iter().all(|octet| *octet == 0xee));
        assert_eq!(write(&message, &[7; 1_024], &mut out), Ok(front + 1_024));
        assert_eq!(read(&out), Ok((message, &[7; 1_024][..])));
    }
}

#[test]
fn long_texts_are_read_and_a_part_of_a_message_without_text_is_ignored() {
    let long = with_length([hex("02030700 00000000 0000 00000401"), vec![0; 1_025]].concat());
    assert_eq!(read(&long).expect("a FLOW STOP message").1.len(), 1_025);
    for example in EXAMPLES.iter().filter(|example| example.text.is_none()) {
        let octets = example.octets();
        let mut out = vec![0xee; octets.len()];
        assert_eq!(write(&example.message(), &[0; 1_025], &mut out), Ok(octets.len()));
        assert_eq!(out, octets);
        assert_eq!(write(&example.message(), &[0; 1_025], &mut out[1..]), Err(12));
    }
}

#[test]
fn each_edition_refuses_the_other() {
    for example in &EXAMPLES {
        assert_eq!(message::read(&example.octets()), Err(4));
    }
    assert_eq!(refusal(&hex("01010700 00000008")), 4);
    assert_eq!(refusal(&hex("01200700 00000012 00030101 FFFFFFFF 0005")), 4);
}

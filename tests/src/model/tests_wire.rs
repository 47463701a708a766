//! Tests of tables, records, the field walk, appending and messages.

use super::append::append;
use super::message::{read, write, Message};
use super::octets::Order;
use super::record::judge;
use super::table::{configuration_id, is_sound};
use super::tests_support::{blob, blob_table, block_of, hex, sample_table, table_of};
use super::walk::{open, step, Cursor, Field, Step, Value};

const KINDS: [u16; 20] =
    [0x1, 0x2, 0x3, 0x4, 0x5, 0x6, 0x7, 0x8, 0x9, 0xa, 0xb, 0x10, 0x11, 0x12, 0x13, 0x14, 0x15, 0x16, 0x400c, 0x400d];

/// The sample table with one octet replaced.
fn altered(at: usize, octet: u8) -> Vec<u8> {
    let mut table = sample_table();
    table[at] = octet;
    table
}

/// A table of one block.
fn table_with(block: &[u8]) -> Vec<u8> {
    [&[1, 1, 0, 1], block].concat()
}

#[test]
fn example_table_is_sound() {
    assert!(is_sound(&sample_table()));
    assert_eq!(configuration_id(&sample_table()), 1);
    assert_eq!(configuration_id(&[]), 0);
    assert_eq!(table_of(&[(3, &[(4, 0)])]).len(), sample_table().len());
}

#[test]
fn fixed_fields_of_a_table() {
    assert!(is_sound(&altered(0, 0)) && is_sound(&altered(0, 255)));
    assert!(is_sound(&altered(1, 0)));
    for flags in [2, 3, 128, 129, 255] {
        assert!(!is_sound(&altered(1, flags)));
    }
    for count in [0, 2, 9] {
        assert!(!is_sound(&altered(3, count)));
    }
    assert!(!is_sound(&altered(2, 1)));
    assert!(!is_sound(&altered(8, 1)) && !is_sound(&altered(9, 1)));
    assert!(!is_sound(&altered(11, 1)));
    for length in [0, 12, 23, 25, 36] {
        assert!(!is_sound(&altered(15, length)));
    }
    assert!(!is_sound(&altered(12, 1)));
    assert!(!is_sound(&altered(22, 1)) && !is_sound(&altered(23, 1)));
    assert!(is_sound(&altered(27, 1)));
    assert!(!is_sound(&altered(27, 2)) && !is_sound(&altered(24, 1)));
}

#[test]
fn every_shortened_or_lengthened_table_is_unsound() {
    let table = sample_table();
    for length in 0..table.len() {
        assert!(!is_sound(&table[..length]));
    }
    assert!(!is_sound(&[table, vec![0]].concat()));
}

#[test]
fn counts_of_templates_and_keys() {
    let keys = [(2, 0); 33];
    assert!(is_sound(&table_of(&[(0, &keys[..32])])));
    assert!(!is_sound(&table_of(&[(0, &keys[..33])])));
    assert!(!is_sound(&table_of(&[(0, &[])])));
    let templates: Vec<(u16, &[(u16, u32)])> = (0..9).map(|id| (id, &keys[..1])).collect();
    assert!(is_sound(&table_of(&templates[..8])));
    assert!(!is_sound(&table_of(&templates)));
    assert!(!is_sound(&table_of(&[])));
}

#[test]
fn ids_differ() {
    assert!(is_sound(&table_of(&[(1, &[(2, 0)]), (2, &[(2, 0)])])));
    assert!(!is_sound(&table_of(&[(1, &[(2, 0)]), (1, &[(2, 0)])])));
    let mut table = table_of(&[(1, &[(2, 0), (2, 1)])]);
    assert!(is_sound(&table));
    table[4 + 12 + 12 + 3] = 0;
    assert!(!is_sound(&table));
}

#[test]
fn only_listed_types() {
    let listed: Vec<u16> = (0..=u16::MAX).filter(|kind| is_sound(&table_of(&[(1, &[(*kind, 0)])]))).collect();
    assert_eq!(listed, [KINDS.as_slice(), &[0x4015]].concat());
    assert!(!is_sound(&table_of(&[(1, &[(0, 1)])])));
}

#[test]
fn descriptions_are_zero_padded() {
    for length in 0..9 {
        let table = table_with(&block_of(3, &vec![0xff; length], &[(4, 0)]));
        assert!(is_sound(&table));
        if length % 4 != 0 {
            let mut unpadded = table.clone();
            unpadded[16 + length] = 1;
            assert!(!is_sound(&unpadded));
            let mut last = table.clone();
            last[16 + (length / 4) * 4 + 3] = 1;
            assert!(!is_sound(&last));
        }
    }
}

#[test]
fn longest_table() {
    let longest = table_with(&block_of(3, &vec![b'x'; 16_384 - 28], &[(4, 0)]));
    assert_eq!(longest.len(), 16_384);
    assert!(is_sound(&longest));
    let longer = table_with(&block_of(3, &vec![b'x'; 16_384 - 27], &[(4, 0)]));
    assert_eq!(longer.len(), 16_388);
    assert!(!is_sound(&longer));
}

#[test]
fn example_records() {
    let table = sample_table();
    assert_eq!(judge(&table, 3, &hex("0005")), 0);
    assert_eq!(judge(&table, 3, &hex("00")), 16);
    assert_eq!(judge(&table, 3, &hex("000500")), 16);
}

#[test]
fn record_refusals_in_order() {
    assert_eq!(judge(&altered(1, 2), 9, &hex("00")), 21);
    assert_eq!(judge(&sample_table(), 9, &hex("00")), 15);
    assert_eq!(open(&altered(1, 2), 9, &hex("00")), 21);
    assert_eq!(open(&sample_table(), 9, &hex("00")), 15);
    assert_eq!(open(&sample_table(), 3, &hex("00")), 16);
    assert_eq!(open(&sample_table(), 3, &hex("0005")), 0);
}

/// A record is judged under a template with one enabled key of that type.
fn judge_one(kind: u16, record: &str) -> u8 {
    judge(&table_of(&[(1, &[(kind, 0)])]), 1, &hex(record))
}

#[test]
fn fixed_widths() {
    let widths = [1, 1, 1, 2, 2, 4, 4, 8, 8, 4, 8, 4, 16, 4, 8, 8, 4, 4];
    for (kind, width) in KINDS.into_iter().zip(widths) {
        let table = table_of(&[(1, &[(kind, 0)])]);
        for length in 0..20 {
            let expected = if length == width { 0 } else { 16 };
            assert_eq!(judge(&table, 1, &vec![1; length]), expected, "type {kind:x}");
        }
    }
}

#[test]
fn booleans_strings_and_blobs() {
    assert_eq!((judge_one(1, "00"), judge_one(1, "01"), judge_one(1, "02")), (0, 0, 16));
    assert_eq!((judge_one(0x400c, "00000000"), judge_one(0x400c, "00000002 007f")), (0, 0));
    assert_eq!((judge_one(0x400c, "00000001 80"), judge_one(0x400c, "000000")), (16, 16));
    assert_eq!((judge_one(0x400c, "00000002 41"), judge_one(0x400c, "00000001 4142")), (16, 16));
    assert_eq!((judge_one(0x400d, "00"), judge_one(0x400d, "ff8000")), (0, 0));
    assert_eq!((judge_one(0x400d, ""), judge_one(0x400d, "41"), judge_one(0x400d, "0000")), (16, 16, 16));
    assert_eq!((judge_one(0x4015, "00000000"), judge_one(0x4015, "00000002 00ff")), (0, 0));
    assert_eq!((judge_one(0x4015, "ffffffff 00"), judge_one(0x4015, "00000000 00")), (16, 16));
}

#[test]
fn disabled_keys_have_no_field() {
    let table = table_of(&[(1, &[(4, 1), (1, 0), (8, 1)]), (2, &[(4, 1)])]);
    assert_eq!(judge(&table, 1, &[1]), 0);
    assert_eq!(judge(&table, 1, &[0, 0, 1]), 16);
    assert_eq!(judge(&table, 2, &[]), 0);
    assert_eq!(judge(&table, 2, &[0, 0]), 16);
}

#[test]
fn validity_knows_no_longest_record() {
    assert_eq!(judge(&blob_table(), 4, &blob(1_025, 0)), 0);
    assert_eq!(judge(&blob_table(), 4, &blob(70_000, 0)), 0);
}

#[test]
fn walk_visits_enabled_keys() {
    let table = table_of(&[(1, &[(4, 1), (5, 0), (0x10, 0), (0x400d, 1), (0x400c, 0)])]);
    let record = hex("ffff 01020304 00000001 41");
    assert_eq!(open(&table, 1, &record), 0);
    let mut cursor = Cursor::default();
    let expected = [
        (Field { kind: 5, at: 0, len: 2, value: Value::Negative(1) }, Cursor { index: 2, at: 2 }),
        (Field { kind: 0x10, at: 2, len: 4, value: Value::Octets }, Cursor { index: 3, at: 6 }),
        (Field { kind: 0x400c, at: 6, len: 5, value: Value::Octets }, Cursor { index: 5, at: 11 }),
    ];
    for (field, after) in expected {
        assert_eq!(step(&table, 1, &record, cursor), Step::Next(field, after));
        cursor = after;
    }
    assert_eq!(step(&table, 1, &record, cursor), Step::End);
}

#[test]
fn steps_are_judged_alone() {
    let table = table_of(&[(1, &[(2, 0), (4, 0)])]);
    let second = Cursor { index: 1, at: 3 };
    assert_eq!(step(&[], 9, &[], second), Step::Refused(21));
    assert_eq!(step(&table, 9, &[], second), Step::Refused(15));
    assert_eq!(step(&table, 1, &[0; 4], second), Step::Refused(16));
    let field = Field { kind: 4, at: 3, len: 2, value: Value::Number(0x0102) };
    let after = Cursor { index: 2, at: 5 };
    assert_eq!(step(&table, 1, &hex("ffffff 0102 ff"), second), Step::Next(field, after));
    assert_eq!(step(&table, 1, &hex("ff"), Cursor { index: 2, at: 0 }), Step::End);
    assert_eq!(step(&table, 1, &[], Cursor { index: usize::MAX, at: usize::MAX }), Step::End);
    assert_eq!(step(&table, 1, &[], Cursor { index: 0, at: usize::MAX }), Step::Refused(16));
    assert_eq!(step(&table, 1, &[0], Cursor { index: 0, at: 1 }), Step::Refused(16));
}

/// The value of a record's only field.
fn value_of(kind: u16, record: &str) -> Value {
    let table = table_of(&[(1, &[(kind, 0)])]);
    match step(&table, 1, &hex(record), Cursor::default()) {
        Step::Next(field, _) => field.value,
        other => panic!("no field: {other:?}"),
    }
}

#[test]
fn exact_values() {
    assert_eq!((value_of(1, "00"), value_of(1, "01")), (Value::Number(0), Value::Number(1)));
    assert_eq!((value_of(2, "ff"), value_of(3, "ff")), (Value::Number(255), Value::Negative(1)));
    assert_eq!((value_of(3, "80"), value_of(3, "7f")), (Value::Negative(128), Value::Number(127)));
    assert_eq!((value_of(4, "8000"), value_of(5, "8000")), (Value::Number(32_768), Value::Negative(32_768)));
    assert_eq!(value_of(6, "ffffffff"), Value::Number(0xffff_ffff));
    assert_eq!(value_of(7, "80000000"), Value::Negative(0x8000_0000));
    assert_eq!(value_of(8, "ffffffffffffffff"), Value::Number(u64::MAX));
    assert_eq!(value_of(9, "8000000000000000"), Value::Negative(1 << 63));
    assert_eq!(value_of(9, "ffffffffffffffff"), Value::Negative(1));
    assert_eq!(value_of(0xa, "bf800000"), Value::Number(0xbf80_0000));
    assert_eq!(value_of(0xb, "bff0000000000000"), Value::Number(0xbff0_0000_0000_0000));
    assert_eq!((value_of(0x10, "01020304"), value_of(0x4015, "00000000")), (Value::Octets, Value::Octets));
    assert_eq!(value_of(0x11, "000102030405060708090a0b0c0d0e0f"), Value::Octets);
    assert_eq!(
        (value_of(0x12, "ffffffff"), value_of(0x15, "80000000")),
        (Value::Number(0xffff_ffff), Value::Number(0x8000_0000))
    );
    assert_eq!(
        (value_of(0x13, "ffffffffffffffff"), value_of(0x14, "8000000000000000")),
        (Value::Number(u64::MAX), Value::Number(1 << 63))
    );
    assert_eq!((value_of(0x16, "80000000"), value_of(0x400d, "4100")), (Value::Number(0x8000_0000), Value::Octets));
}

/// Appends a value at place 0 and gives back the field's octets.
fn appended(kind: u16, value: Value, octets: &str) -> Result<Vec<u8>, u8> {
    let mut out = [0xee; 40];
    let end = append(Order::Big, kind, value, &hex(octets), &mut out, 0)?;
    assert!(out[end..].iter().all(|octet| *octet == 0xee));
    Ok(out[..end].to_vec())
}

#[test]
fn numbers_are_appended_in_their_width() {
    assert_eq!(appended(1, Value::Number(1), ""), Ok(hex("01")));
    assert_eq!(appended(1, Value::Number(2), ""), Err(16));
    assert_eq!(appended(2, Value::Number(255), ""), Ok(hex("ff")));
    assert_eq!(appended(2, Value::Number(256), ""), Err(16));
    assert_eq!(appended(2, Value::Negative(1), ""), Err(16));
    assert_eq!(appended(3, Value::Number(128), ""), Err(16));
    assert_eq!(appended(3, Value::Negative(128), ""), Ok(hex("80")));
    assert_eq!(appended(3, Value::Negative(129), ""), Err(16));
    assert_eq!(appended(5, Value::Negative(2), ""), Ok(hex("fffe")));
    assert_eq!(appended(7, Value::Negative(1 << 31), ""), Ok(hex("80000000")));
    assert_eq!(appended(8, Value::Number(u64::MAX), ""), Ok(hex("ffffffffffffffff")));
    assert_eq!(appended(9, Value::Negative(1 << 63), ""), Ok(hex("8000000000000000")));
    assert_eq!(appended(9, Value::Number(1 << 63), ""), Err(16));
    assert_eq!(appended(9, Value::Negative((1 << 63) + 1), ""), Err(16));
    assert_eq!(appended(0xa, Value::Number(0xbf80_0000), ""), Ok(hex("bf800000")));
    assert_eq!(appended(0xa, Value::Number(1 << 32), ""), Err(16));
    assert_eq!(appended(0x12, Value::Number(5), ""), Ok(hex("00000005")));
    assert_eq!(appended(0x13, Value::Negative(1), ""), Err(16));
    assert_eq!(appended(2, Value::Negative(0), ""), Err(16));
}

#[test]
fn octets_are_appended_by_their_layout() {
    assert_eq!(appended(0x10, Value::Octets, "01020304"), Ok(hex("01020304")));
    assert_eq!(appended(0x10, Value::Octets, "010203"), Err(16));
    assert_eq!(appended(0x11, Value::Octets, "01020304"), Err(16));
    assert_eq!(appended(0x400c, Value::Octets, "007f"), Ok(hex("00000002 007f")));
    assert_eq!(appended(0x400c, Value::Octets, "80"), Err(16));
    assert_eq!(appended(0x400d, Value::Octets, "ff80"), Ok(hex("ff8000")));
    assert_eq!(appended(0x400d, Value::Octets, ""), Ok(hex("00")));
    assert_eq!(appended(0x400d, Value::Octets, "4100"), Err(16));
    assert_eq!(appended(0x4015, Value::Octets, "00ff"), Ok(hex("00000002 00ff")));
}

#[test]
fn appended_value_must_be_of_its_type() {
    for kind in [1, 2, 9, 0xa, 0x12] {
        assert_eq!(appended(kind, Value::Octets, "01"), Err(16));
    }
    for kind in [0x10, 0x11, 0x400c, 0x400d, 0x4015] {
        assert_eq!(appended(kind, Value::Number(0), ""), Err(16));
    }
    for kind in [0, 0xc, 0xf, 0x17, 0x400b, 0x400e, 0xffff] {
        assert_eq!(appended(kind, Value::Number(0), ""), Err(16));
        assert_eq!(appended(kind, Value::Octets, ""), Err(16));
    }
}

#[test]
fn append_refuses_short_output_last() {
    let mut out = [0xee; 4];
    assert_eq!(append(Order::Big, 2, Value::Number(256), &[], &mut out, 9), Err(16));
    assert_eq!(append(Order::Big, 4, Value::Number(256), &[], &mut out, 3), Err(12));
    assert_eq!(append(Order::Big, 2, Value::Number(1), &[], &mut out, 4), Err(12));
    assert_eq!(append(Order::Big, 2, Value::Number(1), &[], &mut out, 5), Err(12));
    assert_eq!(append(Order::Big, 2, Value::Number(1), &[], &mut out, usize::MAX), Err(12));
    assert_eq!(out, [0xee; 4]);
    assert_eq!(append(Order::Big, 4, Value::Number(256), &[], &mut out, 2), Ok(4));
    assert_eq!(out, [0xee, 0xee, 1, 0]);
}

/// Writes a message alone into an output of that length.
fn written(message: &Message, part: &[u8], length: usize) -> Result<Vec<u8>, u8> {
    let mut out = vec![0xee; length];
    let end = write(message, part, &mut out)?;
    assert!(out[end..].iter().all(|octet| *octet == 0xee));
    Ok(out[..end].to_vec())
}

fn example_data() -> Message {
    Message::Data { session: 7, template_id: 3, configuration_id: 1, s: true, d: false, dsn: u32::MAX }
}

/// Every message with the octets of its layout.
fn every_message() -> Vec<(Message, Vec<u8>, Vec<u8>)> {
    let session = 7;
    let table = sample_table();
    let tmpl_data = [hex("01100700 00000024"), table.clone()].concat();
    vec![
        (Message::Start { session }, vec![], hex("01010700 00000008")),
        (Message::StartAck { session, boot_time: 3_600 }, vec![], hex("01020700 0000000C 00000E10")),
        (Message::Stop { session }, vec![], hex("01030700 00000008")),
        (Message::StopAck { session }, vec![], hex("01040700 00000008")),
        (Message::TmplData { session }, table, tmpl_data),
        (Message::FinalTmplDataAck { session, configuration_id: 9 }, vec![], hex("01130700 0000000C 09000000")),
        (Message::StartNegotiate { session }, vec![], hex("01180700 00000008")),
        (Message::StartNegotiateAck { session }, vec![], hex("01190700 00000008")),
        (example_data(), hex("0005"), hex("01200700 00000012 00030101 FFFFFFFF 0005")),
        (
            Message::DataAck { session, dsn: 258, configuration_id: 9 },
            vec![],
            hex("01210700 00000010 00000102 09000000"),
        ),
    ]
}

#[test]
fn messages_are_written_and_read_by_their_layout() {
    for (message, part, octets) in every_message() {
        assert_eq!(written(&message, &part, 64).as_ref(), Ok(&octets));
        assert_eq!(read(&octets), Ok((message.clone(), part.as_slice())));
        assert_eq!(written(&message, &part, octets.len()).as_ref(), Ok(&octets));
        assert_eq!(written(&message, &part, octets.len() - 1), Err(12));
    }
}

#[test]
fn flags_and_reserved_octets_are_ignored() {
    let data = Message::Data { session: 7, template_id: 3, configuration_id: 1, s: false, d: true, dsn: 0 };
    let octets = hex("012007ff 00000010 000301fe 00000000");
    assert_eq!(read(&octets), Ok((data, [].as_slice())));
    let mut out = [0xee; 17];
    assert_eq!(read_again(&octets, &mut out), Ok(octets.len()));
    assert_eq!(out.to_vec(), hex("01200700 00000010 00030102 00000000 ee"));
    let data = Message::Data { session: 7, template_id: 3, configuration_id: 1, s: true, d: false, dsn: 0 };
    assert_eq!(read(&hex("01200780 00000010 000301fd 00000000")), Ok((data, [].as_slice())));
    let ack = hex("01130780 0000000C 01ffffff");
    assert_eq!(read(&ack), Ok((Message::FinalTmplDataAck { session: 7, configuration_id: 1 }, [].as_slice())));
    let ack = hex("01210701 00000010 00000000 01ffffff");
    assert_eq!(read(&ack), Ok((Message::DataAck { session: 7, dsn: 0, configuration_id: 1 }, [].as_slice())));
}

#[test]
fn part_is_of_the_callers_message() {
    let octets = hex("01200700 00000012 00030101 FFFFFFFF 0005");
    let (_, part) = read(&octets).expect("a DATA message");
    assert!(std::ptr::eq(part, &octets[16..]));
    let octets = hex("01010700 00000008");
    let (_, part) = read(&octets).expect("a START message");
    assert!(std::ptr::eq(part, &octets[..0]));
}

#[test]
fn reading_refuses_in_order() {
    assert_eq!(read(&hex("02ff0700 000000")), Err(3));
    assert_eq!(read(&[]), Err(3));
    assert_eq!(read(&hex("02ff0700 00000009")), Err(4));
    assert_eq!(read(&hex("01ff0700 00000009")), Err(5));
    assert_eq!(read(&hex("01010700 00000007")), Err(5));
    for number in 0..=255u8 {
        let expected = match number {
            0x01 | 0x03 | 0x04 | 0x18 | 0x19 => 0,
            0x02 | 0x13 | 0x20 | 0x21 => 8,
            0x10 => 21,
            _ => 7,
        };
        let octets = [1, number, 7, 0, 0, 0, 0, 8];
        assert_eq!(read(&octets).err().unwrap_or(0), expected, "number {number:x}");
    }
}

#[test]
fn body_lengths() {
    let bodies = [(1, 0), (2, 4), (3, 0), (4, 0), (0x13, 4), (0x18, 0), (0x19, 0), (0x21, 8)];
    for (number, body) in bodies {
        for length in 0..12 {
            let mut octets = vec![1, number, 7, 0, 0, 0, 0, 8 + length];
            octets.resize(8 + usize::from(length), 0);
            let expected = if length == body { 0 } else { 8 };
            assert_eq!(read(&octets).err().unwrap_or(0), expected);
        }
    }
    assert_eq!(read(&hex("01200700 0000000f 00030101 000000")), Err(8));
    assert!(read(&hex("01200700 00000010 00030101 00000000")).is_ok());
}

#[test]
fn table_messages_are_judged_by_the_table_rules() {
    let unsound = [hex("01100700 00000025"), sample_table(), vec![0]].concat();
    assert_eq!(read(&unsound), Err(21));
    assert_eq!(written(&Message::TmplData { session: 7 }, &unsound, 0), Err(21));
    assert_eq!(written(&Message::TmplData { session: 7 }, &sample_table(), 35), Err(12));
    let table = table_with(&block_of(3, &vec![b'x'; 16_384 - 28], &[(4, 0)]));
    let octets = [hex("01100700 00004008"), table].concat();
    let mut out = vec![0; 16_392];
    assert_eq!(read_again(&octets, &mut out), Ok(octets.len()));
    assert_eq!(out, octets);
}

#[test]
fn long_records_are_read_but_not_written() {
    let octets = [hex("01200700 00000411 00030101 FFFFFFFF"), vec![0; 1_025]].concat();
    let (message, part) = read(&octets).expect("a DATA message");
    assert_eq!(part.len(), 1_025);
    assert_eq!(written(&message, part, 0), Err(17));
    assert_eq!(written(&message, &part[1..], 1_039), Err(12));
    assert_eq!(written(&message, &part[1..], 1_040).map(|octets| octets.len()), Ok(1_040));
    assert_eq!(read_again(&octets, &mut []), Err(17));
    assert_eq!(read_again(&octets[1..], &mut []), Err(4));
}

#[test]
fn refused_writing_changes_nothing() {
    let mut out = [0xee; 17];
    assert_eq!(write(&example_data(), &hex("0005"), &mut out), Err(12));
    assert_eq!(out, [0xee; 17]);
}

/// Reads a message and writes what it says with its part.
fn read_again(m: &[u8], out: &mut [u8]) -> Result<usize, u8> {
    let (message, part) = read(m)?;
    write(&message, part, out)
}

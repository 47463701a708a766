//! Tests of the order of record data: by hand, each field in both orders.

use super::append::{append, append_under};
use super::octets::Order;
use super::record::judge;
use super::table::{is_sound, parse};
use super::tests_support::{block_of, hex, sample_table, table_of, Bench};
use super::walk::{count_fields, open, step, Cursor, Field, Step, Value};
use super::{answer, tests_support::settings};
use Value::{Negative, Number};

const BOTH: [Order; 2] = [Order::Big, Order::Little];

/// A table with one template 1 that has an enabled key of each type.
fn table_in(order: Order, kinds: &[u16]) -> Vec<u8> {
    let keys: Vec<(u16, u32)> = kinds.iter().map(|kind| (*kind, 0)).collect();
    with_flags(table_of(&[(1, &keys)]), if order == Order::Big { 1 } else { 0 })
}

fn with_flags(mut table: Vec<u8>, flags: u8) -> Vec<u8> {
    table[1] = flags;
    table
}

/// Integers and floats: type, value, and the field big-endian and little-endian.
const NUMBERS: [(u16, Value, &str, &str); 42] = [
    (0x2, Number(0), "00", "00"),
    (0x2, Number(255), "ff", "ff"),
    (0x3, Number(127), "7f", "7f"),
    (0x3, Negative(128), "80", "80"),
    (0x3, Negative(1), "ff", "ff"),
    (0x4, Number(0), "0000", "0000"),
    (0x4, Number(1), "0001", "0100"),
    (0x4, Number(258), "0102", "0201"),
    (0x4, Number(32_768), "8000", "0080"),
    (0x4, Number(65_535), "ffff", "ffff"),
    (0x5, Number(32_767), "7fff", "ff7f"),
    (0x5, Number(128), "0080", "8000"),
    (0x5, Negative(32_768), "8000", "0080"),
    (0x5, Negative(2), "fffe", "feff"),
    (0x5, Negative(1), "ffff", "ffff"),
    (0x5, Negative(32_640), "8080", "8080"),
    (0x6, Number(1), "00000001", "01000000"),
    (0x6, Number(0x0102_0304), "01020304", "04030201"),
    (0x6, Number(0xffff_fffe), "fffffffe", "feffffff"),
    (0x6, Number(0xffff_ffff), "ffffffff", "ffffffff"),
    (0x7, Number(0x7fff_ffff), "7fffffff", "ffffff7f"),
    (0x7, Number(0x80), "00000080", "80000000"),
    (0x7, Negative(0x8000_0000), "80000000", "00000080"),
    (0x7, Negative(2), "fffffffe", "feffffff"),
    (0x8, Number(1), "0000000000000001", "0100000000000000"),
    (0x8, Number(0x0102_0304_0506_0708), "0102030405060708", "0807060504030201"),
    (0x8, Number(1 << 32), "0000000100000000", "0000000001000000"),
    (0x8, Number(1 << 63), "8000000000000000", "0000000000000080"),
    (0x8, Number(u64::MAX), "ffffffffffffffff", "ffffffffffffffff"),
    (0x9, Number((1 << 63) - 1), "7fffffffffffffff", "ffffffffffffff7f"),
    (0x9, Number(0x80), "0000000000000080", "8000000000000000"),
    (0x9, Negative(1 << 63), "8000000000000000", "0000000000000080"),
    (0x9, Negative(2), "fffffffffffffffe", "feffffffffffffff"),
    (0x9, Negative(1), "ffffffffffffffff", "ffffffffffffffff"),
    (0xa, Number(0x3f80_0000), "3f800000", "0000803f"),
    (0xa, Number(0xbf80_0000), "bf800000", "000080bf"),
    (0xa, Number(0x0102_0304), "01020304", "04030201"),
    (0xb, Number(0x3ff0_0000_0000_0000), "3ff0000000000000", "000000000000f03f"),
    (0xb, Number(0xc000_0000_0000_0000), "c000000000000000", "00000000000000c0"),
    (0xb, Number(0x0102_0304_0506_0708), "0102030405060708", "0807060504030201"),
    (0x1, Number(0), "00", "00"),
    (0x1, Number(1), "01", "01"),
];

/// Times: type, value, and the field, which is the same in both orders.
const TIMES: [(u16, Value, &str); 10] = [
    (0x12, Number(1), "00000001"),
    (0x12, Number(0xffff_fffe), "fffffffe"),
    (0x13, Number(0x0102_0304_0506_0708), "0102030405060708"),
    (0x13, Number(1 << 63), "8000000000000000"),
    (0x14, Number(1), "0000000000000001"),
    (0x14, Number(u64::MAX - 1), "fffffffffffffffe"),
    (0x15, Number(0x0102_0304), "01020304"),
    (0x15, Number(0x8000_0000), "80000000"),
    (0x16, Number(1), "00000001"),
    (0x16, Number(0x0102_0304), "01020304"),
];

/// What has octets: type, the octets, and the field big-endian and little-endian.
const OCTETS: [(u16, &str, &str, &str); 8] = [
    (0x10, "01020304", "01020304", "01020304"),
    (0x11, "000102030405060708090a0b0c0d0e0f", "000102030405060708090a0b0c0d0e0f", "000102030405060708090a0b0c0d0e0f"),
    (0x400c, "", "00000000", "00000000"),
    (0x400c, "4142", "000000024142", "020000004142"),
    (0x4015, "", "00000000", "00000000"),
    (0x4015, "ff0080", "00000003ff0080", "03000000ff0080"),
    (0x400d, "41ff", "41ff00", "41ff00"),
    (0x400d, "", "00", "00"),
];

/// Every field above in an order: its type, its value, its octets where it has such, and the field.
fn fields_in(order: Order) -> Vec<(u16, Value, Vec<u8>, Vec<u8>)> {
    let chosen = |big: &str, little: &str| hex(if order == Order::Big { big } else { little });
    let mut fields = Vec::new();
    fields.extend(NUMBERS.map(|(kind, value, big, little)| (kind, value, Vec::new(), chosen(big, little))));
    fields.extend(TIMES.map(|(kind, value, field)| (kind, value, Vec::new(), hex(field))));
    fields.extend(OCTETS.map(|(kind, octets, big, little)| (kind, Value::Octets, hex(octets), chosen(big, little))));
    fields
}

#[test]
fn fields_are_appended_in_either_order() {
    for order in BOTH {
        for (kind, value, octets, field) in fields_in(order) {
            let mut out = [0xee; 40];
            assert_eq!(append(order, kind, value, &octets, &mut out, 3), Ok(3 + field.len()), "type {kind:x}");
            assert_eq!(out[3..3 + field.len()], field, "type {kind:x} {order:?}");
            assert!(out[..3].iter().chain(&out[3 + field.len()..]).all(|octet| *octet == 0xee));
        }
    }
}

#[test]
fn fields_are_read_in_the_order_of_their_table() {
    for order in BOTH {
        for (kind, value, _, field) in fields_in(order) {
            let (table, len) = (table_in(order, &[kind]), field.len());
            assert_eq!((judge(&table, 1, &field), open(&table, 1, &field)), (0, 0), "type {kind:x}");
            assert_eq!(count_fields(&table, 1, &field), Ok(1));
            let expected = Step::Next(Field { kind, at: 0, len, value }, Cursor { index: 1, at: len });
            assert_eq!(step(&table, 1, &field, Cursor::default()), expected, "type {kind:x} {order:?}");
        }
    }
}

#[test]
fn limits_are_the_same_in_either_order() {
    for order in BOTH {
        for (kind, width) in [(2, 1), (3, 1), (4, 2), (5, 2), (6, 4), (7, 4), (8, 8), (9, 8)] {
            let half = 1u64 << (8 * width - 1);
            let refused: &[Value] = match (kind % 2 == 1, width) {
                (true, _) => &[Number(half), Negative(half + 1)],
                (false, 8) => &[Negative(1)],
                (false, _) => &[Number(2 * half), Negative(1)],
            };
            for value in refused {
                assert_eq!(append(order, kind, *value, &[], &mut [0xee; 9], 0), Err(16), "type {kind} {value:?}");
            }
        }
        assert_eq!(append(order, 1, Number(2), &[], &mut [0; 1], 0), Err(16));
        assert_eq!(append(order, 0xa, Number(1 << 32), &[], &mut [0; 4], 0), Err(16));
    }
}

#[test]
fn lengths_are_judged_in_the_order_of_their_table() {
    let judge_in = |order, kind, record: &str| judge(&table_in(order, &[kind]), 1, &hex(record));
    for kind in [0x400c, 0x4015] {
        for (order, right, wrong) in
            [(Order::Big, "00000002 4142", "02000000 4142"), (Order::Little, "02000000 4142", "00000002 4142")]
        {
            assert_eq!((judge_in(order, kind, right), judge_in(order, kind, wrong)), (0, 16), "type {kind:x}");
            assert_eq!(judge_in(order, kind, &right[..right.len() - 2]), 16);
            assert_eq!(judge_in(order, kind, &format!("{right}43")), 16);
            assert_eq!((judge_in(order, kind, "00000000"), judge_in(order, kind, "000000")), (0, 16));
        }
    }
    assert_eq!(judge_in(Order::Little, 0x400c, "01000000 80"), 16);
    assert_eq!(judge_in(Order::Little, 0x4015, "01000000 80"), 0);
    assert_eq!((judge_in(Order::Little, 1, "80"), judge_in(Order::Little, 1, "02")), (16, 16));
    assert_eq!((judge_in(Order::Little, 0x400d, "0041"), judge_in(Order::Little, 0x400d, "41")), (16, 16));
}

#[test]
fn lengths_of_several_octets() {
    let mut out = vec![0xee; 70_000];
    for (length, little, big) in [(0x0102, [2, 1, 0, 0], [0, 0, 1, 2]), (0x0001_0203, [3, 2, 1, 0], [0, 1, 2, 3])] {
        for (order, prefix) in [(Order::Little, little), (Order::Big, big)] {
            let octets = vec![0x41; length];
            assert_eq!(append(order, 0x400c, Value::Octets, &octets, &mut out, 0), Ok(4 + length));
            assert_eq!(out[..4], prefix);
            assert_eq!(judge(&table_in(order, &[0x400c]), 1, &out[..4 + length]), 0);
            assert_eq!(judge(&table_in(order.other(), &[0x400c]), 1, &out[..4 + length]), 16);
        }
    }
    // A length whose octets are the same from both sides is valid in both orders.
    let record = [vec![0, 1, 1, 0], vec![0x41; 0x0001_0100]].concat();
    for order in BOTH {
        assert_eq!(judge(&table_in(order, &[0x4015]), 1, &record), 0);
    }
}

#[test]
fn a_walk_over_a_little_endian_record() {
    let table = table_in(Order::Little, &[0x5, 0x400c, 0x12, 0x8, 0x10, 0x4015, 0x1, 0x400d, 0xa]);
    let record = hex("feff 01000000 41 00000e10 0100000000000000 c0000201 02000000 fffe 01 4200 0000803f");
    assert_eq!((open(&table, 1, &record), count_fields(&table, 1, &record)), (0, Ok(9)));
    let expected = [
        (0x5, 0, 2, Negative(2)),
        (0x400c, 2, 5, Value::Octets),
        (0x12, 7, 4, Number(3_600)),
        (0x8, 11, 8, Number(1)),
        (0x10, 19, 4, Value::Octets),
        (0x4015, 23, 6, Value::Octets),
        (0x1, 29, 1, Number(1)),
        (0x400d, 30, 2, Value::Octets),
        (0xa, 32, 4, Number(0x3f80_0000)),
    ];
    let mut cursor = Cursor::default();
    for (place, (kind, at, len, value)) in expected.into_iter().enumerate() {
        let after = Cursor { index: place + 1, at: at + len };
        assert_eq!(step(&table, 1, &record, cursor), Step::Next(Field { kind, at, len, value }, after));
        cursor = after;
    }
    assert_eq!(step(&table, 1, &record, cursor), Step::End);
    let other = with_flags(table, 1);
    assert_eq!(judge(&other, 1, &record), 16);
    assert_eq!(step(&other, 1, &record, Cursor { index: 1, at: 2 }), Step::Refused(16));
}

#[test]
fn flags_are_0_or_1() {
    for flags in 0..=255 {
        let table = with_flags(sample_table(), flags);
        let order = [Some(Order::Little), Some(Order::Big)].get(usize::from(flags)).copied().flatten();
        assert_eq!(parse(&table).map(|table| table.order), order, "flags {flags}");
        assert_eq!(judge(&table, 3, &hex("0005")), if flags <= 1 { 0 } else { 21 });
    }
    assert_eq!(step(&with_flags(sample_table(), 2), 9, &[], Cursor::default()), Step::Refused(21));
}

#[test]
fn the_numbers_of_a_table_are_never_turned() {
    let little = with_flags(sample_table(), 0);
    assert!(is_sound(&little));
    for (at, width) in [(2, 2), (6, 2), (12, 4), (20, 2)] {
        let mut turned = little.clone();
        turned[at..at + width].reverse();
        assert!(!is_sound(&turned), "number at {at}");
    }
    assert_eq!((judge(&little, 3, &hex("0500")), judge(&little, 0x300, &hex("0500"))), (0, 15));
    let disabled = with_flags(table_of(&[(1, &[(4, 1)])]), 0);
    assert_eq!((judge(&disabled, 1, &[]), judge(&disabled, 1, &hex("0500"))), (0, 16));
}

#[test]
fn appending_judges_the_flags_first() {
    for flags in [2, 3, 128, 255] {
        let mut out = [0xee; 4];
        assert_eq!(append_under(flags, 4, Number(5), &[], &mut out, 0), Err(21));
        assert_eq!(append_under(flags, 4, Number(1 << 16), &[], &mut out, 0), Err(21));
        assert_eq!(append_under(flags, 4, Number(5), &[], &mut out, 3), Err(21));
        assert_eq!(append_under(flags, 0xffff, Value::Octets, &[], &mut out, usize::MAX), Err(21));
        assert_eq!(out, [0xee; 4]);
    }
    for (flags, field) in [(0, [5, 0]), (1, [0, 5])] {
        let mut out = [0xee; 4];
        assert_eq!(append_under(flags, 4, Number(1 << 16), &[], &mut out, 9), Err(16));
        assert_eq!(append_under(flags, 4, Number(5), &[], &mut out, 3), Err(12));
        assert_eq!(out, [0xee; 4]);
        assert_eq!(append_under(flags, 4, Number(5), &[], &mut out, 1), Ok(3));
        assert_eq!(out, [0xee, field[0], field[1], 0xee]);
    }
}

#[test]
fn an_exporter_puts_and_sends_by_the_order_of_its_table() {
    let table = [vec![1, 0, 0, 1], block_of(4, b"", &[(0x4015, 0), (4, 0)])].concat();
    let mut bench = Bench::new(settings(&[1]), 1_024);
    bench.table = table.clone();
    bench.agree(0);
    assert_eq!(bench.out[..48], [hex("01100700 00000030"), table].concat());
    assert_eq!(bench.put(&hex("00000001 41 0005")), answer::RECORD_INVALID);
    assert_eq!(bench.put(&hex("01000000 41 0500")), answer::DONE);
    assert_eq!(bench.next().written, 23);
    assert_eq!(bench.out[..23], hex("01200700 00000017 00040101 00000000 01000000 41 0500"));
}

//! The arguments of each function, made up: each starts from a valid one, and most have one thing damaged.

pub mod edition;

use super::whole::{Piece, Whole};
use super::Input;
use crate::generate::{records, tables};
use crate::library::{NEGATIVE, NUMBER, OCTETS};
use crate::messages::{self, MessageParts};
use crate::model::answer::{OUTPUT_TOO_SHORT, RECORD_INVALID};
use crate::model::walk::{self, Cursor, Step};
use crate::random::Random;
use crate::tables::{
    field_type, Order, Table, Template, BLOB, BOOLEAN, FIELD_TYPES, IPV4, IPV6, MAX_KEYS, MAX_TEMPLATES, STRING,
    ZERO_STRING,
};

/// A sound table of either order: mostly small, now and then as large as can be.
fn sound_table(random: &mut Random) -> Table {
    let configuration = random.octet();
    let order = tables::order(random, 2);
    let table = match random.below(40) {
        0 => tables::largest(random, configuration),
        1 | 2 => tables::sound(random, configuration, MAX_TEMPLATES, MAX_KEYS),
        3..=20 => tables::sound(random, configuration, 2, 3),
        _ => tables::sound(random, configuration, 3, 8),
    };
    Table { order, ..table }
}

/// The octets of a table with one damage; its own numbers turned are one.
fn damaged_table(random: &mut Random, table: Table) -> Vec<u8> {
    let place = random.below(tables::DAMAGES.len() + tables::TURNED_NUMBERS.len());
    let damage = tables::DAMAGES.iter().chain(&tables::TURNED_NUMBERS).nth(place).expect("a damage");
    (damage.apply)(random, table)
}

pub fn table(random: &mut Random) -> Input {
    let table = sound_table(random);
    let octets = match random.below(12) {
        0..=4 => table.octets(),
        5..=9 => damaged_table(random, table),
        10 => flipped(random, table.octets()),
        _ => {
            let count = random.below(60);
            random.octets(count)
        }
    };
    Input::Table { table: octets }
}

/// Octets with one bit flipped.
fn flipped(random: &mut Random, mut octets: Vec<u8>) -> Vec<u8> {
    let place = random.below(octets.len());
    if let Some(octet) = octets.get_mut(place) {
        *octet ^= 1 << random.below(8);
    }
    octets
}

/// A table, a template ID and a record that mostly go together.
fn table_and_record(random: &mut Random) -> (Vec<u8>, u16, Vec<u8>) {
    let table = sound_table(random);
    let template = random.pick(&table.templates).clone();
    let wanted = wanted_octets(random);
    let record = record_of(random, table.order, &template, wanted);
    let id = if random.once_in(12) { template.id ^ (1 << random.below(16)) } else { template.id };
    let octets = if random.once_in(12) { damaged_table(random, table) } else { table.octets() };
    (octets, id, record)
}

/// About how many octets a record shall have: mostly few.
fn wanted_octets(random: &mut Random) -> usize {
    if random.once_in(30) {
        random.below(3_000)
    } else {
        random.below(80)
    }
}

/// A record under the template: valid, with some numbers at their limits, or flipped in a bit, in the wrong order, or
/// damaged.
fn record_of(random: &mut Random, order: Order, template: &Template, wanted: usize) -> Vec<u8> {
    match random.below(6) {
        0 | 1 => {
            let mut fields = records::fields(random, template, wanted);
            records::set_to_limits(random, &mut fields);
            records::join(order, &fields)
        }
        2 => {
            let valid = records::valid(random, order, template, wanted);
            flipped(random, valid)
        }
        3 => {
            let fields = records::fields(random, template, wanted);
            records::wrong_order(random, order, &fields)
        }
        _ => records::damaged(random, order, template, wanted),
    }
}

pub fn find(random: &mut Random) -> Input {
    let (table, id, _) = table_and_record(random);
    Input::Find { table, id }
}

pub fn record(random: &mut Random) -> Input {
    let (table, id, record) = table_and_record(random);
    Input::Record { table, id, record }
}

pub fn open(random: &mut Random) -> Input {
    let (table, id, record) = table_and_record(random);
    Input::Open { table, id, record }
}

/// A message that reading accepts.
fn sound_message(random: &mut Random) -> MessageParts {
    let session = random.octet();
    let flags = if random.once_in(2) { random.octet() } else { 0 };
    let number = *random.pick(&messages::KNOWN);
    let body = match number {
        messages::START_ACK | messages::FINAL_TMPL_DATA_ACK => random.octets(4),
        messages::DATA_ACK => random.octets(8),
        messages::DATA => {
            let record = match random.below(8) {
                0 => *random.pick(&[1_023, 1_024, 1_025, 1_026, 2_000]),
                _ => random.below(40),
            };
            random.octets(8 + record)
        }
        messages::TMPL_DATA => sound_table(random).octets(),
        _ => Vec::new(),
    };
    MessageParts { flags, ..MessageParts::new(number, session, body) }
}

pub fn message(random: &mut Random) -> Input {
    let message = message_octets(random);
    let out = output_near(random, message.len());
    Input::Message { message, out }
}

/// A CRANE message, sound or damaged.
fn message_octets(random: &mut Random) -> Vec<u8> {
    let mut parts = sound_message(random);
    let length = parts.octets().len() as u32;
    let mut cut = usize::MAX;
    match random.below(14) {
        0 => parts.version = random.octet(),
        1 => parts.length = Some(*random.pick(&[length + 1, length - 1, 0, length << 8, length | 1 << 31, u32::MAX])),
        2 => parts.number = random.octet(),
        3 => parts.number = *random.pick(&messages::KNOWN),
        4 => cut = random.below(9),
        5 => parts.body.push(random.octet()),
        6 => drop(parts.body.pop()),
        7 => parts.body = flipped_if_any(random, parts.body),
        8 if parts.number == messages::TMPL_DATA => {
            let table = sound_table(random);
            parts.body = damaged_table(random, table);
        }
        _ => {}
    }
    let mut message = parts.octets();
    message.truncate(cut);
    if random.once_in(40) {
        let count = random.below(40);
        message = random.octets(count);
    }
    message
}

fn flipped_if_any(random: &mut Random, octets: Vec<u8>) -> Vec<u8> {
    if octets.is_empty() {
        octets
    } else {
        flipped(random, octets)
    }
}

/// An output with octets in it, longer than needed, exactly so long, or too short.
fn output_near(random: &mut Random, needed: usize) -> Vec<u8> {
    let length = match random.below(8) {
        0 => needed,
        1 => needed.saturating_sub(1),
        2 => random.below(needed + 1),
        3 => 0,
        _ => needed + random.below(20),
    };
    random.octets(length)
}

pub fn step(random: &mut Random) -> Input {
    let (table, id, record) = table_and_record(random);
    let mut walked = vec![Cursor { index: 0, at: 0 }];
    while let Step::Next(_, after) = walk::step(&table, id, &record, walked[walked.len() - 1]) {
        walked.push(after);
    }
    // The last cursor of a walk stands at the end or before a field that is refused; the others before a field.
    let fields = walked.len() - 1;
    let mut cursor = if random.once_in(4) { walked[fields] } else { walked[random.below(fields)] };
    match random.below(8) {
        0 => cursor.at = random.below(record.len() + 3),
        1 => cursor.at = *random.pick(&[usize::MAX, usize::MAX - 3, usize::MAX / 2 + 1, record.len(), 1 << 32]),
        2 => cursor.index = *random.pick(&[0, 1, 2, 3, 7, 31, 32, 33, 1 << 32, usize::MAX]),
        _ => {}
    }
    Input::Step { table, id, record, cursor }
}

pub fn append(random: &mut Random) -> Input {
    let kind =
        if random.once_in(16) { *random.pick(&tables::UNLISTED_TYPES) } else { random.pick(&FIELD_TYPES).number };
    let below_0 = if is_signed(kind) { NEGATIVE } else { NUMBER };
    let natural = if takes_octets(kind) { OCTETS } else { *random.pick(&[NUMBER, below_0]) };
    let sort = if random.once_in(10) { *random.pick(&[OCTETS, NUMBER, NEGATIVE, 3, 255]) } else { natural };
    let number = number_near(random, kind);
    let octets = octets_near(random, kind);
    let needed =
        field_type(kind).and_then(|kind| kind.width).unwrap_or(octets.len() + if kind == ZERO_STRING { 1 } else { 4 });
    let before = if random.once_in(3) { 0 } else { random.below(20) };
    let out = output_near(random, before + needed);
    let at = match random.below(12) {
        0 => *random.pick(&[usize::MAX, usize::MAX - 3, out.len(), out.len() + 1, 1 << 32]),
        1 => random.below(out.len() + 3),
        _ => before,
    };
    let flags = *random.pick(&[0, 0, 0, 0, 0, 0, 1, 1, 1, 1, 1, 1, 2, 3, 128, 255]);
    Input::Append { flags, kind, sort, number, octets, out, at }
}

/// Values of the type are octets: addresses, strings and blobs; also types that are not listed.
fn takes_octets(kind: u16) -> bool {
    matches!(kind, IPV4 | IPV6) || field_type(kind).is_none_or(|kind| kind.width.is_none())
}

/// The type is a signed integer.
fn is_signed(kind: u16) -> bool {
    (0x0003..=0x0009).contains(&kind) && kind % 2 == 1
}

/// Numbers around the limits of a type's width, unsigned and signed.
fn number_near(random: &mut Random, kind: u16) -> u64 {
    let width = field_type(kind).and_then(|kind| kind.width).unwrap_or(8).min(8);
    let last = u64::MAX >> (64 - 8 * width as u32);
    let half = last / 2;
    let any = random.number();
    if kind == BOOLEAN {
        return *random.pick(&[0, 1, 0, 1, 2, 255, 256, any]);
    }
    *random.pick(&[
        0,
        1,
        half - 1,
        half,
        half + 1,
        half + 2,
        last - 1,
        last,
        last.wrapping_add(1),
        any & last,
        any & half,
        any,
        u64::MAX,
    ])
}

/// Octets for an address, a string or a blob: mostly such as the type takes.
fn octets_near(random: &mut Random, kind: u16) -> Vec<u8> {
    let count = match kind {
        IPV4 => *random.pick(&[4, 4, 4, 4, 3, 5, 0, 16]),
        IPV6 => *random.pick(&[16, 16, 16, 16, 15, 17, 4, 0]),
        _ if random.once_in(30) => random.below(2_000),
        _ => random.below(24),
    };
    let mut octets = records::content(random, kind, count);
    if count > 0 && random.once_in(4) {
        let place = random.below(count);
        octets[place] = if kind == STRING { 128 | random.octet() } else { 0 };
    }
    octets
}

/// A whole record: mostly one that is taken; else the output ends one octet too early, or one value is not of its type.
pub fn whole(random: &mut Random) -> Input {
    let table = sound_table(random);
    let template = random.pick(&table.templates).clone();
    let mut pieces = pieces(random, table.order, &template);
    let needed: usize = pieces.iter().map(|piece| piece.field.len()).sum();
    let at = if random.once_in(3) { 0 } else { random.below(20) };
    let mut length = at + needed + random.below(20);
    let mut refused = None;
    match random.below(6) {
        0 if !pieces.is_empty() => {
            length = at + needed - 1;
            refused = Some((pieces.len() - 1, OUTPUT_TOO_SHORT));
        }
        1 if !pieces.is_empty() => {
            let place = random.below(pieces.len());
            spoil(random, &mut pieces[place]);
            refused = Some((place, RECORD_INVALID));
        }
        2 => length = at + needed,
        _ => {}
    }
    let out = random.octets(length);
    Input::Whole(Whole { table: table.octets(), id: template.id, pieces, out, at, refused })
}

/// A value for each enabled key of a template. What append must not look at has any value.
fn pieces(random: &mut Random, order: Order, template: &Template) -> Vec<Piece> {
    let wanted = wanted_octets(random);
    let mut fields = records::fields(random, template, wanted);
    records::set_to_limits(random, &mut fields);
    let enabled = template.keys.iter().enumerate().filter(|(_, key)| !key.disabled).map(|(place, _)| place);
    let mut pieces = Vec::new();
    for ((kind, field), key) in fields.into_iter().zip(enabled) {
        let (mut sort, mut number, mut octets) = (OCTETS, random.number(), random.octets(3));
        if takes_octets(kind) {
            octets = content_of(kind, &field).to_vec();
        } else {
            (sort, number) = number_of(kind, &field);
        }
        let field = records::in_order(order, kind, &field);
        pieces.push(Piece { kind, sort, number, octets, key, field });
    }
    pieces
}

/// The octets of a field without its length or its zero.
fn content_of(kind: u16, field: &[u8]) -> &[u8] {
    match kind {
        STRING | BLOB => &field[4..],
        ZERO_STRING => &field[..field.len() - 1],
        _ => field,
    }
}

/// The number that a field holds, most significant octet first, in the form that append takes.
fn number_of(kind: u16, field: &[u8]) -> (u8, u64) {
    let (sort, filling) = if is_signed(kind) && field[0] >= 128 { (NEGATIVE, 255) } else { (NUMBER, 0) };
    let mut whole = [filling; 8];
    whole[8 - field.len()..].copy_from_slice(field);
    let number = u64::from_be_bytes(whole);
    (sort, if sort == NEGATIVE { number.wrapping_neg() } else { number })
}

/// Makes a value one that is not of its type: of the other sort, with an octet that the type does not take, or past a
/// limit.
fn spoil(random: &mut Random, piece: &mut Piece) {
    let place = random.below(piece.octets.len() + 1);
    match piece.kind {
        _ if !takes_octets(piece.kind) && random.once_in(4) => piece.sort = OCTETS,
        _ if takes_octets(piece.kind) && random.once_in(4) => piece.sort = *random.pick(&[NUMBER, NEGATIVE]),
        BLOB => piece.sort = NUMBER,
        STRING => piece.octets.insert(place, 128 | random.octet()),
        ZERO_STRING => piece.octets.insert(place, 0),
        IPV4 | IPV6 if random.once_in(2) => drop(piece.octets.pop()),
        IPV4 | IPV6 => piece.octets.push(random.octet()),
        kind => (piece.sort, piece.number) = past_a_limit(random, kind),
    }
}

/// The first number above those of a type, or the first below them.
fn past_a_limit(random: &mut Random, kind: u16) -> (u8, u64) {
    let bits = field_type(kind).and_then(|kind| kind.width).map_or(0, |width| 8 * width as u32);
    let above = random.once_in(2);
    match kind {
        BOOLEAN if above => (NUMBER, 2),
        _ if is_signed(kind) && above => (NUMBER, 1 << (bits - 1)),
        _ if is_signed(kind) => (NEGATIVE, (1 << (bits - 1)) + 1),
        _ if above && bits < 64 => (NUMBER, 1 << bits),
        _ => (NEGATIVE, 1),
    }
}

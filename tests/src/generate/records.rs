//! Seeded records: valid ones under a template, in the order of its table, and ones with a single damage.

use crate::random::Random;
use crate::tables::{field_type, Order, Template, BLOB, BOOLEAN, STRING, ZERO_STRING};

/// The fields of a record one after the other, with their types, their numbers most significant octet first.
pub type Fields = Vec<(u16, Vec<u8>)>;

/// A valid record under the template, of about `wanted` octets if the template lets its length vary.
pub fn valid(random: &mut Random, order: Order, template: &Template, wanted: usize) -> Vec<u8> {
    join(order, &fields(random, template, wanted))
}

/// A record under the template with one thing wrong. By chance it may be valid all the same.
pub fn damaged(random: &mut Random, order: Order, template: &Template, wanted: usize) -> Vec<u8> {
    let mut fields = fields(random, template, wanted);
    if fields.is_empty() || random.once_in(3) {
        return damaged_whole(random, join(order, &fields));
    }
    let place = random.below(fields.len());
    let (kind, octets) = &mut fields[place];
    damage_field(random, *kind, octets);
    join(order, &fields)
}

/// A record with fields in the other order: one of them, or all. Where these are numbers or empty strings it is valid
/// all the same.
pub fn wrong_order(random: &mut Random, order: Order, fields: &Fields) -> Vec<u8> {
    if fields.is_empty() || random.once_in(2) {
        return join(order.other(), fields);
    }
    let turned = random.below(fields.len());
    let order_at = |place: usize| if place == turned { order.other() } else { order };
    let octets = |(place, (kind, octets)): (usize, &(u16, Vec<u8>))| in_order(order_at(place), *kind, octets);
    fields.iter().enumerate().flat_map(octets).collect()
}

/// The record of some fields in that order.
pub fn join(order: Order, fields: &Fields) -> Vec<u8> {
    fields.iter().flat_map(|(kind, octets)| in_order(order, *kind, octets)).collect()
}

/// A field whose numbers are most significant octet first, put into that order. Turning it again brings it back.
pub fn in_order(order: Order, kind: u16, octets: &[u8]) -> Vec<u8> {
    let mut octets = octets.to_vec();
    if order == Order::Little {
        let turned = turned_octets(kind, octets.len());
        octets[..turned].reverse();
    }
    octets
}

/// How many octets at the start of a field of `length` octets are turned in a little-endian record: of an integer or a
/// float all, of a string or a blob its own length. Booleans, addresses, times and 400d are the same in both orders.
pub fn turned_octets(kind: u16, length: usize) -> usize {
    match kind {
        0x0002..=0x000b => length,
        STRING | BLOB => length.min(4),
        _ => 0,
    }
}

/// One field for each enabled key; the room that fixed widths leave is shared by the fields of varying length.
pub fn fields(random: &mut Random, template: &Template, wanted: usize) -> Fields {
    let kinds: Vec<u16> = template.keys.iter().filter(|key| !key.disabled).map(|key| key.kind).collect();
    let least: usize = kinds.iter().map(|kind| least_octets(*kind)).sum();
    let mut varying = kinds.iter().filter(|kind| is_varying(**kind)).count();
    let mut room = wanted.saturating_sub(least);
    let mut fields = Vec::new();
    for kind in kinds {
        let mut share = 0;
        if is_varying(kind) {
            share = if varying == 1 { room } else { random.below(room + 1) };
            room -= share;
            varying -= 1;
        }
        fields.push((kind, field(random, kind, share)));
    }
    fields
}

fn is_varying(kind: u16) -> bool {
    field_type(kind).is_some_and(|kind| kind.width.is_none())
}

/// The fewest octets that a field of a type has.
fn least_octets(kind: u16) -> usize {
    match field_type(kind).and_then(|kind| kind.width) {
        Some(width) => width,
        None if kind == ZERO_STRING => 1,
        None => 4,
    }
}

/// A sound field of a listed type; where the length varies, with `share` octets beside the length or the zero.
pub fn field(random: &mut Random, kind: u16, share: usize) -> Vec<u8> {
    match kind {
        BOOLEAN => vec![random.below(2) as u8],
        STRING | BLOB => [&(share as u32).to_be_bytes()[..], &content(random, kind, share)].concat(),
        ZERO_STRING => [content(random, kind, share), vec![0]].concat(),
        _ => number(random, least_octets(kind)),
    }
}

/// The octets that a string or blob may hold.
pub fn content(random: &mut Random, kind: u16, count: usize) -> Vec<u8> {
    let mut octets = random.octets(count);
    for octet in &mut octets {
        match kind {
            STRING => *octet &= 127,
            ZERO_STRING => *octet = (*octet).max(1),
            _ => {}
        }
    }
    octets
}

/// The octets of a number: often an extreme one, also as a signed number.
fn number(random: &mut Random, width: usize) -> Vec<u8> {
    let (first, rest) = *random.pick(&[(0, 0), (255, 255), (127, 255), (128, 0), (0, 1), (128, 1)]);
    if random.once_in(2) {
        return random.octets(width);
    }
    let mut octets = vec![rest; width];
    octets[0] = first;
    octets
}

/// Integers of a record set to their limits and beside 0, and floats to 1 and other plain numbers; about half of
/// them.
pub fn set_to_limits(random: &mut Random, fields: &mut Fields) {
    for (kind, octets) in fields {
        let width = octets.len();
        let half = 1u64 << (8 * width.clamp(1, 8) - 1);
        let choices = match *kind {
            0x0002..=0x0009 => [0, 1, 2, half - 1, half, half - 1 + half, half - 2 + half],
            0x000a => [0x3f80_0000, 0xbf80_0000, 0x4000_0000, 1, 0x7f80_0000, 0xff7f_ffff, 0],
            0x000b => [0x3ff0 << 48, 0xbff0 << 48, 0x4000 << 48, 1, 0x7ff0 << 48, 0xffef << 48, 0],
            _ => continue,
        };
        if random.once_in(2) {
            *octets = random.pick(&choices).to_be_bytes()[8 - width..].to_vec();
        }
    }
}

/// Octets lost or added at the end or the start, or other octets of the same length.
fn damaged_whole(random: &mut Random, mut record: Vec<u8>) -> Vec<u8> {
    let few = *random.pick(&[1, 1, 2, 4, 8]);
    match random.below(5) {
        0 => record.truncate(record.len().saturating_sub(few)),
        1 => record.extend(random.octets(few)),
        2 => record.insert(0, random.octet()),
        3 if !record.is_empty() => drop(record.remove(0)),
        _ => record = random.octets(record.len().max(1)),
    }
    record
}

/// One field made wrong in a way that its type can be.
fn damage_field(random: &mut Random, kind: u16, octets: &mut Vec<u8>) {
    match kind {
        BOOLEAN => octets[0] = *random.pick(&[2, 3, 128, 254, 255]),
        STRING if octets.len() > 4 && random.once_in(2) => {
            let place = *random.pick(&[4, octets.len() - 1, octets.len() / 2]);
            octets[place.max(4)] |= 128;
        }
        STRING | BLOB => damage_length(random, octets),
        ZERO_STRING if random.once_in(2) => drop(octets.pop()),
        ZERO_STRING => {
            let place = random.below(octets.len());
            octets.insert(place, 0);
        }
        _ if random.once_in(2) => drop(octets.pop()),
        _ => octets.push(random.octet()),
    }
}

/// A length of a string or blob that is not that of its octets.
fn damage_length(random: &mut Random, octets: &mut [u8]) {
    let length = (octets.len() - 4) as u32;
    let other = match random.below(6) {
        0 => length + 1,
        1 => length.wrapping_sub(1),
        2 => length + 256,
        3 => length | 1 << 31,
        4 => u32::MAX - random.below(8) as u32,
        _ => length.swap_bytes().max(1),
    };
    octets[..4].copy_from_slice(&other.to_be_bytes());
}

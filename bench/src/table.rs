//! Template tables and records.

use crate::answer::*;

pub const BOOLEAN: u16 = 0x01;
pub const STRING: u16 = 0x400c;
pub const TERMINATED: u16 = 0x400d;
pub const BLOB: u16 = 0x4015;

/// The widths of the types 0 to hex 16; 0 where the number is no type's.
const WIDTHS: [u8; 23] = [
    0, 1, 1, 1, 2, 2, 4, 4, 8, 8, 4, 8, 0, 0, 0, 0, 4, 16, 4, 8, 8, 4, 4,
];

pub fn width(kind: u16) -> usize {
    WIDTHS.get(kind as usize).map_or(0, |&w| w as usize)
}

fn is_type(kind: u16) -> bool {
    matches!(kind, 0x01..=0x0b | 0x10..=0x16 | STRING | TERMINATED | BLOB)
}

pub fn u16_at(s: &[u8], at: usize) -> u16 {
    u16::from_be_bytes([s[at], s[at + 1]])
}

pub fn u32_at(s: &[u8], at: usize) -> u32 {
    u32::from_be_bytes([s[at], s[at + 1], s[at + 2], s[at + 3]])
}

/// The order of the numbers in a table's records.
#[derive(Clone, Copy, PartialEq, Eq)]
pub enum Order {
    Big,
    Little,
}

/// The order that a sound table states.
pub fn order(t: &[u8]) -> Order {
    if t[1] == 1 {
        Order::Big
    } else {
        Order::Little
    }
}

/// A key's field stands in the record.
pub fn is_enabled(key: &[u8]) -> bool {
    u32_at(key, 8) == 0
}

fn key_sound(key: &[u8]) -> bool {
    is_type(u16_at(key, 4)) & (u16_at(key, 6) == 0) & (u32_at(key, 8) <= 1)
}

/// Whether no two keys have one ID: at once where the IDs rise, else by pairs.
fn keys_differ(keys: &[u8]) -> bool {
    let mut ids = [0u32; 32];
    let mut n = 0;
    for key in keys.chunks_exact(12) {
        ids[n] = u32_at(key, 0);
        n += 1;
    }
    let ids = &ids[..n];
    if ids.windows(2).all(|pair| pair[0] < pair[1]) {
        return true;
    }
    (1..n).all(|k| !ids[..k].contains(&ids[k]))
}

/// A sound template block at the start of the octets: its ID and its length.
fn block(s: &[u8]) -> Option<(u16, usize)> {
    let head: &[u8; 12] = s.first_chunk()?;
    let count = u16_at(head, 2) as usize;
    let description = u16_at(head, 6) as usize;
    let padded = description.next_multiple_of(4);
    let len = 12 + padded + 12 * count;
    if !(1..=32).contains(&count)
        || u16_at(head, 4) != 0
        || u32_at(head, 8) as usize != len
        || s.len() < len
    {
        return None;
    }
    if s[12 + description..12 + padded].iter().any(|&b| b != 0) {
        return None;
    }
    let keys = &s[12 + padded..len];
    if !keys.chunks_exact(12).all(key_sound) || !keys_differ(keys) {
        return None;
    }
    Some((u16_at(head, 0), len))
}

pub fn is_sound(t: &[u8]) -> bool {
    if !(4..=16384).contains(&t.len()) || t[1] > 1 {
        return false;
    }
    let count = u16_at(t, 2) as usize;
    if !(1..=8).contains(&count) {
        return false;
    }
    let mut ids = [0u16; 8];
    let mut rest = &t[4..];
    for i in 0..count {
        let Some((id, len)) = block(rest) else {
            return false;
        };
        if ids[..i].contains(&id) {
            return false;
        }
        ids[i] = id;
        rest = &rest[len..];
    }
    rest.is_empty()
}

/// The key blocks of the template with an ID, in a sound table.
pub fn find(t: &[u8], id: u16) -> Option<&[u8]> {
    let mut rest = &t[4..];
    while !rest.is_empty() {
        let count = u16_at(rest, 2) as usize;
        let padded = (u16_at(rest, 6) as usize).next_multiple_of(4);
        let len = 12 + padded + 12 * count;
        if u16_at(rest, 0) == id {
            return Some(&rest[12 + padded..len]);
        }
        rest = &rest[len..];
    }
    None
}

/// The length of the field of a type at the start of the octets, if there is a valid one. Its two callers are faster with it in line.
#[inline(always)]
pub fn field_length(order: Order, kind: u16, s: &[u8]) -> Option<usize> {
    let w = width(kind);
    if w > 0 {
        if s.len() < w || (kind == BOOLEAN && s[0] > 1) {
            return None;
        }
        return Some(w);
    }
    match kind {
        STRING | BLOB => {
            let head: &[u8; 4] = s.first_chunk()?;
            let n = match order {
                Order::Big => u32::from_be_bytes(*head),
                Order::Little => u32::from_le_bytes(*head),
            } as usize;
            let text = s[4..].get(..n)?;
            if kind == STRING && !text.is_ascii() {
                return None;
            }
            Some(4 + n)
        }
        TERMINATED => s.iter().position(|&b| b == 0).map(|i| i + 1),
        _ => None,
    }
}

/// Whether the fields of the enabled keys use up exactly the record's octets.
pub fn fields_valid(order: Order, keys: &[u8], record: &[u8]) -> bool {
    let mut rest = record;
    for key in keys.chunks_exact(12) {
        if is_enabled(key) {
            let Some(n) = field_length(order, u16_at(key, 4), rest) else {
                return false;
            };
            rest = &rest[n..];
        }
    }
    rest.is_empty()
}

pub fn table_answer(t: &[u8]) -> u8 {
    if is_sound(t) {
        DONE
    } else {
        UNSOUND_TABLE
    }
}

pub fn record_answer(t: &[u8], id: u16, record: &[u8]) -> u8 {
    if !is_sound(t) {
        return UNSOUND_TABLE;
    }
    let Some(keys) = find(t, id) else {
        return TEMPLATE_NOT_FOUND;
    };
    if fields_valid(order(t), keys, record) {
        DONE
    } else {
        RECORD_INVALID
    }
}

//! The field walk over a record.

use crate::answer::*;
use crate::table::{self, u16_at, Order};

/// What is added to a number that an accepted answer carries.
const ACCEPTED: u64 = 256;

/// The answer of a step at the end of a record.
const END: u64 = 255;

/// The sorts of a value.
const OCTETS: u64 = 0;
const NUMBER: u64 = 1;
const NEGATIVE: u64 = 2;

/// The part of a step that is the size of the field's value.
pub const SIZE: u8 = 5;

/// The next key among all of the template, and the place in the record.
#[derive(Clone, Copy, Debug)]
pub struct Cursor {
    pub index: usize,
    pub at: usize,
}

impl Cursor {
    /// The cursor after a step of these parts.
    fn after(parts: &[u64; 8]) -> Cursor {
        Cursor {
            index: parts[6] as usize,
            at: parts[7] as usize,
        }
    }
}

/// The order of a sound table, and the key blocks of its template.
fn found(t: &[u8], id: u16) -> Result<(Order, &[u8]), u8> {
    if !table::is_sound(t) {
        return Err(UNSOUND_TABLE);
    }
    let keys = table::find(t, id).ok_or(TEMPLATE_NOT_FOUND)?;
    Ok((table::order(t), keys))
}

/// How many fields a record has plus 256, or the refusal: the record is judged, then stepped to its end, each step judged by itself as the
/// other side's are.
pub fn count_fields(t: &[u8], id: u16, record: &[u8]) -> u64 {
    let answer = table::record_answer(t, id, record);
    if answer != DONE {
        return answer as u64;
    }
    let mut c = Cursor { index: 0, at: 0 };
    let mut n = 0;
    while let Ok(parts) = step(t, id, record, c) {
        c = Cursor::after(&parts);
        n += 1;
    }
    n + ACCEPTED
}

/// Sort and size of the value of a field's octets.
fn value(order: Order, kind: u16, octets: &[u8]) -> (u64, u64) {
    let order = match kind {
        0x02..=0x0b => order,
        0x01 | 0x12..=0x16 => Order::Big,
        _ => return (OCTETS, 0),
    };
    let shift = 64 - 8 * octets.len();
    let mut whole = [0; 8];
    let bits = match order {
        Order::Big => {
            whole[8 - octets.len()..].copy_from_slice(octets);
            u64::from_be_bytes(whole)
        }
        Order::Little => {
            whole[..octets.len()].copy_from_slice(octets);
            u64::from_le_bytes(whole)
        }
    };
    let signed = ((bits << shift) as i64) >> shift;
    if matches!(kind, 3 | 5 | 7 | 9) && signed < 0 {
        (NEGATIVE, signed.unsigned_abs())
    } else {
        (NUMBER, bits)
    }
}

/// The parts of a step, or the sole one of a refusal or the end.
fn step(t: &[u8], id: u16, record: &[u8], c: Cursor) -> Result<[u64; 8], u64> {
    let (order, keys) = found(t, id).map_err(u64::from)?;
    let mut rest = keys.chunks_exact(12).enumerate().skip(c.index);
    let Some((index, key)) = rest.find(|(_, key)| table::is_enabled(key)) else {
        return Err(END);
    };
    let kind = u16_at(key, 4);
    let field = record.get(c.at..).and_then(|rest| {
        let len = table::field_length(order, kind, rest)?;
        Some(&rest[..len])
    });
    let Some(field) = field else {
        return Err(RECORD_INVALID as u64);
    };
    let (sort, size) = value(order, kind, field);
    let len = field.len();
    let after = (index + 1) as u64;
    Ok([
        DONE as u64,
        kind as u64,
        c.at as u64,
        len as u64,
        sort,
        size,
        after,
        (c.at + len) as u64,
    ])
}

/// A part of what a step answers.
pub fn step_part(t: &[u8], id: u16, record: &[u8], c: Cursor, part: u8) -> u64 {
    match step(t, id, record, c) {
        Ok(parts) => parts.get(part as usize).copied().unwrap_or(0),
        Err(answer) if part == 0 => answer,
        Err(_) => 0,
    }
}

/// The cursors before each field of a walk, and the last one, at the end or a refusal.
pub fn cursors(t: &[u8], id: u16, record: &[u8]) -> Vec<Cursor> {
    let mut all = vec![Cursor { index: 0, at: 0 }];
    while let Ok(parts) = step(t, id, record, all[all.len() - 1]) {
        all.push(Cursor::after(&parts));
    }
    all
}

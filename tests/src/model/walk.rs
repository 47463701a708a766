//! The field walk over a borrowed record.

use super::answer;
use super::octets::{number, number_in, Order};
use super::record::{field_length, field_type, find_template, judge, FieldType};

/// A field's exact value where it is a number; `Negative(m)` is minus `m`. Addresses, strings and
/// blobs are octets; a float's number is its bits.
#[derive(Clone, Copy, Debug, PartialEq, Eq, PartialOrd, Ord)]
pub enum Value {
    Octets,
    Number(u64),
    Negative(u64),
}

/// One field: its type, its place in the record, its length (prefix or zero included), its value.
#[derive(Clone, Copy, Debug, PartialEq, Eq)]
pub struct Field {
    pub kind: u16,
    pub at: usize,
    pub len: usize,
    pub value: Value,
}

/// Where a walk stands: the next key among all keys of the template, and the place in the record.
#[derive(Clone, Copy, Debug, Default, PartialEq, Eq)]
pub struct Cursor {
    pub index: usize,
    pub at: usize,
}

/// What a step answers: the next field and the cursor after it, the end, or a refusal.
#[derive(Clone, Copy, Debug, PartialEq, Eq)]
pub enum Step {
    Next(Field, Cursor),
    End,
    Refused(u8),
}

/// Opening a walk judges the whole record: 21, 15, 16.
pub fn open(t: &[u8], id: u16, r: &[u8]) -> u8 {
    judge(t, id, r)
}

/// How many fields a record has, one for each enabled key; judged like opening.
pub fn count_fields(t: &[u8], id: u16, r: &[u8]) -> Result<usize, u8> {
    match open(t, id, r) {
        answer::DONE => Ok(find_template(t, id)?.1.keys.iter().filter(|key| !key.disabled).count()),
        refusal => Err(refusal),
    }
}

/// One step, judged 21 and 15, then 16 for the field of the next enabled key; the end where there
/// is none.
pub fn step(t: &[u8], id: u16, r: &[u8], c: Cursor) -> Step {
    let (order, template) = match find_template(t, id) {
        Ok(found) => found,
        Err(refusal) => return Step::Refused(refusal),
    };
    let mut remaining = template.keys.iter().enumerate().skip(c.index);
    let Some((index, key)) = remaining.find(|(_, key)| !key.disabled) else {
        return Step::End;
    };
    let Some(field) = field_at(order, key.kind, r, c.at) else {
        return Step::Refused(answer::RECORD_INVALID);
    };
    Step::Next(field, Cursor { index: index + 1, at: field.at + field.len })
}

/// The field of that type at that place of the record; `None` where no such field stands there.
fn field_at(order: Order, kind: u16, r: &[u8], at: usize) -> Option<Field> {
    let rest = r.get(at..)?;
    let len = field_length(order, kind, rest)?;
    let value = value_of(order, field_type(kind)?, rest.get(..len)?);
    Some(Field { kind, at, len, value })
}

/// The exact value of a field's octets under its type: Boolean, integers, times and float bits are
/// numbers, all else is octets. Integers and floats stand in the table's order.
fn value_of(order: Order, layout: FieldType, octets: &[u8]) -> Value {
    match layout {
        FieldType::Boolean | FieldType::Time(_) => Value::Number(number(octets)),
        FieldType::Unsigned(_) => Value::Number(number_in(order, octets)),
        FieldType::Signed(width) => signed_value(width, number_in(order, octets)),
        _ => Value::Octets,
    }
}

/// Two's complement: with the sign bit set, the value is the bits less 2 to the number of bits.
fn signed_value(width: usize, bits: u64) -> Value {
    let modulus = 1u128 << (8 * width);
    if u128::from(bits) < modulus / 2 {
        Value::Number(bits)
    } else {
        Value::Negative((modulus - u128::from(bits)) as u64)
    }
}

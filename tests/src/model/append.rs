//! Writing one field of a named type.

use super::answer;
use super::octets::Order;
use super::record::{field_type, FieldType};
use super::walk::Value;

/// Appends one field under a table of these flags: 21 for flags that no table has, then as `append`.
pub fn append_under(flags: u8, kind: u16, value: Value, octets: &[u8], out: &mut [u8], at: usize) -> Result<usize, u8> {
    let order = Order::of_flags(flags).ok_or(answer::UNSOUND_TABLE)?;
    append(order, kind, value, octets, out, at)
}

/// Appends one field of type `kind` in that order to the output at place `at` and answers the place
/// after it. Judged 16, 12; no octet outside the field changes, and a refusal changes none. The
/// octets are looked at for `Value::Octets` only.
pub fn append(order: Order, kind: u16, value: Value, octets: &[u8], out: &mut [u8], at: usize) -> Result<usize, u8> {
    let field = field_octets(order, kind, value, octets).ok_or(answer::RECORD_INVALID)?;
    let end = at.checked_add(field.len()).ok_or(answer::OUTPUT_TOO_SHORT)?;
    let room = out.get_mut(at..end).ok_or(answer::OUTPUT_TOO_SHORT)?;
    room.copy_from_slice(&field);
    Ok(end)
}

/// The field's octets, or None where the value cannot be one of that type.
fn field_octets(order: Order, kind: u16, value: Value, octets: &[u8]) -> Option<Vec<u8>> {
    let layout = field_type(kind)?;
    match value {
        Value::Octets => octets_field(order, layout, octets),
        Value::Number(size) => number_field(order, layout, i128::from(size)),
        // the library's form of a number below 0 has a size of 1 or more
        Value::Negative(0) => None,
        Value::Negative(size) => number_field(order, layout, -i128::from(size)),
    }
}

/// A number is of a type when it lies in the type's range; it is written in the type's width. Times
/// are most significant octet first, whatever the order.
fn number_field(order: Order, layout: FieldType, value: i128) -> Option<Vec<u8>> {
    let (width, least, beyond) = match layout {
        FieldType::Boolean => (1, 0, 2),
        FieldType::Unsigned(width) | FieldType::Time(width) => (width, 0, 1i128 << (8 * width)),
        FieldType::Signed(width) => (width, -(1i128 << (8 * width - 1)), 1i128 << (8 * width - 1)),
        _ => return None,
    };
    if value < least || value >= beyond {
        return None;
    }
    let whole = value.to_le_bytes();
    let mut octets = whole.get(..width)?.to_vec();
    if order == Order::Big || matches!(layout, FieldType::Time(_)) {
        octets.reverse();
    }
    Some(octets)
}

/// Octets are of a type when it is an address of that length, a string or a blob. A 400c value has
/// octets below 128; a 400d value comes without its zero and has none.
fn octets_field(order: Order, layout: FieldType, octets: &[u8]) -> Option<Vec<u8>> {
    match layout {
        FieldType::Address(width) => (octets.len() == width).then(|| octets.to_vec()),
        FieldType::CountedString if octets.is_ascii() => counted_field(order, octets),
        FieldType::ZeroEndedString if !octets.contains(&0) => Some([octets, &[0]].concat()),
        FieldType::Blob => counted_field(order, octets),
        _ => None,
    }
}

/// The 32-bit length in that order, then the octets.
fn counted_field(order: Order, octets: &[u8]) -> Option<Vec<u8>> {
    let length = u32::try_from(octets.len()).ok()?;
    let prefix = match order {
        Order::Big => length.to_be_bytes(),
        Order::Little => length.to_le_bytes(),
    };
    Some([&prefix, octets].concat())
}

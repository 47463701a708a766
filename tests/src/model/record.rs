//! The field types and the validity of a record under its template.

use super::answer;
use super::octets::{number_in, Order, Reader};
use super::table::{parse, Key, Template};

/// How a field of one type is laid out.
#[derive(Clone, Copy, Debug, PartialEq, Eq)]
pub enum FieldType {
    /// One octet, 0 or 1.
    Boolean,
    /// An unsigned number of that many octets, in the table's order; floats are carried as their bits.
    Unsigned(usize),
    /// A time: an unsigned number of that many octets, most significant first under every table.
    Time(usize),
    /// A signed number of that many octets, in two's complement and in the table's order.
    Signed(usize),
    /// An address of that many octets, which keep their order under every table.
    Address(usize),
    /// A 32-bit length in the table's order, then octets below 128.
    CountedString,
    /// Octets to the first zero, zero included.
    ZeroEndedString,
    /// A 32-bit length in the table's order, then octets.
    Blob,
}

/// The listed field types: one row each, type number and layout. No other types.
pub fn field_type(kind: u16) -> Option<FieldType> {
    match kind {
        0x0001 => Some(FieldType::Boolean),
        0x0002 => Some(FieldType::Unsigned(1)),
        0x0003 => Some(FieldType::Signed(1)),
        0x0004 => Some(FieldType::Unsigned(2)),
        0x0005 => Some(FieldType::Signed(2)),
        0x0006 => Some(FieldType::Unsigned(4)),
        0x0007 => Some(FieldType::Signed(4)),
        0x0008 => Some(FieldType::Unsigned(8)),
        0x0009 => Some(FieldType::Signed(8)),
        0x000a => Some(FieldType::Unsigned(4)),
        0x000b => Some(FieldType::Unsigned(8)),
        0x0010 => Some(FieldType::Address(4)),
        0x0011 => Some(FieldType::Address(16)),
        0x0012 => Some(FieldType::Time(4)),
        0x0013 | 0x0014 => Some(FieldType::Time(8)),
        0x0015 | 0x0016 => Some(FieldType::Time(4)),
        0x400c => Some(FieldType::CountedString),
        0x400d => Some(FieldType::ZeroEndedString),
        0x4015 => Some(FieldType::Blob),
        _ => None,
    }
}

/// Answers 21 for an unsound table, 15 for a template not in it, 16 for an invalid record.
pub fn judge(t: &[u8], id: u16, r: &[u8]) -> u8 {
    match find_template(t, id) {
        Err(refusal) => refusal,
        Ok((order, template)) if is_valid(order, &template, r) => answer::DONE,
        Ok(_) => answer::RECORD_INVALID,
    }
}

/// The order of the table's records and its template of that ID, or 21, or 15.
pub fn find_template(t: &[u8], id: u16) -> Result<(Order, Template), u8> {
    let table = parse(t).ok_or(answer::UNSOUND_TABLE)?;
    let template = table.template(id).cloned().ok_or(answer::TEMPLATE_NOT_FOUND)?;
    Ok((table.order, template))
}

/// Whether the enabled keys' fields follow each other through the record without rest; with none
/// enabled, only no octets do.
fn is_valid(order: Order, template: &Template, r: &[u8]) -> bool {
    let mut reader = Reader::new(r);
    let enabled = template.keys.iter().filter(|key: &&Key| !key.disabled);
    for key in enabled {
        let taken = field_length(order, key.kind, reader.rest).and_then(|length| reader.take(length));
        if taken.is_none() {
            return false;
        }
    }
    reader.rest.is_empty()
}

/// The whole length (prefix or zero included) of the field of that type at the start of `rest`;
/// `None` where no such field stands there.
pub fn field_length(order: Order, kind: u16, rest: &[u8]) -> Option<usize> {
    let mut reader = Reader::new(rest);
    match field_type(kind)? {
        FieldType::Boolean => (reader.u8()? <= 1).then_some(1),
        FieldType::Unsigned(width) | FieldType::Time(width) | FieldType::Signed(width) | FieldType::Address(width) => {
            Some(reader.take(width)?.len())
        }
        FieldType::CountedString => {
            let octets = counted_octets(order, &mut reader)?;
            octets.is_ascii().then_some(4 + octets.len())
        }
        FieldType::ZeroEndedString => Some(rest.iter().position(|octet| *octet == 0)? + 1),
        FieldType::Blob => Some(4 + counted_octets(order, &mut reader)?.len()),
    }
}

/// A 32-bit length in that order, then that many octets.
fn counted_octets<'a>(order: Order, reader: &mut Reader<'a>) -> Option<&'a [u8]> {
    let length = number_in(order, reader.take(4)?);
    reader.take(usize::try_from(length).ok()?)
}

//! The template table and its soundness.

use super::octets::{Order, Reader};
use super::record::field_type;

/// The most octets and templates of a table, and the most keys of a template.
pub const MAX_TABLE_OCTETS: usize = 16_384;
pub const MAX_TEMPLATES: usize = 8;
pub const MAX_KEYS: usize = 32;

/// One key of a template, as its key block states it.
#[derive(Clone, Debug, PartialEq, Eq)]
pub struct Key {
    pub id: u32,
    pub kind: u16,
    pub disabled: bool,
}

/// One template: its ID, the octet of the table where its key blocks begin, and all its keys in
/// order, disabled ones among them.
#[derive(Clone, Debug, PartialEq, Eq)]
pub struct Template {
    pub id: u16,
    pub keys_at: usize,
    pub keys: Vec<Key>,
}

/// What a sound table says.
#[derive(Clone, Debug, PartialEq, Eq)]
pub struct Table {
    pub configuration_id: u8,
    /// The order of the numbers in records; the table's own are always most significant octet first.
    pub order: Order,
    pub templates: Vec<Template>,
}

impl Table {
    /// The template of that ID; a sound table has at most one.
    pub fn template(&self, id: u16) -> Option<&Template> {
        self.templates.iter().find(|template| template.id == id)
    }
}

/// A table is sound exactly when it can be parsed by the rules of its layout.
pub fn is_sound(t: &[u8]) -> bool {
    parse(t).is_some()
}

/// The Configuration ID is the table's first octet; 0 for an empty list.
pub fn configuration_id(t: &[u8]) -> u8 {
    t.first().copied().unwrap_or(0)
}

/// At most 16,384 octets: Configuration ID, flags 0 or 1, a count of 1 to 8, that many blocks with
/// differing template IDs, and nothing after the last block.
pub fn parse(t: &[u8]) -> Option<Table> {
    if t.len() > MAX_TABLE_OCTETS {
        return None;
    }
    let mut reader = Reader::new(t);
    let configuration_id = reader.u8()?;
    let order = Order::of_flags(reader.u8()?)?;
    let count = usize::from(reader.u16()?);
    if !(1..=MAX_TEMPLATES).contains(&count) {
        return None;
    }
    let mut templates: Vec<Template> = Vec::new();
    for _ in 0..count {
        let template = parse_block(&mut reader, t.len())?;
        if templates.iter().any(|other| other.id == template.id) {
            return None;
        }
        templates.push(template);
    }
    if !reader.rest.is_empty() {
        return None;
    }
    Some(Table { configuration_id, order, templates })
}

/// Block: template ID, key count 1 to 32, flags 0, description length, block length, the
/// description zero-padded to a multiple of 4, then key blocks with differing key IDs. The block
/// length is 12, the padded description and 12 for each key. The table has `length` octets.
fn parse_block(reader: &mut Reader, length: usize) -> Option<Template> {
    let id = reader.u16()?;
    let key_count = usize::from(reader.u16()?);
    let flags = reader.u16()?;
    let description_length = usize::from(reader.u16()?);
    let block_length = u64::from(reader.u32()?);
    if !(1..=MAX_KEYS).contains(&key_count) || flags != 0 {
        return None;
    }
    let padded_length = description_length.div_ceil(4) * 4;
    if block_length != (12 + padded_length + 12 * key_count) as u64 {
        return None;
    }
    reader.take(description_length)?;
    let padding = reader.take(padded_length - description_length)?;
    if padding.iter().any(|octet| *octet != 0) {
        return None;
    }
    let keys_at = length - reader.rest.len();
    let mut keys: Vec<Key> = Vec::new();
    for _ in 0..key_count {
        let key = parse_key(reader)?;
        if keys.iter().any(|other| other.id == key.id) {
            return None;
        }
        keys.push(key);
    }
    Some(Template { id, keys_at, keys })
}

/// Key block, 12 octets: key ID, a listed type, reserved 0, attributes 0 or 1 (disabled).
fn parse_key(reader: &mut Reader) -> Option<Key> {
    let id = reader.u32()?;
    let kind = reader.u16()?;
    let reserved = reader.u16()?;
    let attributes = reader.u32()?;
    field_type(kind)?;
    if reserved != 0 || attributes > 1 {
        return None;
    }
    Some(Key { id, kind, disabled: attributes == 1 })
}

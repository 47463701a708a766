//! Template tables as structures: field types by name, a table's octets, and the structure of a table's octets.

/// One field type: its number, its name in the text form, and its width, or none where the length varies.
pub struct FieldType {
    pub number: u16,
    pub name: &'static str,
    pub width: Option<usize>,
}

const fn fixed(number: u16, name: &'static str, width: usize) -> FieldType {
    FieldType { number, name, width: Some(width) }
}

const fn varying(number: u16, name: &'static str) -> FieldType {
    FieldType { number, name, width: None }
}

pub const BOOLEAN: u16 = 0x0001;
/// Unsigned numbers of one octet and of two.
pub const UNSIGNED8: u16 = 0x0002;
pub const UNSIGNED16: u16 = 0x0004;
pub const IPV4: u16 = 0x0010;
pub const IPV6: u16 = 0x0011;
/// A 32-bit length, then octets below 128.
pub const STRING: u16 = 0x400c;
/// Octets to the first zero, zero included.
pub const ZERO_STRING: u16 = 0x400d;
/// A 32-bit length, then octets.
pub const BLOB: u16 = 0x4015;

pub const FIELD_TYPES: [FieldType; 21] = [
    fixed(BOOLEAN, "boolean", 1),
    fixed(UNSIGNED8, "unsigned8", 1),
    fixed(0x0003, "signed8", 1),
    fixed(UNSIGNED16, "unsigned16", 2),
    fixed(0x0005, "signed16", 2),
    fixed(0x0006, "unsigned32", 4),
    fixed(0x0007, "signed32", 4),
    fixed(0x0008, "unsigned64", 8),
    fixed(0x0009, "signed64", 8),
    fixed(0x000a, "float", 4),
    fixed(0x000b, "double", 8),
    fixed(IPV4, "ipv4", 4),
    fixed(IPV6, "ipv6", 16),
    fixed(0x0012, "seconds", 4),
    fixed(0x0013, "milliseconds64", 8),
    fixed(0x0014, "microseconds64", 8),
    fixed(0x0015, "milliseconds32", 4),
    fixed(0x0016, "microseconds32", 4),
    varying(STRING, "string"),
    varying(ZERO_STRING, "zero-string"),
    varying(BLOB, "blob"),
];

/// The field type of a number, if it is listed.
pub fn field_type(number: u16) -> Option<&'static FieldType> {
    FIELD_TYPES.iter().find(|kind| kind.number == number)
}

/// The order of a table's records and the limits of a sound table are the model's.
pub use crate::model::octets::Order;
pub use crate::model::table::{MAX_KEYS, MAX_TABLE_OCTETS, MAX_TEMPLATES};

/// Where things stand: octets before the first block, in a block before its description, and in a key block.
pub const TABLE_HEAD_OCTETS: usize = 4;
pub const BLOCK_HEAD_OCTETS: usize = 12;
pub const KEY_OCTETS: usize = 12;

#[derive(Clone, Debug, PartialEq, Eq)]
pub struct Key {
    pub id: u32,
    pub kind: u16,
    pub disabled: bool,
}

#[derive(Clone, Debug, PartialEq, Eq)]
pub struct Template {
    pub id: u16,
    pub description: Vec<u8>,
    pub keys: Vec<Key>,
}

#[derive(Clone, Debug, PartialEq, Eq)]
pub struct Table {
    pub configuration: u8,
    pub order: Order,
    pub templates: Vec<Template>,
}

/// The length of a description with its padding.
pub fn padded(length: usize) -> usize {
    length.div_ceil(4) * 4
}

impl Template {
    /// The length of this template's block.
    pub fn block_octets(&self) -> usize {
        BLOCK_HEAD_OCTETS + padded(self.description.len()) + KEY_OCTETS * self.keys.len()
    }

    fn write(&self, out: &mut Vec<u8>) {
        out.extend_from_slice(&self.id.to_be_bytes());
        out.extend_from_slice(&(self.keys.len() as u16).to_be_bytes());
        out.extend_from_slice(&[0, 0]);
        out.extend_from_slice(&(self.description.len() as u16).to_be_bytes());
        out.extend_from_slice(&(self.block_octets() as u32).to_be_bytes());
        out.extend_from_slice(&self.description);
        out.resize(out.len() + padded(self.description.len()) - self.description.len(), 0);
        for key in &self.keys {
            out.extend_from_slice(&key.id.to_be_bytes());
            out.extend_from_slice(&key.kind.to_be_bytes());
            out.extend_from_slice(&[0, 0]);
            out.extend_from_slice(&u32::from(key.disabled).to_be_bytes());
        }
    }
}

impl Table {
    pub fn octets(&self) -> Vec<u8> {
        let mut out = vec![self.configuration, self.order.flags()];
        out.extend_from_slice(&(self.templates.len() as u16).to_be_bytes());
        for template in &self.templates {
            template.write(&mut out);
        }
        out
    }

    /// Where each template's block begins in the table's octets.
    pub fn block_places(&self) -> Vec<usize> {
        let mut place = TABLE_HEAD_OCTETS;
        let mut places = Vec::new();
        for template in &self.templates {
            places.push(place);
            place += template.block_octets();
        }
        places
    }

    /// The structure whose octets are exactly these, if there is one.
    pub fn from_octets(octets: &[u8]) -> Option<Table> {
        let count = number16(octets, 2)?;
        let order = Order::of_flags(octets[1])?;
        let mut table = Table { configuration: octets[0], order, templates: Vec::new() };
        let mut at = TABLE_HEAD_OCTETS;
        for _ in 0..count {
            let template = template_at(octets, at)?;
            at += template.block_octets();
            table.templates.push(template);
        }
        (table.octets() == octets).then_some(table)
    }
}

/// The template whose block begins at a place, as far as the octets go.
fn template_at(octets: &[u8], at: usize) -> Option<Template> {
    let key_count = number16(octets, at + 2)?;
    let description_octets = usize::from(number16(octets, at + 6)?);
    let description = octets.get(at + BLOCK_HEAD_OCTETS..)?.get(..description_octets)?.to_vec();
    let mut place = at + BLOCK_HEAD_OCTETS + padded(description_octets);
    let mut keys = Vec::new();
    for _ in 0..key_count {
        let block = octets.get(place..)?.get(..KEY_OCTETS)?;
        let id = u32::from_be_bytes([block[0], block[1], block[2], block[3]]);
        keys.push(Key { id, kind: u16::from_be_bytes([block[4], block[5]]), disabled: block[11] == 1 });
        place += KEY_OCTETS;
    }
    Some(Template { id: number16(octets, at)?, description, keys })
}

fn number16(octets: &[u8], at: usize) -> Option<u16> {
    let pair = octets.get(at..)?.get(..2)?;
    Some(u16::from_be_bytes([pair[0], pair[1]]))
}

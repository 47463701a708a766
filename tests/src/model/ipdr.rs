//! IPDR/SP 2.2: ten of its messages by their layouts in source document 002, sections 4 and 8; reading one alone and
//! writing one alone.

use super::answer;
use super::message::{read_header_of, HEADER_OCTETS, MAX_RECORD_OCTETS};
use super::octets::{number, Reader};

pub const FLOW_START: u8 = 0x01;
pub const FLOW_STOP: u8 = 0x03;
pub const CONNECT: u8 = 0x05;
pub const CONNECT_RESPONSE: u8 = 0x06;
pub const DISCONNECT: u8 = 0x07;
pub const SESSION_START: u8 = 0x08;
pub const SESSION_STOP: u8 = 0x09;
pub const DATA: u8 = 0x20;
pub const DATA_ACKNOWLEDGE: u8 = 0x21;
pub const ERROR: u8 = 0x23;

pub const VERSION: u8 = 2;
pub const FLAG_DUPLICATE: u8 = 1;

/// The octets of the length in front of a text or a record.
pub const INNER_LENGTH_OCTETS: usize = 4;

/// The types that 002 gives to the fields of these messages. Numbers are unsigned, most significant octet first, and
/// nothing is padded.
#[derive(Clone, Copy, Debug, PartialEq, Eq)]
pub enum Type {
    Short,
    Int,
    Long,
    /// One octet: written 0 or 1, any octet but 0 reads as true.
    Boolean,
    /// The flags of DATA, `char`: the lowest bit is the duplicate mark, the others are written 0 and ignored.
    Flags,
    /// `char documentId[16]`, carried as octets.
    DocumentId,
}

impl Type {
    pub const fn octets(self) -> usize {
        match self {
            Type::Short => 2,
            Type::Int => 4,
            Type::Long => 8,
            Type::Boolean | Type::Flags => 1,
            Type::DocumentId => 16,
        }
    }
}

/// A field by its name in 002.
#[derive(Debug, PartialEq, Eq)]
pub struct Field {
    pub name: &'static str,
    pub kind: Type,
}

/// The layout of a message: the fields of its body, then the text or record that it ends with, by its name, if any.
#[derive(Debug, PartialEq, Eq)]
pub struct Layout {
    pub number: u8,
    pub name: &'static str,
    pub fields: &'static [Field],
    pub text: Option<&'static str>,
}

impl Layout {
    /// The octets of the header and of the fields before a text's length.
    pub fn front_octets(&self) -> usize {
        HEADER_OCTETS + self.fields.iter().map(|field| field.kind.octets()).sum::<usize>()
    }

    /// The octets of the shortest message.
    pub fn least_octets(&self) -> usize {
        self.front_octets() + if self.text.is_some() { INNER_LENGTH_OCTETS } else { 0 }
    }
}

const fn field(name: &'static str, kind: Type) -> Field {
    Field { name, kind }
}

const REASON: [Field; 1] = [field("reasonCode", Type::Short)];

/// The ten layouts, by message number.
pub const LAYOUTS: [Layout; 10] = [
    Layout { number: FLOW_START, name: "FLOW START", fields: &[], text: None },
    Layout { number: FLOW_STOP, name: "FLOW STOP", fields: &REASON, text: Some("reasonInfo") },
    Layout {
        number: CONNECT,
        name: "CONNECT",
        fields: &[
            field("initiatorId", Type::Int),
            field("initiatorPort", Type::Short),
            field("capabilities", Type::Int),
            field("keepAliveInterval", Type::Int),
        ],
        text: Some("vendorId"),
    },
    Layout {
        number: CONNECT_RESPONSE,
        name: "CONNECT RESPONSE",
        fields: &[field("capabilities", Type::Int), field("keepAliveInterval", Type::Int)],
        text: Some("vendorId"),
    },
    Layout { number: DISCONNECT, name: "DISCONNECT", fields: &[], text: None },
    Layout {
        number: SESSION_START,
        name: "SESSION START",
        fields: &[
            field("exporterBootTime", Type::Int),
            field("firstRecordSequenceNumber", Type::Long),
            field("droppedRecordCount", Type::Long),
            field("primary", Type::Boolean),
            field("ackTimeInterval", Type::Int),
            field("ackSequenceInterval", Type::Int),
            field("documentId", Type::DocumentId),
        ],
        text: None,
    },
    Layout { number: SESSION_STOP, name: "SESSION STOP", fields: &REASON, text: Some("reasonInfo") },
    Layout {
        number: DATA,
        name: "DATA",
        fields: &[
            field("templateId", Type::Short),
            field("configId", Type::Short),
            field("flags", Type::Flags),
            field("sequenceNum", Type::Long),
        ],
        text: Some("dataRecord"),
    },
    Layout {
        number: DATA_ACKNOWLEDGE,
        name: "DATA ACKNOWLEDGE",
        fields: &[field("configId", Type::Short), field("sequenceNum", Type::Long)],
        text: None,
    },
    Layout {
        number: ERROR,
        name: "ERROR",
        fields: &[field("timeStamp", Type::Int), field("errorCode", Type::Short)],
        text: Some("description"),
    },
];

/// The layout of a message number, if it is one of the ten.
pub fn layout(number: u8) -> Option<&'static Layout> {
    LAYOUTS.iter().find(|layout| layout.number == number)
}

/// What a message says. A text or a record stands beside it, as its part.
#[derive(Clone, Debug, PartialEq, Eq)]
pub struct Message {
    pub layout: &'static Layout,
    pub session: u8,
    /// The fields in the layout's order: Booleans and the duplicate mark as 0 or 1, the document ID as two numbers, its
    /// first eight octets and its last eight.
    pub values: Vec<u64>,
}

/// Reads a message, judged 3, 4, 5, 7, 8. Beside the message stands its text or record, also where it is empty; all
/// others have no part, and get the empty one at the front of `m`.
pub fn read(m: &[u8]) -> Result<(Message, &[u8]), u8> {
    let header = read_header_of(VERSION, m)?;
    let layout = layout(header.number).ok_or(answer::MESSAGE_NOT_ACCEPTED)?;
    let mut reader = Reader::new(&m[HEADER_OCTETS..]);
    let mut values = Vec::new();
    for field in layout.fields {
        let octets = reader.take(field.kind.octets()).ok_or(answer::BODY_LENGTH_WRONG)?;
        values.extend(read_field(field.kind, octets));
    }
    if layout.text.is_some() {
        let inner = reader.u32().ok_or(answer::BODY_LENGTH_WRONG)?;
        if u64::from(inner) != reader.rest.len() as u64 {
            return Err(answer::BODY_LENGTH_WRONG);
        }
    } else if !reader.rest.is_empty() {
        return Err(answer::BODY_LENGTH_WRONG);
    }
    let part = if layout.text.is_some() { reader.rest } else { &m[..0] };
    Ok((Message { layout, session: header.session, values }, part))
}

/// What a field's octets say.
fn read_field(kind: Type, octets: &[u8]) -> Vec<u64> {
    match kind {
        Type::Short | Type::Int | Type::Long => vec![number(octets)],
        Type::Boolean => vec![u64::from(octets[0] != 0)],
        Type::Flags => vec![u64::from(octets[0] & FLAG_DUPLICATE != 0)],
        Type::DocumentId => vec![number(&octets[..8]), number(&octets[8..])],
    }
}

/// Writes a message to the front of the output and answers its length; the rest of the output stays. Judged 17 (text or
/// record), 12. A part of a message that has none is ignored.
pub fn write(message: &Message, part: &[u8], out: &mut [u8]) -> Result<usize, u8> {
    if message.layout.text.is_some() && part.len() > MAX_RECORD_OCTETS {
        return Err(answer::RECORD_TOO_LONG);
    }
    let octets = message_octets(message, part);
    let room = out.get_mut(..octets.len()).ok_or(answer::OUTPUT_TOO_SHORT)?;
    room.copy_from_slice(&octets);
    Ok(octets.len())
}

/// The whole message: header with flags 0 and the whole length, the fields, then the text with its length.
fn message_octets(message: &Message, part: &[u8]) -> Vec<u8> {
    let mut body = fields_octets(message);
    if message.layout.text.is_some() {
        body.extend((part.len() as u32).to_be_bytes());
        body.extend(part);
    }
    let length = (HEADER_OCTETS + body.len()) as u32;
    let mut octets = vec![VERSION, message.layout.number, message.session, 0];
    octets.extend(length.to_be_bytes());
    octets.extend(body);
    octets
}

/// The fields in the layout's order, each in its width.
fn fields_octets(message: &Message) -> Vec<u8> {
    let mut octets = Vec::new();
    let mut values = message.values.iter().map(|value| value.to_be_bytes());
    let mut last = |width: usize| values.next().map_or(Vec::new(), |value| value[8 - width..].to_vec());
    for field in message.layout.fields {
        match field.kind {
            Type::DocumentId => octets.extend([last(8), last(8)].concat()),
            kind => octets.extend(last(kind.octets())),
        }
    }
    octets
}

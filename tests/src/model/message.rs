//! CRANE's messages: reading one alone and writing one alone.

use super::answer;
use super::octets::Reader;
use super::table;

pub const START: u8 = 0x01;
pub const START_ACK: u8 = 0x02;
pub const STOP: u8 = 0x03;
pub const STOP_ACK: u8 = 0x04;
pub const TMPL_DATA: u8 = 0x10;
pub const FINAL_TMPL_DATA_ACK: u8 = 0x13;
pub const START_NEGOTIATE: u8 = 0x18;
pub const START_NEGOTIATE_ACK: u8 = 0x19;
pub const DATA: u8 = 0x20;
pub const DATA_ACK: u8 = 0x21;

pub const VERSION: u8 = 1;
pub const HEADER_OCTETS: usize = 8;
pub const MAX_RECORD_OCTETS: usize = 1_024;
pub const FLAG_S: u8 = 1;
pub const FLAG_D: u8 = 2;

/// What a message says. A DATA's record and a TMPL DATA's table stand beside it, as its part.
#[derive(Clone, Debug, PartialEq, Eq)]
pub enum Message {
    Start { session: u8 },
    StartAck { session: u8, boot_time: u32 },
    Stop { session: u8 },
    StopAck { session: u8 },
    TmplData { session: u8 },
    FinalTmplDataAck { session: u8, configuration_id: u8 },
    StartNegotiate { session: u8 },
    StartNegotiateAck { session: u8 },
    Data { session: u8, template_id: u16, configuration_id: u8, s: bool, d: bool, dsn: u32 },
    DataAck { session: u8, dsn: u32, configuration_id: u8 },
}

/// What is needed of a header that was accepted.
#[derive(Clone, Copy, Debug, PartialEq, Eq)]
pub struct Header {
    pub number: u8,
    pub session: u8,
}

impl Message {
    /// The message number and the session.
    pub fn header(&self) -> Header {
        let (number, session) = match *self {
            Message::Start { session } => (START, session),
            Message::StartAck { session, .. } => (START_ACK, session),
            Message::Stop { session } => (STOP, session),
            Message::StopAck { session } => (STOP_ACK, session),
            Message::TmplData { session } => (TMPL_DATA, session),
            Message::FinalTmplDataAck { session, .. } => (FINAL_TMPL_DATA_ACK, session),
            Message::StartNegotiate { session } => (START_NEGOTIATE, session),
            Message::StartNegotiateAck { session } => (START_NEGOTIATE_ACK, session),
            Message::Data { session, .. } => (DATA, session),
            Message::DataAck { session, .. } => (DATA_ACK, session),
        };
        Header { number, session }
    }
}

/// The header of a CRANE message, which has version 1.
pub fn read_header(m: &[u8]) -> Result<Header, u8> {
    read_header_of(VERSION, m)
}

/// Header: the edition's version, message number, session, flags (ignored), 32-bit length of the whole
/// message. Under 8 octets is 3, another version 4, a length other than the octets given 5.
pub fn read_header_of(version: u8, m: &[u8]) -> Result<Header, u8> {
    let (said, header, length) = split_header(m).ok_or(answer::SHORT_MESSAGE)?;
    if said != version {
        return Err(answer::OTHER_VERSION);
    }
    if u64::from(length) != m.len() as u64 {
        return Err(answer::LENGTH_DIFFERS);
    }
    Ok(header)
}

/// Version, number with session, and length field; `None` for a message under 8 octets.
fn split_header(m: &[u8]) -> Option<(u8, Header, u32)> {
    let mut reader = Reader::new(m);
    let version = reader.u8()?;
    let number = reader.u8()?;
    let session = reader.u8()?;
    let _flags = reader.u8()?;
    let length = reader.u32()?;
    Some((version, Header { number, session }, length))
}

/// Reads a message, judged 3, 4, 5, 7, 8, 21. Beside the message stands the record of a DATA or the
/// table of a TMPL DATA; all others have no part, and get the empty one at the front of `m`.
pub fn read(m: &[u8]) -> Result<(Message, &[u8]), u8> {
    let header = read_header(m)?;
    let body = m.get(HEADER_OCTETS..).ok_or(answer::SHORT_MESSAGE)?;
    if !is_known(header.number) {
        return Err(answer::MESSAGE_NOT_ACCEPTED);
    }
    let mut reader = Reader::new(body);
    let message = read_body(header, &mut reader).ok_or(answer::BODY_LENGTH_WRONG)?;
    let part = match message {
        Message::Data { .. } => reader.rest,
        Message::TmplData { .. } if !table::is_sound(reader.rest) => return Err(answer::UNSOUND_TABLE),
        Message::TmplData { .. } => reader.rest,
        _ if !reader.rest.is_empty() => return Err(answer::BODY_LENGTH_WRONG),
        _ => m.get(..0).unwrap_or(&[]),
    };
    Ok((message, part))
}

/// The ten message numbers that reading knows.
fn is_known(number: u8) -> bool {
    matches!(
        number,
        START
            | START_ACK
            | STOP
            | STOP_ACK
            | START_NEGOTIATE
            | START_NEGOTIATE_ACK
            | TMPL_DATA
            | FINAL_TMPL_DATA_ACK
            | DATA
            | DATA_ACK
    )
}

/// The fixed fields of a body, up to a DATA's record or a TMPL DATA's table; reserved octets and
/// other flag bits are ignored. `None` where the body is too short for them.
fn read_body(header: Header, reader: &mut Reader) -> Option<Message> {
    let session = header.session;
    Some(match header.number {
        START => Message::Start { session },
        START_ACK => Message::StartAck { session, boot_time: reader.u32()? },
        STOP => Message::Stop { session },
        STOP_ACK => Message::StopAck { session },
        TMPL_DATA => Message::TmplData { session },
        FINAL_TMPL_DATA_ACK => {
            let configuration_id = reader.u8()?;
            reader.take(3)?;
            Message::FinalTmplDataAck { session, configuration_id }
        }
        START_NEGOTIATE => Message::StartNegotiate { session },
        START_NEGOTIATE_ACK => Message::StartNegotiateAck { session },
        DATA => {
            let template_id = reader.u16()?;
            let configuration_id = reader.u8()?;
            let flags = reader.u8()?;
            let dsn = reader.u32()?;
            let (s, d) = (flags & FLAG_S != 0, flags & FLAG_D != 0);
            Message::Data { session, template_id, configuration_id, s, d, dsn }
        }
        DATA_ACK => {
            let dsn = reader.u32()?;
            let configuration_id = reader.u8()?;
            reader.take(3)?;
            Message::DataAck { session, dsn, configuration_id }
        }
        _ => return None,
    })
}

/// Writes a message to the front of the output and answers its length; the rest of the output
/// stays. Judged 21 (table), 17 (record), 12.
pub fn write(message: &Message, part: &[u8], out: &mut [u8]) -> Result<usize, u8> {
    match message {
        Message::TmplData { .. } if !table::is_sound(part) => return Err(answer::UNSOUND_TABLE),
        Message::Data { .. } if part.len() > MAX_RECORD_OCTETS => return Err(answer::RECORD_TOO_LONG),
        _ => {}
    }
    let octets = message_octets(message, part);
    let room = out.get_mut(..octets.len()).ok_or(answer::OUTPUT_TOO_SHORT)?;
    room.copy_from_slice(&octets);
    Ok(octets.len())
}

/// The whole message: header with flags 0 and the whole length, then the body.
fn message_octets(message: &Message, part: &[u8]) -> Vec<u8> {
    let header = message.header();
    let body = body_octets(message, part);
    let length = (HEADER_OCTETS + body.len()) as u32;
    let mut octets = vec![VERSION, header.number, header.session, 0];
    octets.extend(length.to_be_bytes());
    octets.extend(body);
    octets
}

/// The body by its layout; reserved octets and other flag bits are written 0.
fn body_octets(message: &Message, part: &[u8]) -> Vec<u8> {
    match *message {
        Message::StartAck { boot_time, .. } => boot_time.to_be_bytes().to_vec(),
        Message::TmplData { .. } => part.to_vec(),
        Message::FinalTmplDataAck { configuration_id, .. } => vec![configuration_id, 0, 0, 0],
        Message::Data { template_id, configuration_id, s, d, dsn, .. } => {
            let s_bit = if s { FLAG_S } else { 0 };
            let d_bit = if d { FLAG_D } else { 0 };
            let mut body = template_id.to_be_bytes().to_vec();
            body.extend([configuration_id, s_bit | d_bit]);
            body.extend(dsn.to_be_bytes());
            body.extend(part);
            body
        }
        Message::DataAck { dsn, configuration_id, .. } => {
            let mut body = dsn.to_be_bytes().to_vec();
            body.extend([configuration_id, 0, 0, 0]);
            body
        }
        _ => Vec::new(),
    }
}

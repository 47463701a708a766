//! CRANE's messages, read and written alone.

use crate::answer::*;
use crate::table::{is_sound, u16_at, u32_at};

pub const START: u8 = 0x01;
pub const START_ACK: u8 = 0x02;
pub const STOP: u8 = 0x03;
pub const STOP_ACK: u8 = 0x04;
pub const TMPL_DATA: u8 = 0x10;
pub const FINAL_TMPL_DATA_ACK: u8 = 0x13;
pub const START_NEGOTIATE: u8 = 0x18;
pub const START_NEGOTIATE_ACK: u8 = 0x19;
pub const DATA: u8 = 0x20;
pub const DATA_ACK: u8 = 0x21;

pub const VERSION: u8 = 1;

/// The most octets of a record, or of a text, that is written.
pub const RECORD_OCTETS: usize = 1024;

#[derive(Clone, Copy)]
pub struct DataHead {
    pub session: u8,
    pub template: u16,
    pub config: u8,
    pub first: bool,
    pub duplicate: bool,
    pub dsn: u32,
}

/// What a message says, with the part that it carries.
pub enum Message<'a> {
    Start(u8),
    StartAck(u8, u32),
    Stop(u8),
    StopAck(u8),
    TmplData(u8, &'a [u8]),
    FinalTmplDataAck(u8, u8),
    StartNegotiate(u8),
    StartNegotiateAck(u8),
    Data(DataHead, &'a [u8]),
    DataAck(u8, u32, u8),
}

/// The session and the number in the header of an edition's message, or 3, 4 or 5.
pub fn read_header(version: u8, m: &[u8]) -> Result<(u8, u8), u8> {
    if m.len() < 8 {
        return Err(SHORT_MESSAGE);
    }
    if m[0] != version {
        return Err(OTHER_VERSION);
    }
    if u32_at(m, 4) as usize != m.len() {
        return Err(LENGTH_DIFFERS);
    }
    Ok((m[2], m[1]))
}

fn exactly(body: &[u8], n: usize) -> Result<(), u8> {
    if body.len() == n {
        Ok(())
    } else {
        Err(BODY_LENGTH_WRONG)
    }
}

fn read_bare<'a>(body: &[u8], message: Message<'a>) -> Result<Message<'a>, u8> {
    exactly(body, 0)?;
    Ok(message)
}

fn read_start_ack(session: u8, body: &[u8]) -> Result<Message<'_>, u8> {
    exactly(body, 4)?;
    Ok(Message::StartAck(session, u32_at(body, 0)))
}

fn read_tmpl_data(session: u8, body: &[u8]) -> Result<Message<'_>, u8> {
    if !is_sound(body) {
        return Err(UNSOUND_TABLE);
    }
    Ok(Message::TmplData(session, body))
}

fn read_final_tmpl_data_ack(session: u8, body: &[u8]) -> Result<Message<'_>, u8> {
    exactly(body, 4)?;
    Ok(Message::FinalTmplDataAck(session, body[0]))
}

fn read_data(session: u8, body: &[u8]) -> Result<Message<'_>, u8> {
    if body.len() < 8 {
        return Err(BODY_LENGTH_WRONG);
    }
    let head = DataHead {
        session,
        template: u16_at(body, 0),
        config: body[2],
        first: body[3] & 1 != 0,
        duplicate: body[3] & 2 != 0,
        dsn: u32_at(body, 4),
    };
    Ok(Message::Data(head, &body[8..]))
}

fn read_data_ack(session: u8, body: &[u8]) -> Result<Message<'_>, u8> {
    exactly(body, 8)?;
    Ok(Message::DataAck(session, u32_at(body, 0), body[4]))
}

/// Reads a message alone: 3, 4, 5, 7, 8, 21.
pub fn read(m: &[u8]) -> Result<Message<'_>, u8> {
    let (session, number) = read_header(VERSION, m)?;
    let body = &m[8..];
    match number {
        START => read_bare(body, Message::Start(session)),
        START_ACK => read_start_ack(session, body),
        STOP => read_bare(body, Message::Stop(session)),
        STOP_ACK => read_bare(body, Message::StopAck(session)),
        TMPL_DATA => read_tmpl_data(session, body),
        FINAL_TMPL_DATA_ACK => read_final_tmpl_data_ack(session, body),
        START_NEGOTIATE => read_bare(body, Message::StartNegotiate(session)),
        START_NEGOTIATE_ACK => read_bare(body, Message::StartNegotiateAck(session)),
        DATA => read_data(session, body),
        DATA_ACK => read_data_ack(session, body),
        _ => Err(MESSAGE_NOT_ACCEPTED),
    }
}

fn header(number: u8, session: u8, len: usize) -> [u8; 8] {
    let n = (len as u32).to_be_bytes();
    [VERSION, number, session, 0, n[0], n[1], n[2], n[3]]
}

/// Writes a message with up to 8 octets of body in front of a part.
fn place(number: u8, session: u8, front: &[u8], part: &[u8], out: &mut [u8]) -> Result<usize, u8> {
    let body = 8 + front.len();
    let len = body + part.len();
    let Some(out) = out.get_mut(..len) else {
        return Err(OUTPUT_TOO_SHORT);
    };
    out[..8].copy_from_slice(&header(number, session, len));
    out[8..body].copy_from_slice(front);
    out[body..].copy_from_slice(part);
    Ok(len)
}

pub fn data_front(h: &DataHead) -> [u8; 8] {
    let t = h.template.to_be_bytes();
    let d = h.dsn.to_be_bytes();
    [
        t[0],
        t[1],
        h.config,
        h.first as u8 | (h.duplicate as u8) << 1,
        d[0],
        d[1],
        d[2],
        d[3],
    ]
}

/// A DATA's 16 octets in front of a record.
pub fn data_head(h: &DataHead, len: usize) -> [u8; 16] {
    let mut head = [0; 16];
    head[..8].copy_from_slice(&header(DATA, h.session, 16 + len));
    head[8..].copy_from_slice(&data_front(h));
    head
}

/// Writes a message alone: its length, or 21, 17 or 12.
pub fn write(m: &Message, out: &mut [u8]) -> Result<usize, u8> {
    match *m {
        Message::Start(s) => place(START, s, &[], &[], out),
        Message::StartAck(s, boot) => place(START_ACK, s, &boot.to_be_bytes(), &[], out),
        Message::Stop(s) => place(STOP, s, &[], &[], out),
        Message::StopAck(s) => place(STOP_ACK, s, &[], &[], out),
        Message::TmplData(s, table) => {
            if !is_sound(table) {
                return Err(UNSOUND_TABLE);
            }
            place(TMPL_DATA, s, &[], table, out)
        }
        Message::FinalTmplDataAck(s, config) => {
            place(FINAL_TMPL_DATA_ACK, s, &[config, 0, 0, 0], &[], out)
        }
        Message::StartNegotiate(s) => place(START_NEGOTIATE, s, &[], &[], out),
        Message::StartNegotiateAck(s) => place(START_NEGOTIATE_ACK, s, &[], &[], out),
        Message::Data(ref h, record) => {
            if record.len() > RECORD_OCTETS {
                return Err(RECORD_TOO_LONG);
            }
            place(DATA, h.session, &data_front(h), record, out)
        }
        Message::DataAck(s, dsn, config) => {
            let d = dsn.to_be_bytes();
            place(
                DATA_ACK,
                s,
                &[d[0], d[1], d[2], d[3], config, 0, 0, 0],
                &[],
                out,
            )
        }
    }
}

/// Reads a message and writes what it says: its length plus 256, or the reading's or else the
/// writing's refusal.
pub fn read_again(m: &[u8], out: &mut [u8]) -> u64 {
    match read(m).and_then(|message| write(&message, out)) {
        Ok(len) => len as u64 + 256,
        Err(a) => a as u64,
    }
}

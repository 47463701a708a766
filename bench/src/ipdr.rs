//! IPDR/SP's messages, read and written alone.

use crate::answer::*;
use crate::message::{read_header, RECORD_OCTETS};
use crate::table::{u16_at, u32_at};

pub const FLOW_START: u8 = 0x01;
pub const FLOW_STOP: u8 = 0x03;
pub const CONNECT: u8 = 0x05;
pub const CONNECT_RESPONSE: u8 = 0x06;
pub const DISCONNECT: u8 = 0x07;
pub const SESSION_START: u8 = 0x08;
pub const SESSION_STOP: u8 = 0x09;
pub const DATA: u8 = 0x20;
pub const DATA_ACKNOWLEDGE: u8 = 0x21;
pub const ERROR: u8 = 0x23;

pub const VERSION: u8 = 2;

#[derive(Clone, Copy)]
pub struct Connect {
    initiator_id: u32,
    initiator_port: u16,
    capabilities: u32,
    keep_alive_interval: u32,
}

#[derive(Clone, Copy)]
pub struct SessionStart {
    exporter_boot_time: u32,
    first_record: u64,
    dropped_records: u64,
    primary: bool,
    ack_time_interval: u32,
    ack_sequence_interval: u32,
    document_id: [u8; 16],
}

#[derive(Clone, Copy)]
pub struct DataHead {
    template: u16,
    config: u16,
    duplicate: bool,
    sequence: u64,
}

/// What a message says beside its session, with its text or record.
pub enum Content<'a> {
    FlowStart,
    FlowStop(u16, &'a [u8]),
    Connect(Connect, &'a [u8]),
    ConnectResponse(u32, u32, &'a [u8]),
    Disconnect,
    SessionStart(SessionStart),
    SessionStop(u16, &'a [u8]),
    Data(DataHead, &'a [u8]),
    DataAcknowledge(u16, u64),
    Error(u32, u16, &'a [u8]),
}

pub struct Message<'a> {
    session: u8,
    content: Content<'a>,
}

fn u64_at(s: &[u8], at: usize) -> u64 {
    u64::from_be_bytes(s[at..at + 8].try_into().unwrap())
}

/// The octets behind the 32-bit length at a place, which must be all that follow.
fn counted(m: &[u8], at: usize) -> Result<&[u8], u8> {
    if m.len() < at + 4 {
        return Err(BODY_LENGTH_WRONG);
    }
    let part = &m[at + 4..];
    if u32_at(m, at) as usize != part.len() {
        return Err(BODY_LENGTH_WRONG);
    }
    Ok(part)
}

fn exactly(m: &[u8], n: usize) -> Result<(), u8> {
    if m.len() == n {
        Ok(())
    } else {
        Err(BODY_LENGTH_WRONG)
    }
}

fn read_bare<'a>(m: &[u8], content: Content<'a>) -> Result<Content<'a>, u8> {
    exactly(m, 8)?;
    Ok(content)
}

fn read_connect(m: &[u8]) -> Result<Content<'_>, u8> {
    let text = counted(m, 22)?;
    let fields = Connect {
        initiator_id: u32_at(m, 8),
        initiator_port: u16_at(m, 12),
        capabilities: u32_at(m, 14),
        keep_alive_interval: u32_at(m, 18),
    };
    Ok(Content::Connect(fields, text))
}

fn read_session_start(m: &[u8]) -> Result<Content<'_>, u8> {
    exactly(m, 53)?;
    Ok(Content::SessionStart(SessionStart {
        exporter_boot_time: u32_at(m, 8),
        first_record: u64_at(m, 12),
        dropped_records: u64_at(m, 20),
        primary: m[28] != 0,
        ack_time_interval: u32_at(m, 29),
        ack_sequence_interval: u32_at(m, 33),
        document_id: m[37..53].try_into().unwrap(),
    }))
}

fn read_data(m: &[u8]) -> Result<Content<'_>, u8> {
    let record = counted(m, 21)?;
    let head = DataHead {
        template: u16_at(m, 8),
        config: u16_at(m, 10),
        duplicate: m[12] & 1 != 0,
        sequence: u64_at(m, 13),
    };
    Ok(Content::Data(head, record))
}

fn read_data_acknowledge(m: &[u8]) -> Result<Content<'_>, u8> {
    exactly(m, 18)?;
    Ok(Content::DataAcknowledge(u16_at(m, 8), u64_at(m, 10)))
}

fn content(number: u8, m: &[u8]) -> Result<Content<'_>, u8> {
    match number {
        FLOW_START => read_bare(m, Content::FlowStart),
        FLOW_STOP => counted(m, 10).map(|text| Content::FlowStop(u16_at(m, 8), text)),
        CONNECT => read_connect(m),
        CONNECT_RESPONSE => {
            counted(m, 16).map(|text| Content::ConnectResponse(u32_at(m, 8), u32_at(m, 12), text))
        }
        DISCONNECT => read_bare(m, Content::Disconnect),
        SESSION_START => read_session_start(m),
        SESSION_STOP => counted(m, 10).map(|text| Content::SessionStop(u16_at(m, 8), text)),
        DATA => read_data(m),
        DATA_ACKNOWLEDGE => read_data_acknowledge(m),
        ERROR => counted(m, 14).map(|text| Content::Error(u32_at(m, 8), u16_at(m, 12), text)),
        _ => Err(MESSAGE_NOT_ACCEPTED),
    }
}

/// Reads a message alone: 3, 4, 5, 7, 8.
pub fn read(m: &[u8]) -> Result<Message<'_>, u8> {
    let (session, number) = read_header(VERSION, m)?;
    let content = content(number, m)?;
    Ok(Message { session, content })
}

/// Where a message of a session is written.
struct Target<'a> {
    session: u8,
    out: &'a mut [u8],
}

impl Target<'_> {
    /// Writes a message of a length, what follows its header by `put`.
    fn place(self, number: u8, len: usize, put: impl FnOnce(&mut [u8])) -> Result<usize, u8> {
        let Some(out) = self.out.get_mut(..len) else {
            return Err(OUTPUT_TOO_SHORT);
        };
        let n = (len as u32).to_be_bytes();
        let head = [VERSION, number, self.session, 0, n[0], n[1], n[2], n[3]];
        out[..8].copy_from_slice(&head);
        put(&mut out[8..]);
        Ok(len)
    }

    /// Writes a message that ends with a text or a record, whose length stands at `at`; the fields before it by `put`.
    fn place_counted(
        self,
        number: u8,
        at: usize,
        part: &[u8],
        put: impl FnOnce(&mut [u8]),
    ) -> Result<usize, u8> {
        if part.len() > RECORD_OCTETS {
            return Err(RECORD_TOO_LONG);
        }
        let fields = at - 8;
        self.place(number, at + 4 + part.len(), |b| {
            put(&mut b[..fields]);
            b[fields..fields + 4].copy_from_slice(&(part.len() as u32).to_be_bytes());
            b[fields + 4..].copy_from_slice(part);
        })
    }
}

fn put_connect(f: &Connect, b: &mut [u8]) {
    b[..4].copy_from_slice(&f.initiator_id.to_be_bytes());
    b[4..6].copy_from_slice(&f.initiator_port.to_be_bytes());
    b[6..10].copy_from_slice(&f.capabilities.to_be_bytes());
    b[10..14].copy_from_slice(&f.keep_alive_interval.to_be_bytes());
}

fn put_session_start(f: &SessionStart, b: &mut [u8]) {
    b[..4].copy_from_slice(&f.exporter_boot_time.to_be_bytes());
    b[4..12].copy_from_slice(&f.first_record.to_be_bytes());
    b[12..20].copy_from_slice(&f.dropped_records.to_be_bytes());
    b[20] = f.primary as u8;
    b[21..25].copy_from_slice(&f.ack_time_interval.to_be_bytes());
    b[25..29].copy_from_slice(&f.ack_sequence_interval.to_be_bytes());
    b[29..45].copy_from_slice(&f.document_id);
}

fn put_data(h: &DataHead, b: &mut [u8]) {
    b[..2].copy_from_slice(&h.template.to_be_bytes());
    b[2..4].copy_from_slice(&h.config.to_be_bytes());
    b[4] = h.duplicate as u8;
    b[5..13].copy_from_slice(&h.sequence.to_be_bytes());
}

/// Two fields that follow each other.
fn put_two<const N: usize, const M: usize>(first: [u8; N], second: [u8; M], b: &mut [u8]) {
    b[..N].copy_from_slice(&first);
    b[N..N + M].copy_from_slice(&second);
}

/// Writes a message alone: its length, or 17 or 12.
pub fn write(m: &Message, out: &mut [u8]) -> Result<usize, u8> {
    let to = Target {
        session: m.session,
        out,
    };
    match m.content {
        Content::FlowStart => to.place(FLOW_START, 8, |_| {}),
        Content::FlowStop(reason, text) => to.place_counted(FLOW_STOP, 10, text, |b| {
            b.copy_from_slice(&reason.to_be_bytes())
        }),
        Content::Connect(ref fields, text) => {
            to.place_counted(CONNECT, 22, text, |b| put_connect(fields, b))
        }
        Content::ConnectResponse(capabilities, interval, text) => {
            to.place_counted(CONNECT_RESPONSE, 16, text, |b| {
                put_two(capabilities.to_be_bytes(), interval.to_be_bytes(), b)
            })
        }
        Content::Disconnect => to.place(DISCONNECT, 8, |_| {}),
        Content::SessionStart(ref fields) => {
            to.place(SESSION_START, 53, |b| put_session_start(fields, b))
        }
        Content::SessionStop(reason, text) => to.place_counted(SESSION_STOP, 10, text, |b| {
            b.copy_from_slice(&reason.to_be_bytes())
        }),
        Content::Data(ref head, record) => {
            to.place_counted(DATA, 21, record, |b| put_data(head, b))
        }
        Content::DataAcknowledge(config, sequence) => to.place(DATA_ACKNOWLEDGE, 18, |b| {
            put_two(config.to_be_bytes(), sequence.to_be_bytes(), b)
        }),
        Content::Error(time, code, text) => to.place_counted(ERROR, 14, text, |b| {
            put_two(time.to_be_bytes(), code.to_be_bytes(), b)
        }),
    }
}

/// Reads a message and writes what it says: its length plus 256, or the reading's or else the
/// writing's refusal.
pub fn read_again(m: &[u8], out: &mut [u8]) -> u64 {
    match read(m).and_then(|message| write(&message, out)) {
        Ok(len) => len as u64 + 256,
        Err(a) => a as u64,
    }
}

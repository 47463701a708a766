//! Messages as structures, sound or not: each part of a message can be damaged on its own.

/// The message numbers and the header's length are the model's.
pub use crate::model::message::{
    DATA, DATA_ACK, FINAL_TMPL_DATA_ACK, HEADER_OCTETS, START, START_ACK, START_NEGOTIATE, START_NEGOTIATE_ACK, STOP,
    STOP_ACK, TMPL_DATA,
};

/// All message numbers that reading knows.
pub const KNOWN: [u8; 10] = [
    START,
    START_ACK,
    STOP,
    STOP_ACK,
    TMPL_DATA,
    FINAL_TMPL_DATA_ACK,
    START_NEGOTIATE,
    START_NEGOTIATE_ACK,
    DATA,
    DATA_ACK,
];

/// The parts of a message.
#[derive(Clone, Debug)]
pub struct MessageParts {
    pub version: u8,
    pub number: u8,
    pub session: u8,
    pub flags: u8,
    /// What the length field says; none for the true length.
    pub length: Option<u32>,
    pub body: Vec<u8>,
}

impl MessageParts {
    /// A sound header before a body.
    pub fn new(number: u8, session: u8, body: Vec<u8>) -> MessageParts {
        MessageParts { version: 1, number, session, flags: 0, length: None, body }
    }

    /// A message without a body.
    pub fn bare(number: u8, session: u8) -> MessageParts {
        MessageParts::new(number, session, Vec::new())
    }

    pub fn start_ack(session: u8, boot: u32) -> MessageParts {
        MessageParts::new(START_ACK, session, boot.to_be_bytes().to_vec())
    }

    pub fn final_tmpl_data_ack(session: u8, configuration: u8) -> MessageParts {
        MessageParts::new(FINAL_TMPL_DATA_ACK, session, vec![configuration, 0, 0, 0])
    }

    pub fn data_ack(session: u8, dsn: u32, configuration: u8) -> MessageParts {
        let dsn = dsn.to_be_bytes();
        MessageParts::new(DATA_ACK, session, [&dsn[..], &[configuration, 0, 0, 0]].concat())
    }

    /// A DATA message; `flags` are those of its body.
    pub fn data(session: u8, template: u16, configuration: u8, flags: u8, dsn: u32, record: &[u8]) -> MessageParts {
        let body = [&template.to_be_bytes()[..], &[configuration, flags], &dsn.to_be_bytes(), record].concat();
        MessageParts::new(DATA, session, body)
    }

    pub fn octets(&self) -> Vec<u8> {
        let length = self.length.unwrap_or((HEADER_OCTETS + self.body.len()) as u32);
        let mut octets = vec![self.version, self.number, self.session, self.flags];
        octets.extend_from_slice(&length.to_be_bytes());
        octets.extend_from_slice(&self.body);
        octets
    }

    /// The parts of some octets that have a header; their octets are the same again.
    pub fn from_octets(octets: &[u8]) -> Option<MessageParts> {
        let (header, body) = octets.split_at_checked(HEADER_OCTETS)?;
        let said = u32::from_be_bytes([header[4], header[5], header[6], header[7]]);
        let length = (said as usize != octets.len()).then_some(said);
        Some(MessageParts {
            version: header[0],
            number: header[1],
            session: header[2],
            flags: header[3],
            length,
            body: body.to_vec(),
        })
    }
}

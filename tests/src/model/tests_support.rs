//! What the model's tests share: hex, sample tables, and an exporter with its store and output.

use super::answer;
use super::exporter::{Exporter, Reply, ServerState, Settings, MAX_SERVERS};
use super::message::{write, Message};

/// The octets of a text of hex digits; spaces are skipped.
pub fn hex(text: &str) -> Vec<u8> {
    let digits: Vec<u8> = text.chars().filter_map(|c| c.to_digit(16)).map(|d| d as u8).collect();
    digits.chunks(2).map(|pair| (pair[0] << 4) | pair[1]).collect()
}

/// The table of the paper's boundary examples: template 3 with one unsigned 16-bit key.
pub fn sample_table() -> Vec<u8> {
    hex("01010001 0003 0001 0000 0000 00000018 00000009 0004 0000 00000000")
}

/// A table of configuration 1 with one block for each template: an ID and keys of type and
/// attributes; key IDs count from 0 within each template.
pub fn table_of(templates: &[(u16, &[(u16, u32)])]) -> Vec<u8> {
    let mut table = vec![1, 1];
    table.extend((templates.len() as u16).to_be_bytes());
    for (id, keys) in templates {
        table.extend(block_of(*id, &[], keys));
    }
    table
}

/// One block with that description, padded.
pub fn block_of(id: u16, description: &[u8], keys: &[(u16, u32)]) -> Vec<u8> {
    let padding = (4 - description.len() % 4) % 4;
    let length = 12 + description.len() + padding + 12 * keys.len();
    let mut block = id.to_be_bytes().to_vec();
    block.extend((keys.len() as u16).to_be_bytes());
    block.extend([0, 0]);
    block.extend((description.len() as u16).to_be_bytes());
    block.extend((length as u32).to_be_bytes());
    block.extend(description);
    block.extend(vec![0; padding]);
    for (key, (kind, attributes)) in keys.iter().enumerate() {
        block.extend((key as u32).to_be_bytes());
        block.extend(kind.to_be_bytes());
        block.extend([0, 0]);
        block.extend(attributes.to_be_bytes());
    }
    block
}

/// A table of configuration 1 whose template 4 has one blob and template 5 no enabled key.
pub fn blob_table() -> Vec<u8> {
    table_of(&[(4, &[(0x4015, 0)]), (5, &[(0x0001, 1)])])
}

/// A record under template 4 of that many octets, at least 4, filled with one octet.
pub fn blob(length: usize, filling: u8) -> Vec<u8> {
    let mut record = ((length - 4) as u32).to_be_bytes().to_vec();
    record.resize(length, filling);
    record
}

/// Session 7, configuration 1, boot 3,600; as many servers as priorities are named; threshold 1,
/// duration 2.
pub fn settings(priorities: &[u8]) -> Settings {
    let mut all = [0; MAX_SERVERS];
    all[..priorities.len()].copy_from_slice(priorities);
    Settings {
        session: 7,
        configuration_id: 1,
        boot_time: 3_600,
        first_dsn: 0,
        servers: priorities.len() as u8,
        priorities: all,
        threshold: 1,
        duration: 2,
    }
}

/// An exporter with its store, its output and the blob table.
pub struct Bench {
    pub exporter: Exporter,
    pub store: Vec<u8>,
    pub out: Vec<u8>,
    pub table: Vec<u8>,
}

impl Bench {
    pub fn new(settings: Settings, store_length: usize) -> Bench {
        let store = vec![0xaa; store_length];
        let exporter = Exporter::set_up(settings, &store).expect("settings in limits");
        Bench { exporter, store, out: vec![0; 16_392], table: blob_table() }
    }

    /// A put under template 4.
    pub fn put(&mut self, record: &[u8]) -> u8 {
        self.exporter.put(&mut self.store, &self.table, 4, record)
    }

    pub fn next(&mut self) -> Reply {
        self.exporter.next_data(&self.store, &mut self.out)
    }

    /// Next data that must be accepted: its flags octet and its DSN.
    pub fn next_flags(&mut self) -> (u8, u32) {
        let reply = self.next();
        assert_eq!(reply.answer, answer::DONE);
        let dsn = u32::from_be_bytes(self.out[12..16].try_into().expect("four octets"));
        (self.out[11], dsn)
    }

    pub fn receive(&mut self, server: u8, message: &[u8]) -> Reply {
        self.exporter.receive(server, message, &mut self.out)
    }

    pub fn start(&mut self, server: u8) -> Reply {
        self.receive(server, &octets_of(&Message::Start { session: 7 }))
    }

    pub fn stop(&mut self, server: u8) -> Reply {
        self.receive(server, &octets_of(&Message::Stop { session: 7 }))
    }

    /// Line down, which writes nothing.
    pub fn down(&mut self, server: u8) -> Reply {
        Reply { answer: self.exporter.line_down(server), written: 0 }
    }

    pub fn negotiate(&mut self, server: u8) -> Reply {
        self.receive(server, &octets_of(&Message::StartNegotiate { session: 7 }))
    }

    pub fn offer(&mut self, server: u8) -> Reply {
        self.exporter.offer_templates(server, &self.table, &mut self.out)
    }

    pub fn final_ack(&mut self, server: u8) -> Reply {
        let ack = Message::FinalTmplDataAck { session: 7, configuration_id: 1 };
        self.receive(server, &octets_of(&ack))
    }

    pub fn ack(&mut self, server: u8, dsn: u32) -> u8 {
        let ack = Message::DataAck { session: 7, dsn, configuration_id: 1 };
        self.receive(server, &octets_of(&ack)).answer
    }

    /// START, offer and FINAL TMPL DATA ACK, all accepted.
    pub fn agree(&mut self, server: u8) {
        assert_eq!(self.start(server).answer, answer::DONE);
        assert_eq!(self.offer(server).answer, answer::DONE);
        assert_eq!(self.final_ack(server).answer, answer::DONE);
        assert_eq!(self.exporter.state(server), ServerState::Agreed);
    }
}

/// A message without a part, written alone.
pub fn octets_of(message: &Message) -> Vec<u8> {
    let mut out = vec![0; 64];
    let length = write(message, &[], &mut out).expect("a message that can be written");
    out.truncate(length);
    out
}

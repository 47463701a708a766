//! Tables, records, messages and events to measure with.

use crate::session::{self, Given, CONFIG, SESSION};
use crate::table::{self, BLOB, BOOLEAN, STRING, TERMINATED};
use crate::{ipdr, message};

/// A key: its ID, its type, and whether it is enabled.
#[derive(Clone, Copy)]
pub struct Key(pub u32, pub u16, pub bool);

fn block(id: u16, description: usize, keys: &[Key]) -> Vec<u8> {
    let padded = description.next_multiple_of(4);
    let mut b = Vec::new();
    b.extend(id.to_be_bytes());
    b.extend((keys.len() as u16).to_be_bytes());
    b.extend([0, 0]);
    b.extend((description as u16).to_be_bytes());
    b.extend(((12 + padded + 12 * keys.len()) as u32).to_be_bytes());
    b.extend(std::iter::repeat_n(b'd', description));
    b.extend(std::iter::repeat_n(0, padded - description));
    for key in keys {
        b.extend(key.0.to_be_bytes());
        b.extend(key.1.to_be_bytes());
        b.extend([0, 0]);
        b.extend((!key.2 as u32).to_be_bytes());
    }
    b
}

/// A table with a template for each list of keys, numbered from 1, and the lengths of their descriptions.
pub fn table(templates: &[(usize, Vec<Key>)]) -> Vec<u8> {
    let mut t = vec![CONFIG, 1];
    t.extend((templates.len() as u16).to_be_bytes());
    for (i, (description, keys)) in templates.iter().enumerate() {
        t.extend(block(i as u16 + 1, *description, keys));
    }
    t
}

/// One template with four keys: 32 bits, 16 bits, a Boolean, a blob.
pub fn small_table() -> Vec<u8> {
    let keys = [(10, 6), (11, 4), (12, BOOLEAN), (13, BLOB)];
    table(&[(
        0,
        keys.iter().map(|&(id, kind)| Key(id, kind, true)).collect(),
    )])
}

/// A valid record of the small table's template, of n octets.
pub fn small_record(n: usize) -> Vec<u8> {
    let mut r = vec![0, 1, 2, 3, 4, 5, 1];
    r.extend(blob(n - 7));
    r
}

fn blob(n: usize) -> Vec<u8> {
    let mut b = ((n - 4) as u32).to_be_bytes().to_vec();
    b.extend((4..n).map(|i| (i * 7 % 120 + 1) as u8));
    b
}

/// The largest table: 8 templates with 32 keys each, filled up to 16,384 octets by descriptions. Of the keys 12 are enabled: 11 of one
/// octet and a blob. Their IDs rise, or fall.
pub fn large_table(rising: bool) -> Vec<u8> {
    let keys: Vec<Key> = (0..32u32)
        .map(|k| {
            let id = if rising { 1000 + k } else { 1000 - k };
            match k {
                31 => Key(id, BLOB, true),
                _ if k % 3 == 0 => Key(id, 2, true),
                _ => Key(id, 8, false),
            }
        })
        .collect();
    let t = table(
        &(0..8)
            .map(|i| (if i == 0 { 1647 } else { 1651 }, keys.clone()))
            .collect::<Vec<_>>(),
    );
    assert_eq!(t.len(), 16384);
    t
}

/// A valid record of the large table's templates, of n octets.
pub fn large_record(n: usize) -> Vec<u8> {
    let mut r: Vec<u8> = (0..11).collect();
    r.extend(blob(n - 11));
    r
}

/// A table whose one template has a single key of a type with a length of its own, and a valid record of n octets.
pub fn text_table(kind: u16) -> Vec<u8> {
    table(&[(0, vec![Key(1, kind, true)])])
}

pub fn text_record(kind: u16, n: usize) -> Vec<u8> {
    match kind {
        STRING | BLOB => blob(n),
        TERMINATED => {
            let mut r: Vec<u8> = (1..n).map(|i| (i % 250 + 1) as u8).collect();
            r.push(0);
            r
        }
        _ => unreachable!(),
    }
}

/// A table whose one template has 32 keys of fixed widths, and a valid record.
pub fn fixed_table() -> Vec<u8> {
    table(&[(
        20,
        (0..32u32)
            .map(|k| Key(k, FIXED[k as usize % FIXED.len()].0, true))
            .collect(),
    )])
}

const FIXED: [(u16, usize); 9] = [
    (1, 1),
    (2, 1),
    (5, 2),
    (6, 4),
    (9, 8),
    (0x0b, 8),
    (0x10, 4),
    (0x11, 16),
    (0x12, 4),
];

pub fn fixed_record() -> Vec<u8> {
    let n: usize = (0..32).map(|k| FIXED[k % FIXED.len()].1).sum();
    (0..n).map(|i| (i % 2) as u8).collect()
}

/// A valid record, with its table and its template's ID.
#[derive(Clone)]
pub struct Valid {
    pub table: Vec<u8>,
    pub id: u16,
    pub record: Vec<u8>,
}

impl Valid {
    /// Of the small table, of n octets.
    pub fn small(n: usize) -> Valid {
        Valid {
            table: small_table(),
            id: 1,
            record: small_record(n),
        }
    }

    /// Of the largest table's last template, of n octets.
    pub fn large(n: usize) -> Valid {
        Valid {
            table: large_table(true),
            id: 8,
            record: large_record(n),
        }
    }

    /// A single field of a type with a length of its own, of n octets.
    pub fn text(kind: u16, n: usize) -> Valid {
        Valid {
            table: text_table(kind),
            id: 1,
            record: text_record(kind, n),
        }
    }

    /// 32 fields of fixed widths.
    pub fn fixed() -> Valid {
        Valid {
            table: fixed_table(),
            id: 1,
            record: fixed_record(),
        }
    }

    /// The same record under a little-endian table: integers, floats and lengths turned.
    pub fn little(mut self) -> Valid {
        let keys = table::find(&self.table, self.id).expect("a template");
        let mut at = 0;
        for key in keys.chunks_exact(12).filter(|key| table::is_enabled(key)) {
            let kind = table::u16_at(key, 4);
            let len = table::field_length(table::Order::Big, kind, &self.record[at..]);
            let len = len.expect("a valid field");
            let turned = match kind {
                0x02..=0x0b => len,
                STRING | BLOB => 4,
                _ => 0,
            };
            self.record[at..at + turned].reverse();
            at += len;
        }
        self.table[1] = 0;
        self
    }
}

// ---- messages

fn header(number: u8, len: usize) -> Vec<u8> {
    let mut m = vec![1, number, SESSION, 0];
    m.extend((len as u32).to_be_bytes());
    m
}

pub fn bare(number: u8) -> Vec<u8> {
    header(number, 8)
}

pub fn tmpl_data(t: &[u8]) -> Vec<u8> {
    let mut m = header(message::TMPL_DATA, 8 + t.len());
    m.extend(t);
    m
}

pub fn final_tmpl_data_ack() -> Vec<u8> {
    let mut m = header(message::FINAL_TMPL_DATA_ACK, 12);
    m.extend([CONFIG, 0, 0, 0]);
    m
}

pub fn data_message(record: &[u8]) -> Vec<u8> {
    let mut m = header(message::DATA, 16 + record.len());
    m.extend([0, 1, CONFIG, 3, 0, 0, 1, 0]);
    m.extend(record);
    m
}

pub fn data_ack(dsn: u32) -> Vec<u8> {
    let mut m = header(message::DATA_ACK, 16);
    m.extend(dsn.to_be_bytes());
    m.extend([CONFIG, 0, 0, 0]);
    m
}

// ---- IPDR/SP messages

/// An IPDR/SP message with fields in which every octet is another.
fn ipdr_message(number: u8, fields: usize) -> Vec<u8> {
    let mut m = vec![ipdr::VERSION, number, SESSION, 0];
    m.extend((8 + fields as u32).to_be_bytes());
    m.extend((0..fields).map(|i| (i * 7 + 1) as u8));
    m
}

/// The same with a text or a record of n octets behind its length.
fn ipdr_counted(number: u8, fields: usize, n: usize) -> Vec<u8> {
    let mut m = ipdr_message(number, fields);
    m.extend((n as u32).to_be_bytes());
    m.extend((0..n).map(|i| (i * 5 + 3) as u8));
    let len = m.len() as u32;
    m[4..8].copy_from_slice(&len.to_be_bytes());
    m
}

/// An IPDR/SP DATA with a record of n octets.
pub fn ipdr_data(n: usize) -> Vec<u8> {
    ipdr_counted(ipdr::DATA, 13, n)
}

/// The other nine, by their names, with texts of n octets.
pub fn ipdr_messages(n: usize) -> [(&'static str, Vec<u8>); 9] {
    [
        ("CONNECT", ipdr_counted(ipdr::CONNECT, 14, n)),
        (
            "CONNECT RESPONSE",
            ipdr_counted(ipdr::CONNECT_RESPONSE, 8, n),
        ),
        ("DISCONNECT", ipdr_message(ipdr::DISCONNECT, 0)),
        ("ERROR", ipdr_counted(ipdr::ERROR, 6, n)),
        ("FLOW START", ipdr_message(ipdr::FLOW_START, 0)),
        ("FLOW STOP", ipdr_counted(ipdr::FLOW_STOP, 2, n)),
        ("SESSION START", ipdr_message(ipdr::SESSION_START, 45)),
        ("SESSION STOP", ipdr_counted(ipdr::SESSION_STOP, 2, n)),
        ("DATA ACKNOWLEDGE", ipdr_message(ipdr::DATA_ACKNOWLEDGE, 10)),
    ]
}

// ---- events

/// Sixty-four records are held at most, so that a store of 65,536 octets holds them all.
pub const STORE_OCTETS: usize = 65536;

/// The octets of the longest message, a TMPL DATA with the largest table.
pub const OUTPUT_OCTETS: usize = 16392;

/// The octets of the longest batch: 64 DATA with records of 1,024 octets.
pub const BATCH_OCTETS: usize = 64 * (16 + 1024);

/// A timer that runs from the first record sent on, and does not run out while it is measured.
pub const GIVEN: Given = Given {
    servers: 2,
    threshold: 1,
    duration: 60000,
    initial: 4294967000,
};

/// A list of events that knows the DSN of the last record released.
#[derive(Clone)]
pub struct Events {
    pub octets: Vec<u8>,
    released: u32,
}

impl Events {
    fn push(&mut self, code: u8, server: u8, m: &[u8]) {
        let mut event = [0; session::EVENT_OCTETS];
        event[0] = code;
        event[1] = server;
        event[2] = m.len() as u8;
        event[3..3 + m.len()].copy_from_slice(m);
        self.octets.extend(event);
    }

    /// Server 0 agrees to the templates.
    pub fn opening() -> Events {
        let mut e = Events {
            octets: Vec::new(),
            released: GIVEN.initial.wrapping_sub(1),
        };
        e.receive(0, &bare(message::START));
        e.offer(0);
        e.receive(0, &final_tmpl_data_ack());
        e
    }

    pub fn offer(&mut self, server: u8) {
        self.push(session::OFFER, server, &[]);
    }

    pub fn receive(&mut self, server: u8, m: &[u8]) {
        self.push(session::RECEIVE, server, m);
    }

    pub fn puts(mut self, n: usize) -> Events {
        (0..n).for_each(|_| self.push(session::PUT, 0, &[]));
        self
    }

    pub fn nexts(mut self, n: usize) -> Events {
        (0..n).for_each(|_| self.push(session::NEXT_DATA, 0, &[]));
        self
    }

    /// A batch of at most `limit` messages.
    pub fn batch(mut self, limit: u8) -> Events {
        self.push(session::BATCH, limit, &[]);
        self
    }

    pub fn ticks(mut self, n: usize) -> Events {
        (0..n).for_each(|_| self.push(session::TICK, 0, &[]));
        self
    }

    /// A DATA ACK of server 0 that releases n records.
    pub fn ack(mut self, n: u32) -> Events {
        self.released = self.released.wrapping_add(n);
        self.receive(0, &data_ack(self.released));
        self
    }

    pub fn acks(self, times: usize, n: u32) -> Events {
        (0..times).fold(self, |e, _| e.ack(n))
    }

    /// What `f` adds, again and again.
    pub fn times(self, n: usize, f: impl Fn(Events) -> Events) -> Events {
        (0..n).fold(self, |e, _| f(e))
    }

    pub fn len(&self) -> usize {
        self.octets.len() / session::EVENT_OCTETS
    }
}

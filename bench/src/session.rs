//! A session: an exporter is set up and makes one call after the other, as lent events ask for.

use crate::answer::UNSOUND_STATE;
use crate::exporter::{Batch, Settings, State, MAX_SERVERS};

/// The octets of an event: its call, its server, the length of its message, and 16 octets with which the message begins.
pub const EVENT_OCTETS: usize = 19;

/// How many lengths a message of an event can have, 0 to 16.
const MESSAGE_LENGTHS: u8 = 17;

pub const PUT: u8 = 0;
pub const NEXT_DATA: u8 = 1;
pub const TICK: u8 = 2;
pub const OFFER: u8 = 3;
/// At most as many messages as the octet of the server says.
pub const BATCH: u8 = 4;
pub const RECEIVE: u8 = 5;

/// What a session is set up with; session, Configuration ID, boot time and priorities are fixed.
#[derive(Clone, Copy)]
pub struct Given {
    pub servers: u8,
    pub threshold: u8,
    pub duration: u16,
    pub initial: u32,
}

pub const SESSION: u8 = 7;
pub const CONFIG: u8 = 1;

fn settings(g: Given) -> Settings {
    Settings {
        session: SESSION,
        config: CONFIG,
        boot: 3600,
        initial: g.initial,
        servers: g.servers,
        priorities: [0; MAX_SERVERS],
        threshold: g.threshold,
        duration: g.duration,
    }
}

/// The answer of a batch, its octets and its count.
fn batch_sum(b: Batch) -> u64 {
    b.answer as u64 + b.written as u64 + b.count as u64
}

/// The answer or the octets written.
fn sum(answered: Result<usize, u8>) -> u64 {
    match answered {
        Ok(written) => written as u64,
        Err(answer) => answer as u64,
    }
}

/// The sum of all answers, of the octets written and of the batches' counts.
#[inline(never)]
pub fn session(
    g: Given,
    store: &mut [u8],
    table: &[u8],
    id: u16,
    record: &[u8],
    events: &[u8],
    out: &mut [u8],
) -> u64 {
    let events = events.chunks_exact(EVENT_OCTETS);
    let mut state = match State::set_up(settings(g), store) {
        Ok(state) => state,
        Err(a) => return a as u64 + events.len() as u64 * UNSOUND_STATE as u64,
    };
    let mut total = 0u64;
    for event in events {
        let server = event[1];
        let len = (event[2] % MESSAGE_LENGTHS) as usize;
        total = total.wrapping_add(match event[0] {
            PUT => sum(state.put(store, table, id, record).map(|()| 0)),
            NEXT_DATA => sum(state.next_data(store, out)),
            TICK => sum(state.tick().map(|()| 0)),
            OFFER => sum(state.offer_templates(server, table, out)),
            BATCH => batch_sum(state.send_batch(store, out, server as usize)),
            _ => sum(state.receive(server, &event[3..3 + len], out)),
        });
    }
    total
}

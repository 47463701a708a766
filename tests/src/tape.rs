//! Replay tapes as octets: building them from events, and splitting them into events again.
//!
//! A tape is a count of events (16 bits), then for each event its kind, its server and the length of its body (16
//! bits), then the bodies.

use crate::model::exporter::MAX_SERVERS;

/// An event, the kinds of events, the forms of settings and the limits are the model's.
pub use crate::model::replay::{
    Event, Form, DOWN, MAX_EVENTS, MAX_TAPE_OCTETS, MESSAGE, MIN_EVENTS, NEXT_DATA as NEXT, OCTETS_BEFORE_PRIORITIES,
    OFFER, PUT, SETTINGS, TABLE, TICK,
};

/// Octets of the event count, and of one entry of the contents.
pub const COUNT_OCTETS: usize = 2;
pub const ENTRY_OCTETS: usize = 4;

/// What each kind is called, in reports and in the text form.
pub const KIND_NAMES: [&str; 8] = ["settings", "table", "put", "message", "down", "tick", "next", "offer"];

impl Event {
    pub fn settings(settings: &Settings) -> Event {
        Event { kind: SETTINGS, server: 0, body: settings.octets() }
    }

    pub fn table(table: Vec<u8>) -> Event {
        Event { kind: TABLE, server: 0, body: table }
    }

    pub fn put(template: u16, record: &[u8]) -> Event {
        Event { kind: PUT, server: 0, body: [&template.to_be_bytes(), record].concat() }
    }

    pub fn message(server: u8, message: Vec<u8>) -> Event {
        Event { kind: MESSAGE, server, body: message }
    }

    pub fn down(server: u8) -> Event {
        Event { kind: DOWN, server, body: Vec::new() }
    }

    pub fn tick() -> Event {
        Event { kind: TICK, server: 0, body: Vec::new() }
    }

    pub fn next() -> Event {
        Event { kind: NEXT, server: 0, body: Vec::new() }
    }

    pub fn offer(server: u8) -> Event {
        Event { kind: OFFER, server, body: Vec::new() }
    }

    /// The octets that this event takes in a tape.
    pub fn cost(&self) -> usize {
        ENTRY_OCTETS + self.body.len()
    }
}

/// The settings of a tape as they stand in its first body; nothing here keeps them in their limits.
#[derive(Clone, Debug, PartialEq, Eq)]
pub struct Settings {
    pub session: u8,
    pub configuration: u8,
    pub servers: u8,
    pub threshold: u8,
    pub duration: u16,
    /// The store's length, 1 to 65,536 (the tape holds it less 1).
    pub store: u32,
    pub first_dsn: u32,
    pub boot: u32,
    /// Which priorities stand in the body; the short form leaves out those behind its own.
    pub form: Form,
    pub priorities: [u8; MAX_SERVERS],
}

impl Settings {
    pub fn octets(&self) -> Vec<u8> {
        let mut octets = vec![self.session, self.configuration, self.servers, self.threshold];
        octets.extend_from_slice(&self.duration.to_be_bytes());
        octets.extend_from_slice(&(self.store.wrapping_sub(1) as u16).to_be_bytes());
        octets.extend_from_slice(&self.first_dsn.to_be_bytes());
        octets.extend_from_slice(&self.boot.to_be_bytes());
        octets.extend_from_slice(&self.priorities[..self.form.priorities()]);
        octets
    }

    /// The settings that a body of either form says.
    pub fn from_octets(body: &[u8]) -> Option<Settings> {
        let form = Form::of_length(body.len())?;
        let number16 = |at: usize| u16::from_be_bytes([body[at], body[at + 1]]);
        let number32 = |at: usize| u32::from_be_bytes([body[at], body[at + 1], body[at + 2], body[at + 3]]);
        let mut priorities = [0; MAX_SERVERS];
        priorities[..form.priorities()].copy_from_slice(&body[OCTETS_BEFORE_PRIORITIES..]);
        Some(Settings {
            session: body[0],
            configuration: body[1],
            servers: body[2],
            threshold: body[3],
            duration: number16(4),
            store: u32::from(number16(6)) + 1,
            first_dsn: number32(8),
            boot: number32(12),
            form,
            priorities,
        })
    }
}

/// The tape of some events: the contents first, then the bodies. Nothing here keeps the events sound.
pub fn build(events: &[Event]) -> Vec<u8> {
    let mut tape = (events.len() as u16).to_be_bytes().to_vec();
    for event in events {
        tape.extend_from_slice(&[event.kind, event.server]);
        tape.extend_from_slice(&(event.body.len() as u16).to_be_bytes());
    }
    for event in events {
        tape.extend_from_slice(&event.body);
    }
    tape
}

/// The events of a tape that is cut short or followed by more, as far as they go, and the octets that are left.
/// A body that is cut short is given with the octets that are there.
pub fn split_leniently(tape: &[u8]) -> (Vec<Event>, &[u8]) {
    if tape.len() < COUNT_OCTETS {
        return (Vec::new(), tape);
    }
    let count = usize::from(u16::from_be_bytes([tape[0], tape[1]]));
    let entries: Vec<&[u8]> = tape[COUNT_OCTETS..].chunks_exact(ENTRY_OCTETS).take(count).collect();
    let mut rest = &tape[COUNT_OCTETS + ENTRY_OCTETS * entries.len()..];
    let mut events = Vec::new();
    for entry in entries {
        let wanted = usize::from(u16::from_be_bytes([entry[2], entry[3]]));
        let (body, after) = rest.split_at(wanted.min(rest.len()));
        events.push(Event { kind: entry[0], server: entry[1], body: body.to_vec() });
        rest = after;
    }
    (events, rest)
}

/// The events of a sound tape; of any other tape, the reason why it is not sound.
pub fn split(tape: &[u8]) -> Result<Vec<Event>, String> {
    if tape.len() > MAX_TAPE_OCTETS {
        return Err(format!("the tape has {} octets, more than {MAX_TAPE_OCTETS}", tape.len()));
    }
    if tape.len() < COUNT_OCTETS {
        return Err(format!("the tape has {} octets, too few for an event count", tape.len()));
    }
    let count = usize::from(u16::from_be_bytes([tape[0], tape[1]]));
    if !(MIN_EVENTS..=MAX_EVENTS).contains(&count) {
        return Err(format!("the event count is {count}, not {MIN_EVENTS} to {MAX_EVENTS}"));
    }
    if tape.len() < COUNT_OCTETS + ENTRY_OCTETS * count {
        return Err(format!("the contents of {count} events are cut short"));
    }
    let (events, rest) = split_leniently(tape);
    if !rest.is_empty() {
        return Err(format!("{} octets follow the last body", rest.len()));
    }
    if build(&events) != tape {
        return Err("the bodies are cut short".to_string());
    }
    for (place, event) in events.iter().enumerate() {
        judge(place, event).map_err(|reason| format!("event {place}: {reason}"))?;
    }
    Ok(events)
}

/// The rules of a single event at its place.
fn judge(place: usize, event: &Event) -> Result<(), String> {
    let length = event.body.len();
    match event.kind {
        8.. => return Err(format!("no kind {}", event.kind)),
        SETTINGS if place != 0 => return Err("settings stand only first".to_string()),
        TABLE if place != 1 => return Err("a table stands only second".to_string()),
        2.. if place == 0 => return Err("settings must stand first".to_string()),
        2.. if place == 1 => return Err("a table must stand second".to_string()),
        SETTINGS if Form::of_length(length).is_none() => {
            let [short, long] = Form::ALL.map(Form::octets);
            return Err(format!("settings of {length} octets, not {short} or {long}"));
        }
        PUT if length < 2 => return Err(format!("a put of {length} octets has no template ID")),
        DOWN..=OFFER if length != 0 => return Err(format!("a body of {length} octets where none belongs")),
        _ => {}
    }
    let names_server = matches!(event.kind, MESSAGE | DOWN | OFFER);
    if !names_server && event.server != 0 {
        return Err(format!("server {} where none is named", event.server));
    }
    Ok(())
}

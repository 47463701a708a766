//! The replay of a tape: its soundness, its events and the program's whole output.

use super::answer;
use super::exporter::{Exporter, Reply, Settings, MAX_SERVERS};
use super::octets::Reader;

/// The most octets of a tape.
pub const MAX_TAPE_OCTETS: usize = 32_768;
/// The fewest and the most events of a tape.
pub const MIN_EVENTS: usize = 2;
pub const MAX_EVENTS: usize = 512;
/// The octets of the settings' body before the priorities.
pub const OCTETS_BEFORE_PRIORITIES: usize = 16;
/// The priorities of the settings' short form; the long form has one for each server that a session can have.
pub const SHORT_FORM_PRIORITIES: usize = 8;
/// The octets of the program's output buffer.
pub const OUTPUT_OCTETS: usize = 16_392;
pub const TAPE_REFUSED: &str = "tape refused\n";

pub const SETTINGS: u8 = 0;
pub const TABLE: u8 = 1;
pub const PUT: u8 = 2;
pub const MESSAGE: u8 = 3;
pub const DOWN: u8 = 4;
pub const TICK: u8 = 5;
pub const NEXT_DATA: u8 = 6;
pub const OFFER: u8 = 7;

/// The form of the settings' body, told by its length alone: 24 octets with 8 priorities, or 32 with 16.
#[derive(Clone, Copy, Debug, PartialEq, Eq)]
pub enum Form {
    Short,
    Long,
}

impl Form {
    pub const ALL: [Form; 2] = [Form::Short, Form::Long];

    /// How many priorities the form has, and so the most servers that it can say.
    pub const fn priorities(self) -> usize {
        match self {
            Form::Short => SHORT_FORM_PRIORITIES,
            Form::Long => MAX_SERVERS,
        }
    }

    /// The octets of a body of this form.
    pub const fn octets(self) -> usize {
        OCTETS_BEFORE_PRIORITIES + self.priorities()
    }

    /// The form of a body of that many octets; `None` for a length that is of neither.
    pub fn of_length(octets: usize) -> Option<Form> {
        Form::ALL.into_iter().find(|form| form.octets() == octets)
    }
}

/// One event of a tape.
#[derive(Clone, Debug, PartialEq, Eq)]
pub struct Event {
    pub kind: u8,
    pub server: u8,
    pub body: Vec<u8>,
}

/// One event's outcome: its answer and the octets that it wrote.
#[derive(Clone, Debug, PartialEq, Eq)]
pub struct Outcome {
    pub answer: u8,
    pub written: Vec<u8>,
}

impl Outcome {
    /// An outcome without octets.
    fn plain(answer: u8) -> Outcome {
        Outcome { answer, written: Vec::new() }
    }
}

/// The events of a sound tape; `None` (22) for a tape that is not.
pub fn read_tape(tape: &[u8]) -> Option<Vec<Event>> {
    if tape.len() > MAX_TAPE_OCTETS {
        return None;
    }
    let mut reader = Reader::new(tape);
    let count = usize::from(reader.u16()?);
    if !(MIN_EVENTS..=MAX_EVENTS).contains(&count) {
        return None;
    }
    let mut contents = Vec::new();
    for _ in 0..count {
        contents.push((reader.u8()?, reader.u8()?, reader.u16()?));
    }
    let mut events = Vec::new();
    for (place, (kind, server, length)) in contents.into_iter().enumerate() {
        let body = reader.take(usize::from(length))?.to_vec();
        let event = Event { kind, server, body };
        if !is_sound_event(place, &event) {
            return None;
        }
        events.push(event);
    }
    reader.rest.is_empty().then_some(events)
}

/// Whether kind, server and body length go together at this place.
fn is_sound_event(place: usize, event: &Event) -> bool {
    let kind_in_place = match place {
        0 => event.kind == SETTINGS,
        1 => event.kind == TABLE,
        _ => (PUT..=OFFER).contains(&event.kind),
    };
    let names_server = [MESSAGE, DOWN, OFFER].contains(&event.kind);
    let body_fits = match event.kind {
        SETTINGS => Form::of_length(event.body.len()).is_some(),
        PUT => event.body.len() >= 2,
        DOWN..=OFFER => event.body.is_empty(),
        _ => true,
    };
    kind_in_place && (names_server || event.server == 0) && body_fits
}

/// The settings and the store's length that event 0's body states: session, configuration,
/// servers, threshold, duration, store length minus 1, first DSN, boot time, 8 or 16 priorities. The
/// priorities that the short form does not have are 0.
pub fn read_settings(body: &[u8]) -> Option<(Settings, usize)> {
    let form = Form::of_length(body.len())?;
    let mut reader = Reader::new(body);
    let session = reader.u8()?;
    let configuration_id = reader.u8()?;
    let servers = reader.u8()?;
    let threshold = reader.u8()?;
    let duration = reader.u16()?;
    let store_length = usize::from(reader.u16()?) + 1;
    let first_dsn = reader.u32()?;
    let boot_time = reader.u32()?;
    let mut priorities = [0; MAX_SERVERS];
    priorities[..form.priorities()].copy_from_slice(reader.take(form.priorities())?);
    let settings =
        Settings { session, configuration_id, boot_time, first_dsn, servers, priorities, threshold, duration };
    reader.rest.is_empty().then_some((settings, store_length))
}

/// A run past its event 0: the exporter, the store that it lends, the table of event 1 and the
/// program's output buffer.
#[derive(Clone, Debug, PartialEq, Eq)]
pub struct Replay {
    pub exporter: Exporter,
    pub store: Vec<u8>,
    pub table: Vec<u8>,
    pub output: Vec<u8>,
}

impl Replay {
    /// Event 0: set-up over a store of the length that the settings name, or its refusal.
    pub fn set_up(body: &[u8]) -> Result<Replay, u8> {
        let (_, store_length) = read_settings(body).ok_or(answer::UNSOUND_TAPE)?;
        Replay::set_up_over(body, vec![0; store_length])
    }

    /// Set-up over any store, or its refusal, which is 20 too for more servers than the form has priorities.
    pub fn set_up_over(body: &[u8], store: Vec<u8>) -> Result<Replay, u8> {
        let form = Form::of_length(body.len()).ok_or(answer::UNSOUND_TAPE)?;
        let (settings, _) = read_settings(body).ok_or(answer::UNSOUND_TAPE)?;
        if usize::from(settings.servers) > form.priorities() {
            return Err(answer::SETTINGS_OUTSIDE_LIMITS);
        }
        let exporter = Exporter::set_up(settings, &store)?;
        Ok(Replay { exporter, store, table: Vec::new(), output: vec![0; OUTPUT_OCTETS] })
    }

    /// Event 1: 21 as put would answer it, or 0; the table is lent to the later events.
    pub fn take_table(&mut self, t: &[u8]) -> u8 {
        if !self.exporter.accepts_table(t) {
            return answer::UNSOUND_TABLE;
        }
        self.table = t.to_vec();
        answer::DONE
    }

    /// Events 2 and later, each the call of its kind.
    pub fn event(&mut self, kind: u8, server: u8, body: &[u8]) -> Outcome {
        match kind {
            PUT => self.put(body),
            MESSAGE => {
                let reply = self.exporter.receive(server, body, &mut self.output);
                self.outcome(reply)
            }
            DOWN => Outcome::plain(self.exporter.line_down(server)),
            TICK => Outcome::plain(self.exporter.tick()),
            NEXT_DATA => {
                let reply = self.exporter.next_data(&self.store, &mut self.output);
                self.outcome(reply)
            }
            OFFER => {
                let reply = self.exporter.offer_templates(server, &self.table, &mut self.output);
                self.outcome(reply)
            }
            _ => Outcome::plain(answer::UNSOUND_TAPE),
        }
    }

    /// A put's body is the template ID, then the record.
    fn put(&mut self, body: &[u8]) -> Outcome {
        let mut reader = Reader::new(body);
        let Some(template_id) = reader.u16() else {
            return Outcome::plain(answer::UNSOUND_TAPE);
        };
        let store = &mut self.store;
        Outcome::plain(self.exporter.put(store, &self.table, template_id, reader.rest))
    }

    /// The answer with the octets that the call wrote at the output's start.
    fn outcome(&self, reply: Reply) -> Outcome {
        let written = self.output.get(..reply.written).unwrap_or(&[]).to_vec();
        Outcome { answer: reply.answer, written }
    }
}

/// The line of an event: place and answer in decimal, and what was written in hex.
pub fn line(place: usize, outcome: &Outcome) -> String {
    let mut line = format!("{place} {}", outcome.answer);
    if !outcome.written.is_empty() {
        line.push(' ');
        for octet in &outcome.written {
            line.push_str(&format!("{octet:02x}"));
        }
    }
    line.push('\n');
    line
}

/// The program's whole standard output for a tape. An unsound tape gives `tape refused` alone; if
/// event 0 or 1 is not answered 0 the run ends there.
pub fn replay(tape: &[u8]) -> Vec<u8> {
    let text = match read_tape(tape) {
        Some(events) => run(&events),
        None => TAPE_REFUSED.to_string(),
    };
    text.into_bytes()
}

/// The lines of a sound tape's events.
fn run(events: &[Event]) -> String {
    let [settings, table, later @ ..] = events else {
        return String::new();
    };
    let mut replay = match Replay::set_up(&settings.body) {
        Ok(replay) => replay,
        Err(refusal) => return line(0, &Outcome::plain(refusal)),
    };
    let mut text = line(0, &Outcome::plain(answer::DONE));
    let table_answer = replay.take_table(&table.body);
    text.push_str(&line(1, &Outcome::plain(table_answer)));
    if table_answer != answer::DONE {
        return text;
    }
    for (place, event) in (2..).zip(later) {
        let outcome = replay.event(event.kind, event.server, &event.body);
        text.push_str(&line(place, &outcome));
    }
    text
}

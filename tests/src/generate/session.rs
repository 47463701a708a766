//! A session while it is being made up: the events so far, and the model's exporter after them, which tells what
//! would be meaningful next.

use crate::messages::{self, MessageParts};
use crate::model::exporter::{Exporter, ServerState, MAX_SERVERS};
use crate::model::replay::Replay;
use crate::random::Random;
use crate::tables::{Table, Template};
use crate::tape::{self, Event, Settings};

pub struct Session {
    pub random: Random,
    pub settings: Settings,
    pub table: Table,
    replay: Replay,
    events: Vec<Event>,
    /// The octets that the tape has so far.
    octets: usize,
    /// The most events that this tape shall have.
    most_events: usize,
}

impl Session {
    /// A session whose settings and table the exporter takes.
    pub fn new(random: Random, settings: Settings, table: Table) -> Session {
        let octets = table.octets();
        let mut replay = Replay::set_up(&settings.octets()).expect("settings in limits");
        assert_eq!(replay.take_table(&octets), 0, "a sound table of the session's configuration");
        let events = vec![Event::settings(&settings), Event::table(octets)];
        let octets = tape::COUNT_OCTETS + events.iter().map(Event::cost).sum::<usize>();
        Session { random, settings, table, replay, events, octets, most_events: tape::MAX_EVENTS }
    }

    /// Keeps the tape to at most that many events.
    pub fn limit(mut self, most_events: usize) -> Session {
        self.most_events = most_events;
        self
    }

    pub fn exporter(&self) -> &Exporter {
        &self.replay.exporter
    }

    /// Another event has a place.
    pub fn goes_on(&self) -> bool {
        self.events.len() < self.most_events && self.octets + tape::ENTRY_OCTETS <= tape::MAX_TAPE_OCTETS
    }

    /// Events that still have a place.
    pub fn events_left(&self) -> usize {
        self.most_events - self.events.len()
    }

    /// Octets that are left for the bodies if every event that still has a place is to have its entry.
    pub fn body_octets_left(&self) -> usize {
        (tape::MAX_TAPE_OCTETS - self.octets).saturating_sub(tape::ENTRY_OCTETS * self.events_left())
    }

    /// Adds an event and runs it; an event that has no place is left out.
    pub fn add(&mut self, event: Event) {
        if !self.goes_on() || self.octets + event.cost() > tape::MAX_TAPE_OCTETS {
            return;
        }
        self.replay.event(event.kind, event.server, &event.body);
        self.octets += event.cost();
        self.events.push(event);
    }

    pub fn message(&mut self, server: u8, parts: &MessageParts) {
        self.add(Event::message(server, parts.octets()));
    }

    pub fn events(self) -> Vec<Event> {
        self.events
    }

    pub fn tape(self) -> Vec<u8> {
        tape::build(&self.events)
    }
}

/// What the exporter's state says about servers and records.
impl Session {
    /// The servers for which a state holds.
    pub fn servers_where(&self, holds: impl Fn(ServerState) -> bool) -> Vec<u8> {
        (0..self.settings.servers).filter(|server| holds(self.exporter().state(*server))).collect()
    }

    /// One of the servers for which a state holds.
    pub fn server_where(&mut self, holds: impl Fn(ServerState) -> bool) -> Option<u8> {
        let servers = self.servers_where(holds);
        (!servers.is_empty()).then(|| *self.random.pick(&servers))
    }

    /// Any server.
    pub fn any_server(&mut self) -> u8 {
        self.random.below(usize::from(self.settings.servers)) as u8
    }

    /// A server number that is not below the count.
    pub fn no_server(&mut self) -> u8 {
        let count = self.settings.servers;
        let most = MAX_SERVERS as u8;
        *self.random.pick(&[count, count, count + 1, most, most + 1, 128, 255])
    }

    pub fn any_template(&mut self) -> Template {
        self.random.pick(&self.table.templates).clone()
    }

    /// A template ID that is not in the table.
    pub fn no_template(&mut self) -> u16 {
        loop {
            let near = self.random.pick(&self.table.templates).id;
            let id = *self.random.pick(&[
                near.wrapping_add(1),
                near.swap_bytes(),
                near ^ 0x0100,
                near ^ 0x8000,
                self.table.configuration.into(),
            ]);
            if self.table.templates.iter().all(|template| template.id != id) {
                return id;
            }
            if self.random.once_in(8) {
                return self.unused_template_id();
            }
        }
    }

    fn unused_template_id(&self) -> u16 {
        (1000..).find(|id| self.table.templates.iter().all(|template| template.id != *id)).unwrap_or(0)
    }

    /// The DSN whose acknowledgement releases `count` records.
    pub fn dsn_releasing(&self, count: u32) -> u32 {
        self.exporter().first_held_dsn().wrapping_add(count).wrapping_sub(1)
    }

    pub fn ack(&mut self, server: u8, dsn: u32) {
        let parts = MessageParts::data_ack(self.settings.session, dsn, self.settings.configuration);
        self.message(server, &parts);
    }

    /// Takes a server one step nearer to being agreed; an agreed one begins anew.
    pub fn step_up(&mut self, server: u8) {
        let session = self.settings.session;
        match self.exporter().state(server) {
            ServerState::Started => self.add(Event::offer(server)),
            ServerState::Offered => {
                self.message(server, &MessageParts::final_tmpl_data_ack(session, self.settings.configuration))
            }
            _ => self.message(server, &MessageParts::bare(messages::START, session)),
        }
    }

    /// Takes a server all the way to being agreed.
    pub fn bring_up(&mut self, server: u8) {
        for _ in 0..3 {
            if self.exporter().state(server) != ServerState::Agreed {
                self.step_up(server);
            }
        }
    }
}

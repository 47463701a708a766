//! The calls after a batch, made up with the model's exporter beside them: each shows another part of the state.

use crate::messages::{self, MessageParts};
use crate::model::exporter::{Exporter, ServerState};
use crate::model::replay::Replay;
use crate::random::Random;
use crate::tape::{Event, PUT};

/// The most events that are made up.
const MOST: usize = 12;

/// Events while they are made up, and the model's exporter after them.
struct Later<'a> {
    random: &'a mut Random,
    replay: Replay,
    /// The events before the batch.
    before: &'a [Event],
    events: Vec<Event>,
}

/// Up to three things that happen after a batch which has left this.
pub fn events(random: &mut Random, replay: Replay, before: &[Event]) -> Vec<Event> {
    let things = random.between(1, 3);
    let mut later = Later { random, replay, before, events: Vec::new() };
    for _ in 0..things {
        later.step();
    }
    later.events.truncate(MOST);
    later.events
}

impl Later<'_> {
    fn exporter(&self) -> &Exporter {
        &self.replay.exporter
    }

    fn add(&mut self, event: Event) {
        self.replay.event(event.kind, event.server, &event.body);
        self.events.push(event);
    }

    fn message(&mut self, server: u8, parts: &MessageParts) {
        self.add(Event::message(server, parts.octets()));
    }

    /// One thing that happens.
    fn step(&mut self) {
        match self.random.below(8) {
            0 => self.next(),
            1 | 2 => self.acknowledge(),
            3 => self.ticks(),
            4 => self.put_again(),
            _ => self.take_over(),
        }
    }

    /// One next data call, or some.
    fn next(&mut self) {
        for _ in 0..self.random.between(1, 3) {
            self.add(Event::next());
        }
    }

    /// The active server acknowledges all that it was sent, one more or one less, none, or any number; then data.
    fn acknowledge(&mut self) {
        let reached = self.exporter().reached as u32;
        let any = self.random.below(self.exporter().queue.len() + 2) as u32;
        let count = *self.random.pick(&[reached, reached, reached + 1, reached.saturating_sub(1), 0, any]);
        let dsn = self.exporter().first_held_dsn().wrapping_add(count).wrapping_sub(1);
        let settings = &self.exporter().settings;
        let parts = MessageParts::data_ack(settings.session, dsn, settings.configuration_id);
        self.message(self.exporter().active.unwrap_or(0), &parts);
        self.next();
    }

    /// Ticks until the time is up, if that is not far off; then data.
    fn ticks(&mut self) {
        let ticks = self.exporter().settings.duration.min(5);
        for _ in 0..ticks {
            self.add(Event::tick());
        }
        self.next();
    }

    /// A put of a record that was put before; then data.
    fn put_again(&mut self) {
        let puts: Vec<&Event> = self.before.iter().filter(|event| event.kind == PUT).collect();
        if !puts.is_empty() {
            let put = (*self.random.pick(&puts)).clone();
            self.add(put);
        }
        self.next();
    }

    /// The active server goes down where another is agreed or comes up; then data.
    fn take_over(&mut self) {
        let active = self.exporter().active.unwrap_or(0);
        let others: Vec<u8> = (0..self.exporter().settings.servers).filter(|server| *server != active).collect();
        if !others.is_empty() {
            let other = *self.random.pick(&others);
            self.bring_up(other);
        }
        self.add(Event::down(active));
        if others.is_empty() {
            self.bring_up(active);
        }
        for _ in 0..self.random.between(1, 6) {
            self.add(Event::next());
        }
    }

    /// Takes a server all the way to being agreed.
    fn bring_up(&mut self, server: u8) {
        let (session, configuration) = (self.exporter().settings.session, self.exporter().settings.configuration_id);
        if self.exporter().state(server) != ServerState::Agreed {
            self.message(server, &MessageParts::bare(messages::START, session));
            self.add(Event::offer(server));
            self.message(server, &MessageParts::final_tmpl_data_ack(session, configuration));
        }
    }
}

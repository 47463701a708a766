//! Tapes that are refused, each for one reason, and tapes that are just not refused.

use super::session::Session;
use super::{everyday_session, random_of};
use crate::random::Random;
use crate::tape::{
    self, Event, Form, COUNT_OCTETS, ENTRY_OCTETS, MAX_EVENTS, MAX_TAPE_OCTETS, OCTETS_BEFORE_PRIORITIES,
};

/// One way to make a tape that is refused, or nearly.
struct Breakage {
    name: &'static str,
    refused: bool,
    make: fn(&mut Random, Vec<Event>) -> Vec<u8>,
}

const fn refused(name: &'static str, make: fn(&mut Random, Vec<Event>) -> Vec<u8>) -> Breakage {
    Breakage { name, refused: true, make }
}

const fn near(name: &'static str, make: fn(&mut Random, Vec<Event>) -> Vec<u8>) -> Breakage {
    Breakage { name, refused: false, make }
}

const BREAKAGES: [Breakage; 60] = [
    refused("no octets", |_, _| Vec::new()),
    refused("one octet", |random, _| random.octets(1)),
    refused("a count alone", |_, events| tape::build(&events)[..COUNT_OCTETS].to_vec()),
    refused("no events", |_, _| vec![0, 0]),
    refused("one event", |_, events| tape::build(&events[..1])),
    near("two events", |_, events| tape::build(&events[..2])),
    near("three events", |_, events| tape::build(&events[..3])),
    near("512 events", |_, events| tape::build(&many(events, MAX_EVENTS))),
    refused("513 events", |_, events| tape::build(&many(events, MAX_EVENTS + 1))),
    refused("65,535 counted", |_, events| with_count(&events, u16::MAX)),
    refused("a count of 1 before more", |_, events| with_count(&events, 1)),
    refused("count one too large", |_, events| with_count(&events, events.len() as u16 + 1)),
    refused("count one too small", |_, events| with_count(&events, events.len() as u16 - 1)),
    refused("count with its octets swapped", |_, events| with_count(&events, (events.len() as u16).swap_bytes())),
    refused("a body length one too large", |random, events| longer_entry(random, &events, 1)),
    refused("a body length one too small", |random, events| shorter_entry(random, &events)),
    refused("a body length of 65,535", |random, events| longer_entry(random, &events, 65_535)),
    refused("one octet too many", |random, events| [tape::build(&events), random.octets(1)].concat()),
    refused("one zero too many", |_, events| [tape::build(&events), vec![0]].concat()),
    refused("one octet too few", |_, events| cut(&events, 1)),
    refused("cut anywhere", |random, events| cut_anywhere(random, &events)),
    refused("cut in the contents", |random, events| {
        tape::build(&events)[..random.between(3, COUNT_OCTETS + ENTRY_OCTETS * events.len() - 1)].to_vec()
    }),
    refused("followed by itself", |_, events| [tape::build(&events), tape::build(&events)].concat()),
    refused("a server with the settings", |random, events| {
        changed(events, 0, |event| event.server = 1 << random.below(8))
    }),
    refused("a server with the table", |random, events| {
        changed(events, 1, |event| event.server = 1 << random.below(8))
    }),
    refused("a server with a put", |random, events| with_server(random, events, tape::PUT)),
    refused("a server with a tick", |random, events| with_server(random, events, tape::TICK)),
    refused("a server with a next", |random, events| with_server(random, events, tape::NEXT)),
    near("any server with a message", |random, events| with_server(random, events, tape::MESSAGE)),
    near("any server with a down", |random, events| with_server(random, events, tape::DOWN)),
    near("any server with an offer", |random, events| with_server(random, events, tape::OFFER)),
    refused("another kind first", |random, events| {
        changed(events, 0, |event| event.kind = *random.pick(&[1, 2, 3, 4, 5, 6, 7, 8, 255]))
    }),
    refused("another kind second", |random, events| {
        changed(events, 1, |event| event.kind = *random.pick(&[0, 2, 3, 4, 5, 6, 7, 8, 255]))
    }),
    refused("settings and table swapped", |_, events| swapped(events)),
    refused("settings again", |random, events| repeated(random, events, 0)),
    refused("a table again", |random, events| repeated(random, events, 1)),
    refused("kind 8 or more", |random, events| {
        later(random, events, |random, event| event.kind = *random.pick(&[8, 9, 16, 128, 255]))
    }),
    refused("settings of 23 octets", |_, events| with_settings(events, Form::Short.octets() - 1)),
    near("settings of 24 octets", |_, events| with_settings(events, Form::Short.octets())),
    refused("settings of 25 octets", |_, events| with_settings(events, Form::Short.octets() + 1)),
    refused("settings of 31 octets", |_, events| with_settings(events, Form::Long.octets() - 1)),
    near("settings of 32 octets", |_, events| with_settings(events, Form::Long.octets())),
    refused("settings of 33 octets", |_, events| with_settings(events, Form::Long.octets() + 1)),
    refused("settings between the two forms", |random, events| {
        with_settings(events, random.between(Form::Short.octets() + 1, Form::Long.octets() - 1))
    }),
    refused("settings of no octets", |_, events| with_settings(events, 0)),
    refused("settings of 8 octets", |_, events| with_settings(events, 8)),
    refused("settings without priorities", |_, events| with_settings(events, OCTETS_BEFORE_PRIORITIES)),
    refused("settings of 40 octets", |_, events| with_settings(events, 40)),
    refused("settings of 64 octets", |_, events| with_settings(events, 64)),
    refused("short settings counted as long", |_, events| counted_as(events, Form::Short, Form::Long)),
    refused("long settings counted as short", |_, events| counted_as(events, Form::Long, Form::Short)),
    refused("a put of no octets", |random, events| {
        with_event(random, events, Event { kind: tape::PUT, server: 0, body: Vec::new() })
    }),
    refused("a put of 1 octet", |random, events| {
        with_event(random, events, Event { kind: tape::PUT, server: 0, body: vec![3] })
    }),
    near("a put of 2 octets", |random, events| {
        with_event(random, events, Event { kind: tape::PUT, server: 0, body: vec![0, 3] })
    }),
    refused("a body where none belongs", with_body),
    near("32,768 octets", |random, events| padded_to(random, events, MAX_TAPE_OCTETS)),
    refused("32,769 octets", |random, events| padded_to(random, events, MAX_TAPE_OCTETS + 1)),
    refused("32,768 octets and one more", |random, events| {
        [padded_to(random, events, MAX_TAPE_OCTETS), vec![0]].concat()
    }),
    refused("60,000 octets", |random, events| padded_to(random, events, 60_000)),
    refused("more octets than a pipe holds", |_, events| [tape::build(&events), vec![0; 200_000]].concat()),
];

/// How many breakages there are.
pub fn count() -> u64 {
    BREAKAGES.len() as u64
}

/// The tape of a seed; each breakage comes round in turn.
pub fn tape(profile: usize, seed: u64) -> Vec<u8> {
    make(profile, seed).2
}

/// The tape of a seed with its breakage's name and whether it is refused.
fn make(profile: usize, seed: u64) -> (&'static str, bool, Vec<u8>) {
    let breakage = &BREAKAGES[(seed % count()) as usize];
    let mut random = random_of(profile, seed);
    let events = sample(random_of(profile, seed)).events();
    (breakage.name, breakage.refused, (breakage.make)(&mut random, events))
}

/// A short sound tape in which every kind of event stands.
fn sample(random: Random) -> Session {
    let mut session = everyday_session(random);
    session.bring_up(0);
    for _ in 0..session.random.between(1, 4) {
        super::actions::put(&mut session, 12);
        session.add(Event::next());
        session.add(Event::tick());
    }
    session.ack(0, session.dsn_releasing(1));
    session.add(Event::down(0));
    session.add(Event::offer(0));
    session
}

/// The events, then ticks up to that many.
fn many(mut events: Vec<Event>, count: usize) -> Vec<Event> {
    events.resize(count, Event::tick());
    events
}

fn with_count(events: &[Event], count: u16) -> Vec<u8> {
    let mut tape = tape::build(events);
    tape[..COUNT_OCTETS].copy_from_slice(&count.to_be_bytes());
    tape
}

/// The body length of one event made larger, in the contents alone.
fn longer_entry(random: &mut Random, events: &[Event], length: u16) -> Vec<u8> {
    let place = random.below(events.len());
    let mut tape = tape::build(events);
    let at = COUNT_OCTETS + ENTRY_OCTETS * place + 2;
    let longer = (events[place].body.len() as u16).saturating_add(length);
    tape[at..at + 2].copy_from_slice(&longer.to_be_bytes());
    tape
}

/// The body length of one event that has a body made one smaller, in the contents alone.
fn shorter_entry(random: &mut Random, events: &[Event]) -> Vec<u8> {
    let places: Vec<usize> = (0..events.len()).filter(|place| !events[*place].body.is_empty()).collect();
    let place = *random.pick(&places);
    let mut tape = tape::build(events);
    let at = COUNT_OCTETS + ENTRY_OCTETS * place + 2;
    let shorter = events[place].body.len() as u16 - 1;
    tape[at..at + 2].copy_from_slice(&shorter.to_be_bytes());
    tape
}

fn cut(events: &[Event], octets: usize) -> Vec<u8> {
    let mut tape = tape::build(events);
    tape.truncate(tape.len() - octets);
    tape
}

fn cut_anywhere(random: &mut Random, events: &[Event]) -> Vec<u8> {
    let length = tape::build(events).len();
    cut(events, random.between(1, length))
}

/// The tape with one event changed.
fn changed(mut events: Vec<Event>, place: usize, change: impl FnOnce(&mut Event)) -> Vec<u8> {
    change(&mut events[place]);
    tape::build(&events)
}

/// The tape with settings of that many octets; further ones are 1.
fn with_settings(events: Vec<Event>, octets: usize) -> Vec<u8> {
    changed(events, 0, |event| event.body.resize(octets, 1))
}

/// Settings of one form whose body length, in the contents alone, is that of another.
fn counted_as(events: Vec<Event>, form: Form, counted: Form) -> Vec<u8> {
    let mut tape = with_settings(events, form.octets());
    let at = COUNT_OCTETS + 2;
    tape[at..at + 2].copy_from_slice(&(counted.octets() as u16).to_be_bytes());
    tape
}

/// The tape with one event after the table changed.
fn later(random: &mut Random, events: Vec<Event>, change: fn(&mut Random, &mut Event)) -> Vec<u8> {
    let place = random.between(2, events.len() - 1);
    changed(events, place, |event| change(random, event))
}

/// A server octet that is not 0 with an event of that kind.
fn with_server(random: &mut Random, events: Vec<Event>, kind: u8) -> Vec<u8> {
    let places: Vec<usize> = (0..events.len()).filter(|place| events[*place].kind == kind).collect();
    let place = *random.pick(&places);
    let [short, long] = Form::ALL.map(|form| form.priorities() as u8);
    let server = *random.pick(&[1, 2, short - 1, short, long - 1, long, 128, 255]);
    changed(events, place, |event| event.server = server)
}

fn swapped(mut events: Vec<Event>) -> Vec<u8> {
    events.swap(0, 1);
    tape::build(&events)
}

/// An event put in at a place after the table.
fn with_event(random: &mut Random, mut events: Vec<Event>, event: Event) -> Vec<u8> {
    let place = random.between(2, events.len());
    events.insert(place, event);
    tape::build(&events)
}

/// The settings or the table once more, later.
fn repeated(random: &mut Random, events: Vec<Event>, place: usize) -> Vec<u8> {
    let copy = events[place].clone();
    with_event(random, events, copy)
}

/// A down, tick, next or offer with octets.
fn with_body(random: &mut Random, events: Vec<Event>) -> Vec<u8> {
    let kind = *random.pick(&[tape::DOWN, tape::TICK, tape::NEXT, tape::OFFER]);
    let count = *random.pick(&[1, 1, 2, 4]);
    let body = random.octets(count);
    with_event(random, events, Event { kind, server: 0, body })
}

/// The tape with a last message that makes it exactly so long.
fn padded_to(random: &mut Random, mut events: Vec<Event>, octets: usize) -> Vec<u8> {
    let room = octets - tape::build(&events).len() - ENTRY_OCTETS;
    events.push(Event::message(0, random.octets(room)));
    tape::build(&events)
}

#[cfg(test)]
mod tests {
    use super::*;
    use crate::model::replay;

    #[test]
    fn every_breakage_is_refused_and_every_near_miss_is_not() {
        for seed in 0..20 * count() {
            let (name, refused, tape) = make(0, seed);
            assert_eq!(replay::read_tape(&tape).is_none(), refused, "{name}, seed {seed}");
            assert_eq!(tape::split(&tape).is_err(), refused, "{name}, seed {seed}");
        }
    }
}

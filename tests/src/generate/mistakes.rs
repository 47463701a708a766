//! Tests that the tapes of a default run tell programs with one mistake from the right one.

mod servers;

use super::records;
use super::situations::{fields, sessions, set_up};
use super::tables::all_turned;
use crate::messages::{DATA_ACK, FINAL_TMPL_DATA_ACK, START, START_NEGOTIATE, STOP};
use crate::model::answer::{DONE, DSN_NOT_ACKNOWLEDGEABLE, QUEUE_FULL, RECORD_INVALID, STORE_FULL};
use crate::model::exporter::{Exporter, ServerState, LARGEST_STORE};
use crate::model::record::{field_length, find_template};
use crate::model::replay::{Outcome, Replay};
use crate::model::table::is_sound;
use crate::tables::{Order, Table, BLOB, BOOLEAN, STRING, ZERO_STRING};
use crate::tape::{Event, MESSAGE, NEXT, OFFER, PUT, TICK};
use std::collections::BTreeSet;
use std::ops::Range;

/// How many tapes must tell each mistake.
const LEAST: usize = 20;

/// A program with a mistake while it runs: a replay, and the servers that the mistake remembers.
struct Program {
    replay: Replay,
    marked: BTreeSet<u8>,
}

/// A mistake: what the program does at first that the right one does not, and how it answers an event.
struct Mistake {
    name: &'static str,
    begin: fn(&mut Replay),
    event: fn(&mut Program, &Event) -> Outcome,
}

/// A mistake that has no part in the set-up.
const fn mistake(name: &'static str, event: fn(&mut Program, &Event) -> Outcome) -> Mistake {
    Mistake { name, begin: |_| {}, event }
}

const MISTAKES: [Mistake; 47] = [
    mistake("STOP starts a closed server", |program, event| program.stop_from(ServerState::Closed, event)),
    mistake("STOP leaves a started server started", |program, event| program.stop_from(ServerState::Started, event)),
    mistake("STOP starts an offered server", |program, event| program.stop_from(ServerState::Offered, event)),
    mistake("STOP starts an agreed server", |program, event| program.stop_from(ServerState::Agreed, event)),
    mistake("STOP starts a late server", |program, event| program.stop_from(ServerState::Late, event)),
    mistake("a late server that stops and starts is late again", Program::late_again),
    mistake("START leaves a late server late", Program::start_of_the_late),
    mistake("START NEGOTIATE leaves other servers late", Program::negotiation_beside_the_late),
    mistake("FINAL TMPL DATA ACK is taken from a late server", Program::agreement_of_the_late),
    Mistake { name: "the threshold is the server count", begin: threshold_of_servers, event: Program::right },
    Mistake { name: "every store has 65,536 octets", begin: largest_store, event: Program::right },
    mistake("an acknowledgement is tested against sent", Program::acknowledgement_of_sent),
    mistake("DSNs are compared as plain numbers", Program::plain_numbers),
    mistake("D is set on a resend to the same server", Program::d_on_resends),
    mistake("S is set only on the first writing", |program, event| {
        program.sets_s(event, |before| is_due(before) && before.reached == 0)
    }),
    mistake("S is set on every resend of the first held record", |program, event| {
        program.sets_s(event, |before| before.sent == 0 && (is_due(before) || before.reached > 0))
    }),
    mistake("S is set on every record until the first release", |program, event| program.sets_s(event, is_due)),
    mistake("S is kept after a release", |program, event| program.sets_s(event, |before| before.sent == 0)),
    mistake("S is set again once all that was sent is released", |program, event| {
        program.sets_s(event, |before| before.sent == 0 && (is_due(before) || before.reached == 0))
    }),
    mistake("S is cleared by an acknowledgement of nothing", |program, event| {
        program.clears_s(event, |event, before, after| is_ack(event) && before.released == after.released)
    }),
    mistake("S is cleared by a tick's resend", |program, event| {
        program.clears_s(event, |event, before, after| {
            event.kind == TICK && before.active == after.active && before.sent > after.sent
        })
    }),
    mistake("S is not set in an activation that begins with an empty queue", |program, event| {
        program.clears_s(event, |_, before, after| before.active != after.active && after.queue.is_empty())
    }),
    mistake("a new activation of the same server leaves S as it was", Program::s_once_for_a_server),
    mistake("what was sent is dropped at failover", Program::drop_at_failover),
    mistake("a late server is active again at once", Program::straight_back),
    mistake("a timer that runs out leaves the active server agreed", Program::never_late),
    mistake("the second run has the record's octets one off", |program, event| {
        program.copies(event, |right| Runs { second: right.second.start - 1..right.second.end - 1, ..right })
    }),
    mistake("the second run is left out", |program, event| {
        program.copies(event, |right| Runs { second: 0..0, ..right })
    }),
    mistake("the second run begins at place 1", |program, event| {
        program.copies(event, |right| Runs { second_place: 1, ..right })
    }),
    mistake("the first run is one octet too long", |program, event| {
        program.copies(event, |right| right.with_first(|octets| octets + 1))
    }),
    mistake("the first run is one octet too short", |program, event| {
        program.copies(event, |right| right.with_first(|octets| octets - 1))
    }),
    mistake("the octet of place 0 is left out", |program, event| {
        program.copies(event, |right| Runs { second_place: 1, ..right.with_first(|octets| octets + 1) })
    }),
    mistake("the length of a string is not turned", |program, event| {
        program.judges(event, |order, kind, rest| field_length(big_if(kind == STRING, order), kind, rest))
    }),
    mistake("the length of a blob is not turned", |program, event| {
        program.judges(event, |order, kind, rest| field_length(big_if(kind == BLOB, order), kind, rest))
    }),
    mistake("every length is turned", |program, event| {
        program.judges(event, |_, kind, rest| field_length(Order::Little, kind, rest))
    }),
    mistake("a length is turned as two halves", |program, event| program.judges(event, turned_in_halves)),
    mistake("a Boolean is turned bit by bit", |program, event| program.judges(event, turned_boolean)),
    mistake("every octet is a little-endian Boolean", |program, event| program.judges(event, any_boolean)),
    mistake("the zero of a little-endian 400d comes first", |program, event| program.judges(event, zero_first)),
    mistake("a 400d has a length under a little-endian table", |program, event| {
        program.judges(event, |order, kind, rest| {
            let counted = order == Order::Little && kind == ZERO_STRING;
            field_length(order, if counted { BLOB } else { kind }, rest)
        })
    }),
    mistake("flags 0 and 1 are exchanged", Program::exchanged_orders),
    mistake("a little-endian table's template IDs are turned", Program::turned_template_id),
    mistake("the DSN of DATA is turned under a little-endian table", |program, event| {
        program.writes(event, NEXT, |_, written| written[12..16].reverse())
    }),
    mistake("the template ID of DATA is turned under a little-endian table", |program, event| {
        program.writes(event, NEXT, |_, written| written[8..10].reverse())
    }),
    mistake("the length of DATA is turned under a little-endian table", |program, event| {
        program.writes(event, NEXT, |_, written| written[4..8].reverse())
    }),
    mistake("little-endian records are sent big-endian", |program, event| program.writes(event, NEXT, record_turned)),
    mistake("a little-endian table is offered with flags 1", |program, event| {
        program.writes(event, OFFER, |_, written| written[9] = 1)
    }),
];

/// The activation has released nothing, so S is due on its first record.
fn is_due(exporter: &Exporter) -> bool {
    exporter.began == exporter.released + 1
}

/// Of an accepted event: it is a DATA ACK.
fn is_ack(event: &Event) -> bool {
    event.kind == MESSAGE && event.body[1] == DATA_ACK
}

/// Big-endian if so, else the given order.
fn big_if(is_so: bool, order: Order) -> Order {
    if is_so {
        Order::Big
    } else {
        order
    }
}

/// A little-endian length is read in two halves of 16 bits, each of them turned.
fn turned_in_halves(order: Order, kind: u16, rest: &[u8]) -> Option<usize> {
    match rest {
        [a, b, c, d, content @ ..] if order == Order::Little && [STRING, BLOB].contains(&kind) => {
            field_length(Order::Big, kind, &[&[*b, *a, *d, *c], content].concat())
        }
        _ => field_length(order, kind, rest),
    }
}

/// A little-endian Boolean is 0 or 128.
fn turned_boolean(order: Order, kind: u16, rest: &[u8]) -> Option<usize> {
    match rest.first() {
        Some(octet) if order == Order::Little && kind == BOOLEAN => [0, 128].contains(octet).then_some(1),
        _ => field_length(order, kind, rest),
    }
}

fn any_boolean(order: Order, kind: u16, rest: &[u8]) -> Option<usize> {
    match rest.first() {
        Some(_) if order == Order::Little && kind == BOOLEAN => Some(1),
        _ => field_length(order, kind, rest),
    }
}

/// A little-endian 400d begins with its zero and ends before the next one.
fn zero_first(order: Order, kind: u16, rest: &[u8]) -> Option<usize> {
    match rest {
        [0, content @ ..] if order == Order::Little && kind == ZERO_STRING => {
            Some(1 + content.iter().position(|octet| *octet == 0).unwrap_or(content.len()))
        }
        [_, ..] if order == Order::Little && kind == ZERO_STRING => None,
        _ => field_length(order, kind, rest),
    }
}

/// The record of a DATA message with its numbers put into the other order.
fn record_turned(table: &[u8], written: &mut [u8]) {
    let id = u16::from_be_bytes([written[8], written[9]]);
    for field in fields(table, id, &written[16..]) {
        let place = 16 + field.at..16 + field.at + field.len;
        let turned = records::in_order(Order::Little, field.kind, &written[place.clone()]);
        written[place].copy_from_slice(&turned);
    }
}

/// How a record that reaches the end of the store is copied into it: how many octets go up to the end, which octets
/// follow, and at which place they begin.
struct Runs {
    first: usize,
    second: Range<usize>,
    second_place: usize,
}

impl Runs {
    /// Runs of which the first has other octets and the second the rest.
    fn with_first(self, octets: fn(usize) -> usize) -> Runs {
        let first = octets(self.first);
        Runs { first, second: first..self.second.end, ..self }
    }
}

/// Copies octets to a place of the store; those past its end are lost.
fn copy(store: &mut [u8], place: usize, octets: &[u8]) {
    store[place..].iter_mut().zip(octets).for_each(|(room, octet)| *room = *octet);
}

fn threshold_of_servers(replay: &mut Replay) {
    replay.exporter.settings.threshold = replay.exporter.settings.servers;
}

fn largest_store(replay: &mut Replay) {
    replay.exporter.store_length = LARGEST_STORE;
    replay.store.resize(LARGEST_STORE, 0);
}

impl Program {
    fn right(&mut self, event: &Event) -> Outcome {
        self.replay.event(event.kind, event.server, &event.body)
    }

    /// Takes an event, and if it is an accepted message of that number, changes the state by the one before.
    fn after(&mut self, number: u8, event: &Event, change: impl FnOnce(&mut Program, &Exporter)) -> Outcome {
        let before = self.replay.exporter.clone();
        let outcome = self.right(event);
        if event.kind == MESSAGE && outcome.answer == DONE && event.body[1] == number {
            change(self, &before);
        }
        outcome
    }

    fn set_state(&mut self, server: u8, state: ServerState) {
        self.replay.exporter.states[usize::from(server)] = state;
    }

    fn stop_from(&mut self, state: ServerState, event: &Event) -> Outcome {
        self.after(STOP, event, |program, before| {
            if before.state(event.server) == state {
                program.set_state(event.server, ServerState::Started);
            }
        })
    }

    fn start_of_the_late(&mut self, event: &Event) -> Outcome {
        self.after(START, event, |program, before| {
            if before.state(event.server) == ServerState::Late {
                program.set_state(event.server, ServerState::Late);
            }
        })
    }

    fn late_again(&mut self, event: &Event) -> Outcome {
        let was_late = self.replay.exporter.state(event.server) == ServerState::Late;
        let outcome = self.after(START, event, |program, _| {
            if program.marked.remove(&event.server) {
                program.set_state(event.server, ServerState::Late);
            }
        });
        let stops = event.kind == MESSAGE && outcome.answer == DONE && event.body[1] == STOP;
        if stops && was_late {
            self.marked.insert(event.server);
        }
        outcome
    }

    fn negotiation_beside_the_late(&mut self, event: &Event) -> Outcome {
        self.after(START_NEGOTIATE, event, |program, before| {
            for server in (0..before.settings.servers).filter(|server| *server != event.server) {
                if before.state(server) == ServerState::Late {
                    program.set_state(server, ServerState::Late);
                }
            }
        })
    }

    fn agreement_of_the_late(&mut self, event: &Event) -> Outcome {
        let late = self.replay.exporter.state(event.server) == ServerState::Late;
        if !late || event.kind != MESSAGE || event.body.get(1) != Some(&FINAL_TMPL_DATA_ACK) {
            return self.right(event);
        }
        self.set_state(event.server, ServerState::Offered);
        let outcome = self.right(event);
        if outcome.answer != DONE {
            self.set_state(event.server, ServerState::Late);
        }
        outcome
    }

    /// A DATA ACK that the right program takes is refused where the DSN and the exporter are so.
    fn refused_ack(&mut self, event: &Event, is_refused: fn(&Exporter, u32) -> bool) -> Outcome {
        let before = self.replay.clone();
        let outcome = self.right(event);
        if event.kind != MESSAGE || outcome.answer != DONE || event.body[1] != DATA_ACK {
            return outcome;
        }
        let dsn = u32::from_be_bytes([event.body[8], event.body[9], event.body[10], event.body[11]]);
        if !is_refused(&before.exporter, dsn) {
            return outcome;
        }
        self.replay = before;
        Outcome { answer: DSN_NOT_ACKNOWLEDGEABLE, written: Vec::new() }
    }

    fn acknowledgement_of_sent(&mut self, event: &Event) -> Outcome {
        self.refused_ack(event, |before, dsn| before.acknowledged_count(dsn) as usize > before.sent)
    }

    fn plain_numbers(&mut self, event: &Event) -> Outcome {
        self.refused_ack(event, |before, dsn| u64::from(dsn) + 1 < u64::from(before.first_held_dsn()))
    }

    fn d_on_resends(&mut self, event: &Event) -> Outcome {
        let resends = self.replay.exporter.sent < self.replay.exporter.reached;
        let mut outcome = self.right(event);
        if resends && event.kind == NEXT && outcome.answer == DONE {
            outcome.written[11] |= 2;
        }
        outcome
    }

    /// Takes an event, and if it is an accepted next data, sets S exactly if the exporter before it was so.
    fn sets_s(&mut self, event: &Event, has_s: fn(&Exporter) -> bool) -> Outcome {
        let s = has_s(&self.replay.exporter);
        let mut outcome = self.right(event);
        if event.kind == NEXT && outcome.answer == DONE {
            outcome.written[11] = (outcome.written[11] & !1) | u8::from(s);
        }
        outcome
    }

    /// Takes an event, and if it is accepted and so, by the exporter before and after it, no S is due any more in this
    /// activation: the place that began it becomes 0, which is no record.
    fn clears_s(&mut self, event: &Event, is_so: fn(&Event, &Exporter, &Exporter) -> bool) -> Outcome {
        let before = self.replay.exporter.clone();
        let outcome = self.right(event);
        if outcome.answer == DONE && is_so(event, &before, &self.replay.exporter) {
            self.replay.exporter.began = 0;
        }
        outcome
    }

    /// A changed choice makes S due only if another server was active last; `marked` has the one that was.
    fn s_once_for_a_server(&mut self, event: &Event) -> Outcome {
        let before = self.replay.exporter.clone();
        let outcome = self.right(event);
        let exporter = &mut self.replay.exporter;
        if exporter.active == before.active {
            return outcome;
        }
        self.marked.extend(before.active);
        match exporter.active {
            Some(server) if !self.marked.contains(&server) => self.marked.clear(),
            _ => exporter.began = before.began,
        }
        outcome
    }

    /// Takes an event, and if it is an accepted put whose record reaches the end of the store, copies the record into
    /// the store before it in runs that are changed from the right ones.
    fn copies(&mut self, event: &Event, change: fn(Runs) -> Runs) -> Outcome {
        let place = self.replay.exporter.next_place();
        let to_end = self.replay.exporter.store_length - place;
        let record = event.body.get(2..).unwrap_or(&[]);
        if event.kind != PUT || record.len() < to_end {
            return self.right(event);
        }
        let mut store = self.replay.store.clone();
        let outcome = self.right(event);
        if outcome.answer == DONE {
            let runs = change(Runs { first: to_end, second: to_end..record.len(), second_place: 0 });
            copy(&mut store, place, &record[..runs.first.min(record.len())]);
            copy(&mut store, runs.second_place, record.get(runs.second).unwrap_or(&[]));
            self.replay.store = store;
        }
        outcome
    }

    /// Takes an event, and if it is a put that comes to the record's validity, judges the record with other lengths of
    /// its fields.
    fn judges(&mut self, event: &Event, length: fn(Order, u16, &[u8]) -> Option<usize>) -> Outcome {
        let mut outcome = self.right(event);
        if event.kind != PUT || ![DONE, RECORD_INVALID, QUEUE_FULL, STORE_FULL].contains(&outcome.answer) {
            return outcome;
        }
        let id = u16::from_be_bytes([event.body[0], event.body[1]]);
        let (order, template) = find_template(&self.replay.table, id).expect("a template in a sound table");
        let mut enabled = template.keys.iter().filter(|key| !key.disabled);
        let rest = enabled.try_fold(&event.body[2..], |rest, key| rest.get(length(order, key.kind, rest)?..));
        let valid = rest.is_some_and(<[u8]>::is_empty);
        if valid == (outcome.answer == RECORD_INVALID) {
            outcome.answer = if valid { DONE } else { RECORD_INVALID };
        }
        outcome
    }

    /// Each put is judged under the table with the other flags.
    fn exchanged_orders(&mut self, event: &Event) -> Outcome {
        let exchanged = u8::from(event.kind == PUT);
        self.replay.table[1] ^= exchanged;
        let outcome = self.right(event);
        self.replay.table[1] ^= exchanged;
        outcome
    }

    /// Under a little-endian table, a put finds its template by the ID with its octets turned.
    fn turned_template_id(&mut self, event: &Event) -> Outcome {
        let mut event = event.clone();
        if event.kind == PUT && self.replay.table[1] == 0 {
            event.body[..2].reverse();
        }
        self.right(&event)
    }

    /// Takes an event, and if it is an accepted one of that kind under a little-endian table, changes what it wrote.
    fn writes(&mut self, event: &Event, kind: u8, change: fn(&[u8], &mut [u8])) -> Outcome {
        let mut outcome = self.right(event);
        if event.kind == kind && outcome.answer == DONE && self.replay.table[1] == 0 {
            change(&self.replay.table, &mut outcome.written);
        }
        outcome
    }

    /// Takes an event, and if it is a tick by which a server turns late, changes the state by the one before and the
    /// server.
    fn at_failover(&mut self, event: &Event, change: fn(&mut Exporter, &Exporter, u8)) -> Outcome {
        let before = self.replay.exporter.clone();
        let outcome = self.right(event);
        match before.active {
            Some(server) if event.kind == TICK && self.replay.exporter.state(server) == ServerState::Late => {
                change(&mut self.replay.exporter, &before, server);
            }
            _ => {}
        }
        outcome
    }

    fn drop_at_failover(&mut self, event: &Event) -> Outcome {
        self.at_failover(event, |exporter, before, _| {
            let dropped: usize = exporter.queue.drain(..before.sent).map(|held| held.length).sum();
            exporter.ring_start = (exporter.ring_start + dropped) % exporter.store_length;
        })
    }

    /// The server turns late, and is agreed again before the next call.
    fn straight_back(&mut self, event: &Event) -> Outcome {
        self.at_failover(event, |exporter, _, server| {
            exporter.states[usize::from(server)] = ServerState::Agreed;
            exporter.active = exporter.choose();
        })
    }

    fn never_late(&mut self, event: &Event) -> Outcome {
        self.at_failover(event, |exporter, before, _| {
            *exporter = Exporter { sent: 0, timer: 0, ..before.clone() };
        })
    }
}

/// Some event of a session is answered otherwise by the program with the mistake.
fn tells(mistake: &Mistake, events: &[Event], replay: &Replay, right: &[Outcome]) -> bool {
    let mut program = Program { replay: replay.clone(), marked: BTreeSet::new() };
    (mistake.begin)(&mut program.replay);
    events.iter().zip(right).any(|(event, outcome)| (mistake.event)(&mut program, event) != *outcome)
}

/// Each mistake is told by enough tapes.
fn assert_told(mistakes: &[Mistake]) {
    let mut counts = vec![0; mistakes.len()];
    for (events, replay) in sessions() {
        let mut right = Program { replay: replay.clone(), marked: BTreeSet::new() };
        let outcomes: Vec<Outcome> = events.iter().map(|event| right.right(event)).collect();
        for (count, mistake) in counts.iter_mut().zip(mistakes).filter(|(count, _)| **count < LEAST) {
            *count += usize::from(tells(mistake, &events, &replay, &outcomes));
        }
    }
    assert_often_enough(mistakes.iter().map(|mistake| mistake.name).zip(counts));
}

/// Each of these mistakes was told by so many tapes, which are enough.
fn assert_often_enough(counts: impl Iterator<Item = (&'static str, usize)>) {
    for (name, count) in counts {
        println!("{name}: {count}");
        assert!(count >= LEAST, "'{name}' was told by {count} tapes");
    }
}

#[test]
fn every_mistake_is_told() {
    assert_told(&MISTAKES);
}

/// A mistake about tables: its name, and whether a program with it finds these octets sound.
type TableMistake = (&'static str, fn(&[u8]) -> bool);

const TABLE_MISTAKES: [TableMistake; 8] = [
    ("flags 2 are accepted", |table| is_sound(&with_flags(table, |flags| if flags == 2 { 1 } else { flags }))),
    ("flags 255 are accepted", |table| is_sound(&with_flags(table, |flags| if flags == 255 { 1 } else { flags }))),
    ("the lowest bit of the flags decides", |table| is_sound(&with_flags(table, |flags| flags & 1))),
    ("all flags but 1 are little-endian", |table| is_sound(&with_flags(table, |flags| u8::from(flags == 1)))),
    ("flags 0 are refused", |table| table.get(1) != Some(&0) && is_sound(table)),
    ("flags 1 are refused", |table| table.get(1) != Some(&1) && is_sound(table)),
    ("the template count of a little-endian table is turned", |table| {
        let mut table = table.to_vec();
        if let [_, 0, first, second, ..] = &mut table[..] {
            std::mem::swap(first, second);
        }
        is_sound(&table)
    }),
    ("the numbers of a little-endian table are turned", |table| match Table::from_octets(table) {
        Some(table) if table.order == Order::Little => is_sound(&all_turned(&table)),
        _ => is_sound(table),
    }),
];

/// A table with other flags, if it has such an octet.
fn with_flags(table: &[u8], change: fn(u8) -> u8) -> Vec<u8> {
    let mut table = table.to_vec();
    table.iter_mut().skip(1).take(1).for_each(|flags| *flags = change(*flags));
    table
}

#[test]
fn every_mistake_about_tables_is_told() {
    let mut counts = [0; TABLE_MISTAKES.len()];
    for (events, replay) in set_up() {
        let table = &events[0].body;
        let is_sessions = table.first() == Some(&replay.exporter.settings.configuration_id);
        for (count, (_, finds_sound)) in counts.iter_mut().zip(&TABLE_MISTAKES).filter(|_| is_sessions) {
            *count += usize::from(finds_sound(table) != is_sound(table));
        }
    }
    assert_often_enough(TABLE_MISTAKES.iter().map(|(name, _)| *name).zip(counts));
}

//! Tests that the tapes of a default run meet every situation in which the rules differ.

mod servers;

use super::{in_turn, tape, DEFAULT_TAPES, PROFILES, SEEDS_APART};
use crate::messages::{DATA_ACK, FINAL_TMPL_DATA_ACK, START, START_NEGOTIATE, STOP};
use crate::model::answer::{DONE, OUT_OF_TURN, RECORD_INVALID, RECORD_TOO_LONG, STORE_FULL, UNSOUND_TABLE};
use crate::model::exporter::{Exporter, ServerState, LARGEST_STORE};
use crate::model::record::judge;
use crate::model::replay::{Outcome, Replay};
use crate::model::walk::{self, Cursor, Field, Value};
use crate::tables::{BLOB, FIELD_TYPES, STRING};
use crate::tape::{split, Event, MESSAGE, NEXT, OFFER, PUT, TICK};
use std::collections::BTreeMap;

/// How often each situation must be met.
const LEAST: u64 = 20;

type Counts = BTreeMap<&'static str, u64>;

/// The sound tapes of a default run whose settings are taken: the events after these, and the replay before them.
pub fn set_up() -> impl Iterator<Item = (Vec<Event>, Replay)> {
    set_up_of(|_| true)
}

/// The same, of some profiles only, by name.
fn set_up_of(is_asked: fn(&str) -> bool) -> impl Iterator<Item = (Vec<Event>, Replay)> {
    sound_tapes_of(is_asked).filter_map(|mut events| {
        let replay = Replay::set_up(&events[0].body).ok()?;
        Some((events.split_off(1), replay))
    })
}

/// The events of all sound tapes of a default run.
pub fn sound_tapes() -> impl Iterator<Item = Vec<Event>> {
    sound_tapes_of(|_| true)
}

/// The same, of some profiles only, by name.
fn sound_tapes_of(is_asked: fn(&str) -> bool) -> impl Iterator<Item = Vec<Event>> {
    let tapes = (0..DEFAULT_TAPES).map(in_turn).filter(move |(profile, _)| is_asked(PROFILES[*profile].name));
    tapes.filter_map(|(profile, seed)| split(&tape(profile, SEEDS_APART + seed)).ok())
}

/// Those whose table is taken too: the events after it.
pub fn sessions() -> impl Iterator<Item = (Vec<Event>, Replay)> {
    sessions_of(|_| true)
}

/// The same, of some profiles only, by name.
fn sessions_of(is_asked: fn(&str) -> bool) -> impl Iterator<Item = (Vec<Event>, Replay)> {
    set_up_of(is_asked).filter_map(|(mut events, mut replay)| {
        let taken = replay.take_table(&events[0].body) == DONE;
        taken.then(|| (events.split_off(1), replay))
    })
}

/// The fields of a valid record, walked to its end.
pub fn fields(table: &[u8], id: u16, record: &[u8]) -> Vec<Field> {
    let mut fields = Vec::new();
    let mut cursor = Cursor::default();
    while let walk::Step::Next(field, after) = walk::step(table, id, record, cursor) {
        fields.push(field);
        cursor = after;
    }
    fields
}

/// Each situation is met often enough in these sessions.
fn assert_met(situations: &[Situation], sessions: impl Iterator<Item = (Vec<Event>, Replay)>) {
    let mut counts = Counts::new();
    for (events, replay) in sessions {
        count_session(&mut counts, situations, &events, replay);
    }
    for (name, _) in situations {
        let times = counts.get(name).copied().unwrap_or(0);
        println!("{name}: {times}");
        assert!(times >= LEAST, "'{name}' was met {times} times");
    }
}

#[test]
fn every_situation_is_met() {
    assert_met(&SITUATIONS, sessions());
}

#[test]
fn every_situation_of_s_is_met() {
    assert_met(&S_SITUATIONS, sessions());
}

#[test]
fn every_situation_of_s_is_met_by_the_profile_of_resends() {
    assert_met(&S_SITUATIONS, sessions_of(|name| name == "resends"));
}

#[test]
fn every_type_is_put_under_a_little_endian_table() {
    let mut counts: BTreeMap<u16, u64> = BTreeMap::new();
    let mut values: BTreeMap<(u16, Value), u64> = BTreeMap::new();
    for field in little_fields() {
        *counts.entry(field.kind).or_default() += 1;
        *values.entry((field.kind, field.value)).or_default() += 1;
    }
    for kind in &FIELD_TYPES {
        assert!(counts.get(&kind.number).is_some_and(|count| *count >= LEAST), "{}: {counts:?}", kind.name);
    }
    for (kind, value) in limits() {
        let times = values.get(&(kind, value)).copied().unwrap_or(0);
        assert!(times >= LEAST, "type {kind}: {value:?} was met {times} times");
    }
}

/// The fields of the records that are put under little-endian tables.
fn little_fields() -> Vec<Field> {
    let mut all = Vec::new();
    for (events, mut replay) in sessions().filter(|(_, replay)| replay.table[1] == 0) {
        for event in events {
            let is_put = replay.event(event.kind, event.server, &event.body).answer == DONE && event.kind == PUT;
            if is_put {
                let id = u16::from_be_bytes([event.body[0], event.body[1]]);
                all.extend(fields(&replay.table, id, &event.body[2..]));
            }
        }
    }
    all
}

/// Each integer type with its limits and the numbers beside 0.
pub fn limits() -> Vec<(u16, Value)> {
    let mut limits = Vec::new();
    for (unsigned, width) in [(2u16, 1u32), (4, 2), (6, 4), (8, 8)] {
        let half = 1u64 << (8 * width - 1);
        let last = half - 1 + half;
        limits.extend([0, 1, half - 1, half, last].map(|number| (unsigned, Value::Number(number))));
        limits.extend([0, 1, half - 1].map(|number| (unsigned + 1, Value::Number(number))));
        limits.extend([1, half].map(|size| (unsigned + 1, Value::Negative(size))));
    }
    limits
}

#[test]
fn every_kind_of_flags_is_met() {
    let mut counts: BTreeMap<(u8, u8), u64> = BTreeMap::new();
    for (events, mut replay) in set_up() {
        let table = &events[0].body;
        let mut sound = table.clone();
        sound.iter_mut().skip(1).take(1).for_each(|flags| *flags = 1);
        if replay.exporter.accepts_table(&sound) {
            *counts.entry((table[1], replay.take_table(table))).or_default() += 1;
        }
    }
    assert!([(0, DONE), (1, DONE)].iter().all(|met| counts[met] >= 300), "{counts:?}");
    assert!([(2, UNSOUND_TABLE), (255, UNSOUND_TABLE)].iter().all(|met| counts[met] >= LEAST), "{counts:?}");
    assert!(counts.keys().all(|(flags, answer)| (*flags > 1) == (*answer == UNSOUND_TABLE)), "{counts:?}");
}

/// Runs a session and counts what each of its events meets.
fn count_session(counts: &mut Counts, situations: &[Situation], events: &[Event], mut replay: Replay) {
    let mut stopped = BTreeMap::new();
    let mut octets_put = 0;
    let mut activation = Activation::default();
    for event in events {
        let before = replay.exporter.clone();
        let outcome = replay.event(event.kind, event.server, &event.body);
        let step = Step {
            event,
            before: &before,
            after: &replay.exporter,
            table: &replay.table,
            outcome: &outcome,
            stopped: &stopped,
            octets_put,
            activation,
        };
        for (name, _) in situations.iter().filter(|(_, holds)| holds(&step)) {
            *counts.entry(name).or_default() += 1;
        }
        activation = step.activation_after();
        if step.receives(START) {
            stopped.remove(&event.server);
        } else if step.receives(STOP) {
            stopped.insert(event.server, before.state(event.server));
        } else if step.is(PUT) {
            octets_put += step.record_octets();
        }
    }
}

/// What the events before one say of the activation.
#[derive(Clone, Copy, Default)]
struct Activation {
    /// The server of the activation before it.
    last_server: Option<u8>,
    /// It began with nothing held.
    began_empty: bool,
    /// It has released a record.
    released: bool,
    /// A release has left nothing held.
    emptied: bool,
    /// How often S was written.
    marked: usize,
    /// The kind of the last event by which sending began again at the first held record.
    resend: Option<u8>,
}

/// An event with the exporter before and after it.
struct Step<'a> {
    event: &'a Event,
    before: &'a Exporter,
    after: &'a Exporter,
    table: &'a [u8],
    outcome: &'a Outcome,
    /// The servers that have not started since their last STOP, with their states before it.
    stopped: &'a BTreeMap<u8, ServerState>,
    /// The octets of all records put before.
    octets_put: usize,
    activation: Activation,
}

impl Step<'_> {
    /// An accepted event of that kind.
    fn is(&self, kind: u8) -> bool {
        self.event.kind == kind && self.outcome.answer == DONE
    }

    /// An accepted message of that number.
    fn receives(&self, number: u8) -> bool {
        self.is(MESSAGE) && self.event.body[1] == number
    }

    /// A message of that number that is out of turn.
    fn refuses(&self, number: u8) -> bool {
        self.event.kind == MESSAGE && self.outcome.answer == OUT_OF_TURN && self.event.body[1] == number
    }

    /// The state of the event's server before it.
    fn sender(&self) -> ServerState {
        self.before.state(self.event.server)
    }

    /// A server other than the event's is in that state before it.
    fn another(&self, state: ServerState) -> bool {
        let servers = 0..self.before.settings.servers;
        servers.into_iter().any(|server| server != self.event.server && self.before.state(server) == state)
    }

    /// An accepted STOP from a server in that state.
    fn stops(&self, state: ServerState) -> bool {
        self.receives(STOP) && self.sender() == state
    }

    fn releases(&self) -> usize {
        self.before.queue.len().saturating_sub(self.after.queue.len())
    }

    /// The flags of the DATA message that was written.
    fn flags(&self) -> u8 {
        self.outcome.written.get(11).copied().unwrap_or(0)
    }

    /// DATA with S.
    fn marks(&self) -> bool {
        self.is(NEXT) && self.flags() & 1 == 1
    }

    /// DATA of the first held record, once more to the same server in the same activation.
    fn sends_first_again(&self) -> bool {
        self.is(NEXT) && self.before.sent == 0 && self.before.reached > 0
    }

    /// The same, where sending began again by an event of that kind.
    fn sends_first_again_by(&self, kind: u8) -> bool {
        self.sends_first_again() && self.activation.resend == Some(kind)
    }

    /// The activation's first release.
    fn releases_first(&self) -> bool {
        self.releases() > 0 && !self.activation.released
    }

    /// What this event and those before it say of the activation after it.
    fn activation_after(&self) -> Activation {
        let Activation { last_server, released, emptied, marked, resend, .. } = self.activation;
        if self.after.active != self.before.active {
            let last_server = self.before.active.or(last_server);
            return Activation { last_server, began_empty: self.after.queue.is_empty(), ..Activation::default() };
        }
        let releases = self.releases() > 0;
        let sends_again = !releases && self.after.sent < self.before.sent;
        Activation {
            released: released || releases,
            emptied: emptied || releases && self.after.queue.is_empty(),
            marked: marked + usize::from(self.marks()),
            resend: if sends_again { Some(self.event.kind) } else { resend },
            ..self.activation
        }
    }

    /// The octets of the record of a put.
    fn record_octets(&self) -> usize {
        self.event.body.len().saturating_sub(2)
    }

    /// An accepted put of a record whose place in the store and octets, and the store's length, are so.
    fn puts(&self, are_so: fn(usize, usize, usize) -> bool) -> bool {
        self.is(PUT) && are_so(self.before.next_place(), self.record_octets(), self.before.store_length)
    }

    /// DATA of a record whose place in the store and octets, and the store's length, are so.
    fn sends(&self, are_so: fn(usize, usize, usize) -> bool) -> bool {
        let Exporter { store_length, ring_start, sent, queue, .. } = self.before;
        let place = (ring_start + self.before.octets_before(*sent)) % store_length;
        self.is(NEXT) && are_so(place, queue[*sent].length, *store_length)
    }

    /// How often the records put before this event have gone round the store, and how often with its own record.
    fn rounds(&self) -> (usize, usize) {
        let put = if self.is(PUT) { self.record_octets() } else { 0 };
        let store = self.before.store_length;
        (self.octets_put / store, (self.octets_put + put) / store)
    }

    /// A put that is refused for one octet more than is free.
    fn lacks_one_octet(&self) -> bool {
        let octets = self.before.held_octets() + self.record_octets();
        self.event.kind == PUT && self.outcome.answer == STORE_FULL && octets == self.before.store_length + 1
    }

    fn late(&self, exporter: &Exporter) -> usize {
        (0..exporter.settings.servers).filter(|server| exporter.state(*server) == ServerState::Late).count()
    }

    /// A tick with an active server: reached, threshold and server count.
    fn tick_counts(&self) -> Option<(usize, usize, usize)> {
        let settings = &self.before.settings;
        let counts = (self.before.reached, usize::from(settings.threshold), usize::from(settings.servers));
        (self.is(TICK) && self.before.active.is_some()).then_some(counts)
    }

    /// The table is little-endian.
    fn is_little(&self) -> bool {
        self.table[1] == 0
    }

    /// An accepted event of that kind under a little-endian table.
    fn is_under_little(&self, kind: u8) -> bool {
        self.is(kind) && self.is_little()
    }

    /// The record of a put, judged in the order that is not its table's.
    fn judged_in_the_other_order(&self) -> u8 {
        let mut table = self.table.to_vec();
        table[1] ^= 1;
        judge(&table, u16::from_be_bytes([self.event.body[0], self.event.body[1]]), &self.event.body[2..])
    }

    /// A put that is refused though its record is valid in the other order.
    fn is_in_the_wrong_order(&self) -> bool {
        self.event.kind == PUT && self.outcome.answer == RECORD_INVALID && self.judged_in_the_other_order() == DONE
    }

    /// An accepted put under a little-endian table with a string or blob of at least so many octets.
    fn puts_counted(&self, kind: u16, octets: usize) -> bool {
        let counted = |field: &Field| field.kind == kind && field.len >= 4 + octets;
        let id = || u16::from_be_bytes([self.event.body[0], self.event.body[1]]);
        self.is_under_little(PUT) && fields(self.table, id(), &self.event.body[2..]).iter().any(counted)
    }

    /// A put that is refused for this store and would be taken by the largest.
    fn fills_a_small_store(&self) -> bool {
        let octets = self.before.held_octets() + self.record_octets();
        self.event.kind == PUT && self.outcome.answer == STORE_FULL && octets <= LARGEST_STORE
    }
}

/// A situation: its name, and whether a step is in it.
type Situation = (&'static str, fn(&Step) -> bool);

const SITUATIONS: [Situation; 66] = [
    ("S without D", |step| step.is(NEXT) && step.flags() == 1),
    ("S and D", |step| step.is(NEXT) && step.flags() == 3),
    ("D without S", |step| step.is(NEXT) && step.flags() == 2),
    ("DATA sent again to the same server", |step| step.is(NEXT) && step.before.sent < step.before.reached),
    ("DATA of a record across the end of the store", |step| step.sends(|place, octets, store| place + octets > store)),
    ("an empty record", |step| step.is(PUT) && step.event.body.len() == 2),
    ("a put into a full store", |step| step.is(PUT) && step.before.held_octets() == step.before.store_length),
    ("the 64th record", |step| step.is(PUT) && step.after.queue.len() == 64),
    ("a record of 1,024 octets", |step| step.is(PUT) && step.event.body.len() == 1_026),
    ("the DSN wraps", |step| step.is(PUT) && step.after.next_dsn == 0),
    ("a release across the wrap", |step| {
        step.releases() > 0 && step.before.first_held_dsn() > step.after.first_held_dsn()
    }),
    ("an acknowledgement beyond sent", |step| step.releases() > step.before.sent),
    ("an acknowledgement that asks again", |step| {
        step.receives(DATA_ACK) && step.releases() == 0 && step.before.sent > 0
    }),
    ("the same with the timer running", |step| {
        step.receives(DATA_ACK) && step.releases() == 0 && step.before.timer > 0
    }),
    ("an acknowledgement of an empty queue", |step| step.receives(DATA_ACK) && step.before.queue.is_empty()),
    ("a release with the timer running", |step| step.releases() > 0 && step.before.timer > 0),
    ("a server turns late", |step| step.is(TICK) && step.late(step.after) > step.late(step.before)),
    ("a resend by the timer", |step| {
        step.is(TICK) && step.after.sent < step.before.sent && step.after.active == step.before.active
    }),
    ("a tick with sent below the threshold and reached not", |step| {
        let threshold = usize::from(step.before.settings.threshold);
        step.is(TICK) && step.before.sent < threshold && step.before.reached >= threshold
    }),
    ("a late server starts", |step| step.receives(START) && step.sender() == ServerState::Late),
    ("the active server starts anew", |step| step.receives(START) && step.before.active == Some(step.event.server)),
    ("a late server negotiates", |step| step.receives(START_NEGOTIATE) && step.sender() == ServerState::Late),
    ("a negotiation with closed servers", |step| {
        step.receives(START_NEGOTIATE)
            && step.before.states[..usize::from(step.before.settings.servers)].contains(&ServerState::Closed)
    }),
    ("a takeover by priority", |step| {
        step.receives(FINAL_TMPL_DATA_ACK) && step.before.active.is_some() && step.after.active != step.before.active
    }),
    ("STOP from a closed server", |step| step.stops(ServerState::Closed)),
    ("STOP from a started server", |step| step.stops(ServerState::Started)),
    ("STOP from an offered server", |step| step.stops(ServerState::Offered)),
    ("STOP from an agreed server", |step| step.stops(ServerState::Agreed)),
    ("STOP from a late server", |step| step.stops(ServerState::Late)),
    ("a server that was late starts after STOP", |step| {
        step.receives(START) && step.stopped.get(&step.event.server) == Some(&ServerState::Late)
    }),
    ("a negotiation while another server is late", |step| {
        step.receives(START_NEGOTIATE) && step.another(ServerState::Late)
    }),
    ("a late server agrees out of turn", |step| {
        step.refuses(FINAL_TMPL_DATA_ACK) && step.sender() == ServerState::Late
    }),
    ("a tick with reached from the threshold on, below the server count", |step| {
        step.tick_counts().is_some_and(|(reached, threshold, servers)| threshold <= reached && reached < servers)
    }),
    ("a tick with reached from the server count on, below the threshold", |step| {
        step.tick_counts().is_some_and(|(reached, threshold, servers)| servers <= reached && reached < threshold)
    }),
    ("an acknowledgement of all reached beyond sent", |step| {
        step.releases() > step.before.sent && step.releases() == step.before.reached
    }),
    ("a record that only a larger store takes", |step| step.fills_a_small_store()),
    ("a record that ends at the end of the store", |step| {
        step.puts(|place, octets, store| octets > 0 && place + octets == store)
    }),
    ("a record at place 0 behind held octets", |step| {
        step.before.held_octets() > 0 && step.puts(|place, octets, _| place == 0 && octets > 0)
    }),
    ("a record at place 0 after all octets are released", |step| {
        step.before.held_octets() == 0 && step.octets_put > 0 && step.puts(|place, octets, _| place == 0 && octets > 0)
    }),
    ("an empty record at place 0 behind held octets", |step| {
        step.before.held_octets() > 0 && step.puts(|place, octets, _| place == 0 && octets == 0)
    }),
    ("a record that crosses the end by one octet", |step| {
        step.puts(|place, octets, store| place + octets == store + 1)
    }),
    ("a record of one octet at the last place", |step| {
        step.puts(|place, octets, store| place + 1 == store && octets == 1)
    }),
    ("a record of one octet at place 0 behind held octets", |step| {
        step.before.held_octets() > 0 && step.puts(|place, octets, _| place == 0 && octets == 1)
    }),
    ("a record of two octets that crosses the end", |step| {
        step.puts(|place, octets, store| place + 1 == store && octets == 2)
    }),
    ("a record that crosses the end with all but one octet", |step| {
        step.puts(|place, octets, store| place + 1 == store && octets > 2)
    }),
    ("DATA that crosses the end by one octet", |step| step.sends(|place, octets, store| place + octets == store + 1)),
    ("DATA that crosses the end with all but one octet", |step| {
        step.sends(|place, octets, store| place + 1 == store && octets > 2)
    }),
    ("a record of 1,023 octets", |step| step.puts(|_, octets, _| octets == 1_023)),
    ("a record of 1,024 octets that crosses the end", |step| {
        step.puts(|place, octets, store| octets == 1_024 && place + octets > store)
    }),
    ("one record fills a store of 1,024 octets", |step| {
        step.puts(|_, octets, store| octets == 1_024 && store == 1_024)
    }),
    ("several records fill a store of 1,024 octets", |step| {
        step.after.held_octets() == 1_024
            && step.puts(|_, octets, store| (1..1_024).contains(&octets) && store == 1_024)
    }),
    ("the ring has gone round three times", |step| step.rounds().0 < 3 && step.rounds().1 >= 3),
    ("a put of one octet more than is free", |step| step.lacks_one_octet()),
    ("a record under a little-endian table", |step| step.is_under_little(PUT) && step.record_octets() > 0),
    ("a string under a little-endian table", |step| step.puts_counted(STRING, 1)),
    ("a blob under a little-endian table", |step| step.puts_counted(BLOB, 1)),
    ("a string of 256 octets or more under a little-endian table", |step| step.puts_counted(STRING, 256)),
    ("a blob of 256 octets or more under a little-endian table", |step| step.puts_counted(BLOB, 256)),
    ("a big-endian record under a little-endian table", |step| step.is_little() && step.is_in_the_wrong_order()),
    ("a little-endian record under a big-endian table", |step| !step.is_little() && step.is_in_the_wrong_order()),
    ("a record under a little-endian table that is valid in both orders", |step| {
        step.is_under_little(PUT) && step.record_octets() > 0 && step.judged_in_the_other_order() == DONE
    }),
    ("a record of 1,024 octets under a little-endian table", |step| {
        step.is_little() && step.puts(|_, octets, _| octets == 1_024)
    }),
    ("a record over 1,024 octets under a little-endian table", |step| {
        step.is_little() && step.event.kind == PUT && step.outcome.answer == RECORD_TOO_LONG
    }),
    ("a record under a little-endian table that crosses the end", |step| {
        step.is_little() && step.puts(|place, octets, store| place + octets > store)
    }),
    ("a little-endian table is offered", |step| step.is_under_little(OFFER)),
    ("DATA under a little-endian table", |step| step.is_under_little(NEXT)),
];

/// Those in which it matters when S is set: on the record that began the activation, until the activation's first
/// release.
const S_SITUATIONS: [Situation; 14] = [
    ("S again after a tick's resend", |step| step.marks() && step.sends_first_again_by(TICK)),
    ("S again after an acknowledgement of nothing", |step| step.marks() && step.sends_first_again_by(MESSAGE)),
    ("S a third time", |step| step.marks() && step.activation.marked == 2),
    ("S and D again", |step| step.marks() && step.flags() == 3 && step.sends_first_again()),
    ("the first held record again without S by a tick", |step| !step.marks() && step.sends_first_again_by(TICK)),
    ("the first held record again without S by an acknowledgement", |step| {
        !step.marks() && step.sends_first_again_by(MESSAGE)
    }),
    ("a record that is not the first before a release", |step| {
        step.is(NEXT) && step.before.sent > 0 && !step.activation.released
    }),
    ("S in an activation that began with an empty queue", |step| step.marks() && step.activation.began_empty),
    ("a queue that is emptied and filled again within an activation", |step| {
        step.is(NEXT) && step.before.reached == 0 && step.activation.emptied
    }),
    ("S in another activation of the same server", |step| {
        step.marks() && step.before.reached == 0 && step.activation.last_server == step.before.active
    }),
    ("S at a takeover on a record that was written before", |step| {
        let takes_over = step.activation.last_server.is_some() && step.activation.last_server != step.before.active;
        takes_over && step.marks() && step.before.reached == 0 && step.flags() == 3
    }),
    ("a first release after S was set again", |step| step.releases_first() && step.activation.marked > 1),
    ("the same of more than was sent again", |step| {
        step.releases_first() && step.activation.marked > 1 && step.releases() > step.before.sent
    }),
    ("a first release between a resend and the writing", |step| step.releases_first() && step.before.sent == 0),
];

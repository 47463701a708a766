//! Batches, made up: a tape of the generator, places of it, and for each a given number and an output, chosen with the
//! model's exporter beside them.

use super::{later, Batch, Run, ANSWER, COUNT, LAST_ANSWER, LAST_WRITTEN, WRITTEN};
use crate::generate;
use crate::model::exporter::{Exporter, Settings, MAX_SERVERS, MOST_RECORDS, SMALLEST_STORE};
use crate::model::message::MAX_RECORD_OCTETS;
use crate::model::replay::{read_settings, Replay};
use crate::random::Random;
use crate::tape::{self, Event, NEXT, PUT};

/// How many batches are made on one tape.
pub const ON_A_TAPE: u64 = 16;

/// The octets of DATA before its record.
pub const FRONT_OCTETS: usize = 16;

/// The first event that is a call.
const FIRST_CALL: usize = 2;

/// The profiles whose tapes are taken, and how often.
const PROFILES: [(&str, usize); 15] = [
    ("sessions", 2),
    ("takeovers", 5),
    ("resends", 4),
    ("ring", 3),
    ("ring-edges", 3),
    ("dsn-wrap", 4),
    ("full", 5),
    ("refusals", 1),
    ("settings", 2),
    ("tables", 1),
    ("damaged-tables", 1),
    ("types", 1),
    ("largest", 1),
    ("little", 1),
    ("sixteen", 3),
];

/// The batch of a seed.
pub fn of_seed(seed: u64) -> Batch {
    on_tape(seed / ON_A_TAPE).swap_remove((seed % ON_A_TAPE) as usize)
}

/// The batches on one tape: those of as many seeds that follow each other.
pub fn on_tape(seed: u64) -> Vec<Batch> {
    let mut random = Random::from_parts(&[0xba7c, seed]);
    let weights = PROFILES.map(|(_, weight)| weight);
    let name = PROFILES[random.weighted(&weights)].0;
    let profile = generate::profile_number(name).expect("a profile");
    let mut events = tape::split(&generate::tape(profile, seed)).expect("a sound tape");
    if !random.once_in(3) {
        events = held_back(&mut random, events);
    }
    if random.once_in(8) {
        fill(&mut random, &mut events);
    }
    events.truncate(*random.pick(&[40, 80, 120, 120, 160, 240]));
    shorten(&mut events, 0);
    let begun = begin(&mut random, &events);
    let places = places(&mut random, &begun, &events);
    let mut replay = begun.clone();
    let mut next = FIRST_CALL;
    let mut batches = Vec::new();
    for place in places {
        run(&mut replay, &events[next..place]);
        next = place;
        batches.push(batch(&mut random, &begun, &replay, &events, place));
    }
    batches
}

/// The events without the next data calls of a stretch, so that records wait for the batch.
fn held_back(random: &mut Random, events: Vec<Event>) -> Vec<Event> {
    let from = if random.once_in(3) { FIRST_CALL } else { random.between(FIRST_CALL, events.len()) };
    let stretch = from..from + random.between(1, 200);
    let all = events.into_iter().enumerate();
    all.filter(|(place, event)| event.kind != NEXT || !stretch.contains(place)).map(|(_, event)| event).collect()
}

/// Puts one short record after the other at a place, so that as many wait as can be held.
fn fill(random: &mut Random, events: &mut Vec<Event>) {
    let short = |event: &&Event| event.kind == PUT && event.body.len() < 40;
    let puts: Vec<Event> = events.iter().filter(short).cloned().collect();
    if !puts.is_empty() {
        let place = random.between(FIRST_CALL, events.len().min(60));
        let put = random.pick(&puts);
        events.splice(place..place, std::iter::repeat_n(put.clone(), MOST_RECORDS));
    }
}

/// The exporter after its set-up, with the table that is lent to it and an output that holds every message. Now and then
/// the store is not of the length that the settings name. If the settings are refused the exporter is unsound.
fn begin(random: &mut Random, events: &[Event]) -> Replay {
    let (_, named) = read_settings(&events[0].body).expect("settings of a sound tape");
    let others = [named + 1, named - 1, SMALLEST_STORE, SMALLEST_STORE - 1, 0];
    let length = if random.once_in(24) { *random.pick(&others) } else { named };
    let store = vec![0; length];
    let table = events[1].body.clone();
    let octets = table.len().max(MAX_RECORD_OCTETS) + FRONT_OCTETS + random.below(20);
    let output = random.octets(octets);
    let begun = Replay::set_up_over(&events[0].body, store.clone());
    let exporter = begun.map_or_else(|_| unsound(), |replay| replay.exporter);
    Replay { exporter, store, table, output }
}

/// An exporter that answers 1 to every call: it has no server.
fn unsound() -> Exporter {
    let settings = Settings {
        session: 0,
        configuration_id: 0,
        boot_time: 0,
        first_dsn: 0,
        servers: 1,
        priorities: [0; MAX_SERVERS],
        threshold: 1,
        duration: 1,
    };
    let mut exporter = Exporter::set_up(settings, &[0; SMALLEST_STORE]).expect("settings in their limits");
    exporter.settings.servers = 0;
    exporter
}

/// Makes the calls of some events.
fn run(replay: &mut Replay, events: &[Event]) {
    for event in events {
        replay.event(event.kind, event.server, &event.body);
    }
}

/// How many records wait.
fn unsent(exporter: &Exporter) -> usize {
    exporter.queue.len() - exporter.sent
}

/// The places of the batches on a tape, ascending: most where the active server has records to be sent, the more the
/// better, others where there are none or no server is active.
fn places(random: &mut Random, begun: &Replay, events: &[Event]) -> Vec<usize> {
    let mut replay = begun.clone();
    let mut kinds: [Vec<(usize, usize)>; 3] = Default::default();
    for place in FIRST_CALL..=events.len() {
        let waiting = unsent(&replay.exporter);
        let kind = match replay.exporter.active {
            Some(_) if waiting > 0 => 0,
            Some(_) => 1,
            None => 2,
        };
        kinds[kind].push((waiting, place));
        run(&mut replay, events.get(place..=place).unwrap_or(&[]));
    }
    let mut places: Vec<usize> = (0..ON_A_TAPE).map(|_| one_place(random, &kinds)).collect();
    places.sort_unstable();
    places
}

/// One of the places of a kind, the one with the most waiting of up to four; of the next kind where there is none.
fn one_place(random: &mut Random, kinds: &[Vec<(usize, usize)>; 3]) -> usize {
    let first = random.weighted(&[13, 2, 1]);
    let kind = (first..first + 3).map(|kind| &kinds[kind % 3]).find(|places| !places.is_empty());
    let places = kind.expect("every place is of a kind");
    let tries = random.between(1, 4);
    let best = (0..tries).map(|_| *random.pick(places)).max();
    best.expect("a place").1
}

/// A batch before the event at a place, and the calls after it.
fn batch(random: &mut Random, begun: &Replay, before: &Replay, events: &[Event], place: usize) -> Batch {
    let lengths: Vec<usize> =
        before.exporter.queue.iter().skip(before.exporter.sent).map(|held| FRONT_OCTETS + held.length).collect();
    let number = given_number(random, lengths.len());
    let octets = output_octets(random, &lengths, number);
    let mut batch = Batch {
        tape: Vec::new(),
        place: place as u16,
        number,
        lent: lent(random, begun.store.len()),
        store: begun.store.len(),
        out: begun.output.clone(),
        batch_out: random.octets(octets),
        runs: Vec::new(),
        before: before.clone(),
        later: Vec::new(),
    };
    batch.later = if random.once_in(4) {
        events[place..].iter().take(8).cloned().collect()
    } else {
        let mut after = before.clone();
        batch.make(&mut after, &mut batch.batch_out.clone(), &Exporter::batch);
        later::events(random, after, &events[..place])
    };
    shorten(&mut batch.later, events[..place].iter().map(Event::cost).sum());
    batch.tape = tape::build(&[&events[..place], &batch.later].concat());
    if batch.later.is_empty() && random.once_in(2) {
        batch.place = *random.pick(&[batch.place + 1, u16::MAX]);
    }
    batch.runs = runs(random, batch.place, batch.later.len() as u16);
    batch
}

/// Leaves out the last events while a tape of them, beside others with so many octets, is too large.
fn shorten(events: &mut Vec<Event>, others: usize) {
    let octets = |events: &[Event]| events.iter().map(Event::cost).sum::<usize>();
    while tape::COUNT_OCTETS + others + octets(events) > tape::MAX_TAPE_OCTETS {
        events.pop();
    }
}

/// A given number: near the number of records that wait, near the most that are held, 0, or one whose low bits are few.
fn given_number(random: &mut Random, waiting: usize) -> usize {
    let any = random.between(0, waiting + 1);
    match random.below(24) {
        0 => 0,
        1 => 1,
        2 => 2,
        3 => *random.pick(&[63, 64, 65]),
        4..=6 => usize::MAX,
        7..=10 => waiting,
        11..=13 => waiting + 1,
        14..=15 => waiting.saturating_sub(1),
        16 => *random.pick(&[1 << 8, 1 << 16, 1 << 32, 1 << 63]) + any,
        17..=20 if waiting >= 60 => *random.pick(&[63, 64, 65]),
        _ => any,
    }
}

/// An output's length: the octets of the first messages, of all that the number allows, or of all that wait, one less
/// or one more; or too short for any.
fn output_octets(random: &mut Random, lengths: &[usize], number: usize) -> usize {
    let first = |count: usize| lengths.iter().take(count).sum::<usize>();
    let some = random.between(0, lengths.len());
    match random.below(16) {
        0 => *random.pick(&[0, 1, 15, 16]),
        1..=3 => first(some),
        4 | 5 => first(some).saturating_sub(1),
        6 => first(some) + 1,
        7 | 8 => first(number),
        9 => first(number).saturating_sub(1),
        10 => first(number) + random.between(1, 20),
        11 | 12 => first(lengths.len()),
        13 => first(lengths.len()).saturating_sub(1),
        _ => first(lengths.len()) + random.between(1, 200),
    }
}

/// How much of the store the batch is lent: mostly all of it.
fn lent(random: &mut Random, store: usize) -> usize {
    match random.below(48) {
        0 | 1 => store.saturating_sub(1),
        2 => 0,
        3 => random.below(store),
        4 => store + 1,
        5..=20 => store,
        _ => usize::MAX,
    }
}

/// The runs of a batch, which ask for one part each: the first ends at the batch, the others after some of the calls that
/// follow, or past all.
fn runs(random: &mut Random, place: u16, later: u16) -> Vec<Run> {
    let after = |random: &mut Random| random.between(1, usize::from(later) + 1) as u16;
    let last = *random.pick(&[LAST_WRITTEN, LAST_WRITTEN, 5, 255]);
    let whole = later + *random.pick(&[0, 0, 1]);
    let ends = [(ANSWER, 0), (COUNT, 1), (WRITTEN, after(random)), (LAST_ANSWER, after(random)), (last, whole)];
    let mut runs: Vec<Run> =
        ends.iter().map(|(part, end)| Run { part: *part, end: place.saturating_add(*end) }).collect();
    runs.sort_by_key(|run| run.end);
    runs
}

//! The exporter against its history: an account of places from 1 on, fed only the accepted calls
//! and their arguments, with no queue, ring or DSN arithmetic of its own.

use super::exporter::{Reply, ServerState, Settings, MAX_SERVERS};
use super::message::{read, Message};
use super::replay::SHORT_FORM_PRIORITIES;
use super::tests_support::{blob, settings, Bench};

/// A call with its arguments.
#[derive(Clone, Debug)]
enum Call {
    Put(u16, Vec<u8>),
    Next,
    Start(u8),
    Stop(u8),
    Negotiate(u8),
    Offer(u8),
    FinalAck(u8),
    Ack(u8, u32),
    Down(u8),
    Tick,
}

/// One DATA: the place written, to which server, in which activation.
struct Writing {
    place: usize,
    server: u8,
    activation: usize,
}

struct History {
    settings: Settings,
    records: Vec<(u16, Vec<u8>)>,
    released: usize,
    writings: Vec<Writing>,
    activation: usize,
    /// The activation that released a record last.
    last_releasing: Option<usize>,
    states: Vec<ServerState>,
    active: Option<u8>,
    sent: usize,
    reached: usize,
    timer: u16,
}

impl History {
    fn new(settings: Settings) -> History {
        let states = vec![ServerState::Closed; usize::from(settings.servers)];
        History {
            settings,
            records: Vec::new(),
            released: 0,
            writings: Vec::new(),
            activation: 0,
            last_releasing: None,
            states,
            active: None,
            sent: 0,
            reached: 0,
            timer: 0,
        }
    }

    /// The DSN of a place: the first DSN belongs to place 1, and place 0 has the one before it; all wrap.
    fn dsn(&self, place: usize) -> u32 {
        ((u64::from(self.settings.first_dsn) + place as u64 + u64::from(u32::MAX)) % (1 << 32)) as u32
    }

    /// The one place from the released number to 64 after it that has this DSN.
    fn place_of(&self, dsn: u32) -> usize {
        let places = self.released..=self.released + 64;
        places.into_iter().find(|place| self.dsn(*place) == dsn).expect("an accepted DSN")
    }

    fn step(&mut self, call: &Call) {
        match call {
            Call::Put(id, record) => self.records.push((*id, record.clone())),
            Call::Next => self.write_next(),
            Call::Start(server) => self.states[usize::from(*server)] = ServerState::Started,
            Call::Stop(server) | Call::Down(server) => {
                self.states[usize::from(*server)] = ServerState::Closed;
            }
            Call::Negotiate(_) => {
                for state in self.states.iter_mut().filter(|state| **state != ServerState::Closed) {
                    *state = ServerState::Started;
                }
            }
            Call::Offer(server) => self.states[usize::from(*server)] = ServerState::Offered,
            Call::FinalAck(server) => self.states[usize::from(*server)] = ServerState::Agreed,
            Call::Ack(_, dsn) => self.release_to(self.place_of(*dsn)),
            Call::Tick => self.tick(),
        }
        self.choose_anew();
    }

    fn write_next(&mut self) {
        self.sent += 1;
        self.reached = self.reached.max(self.sent);
        let server = self.active.expect("an active server");
        let place = self.released + self.sent;
        self.writings.push(Writing { place, server, activation: self.activation });
    }

    fn release_to(&mut self, place: usize) {
        let n = place - self.released;
        self.released = place;
        if n > 0 {
            self.last_releasing = Some(self.activation);
        }
        self.reached -= n;
        self.sent = if n == 0 { 0 } else { self.sent.saturating_sub(n) };
        self.timer = if n == 0 { self.timer } else { 0 };
    }

    fn tick(&mut self) {
        let waiting = self.active.is_some() && self.reached >= usize::from(self.settings.threshold);
        self.timer = if waiting { self.timer + 1 } else { 0 };
        if self.timer == self.settings.duration {
            self.timer = 0;
            let agreed = self.states.iter().filter(|state| **state == ServerState::Agreed).count();
            if agreed > 1 {
                let server = self.active.expect("an active server");
                self.states[usize::from(server)] = ServerState::Late;
            } else {
                self.sent = 0;
            }
        }
    }

    fn choose_anew(&mut self) {
        let agreed =
            (0..self.settings.servers).filter(|server| self.states[usize::from(*server)] == ServerState::Agreed);
        let priority = |server: &u8| self.settings.priorities[usize::from(*server)];
        let chosen = agreed.rev().max_by_key(priority);
        if chosen != self.active {
            self.active = chosen;
            self.activation += 1;
            (self.sent, self.reached, self.timer) = (0, 0, 0);
        }
    }

    /// The DATA message that the last writing must be. It has S if its record is the one with which the writings of the
    /// activation began and the activation has released nothing.
    fn last_data(&self) -> (Message, Vec<u8>) {
        let (last, earlier) = self.writings.split_last().expect("a writing");
        let first = self.writings.iter().find(|writing| writing.activation == last.activation).expect("a writing");
        let (template_id, record) = self.records[last.place - 1].clone();
        let message = Message::Data {
            session: self.settings.session,
            template_id,
            configuration_id: self.settings.configuration_id,
            s: first.place == last.place && self.last_releasing != Some(last.activation),
            d: earlier.iter().any(|writing| writing.place == last.place && writing.server != last.server),
            dsn: self.dsn(last.place),
        };
        (message, record)
    }
}

/// A small pseudo-random sequence.
struct Random(u64);

impl Random {
    fn below(&mut self, bound: u64) -> u64 {
        self.0 = self.0.wrapping_mul(6_364_136_223_846_793_005).wrapping_add(1_442_695_040_888_963_407);
        (self.0 >> 33) % bound
    }
}

/// A call at random, its server mostly one that exists and its acks mostly near what is held. The
/// first `puts` of 12 chances are puts.
fn random_call(bench: &Bench, random: &mut Random, puts: u64) -> Call {
    let server = random.below(u64::from(bench.exporter.settings.servers) + 1) as u8;
    let active = bench.exporter.active.unwrap_or(server);
    let before_held = bench.exporter.first_held_dsn().wrapping_sub(1);
    match random.below(40) {
        chance if chance < puts => {
            let longest = if random.below(4) == 0 { 600 } else { 20 };
            Call::Put(4, blob(4 + random.below(longest) as usize, random.below(256) as u8))
        }
        11 => Call::Put(5, Vec::new()),
        0..=23 => Call::Next,
        24..=28 => Call::Ack(active, before_held.wrapping_add(random.below(6) as u32)),
        29 => Call::Ack(server, before_held.wrapping_add(bench.exporter.reached as u32)),
        30 if random.below(4) == 0 => Call::Start(server),
        31 | 32 => Call::Offer(server),
        33 | 34 => Call::FinalAck(server),
        35 if random.below(4) == 0 => Call::Down(server),
        36 if random.below(8) == 0 => Call::Stop(server),
        37 if random.below(16) == 0 => Call::Negotiate(server),
        38 if bench.exporter.state(server) == ServerState::Closed => Call::Start(server),
        _ => Call::Tick,
    }
}

/// Makes the call of the exporter.
fn make_call(bench: &mut Bench, call: &Call) -> Reply {
    let plain = |answer: u8| Reply { answer, written: 0 };
    match call {
        Call::Put(id, record) => plain(bench.exporter.put(&mut bench.store, &bench.table, *id, record)),
        Call::Next => bench.next(),
        Call::Start(server) => bench.start(*server),
        Call::Stop(server) => bench.stop(*server),
        Call::Negotiate(server) => bench.negotiate(*server),
        Call::Offer(server) => bench.offer(*server),
        Call::FinalAck(server) => bench.final_ack(*server),
        Call::Ack(server, dsn) => plain(bench.ack(*server, *dsn)),
        Call::Down(server) => plain(bench.exporter.line_down(*server)),
        Call::Tick => plain(bench.exporter.tick()),
    }
}

/// State and store say of the held records, servers and counters what the history says.
fn assert_agree(bench: &Bench, history: &History) {
    let exporter = &bench.exporter;
    assert!(exporter.is_sound());
    assert_eq!(exporter.states[..history.states.len()], history.states);
    assert_eq!((exporter.active, exporter.timer), (history.active, history.timer));
    assert_eq!((exporter.sent, exporter.reached), (history.sent, history.reached));
    assert_eq!(exporter.next_dsn, history.dsn(history.records.len() + 1));
    let held: Vec<(u16, Vec<u8>)> = (0..exporter.queue.len())
        .map(|place| (exporter.queue[place].template_id, exporter.held_record(&bench.store, place)))
        .collect();
    assert_eq!(held, history.records[history.released..]);
}

/// What random calls met: how often each answer was given, how often the first held record was sent again without S and
/// with S, and how many records were written to each server.
#[derive(Default)]
struct Met {
    answers: [usize; 23],
    resends: [usize; 2],
    written: [usize; MAX_SERVERS],
}

/// A run of random calls with servers of these priorities; what it meets is counted.
fn random_run(met: &mut Met, seed: u64, priorities: &[u8], calls: usize) {
    let mut random = Random(seed);
    let limits = Settings {
        first_dsn: u32::MAX - random.below(200) as u32,
        threshold: 1 + random.below(9) as u8,
        duration: 1 + random.below(9) as u16,
        ..settings(priorities)
    };
    let mut bench = Bench::new(limits.clone(), 1_024 + random.below(2_000) as usize);
    bench.out.truncate(1_100);
    let mut history = History::new(limits);
    let puts = 1 + random.below(11);
    for _ in 0..calls {
        let before = (bench.exporter.clone(), bench.store.clone(), bench.out.clone());
        let call = random_call(&bench, &mut random, puts);
        let reply = make_call(&mut bench, &call);
        met.answers[usize::from(reply.answer)] += 1;
        if reply.answer != 0 {
            assert!(before == (bench.exporter.clone(), bench.store.clone(), bench.out.clone()));
            continue;
        }
        history.step(&call);
        assert_agree(&bench, &history);
        if matches!(call, Call::Next) {
            let (message, record) = history.last_data();
            assert_eq!(read(&bench.out[..reply.written]), Ok((message, record.as_slice())));
            if before.0.sent == 0 && before.0.reached > 0 {
                met.resends[usize::from(bench.out[11] & 1)] += 1;
            }
        }
    }
    for writing in &history.writings {
        met.written[usize::from(writing.server)] += 1;
    }
}

#[test]
fn exporter_agrees_with_its_history() {
    let mut met = Met::default();
    for seed in 0..24 {
        random_run(&mut met, seed, &[1, 5, 5], 800);
    }
    assert_answers(&met);
    assert!(met.resends.iter().all(|count| *count >= 10), "{:?}", met.resends);
}

#[test]
fn exporter_agrees_with_its_history_with_many_servers() {
    let mut met = Met::default();
    for seed in 0..48 {
        let servers = MAX_SERVERS - seed as usize % (MAX_SERVERS - SHORT_FORM_PRIORITIES);
        let mut random = Random(seed);
        let priorities: Vec<u8> = (0..servers).map(|_| random.below(4) as u8).collect();
        random_run(&mut met, seed, &priorities, 1_600);
    }
    assert_answers(&met);
    assert!(met.written.iter().all(|count| *count >= 20), "{:?}", met.written);
}

/// Every answer that a random call can get was given.
fn assert_answers(met: &Met) {
    for answer in [0, 2, 9, 11, 13, 14, 18, 19] {
        assert!(met.answers[answer] > 0, "answer {answer} was not given");
    }
}

//! The exporter: set-up and its six calls over a state and a store that the caller lends.

use std::collections::{BTreeSet, VecDeque};

use super::answer;
use super::message::{self, Message};
use super::record;
use super::table;

/// The most servers of a session.
pub const MAX_SERVERS: usize = 16;
pub const MOST_RECORDS: usize = 64;
pub const SMALLEST_STORE: usize = 1_024;
pub const LARGEST_STORE: usize = 65_536;

/// What set-up is given beside the store. Priorities past the server count are not looked at.
#[derive(Clone, Debug, PartialEq, Eq)]
pub struct Settings {
    pub session: u8,
    pub configuration_id: u8,
    pub boot_time: u32,
    pub first_dsn: u32,
    pub servers: u8,
    pub priorities: [u8; MAX_SERVERS],
    pub threshold: u8,
    pub duration: u16,
}

impl Settings {
    /// From 1 server to the most, threshold 1 to 64, duration 1 to 65,535; all other settings are free.
    pub fn in_limits(&self) -> bool {
        let servers = usize::from(self.servers);
        (1..=MAX_SERVERS).contains(&servers) && (1..=64).contains(&self.threshold) && self.duration >= 1
    }
}

/// Server states; every server is closed at first.
#[derive(Clone, Copy, Debug, PartialEq, Eq)]
pub enum ServerState {
    Closed,
    Started,
    Offered,
    Agreed,
    Late,
}

/// One held record; its octets are in the store.
#[derive(Clone, Debug, PartialEq, Eq)]
pub struct Held {
    pub template_id: u16,
    pub length: usize,
    pub sent_to: BTreeSet<u8>,
}

/// The exporter's state. The store's octets are lent to each call that needs them.
#[derive(Clone, Debug, PartialEq, Eq)]
pub struct Exporter {
    pub settings: Settings,
    pub store_length: usize,
    pub states: [ServerState; MAX_SERVERS],
    pub queue: VecDeque<Held>,
    pub next_dsn: u32,
    pub ring_start: usize,
    pub sent: usize,
    pub reached: usize,
    pub timer: u16,
    pub active: Option<u8>,
    /// How many records were ever released. The records put have places from 1 on, so this is the
    /// place before the first held one.
    pub released: usize,
    /// The place of the record that began the activation, which may not have been put yet.
    pub began: usize,
}

/// A call's answer and how many octets it wrote at the output's start.
#[derive(Clone, Copy, Debug, PartialEq, Eq)]
pub struct Reply {
    pub answer: u8,
    pub written: usize,
}

impl Reply {
    fn of(outcome: Result<usize, u8>) -> Reply {
        match outcome {
            Ok(written) => Reply { answer: answer::DONE, written },
            Err(refusal) => Reply { answer: refusal, written: 0 },
        }
    }
}

/// The answer number of an outcome that writes nothing.
fn number_of(outcome: Result<(), u8>) -> u8 {
    match outcome {
        Ok(()) => answer::DONE,
        Err(refusal) => refusal,
    }
}

/// Done where the rule holds, else the refusal.
fn require(holds: bool, refusal: u8) -> Result<(), u8> {
    if holds {
        Ok(())
    } else {
        Err(refusal)
    }
}

/// Set-up, the calls and what they are judged by.
impl Exporter {
    /// Set-up, judged 20 for the settings and the store's length. At first no record is held, all
    /// servers are closed, the counters are 0, and S is for place 1. The store is not written.
    pub fn set_up(settings: Settings, store: &[u8]) -> Result<Exporter, u8> {
        let store_fits = (SMALLEST_STORE..=LARGEST_STORE).contains(&store.len());
        require(store_fits && settings.in_limits(), answer::SETTINGS_OUTSIDE_LIMITS)?;
        Ok(Exporter {
            next_dsn: settings.first_dsn,
            settings,
            store_length: store.len(),
            states: [ServerState::Closed; MAX_SERVERS],
            queue: VecDeque::new(),
            ring_start: 0,
            sent: 0,
            reached: 0,
            timer: 0,
            active: None,
            released: 0,
            began: 1,
        })
    }

    /// Put: 1, 21, 15, 17, 16, 18, 19. The record takes the next DSN and its octets follow the
    /// held octets in the ring.
    pub fn put(&mut self, store: &mut [u8], t: &[u8], template_id: u16, r: &[u8]) -> u8 {
        if let Err(refusal) = self.judge_put(store, t, template_id, r) {
            return refusal;
        }
        self.write_ring(store, self.held_octets(), r);
        self.queue.push_back(Held { template_id, length: r.len(), sent_to: BTreeSet::new() });
        self.next_dsn = self.next_dsn.wrapping_add(1);
        self.settle();
        answer::DONE
    }

    /// The refusals of put, in their order.
    fn judge_put(&self, store: &[u8], t: &[u8], template_id: u16, r: &[u8]) -> Result<(), u8> {
        require(self.is_sound() && store.len() == self.store_length, answer::UNSOUND_STATE)?;
        require(self.accepts_table(t), answer::UNSOUND_TABLE)?;
        record::find_template(t, template_id)?;
        require(r.len() <= message::MAX_RECORD_OCTETS, answer::RECORD_TOO_LONG)?;
        require(record::judge(t, template_id, r) == answer::DONE, answer::RECORD_INVALID)?;
        require(self.queue.len() < MOST_RECORDS, answer::QUEUE_FULL)?;
        require(self.held_octets() + r.len() <= self.store_length, answer::STORE_FULL)
    }

    /// Next data, judged 1, 13, 14, 12: the record behind those already sent goes out as DATA.
    pub fn next_data(&mut self, store: &[u8], out: &mut [u8]) -> Reply {
        Reply::of(self.try_next_data(store, out))
    }

    /// S marks the record that began the activation, told by its place among all records put. Once
    /// the activation has released a record, every place written lies behind that one. D marks a
    /// record that some other server was sent before. One more counts as sent, and reached keeps the
    /// highest count.
    fn try_next_data(&mut self, store: &[u8], out: &mut [u8]) -> Result<usize, u8> {
        require(self.is_sound() && store.len() == self.store_length, answer::UNSOUND_STATE)?;
        let server = self.active.ok_or(answer::NO_ACTIVE_SERVER)?;
        let held = self.queue.get(self.sent).ok_or(answer::NOTHING_TO_SEND)?;
        let place = self.released + self.sent + 1;
        let data = Message::Data {
            session: self.settings.session,
            template_id: held.template_id,
            configuration_id: self.settings.configuration_id,
            s: place == self.began,
            d: held.sent_to.iter().any(|other| *other != server),
            dsn: self.first_held_dsn().wrapping_add(self.sent as u32),
        };
        let written = message::write(&data, &self.held_record(store, self.sent), out)?;
        if let Some(held) = self.queue.get_mut(self.sent) {
            held.sent_to.insert(server);
        }
        self.sent += 1;
        self.reached = self.reached.max(self.sent);
        self.settle();
        Ok(written)
    }

    /// Receive: 1 to 12 ascending. Accepts START, STOP, FINAL TMPL DATA ACK, START NEGOTIATE and
    /// DATA ACK, and writes the reply where there is one.
    pub fn receive(&mut self, server: u8, m: &[u8], out: &mut [u8]) -> Reply {
        Reply::of(self.try_receive(server, m, out))
    }

    fn try_receive(&mut self, server: u8, m: &[u8], out: &mut [u8]) -> Result<usize, u8> {
        let request = self.judge_message(server, m)?;
        self.judge_turn(server, &request)?;
        let written = match self.reply_to(&request) {
            Some(reply) => message::write(&reply, &[], out)?,
            None => 0,
        };
        match request {
            Message::Start { .. } => self.set_state(server, ServerState::Started),
            Message::Stop { .. } => self.set_state(server, ServerState::Closed),
            Message::FinalTmplDataAck { .. } => self.set_state(server, ServerState::Agreed),
            Message::StartNegotiate { .. } => self.renegotiate(),
            Message::DataAck { dsn, .. } => self.acknowledge(self.acknowledged_count(dsn) as usize),
            _ => {}
        }
        self.settle();
        Ok(written)
    }

    /// Receive's refusals 1 to 8: state, server, header, session, message number, body length.
    fn judge_message(&self, server: u8, m: &[u8]) -> Result<Message, u8> {
        require(self.is_sound(), answer::UNSOUND_STATE)?;
        require(server < self.settings.servers, answer::NO_SUCH_SERVER)?;
        let header = message::read_header(m)?;
        require(header.session == self.settings.session, answer::OTHER_SESSION)?;
        let accepted =
            [message::START, message::STOP, message::FINAL_TMPL_DATA_ACK, message::START_NEGOTIATE, message::DATA_ACK];
        require(accepted.contains(&header.number), answer::MESSAGE_NOT_ACCEPTED)?;
        message::read(m).map(|(request, _)| request)
    }

    /// Receive's refusals 9 to 11. FINAL TMPL DATA ACK needs an offered server, START NEGOTIATE one
    /// that is not closed, DATA ACK the active one; then the Configuration ID; then the DSN.
    fn judge_turn(&self, server: u8, request: &Message) -> Result<(), u8> {
        let state = self.state(server);
        let ours = self.settings.configuration_id;
        match *request {
            Message::FinalTmplDataAck { configuration_id, .. } => {
                require(state == ServerState::Offered, answer::OUT_OF_TURN)?;
                require(configuration_id == ours, answer::OTHER_CONFIGURATION)
            }
            Message::StartNegotiate { .. } => require(state != ServerState::Closed, answer::OUT_OF_TURN),
            Message::DataAck { dsn, configuration_id, .. } => {
                require(self.active == Some(server), answer::OUT_OF_TURN)?;
                require(configuration_id == ours, answer::OTHER_CONFIGURATION)?;
                let count = u64::from(self.acknowledged_count(dsn));
                require(count <= self.reached as u64, answer::DSN_NOT_ACKNOWLEDGEABLE)
            }
            _ => Ok(()),
        }
    }

    /// The reply to an accepted request: START ACK, STOP ACK, START NEGOTIATE ACK, or none.
    fn reply_to(&self, request: &Message) -> Option<Message> {
        let session = self.settings.session;
        match request {
            Message::Start { .. } => Some(Message::StartAck { session, boot_time: self.settings.boot_time }),
            Message::Stop { .. } => Some(Message::StopAck { session }),
            Message::StartNegotiate { .. } => Some(Message::StartNegotiateAck { session }),
            _ => None,
        }
    }

    /// Offer templates, judged 1, 2, 21, 9, 12: a started or offered server gets the table and is
    /// then offered.
    pub fn offer_templates(&mut self, server: u8, t: &[u8], out: &mut [u8]) -> Reply {
        Reply::of(self.try_offer_templates(server, t, out))
    }

    fn try_offer_templates(&mut self, server: u8, t: &[u8], out: &mut [u8]) -> Result<usize, u8> {
        require(self.is_sound(), answer::UNSOUND_STATE)?;
        require(server < self.settings.servers, answer::NO_SUCH_SERVER)?;
        require(self.accepts_table(t), answer::UNSOUND_TABLE)?;
        let in_turn = [ServerState::Started, ServerState::Offered].contains(&self.state(server));
        require(in_turn, answer::OUT_OF_TURN)?;
        let offer = Message::TmplData { session: self.settings.session };
        let written = message::write(&offer, t, out)?;
        self.set_state(server, ServerState::Offered);
        self.settle();
        Ok(written)
    }

    /// Line down: 1, 2. The server is closed, from any state.
    pub fn line_down(&mut self, server: u8) -> u8 {
        number_of(self.try_line_down(server))
    }

    fn try_line_down(&mut self, server: u8) -> Result<(), u8> {
        require(self.is_sound(), answer::UNSOUND_STATE)?;
        require(server < self.settings.servers, answer::NO_SUCH_SERVER)?;
        self.set_state(server, ServerState::Closed);
        self.settle();
        Ok(())
    }

    /// Tick: 1. With reached below threshold or no active server the timer is 0; else it grows by
    /// 1 and, when it equals the duration, becomes 0 and the active server's time is up.
    pub fn tick(&mut self) -> u8 {
        if !self.is_sound() {
            return answer::UNSOUND_STATE;
        }
        match self.active {
            Some(server) if self.reached >= usize::from(self.settings.threshold) => {
                self.timer = self.timer.saturating_add(1);
                if self.timer == self.settings.duration {
                    self.timer = 0;
                    self.time_up(server);
                }
            }
            _ => self.timer = 0,
        }
        self.settle();
        answer::DONE
    }

    /// With another server agreed the active one is now late; otherwise sending starts over.
    fn time_up(&mut self, server: u8) {
        let another =
            (0..self.settings.servers).any(|other| other != server && self.state(other) == ServerState::Agreed);
        if another {
            self.set_state(server, ServerState::Late);
        } else {
            self.sent = 0;
        }
    }

    /// START NEGOTIATE: every server not closed becomes started.
    fn renegotiate(&mut self) {
        for server in 0..self.settings.servers {
            if self.state(server) != ServerState::Closed {
                self.set_state(server, ServerState::Started);
            }
        }
    }

    /// How many records an ack names, counted from the first held DSN with wrapping.
    pub fn acknowledged_count(&self, dsn: u32) -> u32 {
        dsn.wrapping_sub(self.first_held_dsn()).wrapping_add(1)
    }

    /// Releases n records: all counters move down with them, sent no further than 0. A release
    /// resets the timer, an empty one sends all again.
    fn acknowledge(&mut self, n: usize) {
        for _ in 0..n {
            self.release();
        }
        self.reached = self.reached.saturating_sub(n);
        self.sent = self.sent.saturating_sub(n);
        if n > 0 {
            self.timer = 0;
        } else {
            self.sent = 0;
        }
    }

    /// The first held record goes; the ring's start moves on by its octets.
    fn release(&mut self) {
        if let Some(held) = self.queue.pop_front() {
            self.ring_start = self.ring_place(held.length).unwrap_or(0);
            self.released += 1;
        }
    }

    /// Makes the choice once more; where it differs from before, an activation begins: the counters
    /// start at 0, and the record that begins it is the first held one, or the next to be put.
    fn settle(&mut self) {
        let chosen = self.choose();
        if chosen != self.active {
            self.active = chosen;
            self.sent = 0;
            self.reached = 0;
            self.timer = 0;
            self.began = self.released + 1;
        }
    }

    /// The agreed server of highest priority, lowest number on ties; none exactly if none is
    /// agreed.
    pub fn choose(&self) -> Option<u8> {
        let mut best: Option<(u8, u8)> = None;
        for (server, priority) in (0..self.settings.servers).zip(self.settings.priorities) {
            let higher = best.is_none_or(|(_, highest)| priority > highest);
            if self.state(server) == ServerState::Agreed && higher {
                best = Some((server, priority));
            }
        }
        best.map(|(server, _)| server)
    }

    /// The DSN of the oldest held record, or the next DSN where none is held.
    pub fn first_held_dsn(&self) -> u32 {
        self.next_dsn.wrapping_sub(self.queue.len() as u32)
    }

    /// A lent table must be sound and of the session's Configuration ID; else 21.
    pub fn accepts_table(&self, t: &[u8]) -> bool {
        table::is_sound(t) && table::configuration_id(t) == self.settings.configuration_id
    }

    /// The state of a server; closed for a number that is no server's.
    pub fn state(&self, server: u8) -> ServerState {
        self.states.get(usize::from(server)).copied().unwrap_or(ServerState::Closed)
    }

    fn set_state(&mut self, server: u8, state: ServerState) {
        if let Some(place) = self.states.get_mut(usize::from(server)) {
            *place = state;
        }
    }
}

/// The ring of the held records' octets.
impl Exporter {
    /// How many octets the held records have.
    pub fn held_octets(&self) -> usize {
        self.octets_before(self.queue.len())
    }

    /// How many octets the first `count` held records have.
    pub fn octets_before(&self, count: usize) -> usize {
        let lengths = self.queue.iter().take(count).map(|held| held.length);
        lengths.fold(0, usize::saturating_add)
    }

    /// The octets of the held record at that place of the queue.
    pub fn held_record(&self, store: &[u8], place: usize) -> Vec<u8> {
        let length = self.queue.get(place).map_or(0, |held| held.length);
        self.read_ring(store, self.octets_before(place), length)
    }

    /// The place in the store behind the held octets, where the next record begins.
    pub fn next_place(&self) -> usize {
        self.ring_place(self.held_octets()).unwrap_or(0)
    }

    /// The place in the store that lies `offset` octets after the ring's start, around its end.
    fn ring_place(&self, offset: usize) -> Option<usize> {
        self.ring_start.checked_add(offset)?.checked_rem(self.store_length)
    }

    /// Writes octets from `offset` after the ring's start on; no other octet changes.
    fn write_ring(&self, store: &mut [u8], offset: usize, octets: &[u8]) {
        for (at, octet) in (offset..).zip(octets) {
            let place = self.ring_place(at);
            if let Some(room) = place.and_then(|place| store.get_mut(place)) {
                *room = *octet;
            }
        }
    }

    /// Reads `length` octets from `offset` after the ring's start on.
    fn read_ring(&self, store: &[u8], offset: usize, length: usize) -> Vec<u8> {
        (offset..offset.saturating_add(length))
            .filter_map(|at| self.ring_place(at).and_then(|place| store.get(place)))
            .copied()
            .collect()
    }
}

/// Soundness of the state.
impl Exporter {
    /// The rules of a sound state, all of them.
    pub fn is_sound(&self) -> bool {
        self.settings_sound() && self.queue_sound() && self.counters_sound() && self.sets_sound()
    }

    /// Settings in limits, the store's length among them.
    fn settings_sound(&self) -> bool {
        self.settings.in_limits() && (SMALLEST_STORE..=LARGEST_STORE).contains(&self.store_length)
    }

    /// The queue is within its limits.
    fn queue_sound(&self) -> bool {
        self.queue.len() <= MOST_RECORDS
            && self.queue.iter().all(|held| held.length <= message::MAX_RECORD_OCTETS)
            && self.held_octets() <= self.store_length
            && self.ring_start < self.store_length
    }

    /// The counters are in order, and the choice is the one that would be made.
    fn counters_sound(&self) -> bool {
        let at_rest = self.sent == 0 && self.reached == 0 && self.timer == 0;
        self.sent <= self.reached
            && self.reached <= self.queue.len()
            && self.timer < self.settings.duration
            && self.active == self.choose()
            && (self.active.is_some() || at_rest)
    }

    /// The sets hold only servers that exist, and the active one in each record reached.
    fn sets_sound(&self) -> bool {
        let existing = |held: &Held| held.sent_to.iter().all(|server| *server < self.settings.servers);
        let reached_active = |held: &Held| self.active.is_some_and(|server| held.sent_to.contains(&server));
        self.queue.iter().all(existing) && self.queue.iter().take(self.reached).all(reached_active)
    }
}

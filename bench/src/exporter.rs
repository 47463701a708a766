//! An exporter over a state that is changed in place, with the same checks on every call.

use crate::answer::*;
use crate::message::{self, DataHead, Message};
use crate::table;

pub const MAX_SERVERS: usize = 16;
pub const MAX_HELD: usize = 64;
pub const MAX_RECORD_OCTETS: usize = 1024;

#[derive(Clone, Copy, PartialEq)]
pub enum Phase {
    Closed,
    Started,
    Offered,
    Agreed,
    Late,
}

#[derive(Clone, Copy)]
pub struct Settings {
    pub session: u8,
    pub config: u8,
    pub boot: u32,
    pub initial: u32,
    pub servers: u8,
    pub priorities: [u8; MAX_SERVERS],
    pub threshold: u8,
    pub duration: u16,
}

pub struct State {
    settings: Settings,
    capacity: usize,
    phases: [Phase; MAX_SERVERS],
    active: Option<u8>,
    sent: usize,
    reached: usize,
    timer: u16,
    /// No record has been released since the activation began, so its first has S.
    due: bool,
    count: usize,
    lengths: [u16; MAX_HELD],
    templates: [u16; MAX_HELD],
    /// The servers that each held record was written to, a bit each.
    receivers: [u16; MAX_HELD],
    start: usize,
    next: u32,
}

/// An answer of 0, or the refusal.
type Answer = Result<(), u8>;

/// How many octets were written, or the refusal.
type Wrote = Result<usize, u8>;

/// What a batch ends with: the answer that it stopped at, and how many messages and octets were written before.
pub struct Batch {
    pub answer: u8,
    pub count: usize,
    pub written: usize,
}

fn settings_sound(p: &Settings, capacity: usize) -> bool {
    (1..=MAX_SERVERS).contains(&(p.servers as usize))
        && (1..=64).contains(&p.threshold)
        && p.duration >= 1
        && (1024..=65536).contains(&capacity)
}

/// Copies octets of the ring from a place on: the place behind them.
fn read_ring(ring: &[u8], at: usize, octets: &mut [u8]) -> usize {
    let end = at + octets.len();
    if end < ring.len() {
        octets.copy_from_slice(&ring[at..end]);
        return end;
    }
    let (tail, rest) = octets.split_at_mut(ring.len() - at);
    tail.copy_from_slice(&ring[at..]);
    rest.copy_from_slice(&ring[..rest.len()]);
    rest.len()
}

impl State {
    pub fn set_up(settings: Settings, store: &[u8]) -> Result<State, u8> {
        if !settings_sound(&settings, store.len()) {
            return Err(SETTINGS_OUTSIDE_LIMITS);
        }
        Ok(State {
            settings,
            capacity: store.len(),
            phases: [Phase::Closed; MAX_SERVERS],
            active: None,
            sent: 0,
            reached: 0,
            timer: 0,
            due: true,
            count: 0,
            lengths: [0; MAX_HELD],
            templates: [0; MAX_HELD],
            receivers: [0; MAX_HELD],
            start: 0,
            next: settings.initial,
        })
    }

    /// The agreed server of highest priority, the lowest number on ties.
    fn chosen(&self, phases: &[Phase; MAX_SERVERS]) -> Option<u8> {
        let mut best: Option<(u8, u8)> = None;
        for v in 0..self.settings.servers.min(MAX_SERVERS as u8) {
            let priority = self.settings.priorities[v as usize];
            if phases[v as usize] == Phase::Agreed && best.is_none_or(|(_, p)| p < priority) {
                best = Some((v, priority));
            }
        }
        best.map(|(v, _)| v)
    }

    /// The settings and the numbers that stand beside the queue are in their limits.
    fn numbers_sound(&self) -> bool {
        settings_sound(&self.settings, self.capacity)
            && self.count <= MAX_HELD
            && self.start < self.capacity
            && self.sent <= self.reached
            && self.reached <= self.count
            && self.timer < self.settings.duration
    }

    /// With no active server nothing was sent; else the first records were sent to it.
    fn activation_sound(&self) -> bool {
        let Some(v) = self.active else {
            return self.reached == 0 && self.timer == 0;
        };
        let reached = &self.receivers[..self.reached];
        let all = reached.iter().fold(u16::MAX, |all, &set| all & set);
        all >> v & 1 == 1
    }

    /// How many octets are held, if the state is sound.
    fn held_if_sound(&self) -> Result<usize, u8> {
        if !self.numbers_sound() {
            return Err(UNSOUND_STATE);
        }
        let lengths = &self.lengths[..self.count];
        let receivers = &self.receivers[..self.count];
        let others = !(((1u32 << self.settings.servers) - 1) as u16);
        let held: u32 = lengths.iter().map(|&n| n as u32).sum();
        let long = lengths
            .iter()
            .fold(false, |any, &n| any | (n as usize > MAX_RECORD_OCTETS));
        let union = receivers.iter().fold(0, |any, &set| any | set);
        if long
            || held as usize > self.capacity
            || union & others != 0
            || self.active != self.chosen(&self.phases)
            || !self.activation_sound()
        {
            return Err(UNSOUND_STATE);
        }
        Ok(held as usize)
    }

    /// Makes the choice anew; a changed one begins an activation.
    fn settle(&mut self) {
        let active = self.chosen(&self.phases);
        if active != self.active {
            self.active = active;
            self.sent = 0;
            self.reached = 0;
            self.timer = 0;
            self.due = true;
        }
    }

    /// The place in the store of that octet of the ring.
    fn ring_place(&self, octet: usize) -> usize {
        let at = self.start + octet;
        if at >= self.capacity {
            at - self.capacity
        } else {
            at
        }
    }

    pub fn put(&mut self, store: &mut [u8], t: &[u8], id: u16, record: &[u8]) -> Answer {
        let held = self.held_if_sound()?;
        if store.len() != self.capacity {
            return Err(UNSOUND_STATE);
        }
        if !table::is_sound(t) || t[0] != self.settings.config {
            return Err(UNSOUND_TABLE);
        }
        let keys = table::find(t, id).ok_or(TEMPLATE_NOT_FOUND)?;
        if record.len() > MAX_RECORD_OCTETS {
            return Err(RECORD_TOO_LONG);
        }
        if !table::fields_valid(table::order(t), keys, record) {
            return Err(RECORD_INVALID);
        }
        if self.count >= MAX_HELD {
            return Err(QUEUE_FULL);
        }
        if held + record.len() > self.capacity {
            return Err(STORE_FULL);
        }
        let at = self.ring_place(held);
        let first = record.len().min(self.capacity - at);
        store[at..at + first].copy_from_slice(&record[..first]);
        store[..record.len() - first].copy_from_slice(&record[first..]);
        self.lengths[self.count] = record.len() as u16;
        self.templates[self.count] = id;
        self.receivers[self.count] = 0;
        self.count += 1;
        self.next = self.next.wrapping_add(1);
        Ok(())
    }

    /// What the DATA of held record i says to the active server.
    fn data_head(&self, i: usize, active: u8) -> DataHead {
        let first = self.next.wrapping_sub(self.count as u32);
        DataHead {
            session: self.settings.session,
            template: self.templates[i],
            config: self.settings.config,
            first: self.due && i == 0,
            duplicate: self.receivers[i] & !(1 << active) != 0,
            dsn: first.wrapping_add(i as u32),
        }
    }

    pub fn next_data(&mut self, store: &[u8], out: &mut [u8]) -> Wrote {
        self.held_if_sound()?;
        if store.len() != self.capacity {
            return Err(UNSOUND_STATE);
        }
        let active = self.active.ok_or(NO_ACTIVE_SERVER)?;
        let i = self.sent;
        if i >= self.count {
            return Err(NOTHING_TO_SEND);
        }
        let len = self.lengths[i] as usize;
        let total = 16 + len;
        let Some(out) = out.get_mut(..total) else {
            return Err(OUTPUT_TOO_SHORT);
        };
        let before: u32 = self.lengths[..i].iter().map(|&n| n as u32).sum();
        let at = self.ring_place(before as usize);
        out[..16].copy_from_slice(&message::data_head(&self.data_head(i, active), len));
        let first = len.min(self.capacity - at);
        out[16..16 + first].copy_from_slice(&store[at..at + first]);
        out[16 + first..].copy_from_slice(&store[..len - first]);
        self.receivers[i] |= 1 << active;
        self.sent = i + 1;
        self.reached = self.reached.max(i + 1);
        Ok(total)
    }

    /// Sends up to `limit` records back to back: 0 at that number, else the answer of the single call that refuses.
    pub fn send_batch(&mut self, store: &[u8], out: &mut [u8], limit: usize) -> Batch {
        let none = |answer| Batch {
            answer,
            count: 0,
            written: 0,
        };
        if self.held_if_sound().is_err() || store.len() != self.capacity {
            return none(UNSOUND_STATE);
        }
        if limit == 0 {
            return none(DONE);
        }
        let Some(active) = self.active else {
            return none(NO_ACTIVE_SERVER);
        };
        let most = limit.min(self.count - self.sent);
        let (count, written) = self.send_records(active, most, store, out);
        self.sent += count;
        self.reached = self.reached.max(self.sent);
        let answer = if count < most {
            OUTPUT_TOO_SHORT
        } else if count < limit {
            NOTHING_TO_SEND
        } else {
            DONE
        };
        Batch {
            answer,
            count,
            written,
        }
    }

    /// Writes the next `most` records, as far as the output has room for whole ones: how many, and how many octets.
    fn send_records(
        &mut self,
        active: u8,
        most: usize,
        store: &[u8],
        out: &mut [u8],
    ) -> (usize, usize) {
        let (sent, bit) = (self.sent, 1 << active);
        let before: u32 = self.lengths[..sent].iter().map(|&n| n as u32).sum();
        let mut at = self.ring_place(before as usize);
        let first = self.next.wrapping_sub(self.count as u32);
        let mut written = 0;
        let records = self.lengths[sent..sent + most]
            .iter()
            .zip(&self.templates[sent..])
            .zip(&mut self.receivers[sent..]);
        for (i, ((&len, &template), receivers)) in records.enumerate() {
            let len = len as usize;
            let Some(out) = out.get_mut(written..written + 16 + len) else {
                return (i, written);
            };
            let head = DataHead {
                session: self.settings.session,
                template,
                config: self.settings.config,
                first: self.due && sent + i == 0,
                duplicate: *receivers & !bit != 0,
                dsn: first.wrapping_add((sent + i) as u32),
            };
            out[..16].copy_from_slice(&message::data_head(&head, len));
            at = read_ring(store, at, &mut out[16..]);
            *receivers |= bit;
            written += out.len();
        }
        (most, written)
    }

    fn acknowledge(&mut self, v: u8, dsn: u32, config: u8) -> Answer {
        if self.active != Some(v) {
            return Err(OUT_OF_TURN);
        }
        if config != self.settings.config {
            return Err(OTHER_CONFIGURATION);
        }
        let first = self.next.wrapping_sub(self.count as u32);
        let n = dsn.wrapping_sub(first).wrapping_add(1) as usize;
        if n > self.reached {
            return Err(DSN_NOT_ACKNOWLEDGEABLE);
        }
        if n == 0 {
            self.sent = 0;
            return Ok(());
        }
        let octets: u32 = self.lengths[..n].iter().map(|&n| n as u32).sum();
        self.start = self.ring_place(octets as usize);
        self.lengths.copy_within(n..self.count, 0);
        self.templates.copy_within(n..self.count, 0);
        self.receivers.copy_within(n..self.count, 0);
        self.count -= n;
        self.reached -= n;
        self.sent = self.sent.saturating_sub(n);
        self.timer = 0;
        self.due = false;
        Ok(())
    }

    /// Judges server and message by 2 to 7.
    fn received_form(&self, v: u8, m: &[u8]) -> Answer {
        if v >= self.settings.servers {
            return Err(NO_SUCH_SERVER);
        }
        let (session, number) = message::read_header(message::VERSION, m)?;
        if session != self.settings.session {
            return Err(OTHER_SESSION);
        }
        let accepted = [
            message::START,
            message::STOP,
            message::FINAL_TMPL_DATA_ACK,
            message::START_NEGOTIATE,
            message::DATA_ACK,
        ];
        if !accepted.contains(&number) {
            return Err(MESSAGE_NOT_ACCEPTED);
        }
        Ok(())
    }

    fn take_start(&mut self, v: u8, out: &mut [u8]) -> Wrote {
        let reply = Message::StartAck(self.settings.session, self.settings.boot);
        let n = message::write(&reply, out)?;
        self.phases[v as usize] = Phase::Started;
        Ok(n)
    }

    fn take_stop(&mut self, v: u8, out: &mut [u8]) -> Wrote {
        let n = message::write(&Message::StopAck(self.settings.session), out)?;
        self.phases[v as usize] = Phase::Closed;
        Ok(n)
    }

    fn take_start_negotiate(&mut self, v: u8, out: &mut [u8]) -> Wrote {
        if self.phases[v as usize] == Phase::Closed {
            return Err(OUT_OF_TURN);
        }
        let n = message::write(&Message::StartNegotiateAck(self.settings.session), out)?;
        for phase in &mut self.phases {
            if *phase != Phase::Closed {
                *phase = Phase::Started;
            }
        }
        Ok(n)
    }

    fn take_final_tmpl_data_ack(&mut self, v: u8, config: u8) -> Wrote {
        if self.phases[v as usize] != Phase::Offered {
            return Err(OUT_OF_TURN);
        }
        if config != self.settings.config {
            return Err(OTHER_CONFIGURATION);
        }
        self.phases[v as usize] = Phase::Agreed;
        Ok(0)
    }

    pub fn receive(&mut self, v: u8, m: &[u8], out: &mut [u8]) -> Wrote {
        self.held_if_sound()?;
        self.received_form(v, m)?;
        let written = match message::read(m)? {
            Message::DataAck(_, dsn, config) => {
                self.acknowledge(v, dsn, config)?;
                return Ok(0);
            }
            Message::Start(_) => self.take_start(v, out)?,
            Message::Stop(_) => self.take_stop(v, out)?,
            Message::StartNegotiate(_) => self.take_start_negotiate(v, out)?,
            Message::FinalTmplDataAck(_, config) => self.take_final_tmpl_data_ack(v, config)?,
            _ => return Err(MESSAGE_NOT_ACCEPTED),
        };
        self.settle();
        Ok(written)
    }

    pub fn offer_templates(&mut self, v: u8, t: &[u8], out: &mut [u8]) -> Wrote {
        self.held_if_sound()?;
        if v >= self.settings.servers {
            return Err(NO_SUCH_SERVER);
        }
        if !table::is_sound(t) || t[0] != self.settings.config {
            return Err(UNSOUND_TABLE);
        }
        if !matches!(self.phases[v as usize], Phase::Started | Phase::Offered) {
            return Err(OUT_OF_TURN);
        }
        let n = message::write(&Message::TmplData(self.settings.session, t), out)?;
        self.phases[v as usize] = Phase::Offered;
        self.settle();
        Ok(n)
    }

    pub fn line_down(&mut self, v: u8) -> Answer {
        self.held_if_sound()?;
        if v >= self.settings.servers {
            return Err(NO_SUCH_SERVER);
        }
        self.phases[v as usize] = Phase::Closed;
        self.settle();
        Ok(())
    }

    pub fn tick(&mut self) -> Answer {
        self.held_if_sound()?;
        let Some(v) = self.active else {
            self.timer = 0;
            return Ok(());
        };
        if self.reached < self.settings.threshold as usize {
            self.timer = 0;
            return Ok(());
        }
        self.timer += 1;
        if self.timer == self.settings.duration {
            self.timer = 0;
            let mut late = self.phases;
            late[v as usize] = Phase::Late;
            if self.chosen(&late).is_none() {
                self.sent = 0;
            } else {
                self.phases = late;
                self.settle();
            }
        }
        Ok(())
    }
}

//! What is measured: runs of both sides, and lines that are a run, or the difference of two, divided by a number of calls.

use crate::inputs::{self, Events, Valid, OUTPUT_OCTETS};
use crate::session::session;
use crate::{edition, ipdr, library, message, replay, table, walk};
use std::hint::black_box;
use std::io::Write;
use std::process::{Command, Stdio};

type Side = Box<dyn FnMut()>;

/// A run of both sides.
pub struct Run {
    pub rattle: Side,
    pub rust: Side,
}

/// A line of the report: a run less another one, for each of some calls.
pub struct Line {
    pub name: String,
    pub run: usize,
    pub less: Option<usize>,
    pub calls: usize,
}

/// Runs that are timed together, in turn.
pub struct Group {
    pub title: String,
    pub runs: Vec<Run>,
    pub lines: Vec<Line>,
    pub rounds: usize,
}

impl Group {
    fn new(title: &str, rounds: usize) -> Group {
        Group {
            title: title.to_string(),
            runs: Vec::new(),
            lines: Vec::new(),
            rounds,
        }
    }

    fn run(&mut self, rattle: Side, rust: Side) -> usize {
        self.runs.push(Run { rattle, rust });
        self.runs.len() - 1
    }

    fn line(&mut self, name: &str, run: usize, less: Option<usize>, calls: usize) {
        self.lines.push(Line {
            name: name.to_string(),
            run,
            less,
            calls,
        });
    }

    /// A function called again and again.
    fn calls(
        &mut self,
        name: &str,
        calls: usize,
        mut rattle: impl FnMut() + 'static,
        mut rust: impl FnMut() + 'static,
    ) {
        let run = self.run(
            Box::new(move || (0..calls).for_each(|_| rattle())),
            Box::new(move || (0..calls).for_each(|_| rust())),
        );
        self.line(name, run, None, calls);
    }

    /// A session; its line is added on its own.
    fn session(&mut self, v: &Valid, events: &Events) -> usize {
        let (rattle, rust) = session_run(v, events);
        self.run(rattle, rust)
    }

    /// A record that is judged again and again.
    fn record(&mut self, name: &str, v: Valid, calls: usize) {
        let (a, b) = (v.clone(), v);
        self.calls(
            name,
            calls,
            move || {
                black_box(library::record_answer(
                    black_box(&a.table),
                    a.id,
                    black_box(&a.record),
                ));
            },
            move || {
                black_box(table::record_answer(
                    black_box(&b.table),
                    b.id,
                    black_box(&b.record),
                ));
            },
        );
    }

    /// A record whose fields are counted again and again.
    fn count(&mut self, name: &str, v: Valid, calls: usize) {
        let (a, b) = (v.clone(), v);
        self.calls(
            name,
            calls,
            move || {
                let (t, r) = (black_box(&a.table), black_box(&a.record));
                black_box(library::count_fields(t, a.id, r));
            },
            move || {
                let (t, r) = (black_box(&b.table), black_box(&b.record));
                black_box(walk::count_fields(t, b.id, r));
            },
        );
    }

    /// Steps over the fields of a record, again and again; of each the size of the field's value is asked.
    fn steps(&mut self, name: &str, v: Valid, calls: usize) {
        let (a, b) = (v.clone(), v);
        let mut cursors = walk::cursors(&a.table, a.id, &a.record);
        cursors.pop();
        let mut cursors1 = cursors.into_iter().cycle();
        let mut cursors2 = cursors1.clone();
        self.calls(
            name,
            calls,
            move || {
                let c = cursors1.next().expect("a field");
                let (t, r) = (black_box(&a.table), black_box(&a.record));
                black_box(library::step_part(t, a.id, r, c, walk::SIZE));
            },
            move || {
                let c = cursors2.next().expect("a field");
                let (t, r) = (black_box(&b.table), black_box(&b.record));
                black_box(walk::step_part(t, b.id, r, c, walk::SIZE));
            },
        );
    }

    /// A message that is read and written again, into an output of `room` octets.
    fn message(&mut self, name: &str, m: &[u8], room: usize, calls: usize) {
        let (m1, m2) = (m.to_vec(), m.to_vec());
        let (mut out1, mut out2) = (vec![0u8; room], vec![0u8; room]);
        self.calls(
            name,
            calls,
            move || {
                black_box(library::read_again(black_box(&m1), &mut out1));
            },
            move || {
                black_box(message::read_again(black_box(&m2), &mut out2));
            },
        );
    }

    /// An IPDR/SP message that is read and written again, into an output of `room` octets.
    fn ipdr_message(&mut self, name: &str, m: &[u8], room: usize, calls: usize) {
        let (m1, m2) = (m.to_vec(), m.to_vec());
        let (mut out1, mut out2) = (vec![0u8; room], vec![0u8; room]);
        let version = || black_box(ipdr::VERSION);
        self.calls(
            name,
            calls,
            move || {
                black_box(library::read_again_in(version(), black_box(&m1), &mut out1));
            },
            move || {
                black_box(edition::read_again(version(), black_box(&m2), &mut out2));
            },
        );
    }
}

/// Both sides of a session.
fn session_run(v: &Valid, events: &Events) -> (Side, Side) {
    let sides = [library::session, session].map(|f| {
        let (v, events) = (v.clone(), events.octets.clone());
        let mut store = vec![0u8; inputs::STORE_OCTETS];
        let mut out = vec![0u8; inputs::BATCH_OCTETS];
        Box::new(move || {
            black_box(f(
                inputs::GIVEN,
                &mut store,
                black_box(&v.table),
                v.id,
                black_box(&v.record),
                black_box(&events),
                &mut out,
            ));
        }) as Side
    });
    let [rattle, rust] = sides;
    (rattle, rust)
}

/// The exporter's calls with 64 records, and cycles of put, next data and acknowledgement. What releases, ticks and opens a session does
/// not depend on the records' lengths, so `all` asks for these lines in one group only.
fn sessions(title: &str, v: &Valid, rounds: usize, all: bool) -> Group {
    let mut g = Group::new(title, rounds);
    let opening = Events::opening();
    let held = opening.clone().puts(64);
    let sent = held.clone().nexts(64);
    let cycles = opening.clone().times(256, |e| e.puts(1).nexts(1).ack(1));
    let batches = opening.clone().times(4, |e| e.puts(64).nexts(64).ack(64));
    let at_opening = g.session(v, &opening);
    let at_held = g.session(v, &held);
    let at_sent = g.session(v, &sent);
    let cycles = g.session(v, &cycles);
    let batches = g.session(v, &batches);
    let less = Some(at_opening);
    g.line("put (0 to 63 held)", at_held, less, 64);
    g.line("next data (64 held)", at_sent, Some(at_held), 64);
    g.line("cycle: put, next data, DATA ACK", cycles, less, 256);
    g.line(
        "64 at a time: put, next data, 1/64 DATA ACK",
        batches,
        less,
        256,
    );
    if all {
        after_sent(&mut g, v, &sent, at_sent);
        g.line(
            "set-up, START, offer, FINAL TMPL DATA ACK",
            at_opening,
            None,
            1,
        );
    }
    g
}

/// What can follow once 64 records are sent, which is the run `at_sent`.
fn after_sent(g: &mut Group, v: &Valid, sent: &Events, at_sent: usize) {
    let one_each = g.session(v, &sent.clone().acks(64, 1));
    let all_at_once = g.session(v, &sent.clone().ack(64));
    let none = g.session(v, &sent.clone().acks(64, 0));
    let again = g.session(v, &sent.clone().acks(64, 0).nexts(64));
    let ticks = g.session(v, &sent.clone().ticks(64));
    let less = Some(at_sent);
    g.line("next data, sent again (64 held)", again, Some(none), 64);
    g.line("DATA ACK, 1 released (64 to 1 held)", one_each, less, 64);
    g.line("DATA ACK, 64 released", all_at_once, less, 1);
    g.line("DATA ACK, 0 released (64 held)", none, less, 64);
    g.line("tick (64 held)", ticks, less, 64);
}

/// How many batches a run has.
const BATCHES: usize = 16;

/// A batch of 64 records that are sent again, and the same by single calls. Before each a DATA ACK releases none, so that they are sent
/// again; these are taken off.
fn batches(octets: usize, rounds: usize) -> Group {
    let mut g = Group::new(&format!("batch of 64 records of {octets} octets"), rounds);
    let v = Valid::small(octets);
    let sent = Events::opening().puts(64).batch(64);
    let at_acks = g.session(&v, &sent.clone().acks(BATCHES, 0));
    let at_batches = g.session(&v, &sent.clone().times(BATCHES, |e| e.ack(0).batch(64)));
    let at_singles = g.session(&v, &sent.times(BATCHES, |e| e.ack(0).nexts(64)));
    g.line("one batch", at_batches, Some(at_acks), BATCHES);
    g.line("64 next data", at_singles, Some(at_acks), BATCHES);
    g
}

fn tables() -> Group {
    let mut g = Group::new("template table: is it sound?", 150);
    for (name, t, calls) in [
        ("1 template, 4 keys, 64 octets", inputs::small_table(), 500),
        ("1 template, 32 keys", inputs::fixed_table(), 100),
        (
            "8 templates, 32 keys each, 16,384 octets",
            inputs::large_table(true),
            20,
        ),
        ("the same, key IDs fall", inputs::large_table(false), 5),
    ] {
        let u = t.clone();
        g.calls(
            name,
            calls,
            move || {
                black_box(library::table_answer(black_box(&t)));
            },
            move || {
                black_box(table::table_answer(black_box(&u)));
            },
        );
    }
    g
}

fn records() -> Group {
    let mut g = Group::new("record: is it valid? (with the table's soundness)", 150);
    for n in [16, 128, 1024] {
        g.record(&format!("4 keys, {n} octets"), Valid::small(n), 500);
    }
    let string = Valid::text(table::STRING, 1024);
    let terminated = Valid::text(table::TERMINATED, 1024);
    g.record("a string of 1,024 octets", string, 300);
    g.record("a zero-terminated string of 1,024", terminated, 100);
    g.record("32 keys of fixed widths", Valid::fixed(), 100);
    for n in [16, 128, 1024] {
        let name = format!("largest table, 12 of 32 keys, {n} octets");
        g.record(&name, Valid::large(n), 20);
    }
    for (name, v, calls) in three_records() {
        g.record(&format!("{name}, little-endian"), v.little(), calls);
    }
    g
}

/// 4 keys, a string and 32 keys of fixed widths, with the calls of a run.
fn three_records() -> [(&'static str, Valid, usize); 3] {
    [
        ("4 keys, 128 octets", Valid::small(128), 500),
        (
            "a string of 1,024 octets",
            Valid::text(table::STRING, 1024),
            300,
        ),
        ("32 keys of fixed widths", Valid::fixed(), 96),
    ]
}

fn walks() -> Group {
    let mut g = Group::new("field walk (with the table's soundness)", 150);
    for (name, v, calls) in three_records() {
        g.count(&format!("fields counted, {name}"), v.clone(), calls);
        g.count(
            &format!("fields counted, {name}, little-endian"),
            v.little(),
            calls,
        );
    }
    for (name, v, calls) in three_records() {
        g.steps(&format!("a step, {name}"), v.clone(), calls);
        g.steps(&format!("a step, {name}, little-endian"), v.little(), calls);
    }
    g
}

fn messages() -> Group {
    let data = |n| inputs::data_message(&inputs::small_record(n));
    let small = inputs::tmpl_data(&inputs::small_table());
    let large = inputs::tmpl_data(&inputs::large_table(true));
    let mut g = Group::new("messages", 150);
    for (name, m, calls) in [
        ("START", inputs::bare(message::START), 1000),
        ("DATA ACK", inputs::data_ack(77), 1000),
        ("DATA, record of 16", data(16), 1000),
        ("DATA, record of 128", data(128), 1000),
        ("DATA, record of 1,024", data(1024), 300),
        ("TMPL DATA, 4 keys", small, 300),
        ("TMPL DATA, largest table", large, 10),
    ] {
        g.message(&format!("{name}: read, no room to write"), &m, 0, calls);
        let written = format!("{name}: read and written again");
        g.message(&written, &m, OUTPUT_OCTETS, calls);
    }
    g
}

fn ipdr_messages() -> Group {
    let mut g = Group::new("IPDR/SP messages, texts of 16 octets", 150);
    let data = [16, 128, 1024].map(|n| (format!("DATA, record of {n}"), inputs::ipdr_data(n)));
    let others = inputs::ipdr_messages(16).map(|(name, m)| (name.to_string(), m));
    for (name, m) in others.into_iter().chain(data) {
        g.ipdr_message(&format!("{name}: read, no room to write"), &m, 0, 1000);
        let written = format!("{name}: read and written again");
        g.ipdr_message(&written, &m, OUTPUT_OCTETS, 1000);
    }
    g
}

/// Runs a program on the tape, from its start to its end, and gives what it wrote.
fn run_program(program: &mut Command, tape: &[u8]) -> Vec<u8> {
    let mut child = program
        .stdin(Stdio::piped())
        .stdout(Stdio::piped())
        .spawn()
        .expect("a program");
    let mut input = child.stdin.take().expect("a pipe");
    input.write_all(tape).expect("a reader");
    drop(input);
    child.wait_with_output().expect("an output").stdout
}

/// The two replay programs, as processes.
pub fn replays() -> Group {
    let mut g = Group::new(
        "a whole replay: the program from its start to its end, 512 events",
        60,
    );
    let (t1, t2) = (replay::tape(), replay::tape());
    let rattle = move || run_program(&mut Command::new("target/bin/replay"), &t1);
    let own = std::env::current_exe().expect("this program");
    let rust = move || run_program(Command::new(&own).arg("replay-program"), &t2);
    assert_eq!(rattle(), rust(), "the two replays differ");
    let run = g.run(
        Box::new(move || drop(black_box(rattle()))),
        Box::new(move || drop(black_box(rust()))),
    );
    g.line("512 events of 16-octet records", run, None, 1);
    g
}

/// Everything that is measured of the libraries.
pub fn groups() -> Vec<Group> {
    let mut all = Vec::new();
    for (n, rounds) in [(16, 400), (128, 200), (1024, 100)] {
        let title = format!("exporter, table of 1 template with 4 keys, records of {n} octets");
        all.push(sessions(&title, &Valid::small(n), rounds, n == 16));
    }
    for n in [16, 128, 1024] {
        let title = format!("exporter, largest table, records of {n} octets");
        all.push(sessions(&title, &Valid::large(n), 60, false));
    }
    for (n, rounds) in [(16, 200), (128, 200), (1024, 60)] {
        all.push(batches(n, rounds));
    }
    all.extend([tables(), records(), walks(), messages(), ipdr_messages()]);
    all
}

//! Compares the replay program and the static libraries with the model, on seeded tapes, inputs and batches.

use outside::batches::{self, Batch, DEFAULT_BATCHES, ON_A_TAPE};
use outside::coverage::Coverage;
use outside::difference::first_difference;
use outside::generate::{self, DEFAULT_TAPES, PROFILES, SEEDS_APART};
use outside::inputs::{self, EDITION, FUNCTIONS};
use outside::model::replay::replay;
use outside::program::Program;
use outside::text::words::hex;
use outside::{examples, library, tape, text};
use std::fs;
use std::path::{Path, PathBuf};
use std::process::ExitCode;
use std::sync::atomic::{AtomicU64, Ordering};
use std::sync::Mutex;
use std::time::{Duration, Instant};

const USAGE: &str = "usage: compare --program PATH [options]
  --program PATH        the replay program: a tape on standard input, lines on standard output
  --tapes N             how many tapes (2800)
  --inputs N            how many inputs for the static library's functions, and how many messages of editions (120000)
  --batches N           how many batches, rounded up to a multiple of 16 (50000); none where there are no inputs
  --many N              N times as many of all
  --seed S              the first seed (1); each seed gives other tapes, inputs and batches
  --profile NAME        tapes of this profile only
  --examples DIR        check the example sessions of a directory too
  --save DIR            write the tapes on which there is a difference to a directory
  --one PROFILE SEED    run one tape only; print it and both outputs
  --input FUNCTION SEED run one input only; print it and both outcomes
  --batch SEED          run one batch only; print it and what both sides give back
profiles:";

/// How many inputs a run has if it is not told.
const DEFAULT_INPUTS: u64 = 120_000;

const WORKERS: usize = 2;
const MOST_MISMATCHES: u64 = 10;

struct Options {
    program: Option<PathBuf>,
    tapes: u64,
    inputs: u64,
    batches: u64,
    many: u64,
    seed: u64,
    profile: Option<usize>,
    examples: Option<PathBuf>,
    save: Option<PathBuf>,
    one: Option<(usize, u64)>,
    input: Option<(usize, u64)>,
    batch: Option<u64>,
}

impl Options {
    /// The run has the tapes of every profile and at least as many tapes, inputs and batches as a default run, so that
    /// every answer is due.
    fn is_whole(&self) -> bool {
        let asked = [(self.tapes, DEFAULT_TAPES), (self.inputs, DEFAULT_INPUTS), (self.batches, DEFAULT_BATCHES)];
        self.profile.is_none() && asked.iter().all(|(count, default)| count * self.many >= *default)
    }

    /// The tapes that batches are made on.
    fn tapes_of_batches(&self) -> u64 {
        if self.inputs == 0 {
            0
        } else {
            (self.batches * self.many).div_ceil(ON_A_TAPE)
        }
    }
}

fn main() -> ExitCode {
    let arguments: Vec<String> = std::env::args().skip(1).collect();
    if arguments.iter().any(|argument| argument == "--help") {
        println!("{}", usage());
        return ExitCode::SUCCESS;
    }
    let outcome = options(&arguments).and_then(|options| run(&options));
    match outcome {
        Ok(true) => ExitCode::SUCCESS,
        Ok(false) => ExitCode::from(1),
        Err(reason) => {
            eprintln!("compare: {reason}");
            ExitCode::from(2)
        }
    }
}

fn usage() -> String {
    let profiles: Vec<String> =
        PROFILES.iter().map(|profile| format!("  {:<16} {}", profile.name, profile.what)).collect();
    let functions: Vec<&str> = FUNCTIONS.iter().map(|function| function.name).collect();
    format!("{USAGE}\n{}\nfunctions: {}", profiles.join("\n"), functions.join(", "))
}

fn options(arguments: &[String]) -> Result<Options, String> {
    let mut options = Options {
        program: None,
        tapes: DEFAULT_TAPES,
        inputs: DEFAULT_INPUTS,
        batches: DEFAULT_BATCHES,
        many: 1,
        seed: 1,
        profile: None,
        examples: None,
        save: None,
        one: None,
        input: None,
        batch: None,
    };
    let mut words = arguments.iter();
    while let Some(name) = words.next() {
        let mut value = || words.next().ok_or_else(|| format!("a value is missing after {name}\n{}", usage()));
        match name.as_str() {
            "--program" => options.program = Some(value()?.into()),
            "--tapes" => options.tapes = number(value()?)?,
            "--inputs" => options.inputs = number(value()?)?,
            "--batches" => options.batches = number(value()?)?,
            "--many" => options.many = number(value()?)?,
            "--seed" => options.seed = number(value()?)?,
            "--profile" => options.profile = Some(profile(value()?)?),
            "--examples" => options.examples = Some(value()?.into()),
            "--save" => options.save = Some(value()?.into()),
            "--one" => options.one = Some((profile(value()?)?, number(value()?)?)),
            "--input" => options.input = Some((function(value()?)?, number(value()?)?)),
            "--batch" => options.batch = Some(number(value()?)?),
            _ => return Err(format!("no option {name}\n{}", usage())),
        }
    }
    Ok(options)
}

fn number(text: &String) -> Result<u64, String> {
    text.parse().map_err(|_| format!("'{text}' is not a number"))
}

fn profile(name: &String) -> Result<usize, String> {
    generate::profile_number(name).ok_or_else(|| format!("no profile {name}\n{}", usage()))
}

fn function(name: &String) -> Result<usize, String> {
    inputs::function_number(name).ok_or_else(|| format!("no function {name}\n{}", usage()))
}

/// Everything that was asked for; true if nothing was found wanting.
fn run(options: &Options) -> Result<bool, String> {
    if let Some((function, seed)) = options.input {
        return one_input(function, seed);
    }
    if let Some(seed) = options.batch {
        return one_batch(seed);
    }
    let comparison = Comparison {
        program: Program::new(program_path(options)?),
        save: options.save.clone(),
        coverage: Mutex::default(),
        mismatches: AtomicU64::new(0),
    };
    if let Some((profile, seed)) = options.one {
        return comparison.one_tape(profile, seed);
    }
    if options.inputs > 0 && !library::is_linked() {
        let advice = "build it and build this again, or say --inputs 0";
        return Err(format!("a static library was not there when this was built: {advice}"));
    }
    if let Some(directory) = &options.examples {
        comparison.examples(directory)?;
    }
    let first_seed = options.seed.wrapping_mul(SEEDS_APART);
    comparison.many("tapes", options.tapes * options.many, |index| {
        let (profile, round) = match options.profile {
            Some(profile) => (profile, index),
            None => generate::in_turn(index),
        };
        comparison.tape(profile, first_seed.wrapping_add(round));
    });
    comparison.many("inputs", options.inputs * options.many, |index| {
        let (function, round) = (index as usize % EDITION, index / EDITION as u64);
        comparison.input(function, first_seed.wrapping_add(round));
    });
    comparison.many("messages of editions", options.inputs * options.many, |index| {
        comparison.input(EDITION, first_seed.wrapping_add(index));
    });
    comparison.many(&format!("tapes with {ON_A_TAPE} batches each"), options.tapes_of_batches(), |index| {
        comparison.batches(first_seed / ON_A_TAPE + index);
    });
    Ok(comparison.finish(options.is_whole()))
}

/// Where the program is; it may be left out if nothing is to be run by it.
fn program_path(options: &Options) -> Result<PathBuf, String> {
    match &options.program {
        Some(path) => fs::canonicalize(path).map_err(|error| format!("{}: {error}", path.display())),
        None if options.tapes == 0 && options.examples.is_none() && options.one.is_none() => Ok(PathBuf::new()),
        None => Err(format!("--program is missing\n{}", usage())),
    }
}

/// What is compared, and what was found so far.
struct Comparison {
    program: Program,
    save: Option<PathBuf>,
    coverage: Mutex<Coverage>,
    mismatches: AtomicU64,
}

impl Comparison {
    fn coverage(&self) -> std::sync::MutexGuard<'_, Coverage> {
        self.coverage.lock().expect("no thread fails while it counts")
    }

    fn count(&self) -> u64 {
        self.mismatches.load(Ordering::Relaxed)
    }

    fn mismatch(&self, report: &str) {
        self.mismatches.fetch_add(1, Ordering::Relaxed);
        println!("MISMATCH {report}");
    }

    /// Does a piece of work for each index below `count` in two threads, with a line about every five seconds; stops
    /// at ten mismatches.
    fn many(&self, what: &str, count: u64, work: impl Fn(u64) + Sync) {
        let next = AtomicU64::new(0);
        let worker = || loop {
            let index = next.fetch_add(1, Ordering::Relaxed);
            if index >= count || self.count() >= MOST_MISMATCHES {
                break;
            }
            work(index);
        };
        let begun = Instant::now();
        std::thread::scope(|scope| {
            let threads: Vec<_> = (0..WORKERS).map(|_| scope.spawn(worker)).collect();
            let mut lines = 0;
            while threads.iter().any(|thread| !thread.is_finished()) {
                std::thread::sleep(Duration::from_millis(20));
                self.program.watch();
                if begun.elapsed().as_secs() / 5 > lines {
                    lines = begun.elapsed().as_secs() / 5;
                    let done = next.load(Ordering::Relaxed).min(count);
                    println!("{done} of {count} {what} after {} s, {} mismatches", 5 * lines, self.count());
                }
            }
        });
        if count > 0 {
            println!("{what}: {:.1} s", begun.elapsed().as_secs_f64());
        }
    }

    /// Runs one tape and reports a difference.
    fn tape(&self, profile: usize, seed: u64) {
        let octets = generate::tape(profile, seed);
        let expected = replay(&octets);
        self.coverage().add_tape(profile, &octets, &expected);
        let name = PROFILES[profile].name;
        if tape::split(&octets).is_err() != (expected == outside::model::replay::TAPE_REFUSED.as_bytes()) {
            self.mismatch(&format!(
                "{name} {seed}: the model and the splitter of tapes disagree on whether the tape is sound"
            ));
        }
        let run = match self.program.run(&octets, in_pieces(seed)) {
            Ok(run) => run,
            Err(error) => return self.mismatch(&format!("{name} {seed}: the program did not run: {error}")),
        };
        let fault = run.fault();
        let difference = first_difference(&run.output, &expected);
        if fault.is_none() && difference.is_none() {
            return;
        }
        let mut report = format!("{name} {seed} (again with --one {name} {seed})");
        if let Some((line, own, other)) = difference {
            report += &format!("\n  line {line} of the program: {own}\n  line {line} of the model:   {other}");
        }
        if let Some(fault) = fault {
            report += &format!("\n  {fault}");
        }
        self.mismatch(&report);
        self.save(name, seed, &octets, &run.output, &expected);
    }

    /// Writes a tape and both outputs to the directory that was named for them.
    fn save(&self, name: &str, seed: u64, octets: &[u8], output: &[u8], expected: &[u8]) {
        let Some(directory) = &self.save else {
            return;
        };
        let path = |ending: &str| directory.join(format!("{name}-{seed}.{ending}"));
        let written = fs::create_dir_all(directory)
            .and_then(|()| fs::write(path("tape"), octets))
            .and_then(|()| fs::write(path("program.out"), output))
            .and_then(|()| fs::write(path("model.out"), expected));
        if let Err(error) = written {
            println!("  it could not be saved: {error}");
        }
    }

    /// Gives one input to the model and to the library and reports a difference.
    fn input(&self, function: usize, seed: u64) {
        let input = inputs::input(function, seed);
        let expected = input.of_model();
        self.coverage().add_input(function, expected.answer());
        let outcome = input.of_library();
        let name = FUNCTIONS[function].name;
        let again = format!("{name} {seed} (again with --input {name} {seed})");
        if outcome != expected {
            let (own, other) = (outcome.describe(), expected.describe());
            let arguments = input.describe().replace('\n', "\n  ");
            self.mismatch(&format!("{again}\n  the library: {own}\n  the model:   {other}\n  {arguments}"));
        }
        if input.of_values().is_some_and(|values| values != expected) {
            self.mismatch(&format!("{again}: the model does not give back the values"));
        }
    }

    /// Gives the batches on a tape to the model and to the library and reports differences.
    fn batches(&self, tape_seed: u64) {
        for (seed, batch) in (tape_seed * ON_A_TAPE..).zip(batches::on_tape(tape_seed)) {
            let expected = batch.of_model();
            self.coverage().add_batch(batches::answer(&expected));
            let outcome = batch.of_library();
            if outcome != expected {
                let differences = batch.differences(&outcome, &expected);
                self.mismatch(&format!("batch {seed} (again with --batch {seed})\n  {differences}"));
            }
        }
    }

    fn examples(&self, directory: &Path) -> Result<(), String> {
        let (names, faults) =
            examples::check(directory, &self.program).map_err(|error| format!("{}: {error}", directory.display()))?;
        for fault in &faults {
            self.mismatch(fault);
        }
        println!("examples: {} checked ({})", names.len(), names.join(", "));
        Ok(())
    }

    /// Runs one tape and prints it with both outputs; true if they are the same.
    fn one_tape(&self, profile: usize, seed: u64) -> Result<bool, String> {
        let octets = generate::tape(profile, seed);
        match text::decode(&octets) {
            Ok(text) => print!("tape of {} octets:\n{text}", octets.len()),
            Err(reason) => println!("tape of {} octets, not sound: {reason}", octets.len()),
        }
        let expected = replay(&octets);
        let run =
            self.program.run(&octets, in_pieces(seed)).map_err(|error| format!("the program did not run: {error}"))?;
        print!("the model:\n{}", String::from_utf8_lossy(&expected));
        print!("the program:\n{}", String::from_utf8_lossy(&run.output));
        if let Some(fault) = run.fault() {
            println!("{fault}");
        }
        match first_difference(&run.output, &expected) {
            Some((line, _, _)) => println!("they differ first in line {line}"),
            None => println!("they are the same"),
        }
        Ok(run.fault().is_none() && run.output == expected)
    }

    /// Prints the counts and the last line; true if no difference was found and, in a whole run, every answer was seen.
    fn finish(&self, whole: bool) -> bool {
        let coverage = self.coverage();
        print!("{}", coverage.report());
        let unseen = whole && !coverage.warnings().is_empty();
        let ending = if unseen { ", not every answer seen" } else { "" };
        let (tapes, inputs, editions) = (coverage.tapes(), coverage.inputs(), coverage.editions());
        let (batches, mismatches) = (coverage.batches(), self.count());
        println!(
            "outside: {tapes} tapes, {inputs} inputs, {editions} messages of editions, {batches} batches, \
             {mismatches} mismatches{ending}"
        );
        mismatches == 0 && !unseen
    }
}

/// One tape in sixteen reaches the program in pieces.
fn in_pieces(seed: u64) -> bool {
    seed % 16 == 3
}

/// Runs one input and prints it with both outcomes; true if they are the same.
fn one_input(function: usize, seed: u64) -> Result<bool, String> {
    let input = inputs::input(function, seed);
    println!("{}", input.describe());
    let expected = input.of_model();
    println!("the model:   {}", expected.describe());
    if !library::is_linked() {
        return Err("a static library was not there when this was built".to_string());
    }
    let outcome = input.of_library();
    println!("the library: {}", outcome.describe());
    let values = input.of_values();
    if let Some(values) = &values {
        println!("the values:  {}", values.describe());
    }
    Ok(outcome == expected && values.is_none_or(|values| values == expected))
}

/// Runs one batch and prints it with what both sides give back; true if that is the same.
fn one_batch(seed: u64) -> Result<bool, String> {
    let batch = batches::of_seed(seed);
    println!("{}", batch.describe());
    let expected = batch.of_model();
    print_runs("the model", &batch, &expected);
    if !library::is_linked() {
        return Err("a static library was not there when this was built".to_string());
    }
    let outcome = batch.of_library();
    print_runs("the library", &batch, &outcome);
    let same = outcome == expected;
    println!("{}", if same { "they are the same".to_string() } else { batch.differences(&outcome, &expected) });
    Ok(same)
}

/// What each run of a batch gave back.
fn print_runs(side: &str, batch: &Batch, all: &[batches::Given]) {
    for (run, given) in batch.runs.iter().zip(all) {
        println!("{side}: {}: {}", run.describe(), given.part);
    }
    if let Some(given) = all.first() {
        println!("{side}: the batch's output {}", hex(&given.batch_out));
    }
}

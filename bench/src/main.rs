//! The speed of the proved code, called through three static libraries, against an exporter in Rust that makes the same checks.
//!
//! `bench` compares both sides and prints nanoseconds a call and their ratio; `bench WORD` measures only the groups whose title has the
//! word; `bench count` makes each run once, to be counted by callgrind (see bench/count); `bench report FILE` prints the lines from the
//! counts; `bench spin WORD RUN SIDE` makes one run of the first group whose title has the word again and again for three seconds, to be
//! sampled by a profiler; `bench replay-program` is the Rust side's replay program.

mod answer;
mod edition;
mod exporter;
mod inputs;
mod ipdr;
mod library;
mod measures;
mod message;
mod replay;
mod session;
mod table;
mod timing;
mod verify;
mod walk;

use measures::Group;
use timing::Times;

fn print_group(g: &Group, times: &Times) {
    println!("\n{}", g.title);
    for line in &g.lines {
        let pair = times.line(line);
        println!(
            "  {:<48} {:>11.1} {:>11.1} {:>7.2}",
            line.name,
            pair.rattle,
            pair.rust,
            pair.rattle / pair.rust
        );
    }
}

fn print_head(unit: &str) {
    println!(
        "{:<50} {:>11} {:>11} {:>7}",
        format!("{unit} a call"),
        "Rattle",
        "Rust",
        "ratio"
    );
}

/// A run that callgrind counts: it collects inside this function alone, and writes its counts after it.
#[inline(never)]
#[no_mangle]
pub fn counted_run(run: &mut dyn FnMut()) {
    run();
}

fn time(only: Option<&str>) {
    println!("both sides agree: {} comparisons", verify::all());
    let mut groups = measures::groups();
    groups.push(measures::replays());
    groups.retain(|g| only.is_none_or(|word| g.title.contains(word)));
    let times = timing::time(&mut groups);
    print_head("nanoseconds");
    for (g, times) in groups.iter().zip(&times) {
        print_group(g, times);
    }
}

fn count() {
    for mut g in measures::groups() {
        for run in &mut g.runs {
            (run.rattle)();
            counted_run(&mut run.rattle);
            (run.rust)();
            counted_run(&mut run.rust);
        }
    }
}

fn report(file: &str) {
    let text = std::fs::read_to_string(file).expect("a file of counts");
    let mut counts = text
        .lines()
        .map(|n| n.trim().parse::<f64>().expect("a number"));
    print_head("instructions");
    for g in measures::groups() {
        let (rattle, rust) = g
            .runs
            .iter()
            .map(|_| {
                (
                    counts.next().expect("a count for each run"),
                    counts.next().expect("a count for each run"),
                )
            })
            .unzip();
        print_group(&g, &Times::counted(rattle, rust));
    }
}

fn spin(word: &str, run: &str, side: &str) {
    let mut g = measures::groups()
        .into_iter()
        .find(|g| g.title.contains(word))
        .expect("a group with this word");
    let run = &mut g.runs[run.parse::<usize>().expect("a run's number")];
    let f = if side == "rust" {
        &mut run.rust
    } else {
        &mut run.rattle
    };
    let start = std::time::Instant::now();
    while start.elapsed().as_secs() < 3 {
        (0..100).for_each(|_| f());
    }
}

fn main() {
    let words: Vec<String> = std::env::args().skip(1).collect();
    match words.iter().map(String::as_str).collect::<Vec<_>>()[..] {
        ["count"] => count(),
        ["report", file] => report(file),
        ["replay-program"] => replay::program().expect("an output"),
        [] => time(None),
        [word] => time(Some(word)),
        ["spin", word, run, side] => spin(word, run, side),
        _ => eprintln!(
            "usage: bench [WORD | count | report FILE | spin WORD RUN rattle|rust | replay-program]"
        ),
    }
}

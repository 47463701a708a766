//! Two sides timed in turn, many short rounds of each. A timed run follows an untimed one of the same side, so that its memory is at hand.
//! All groups are timed in several passes, and of each group the quietest pass counts: other work on the machine slows both sides down, and
//! not by the same factor.

use crate::measures::{Group, Line, Run};
use std::time::Instant;

/// Both sides of a line.
#[derive(Clone, Copy)]
pub struct Pair {
    pub rattle: f64,
    pub rust: f64,
}

/// What every run of a group took, round by round.
pub struct Times {
    rattle: Vec<Vec<f64>>,
    rust: Vec<Vec<f64>>,
}

fn once(f: &mut dyn FnMut()) -> f64 {
    f();
    let start = Instant::now();
    f();
    start.elapsed().as_nanos() as f64
}

fn median(mut times: Vec<f64>) -> f64 {
    times.sort_by(f64::total_cmp);
    times[times.len() / 2]
}

const PASSES: usize = 5;

/// The times of each group in its quietest pass.
pub fn time(groups: &mut [Group]) -> Vec<Times> {
    let mut best: Vec<Times> = groups.iter_mut().map(pass).collect();
    for _ in 1..PASSES {
        for (g, quietest) in groups.iter_mut().zip(&mut best) {
            let times = pass(g);
            if times.total() < quietest.total() {
                *quietest = times;
            }
        }
    }
    best
}

/// Times all runs of a group in every round; which side goes first changes from round to round.
fn pass(g: &mut Group) -> Times {
    let n = g.runs.len();
    let mut times = Times {
        rattle: vec![Vec::new(); n],
        rust: vec![Vec::new(); n],
    };
    for round in 0..g.rounds {
        for (i, Run { rattle, rust }) in g.runs.iter_mut().enumerate() {
            if round % 2 == 0 {
                times.rattle[i].push(once(rattle));
                times.rust[i].push(once(rust));
            } else {
                times.rust[i].push(once(rust));
                times.rattle[i].push(once(rattle));
            }
        }
    }
    times
}

/// The median over the rounds of a run, or of what it takes more than another in the same round.
fn of_line(times: &[Vec<f64>], line: &Line) -> f64 {
    let run = &times[line.run];
    let each = match line.less {
        None => run.clone(),
        Some(less) => run.iter().zip(&times[less]).map(|(a, b)| a - b).collect(),
    };
    median(each) / line.calls as f64
}

impl Times {
    /// What all runs of both sides take together, each by its median.
    fn total(&self) -> f64 {
        self.rattle
            .iter()
            .chain(&self.rust)
            .map(|times| median(times.clone()))
            .sum()
    }

    /// One round with given numbers, as they were counted.
    pub fn counted(rattle: Vec<f64>, rust: Vec<f64>) -> Times {
        let round = |all: Vec<f64>| all.into_iter().map(|n| vec![n]).collect();
        Times {
            rattle: round(rattle),
            rust: round(rust),
        }
    }

    pub fn line(&self, line: &Line) -> Pair {
        Pair {
            rattle: of_line(&self.rattle, line),
            rust: of_line(&self.rust, line),
        }
    }
}

//! Tests that the inputs of a default run have fields in both orders, at their limits and in the wrong order, and that
//! they tell libraries with one mistake about the order from the right one.

use super::{function_number, input, step_parts, value_of, Input, Outcome};
use crate::generate::situations::limits;
use crate::generate::SEEDS_APART;
use crate::library::ACCEPTED;
use crate::model::answer::{DONE, OUTPUT_TOO_SHORT, RECORD_INVALID, UNSOUND_TABLE};
use crate::model::octets::{number_in, Order};
use crate::model::record::judge;
use crate::model::table::parse;
use crate::model::walk::{self, Field, Step, Value};
use crate::tables::{BLOB, BOOLEAN, FIELD_TYPES, IPV4, IPV6, STRING, ZERO_STRING};
use std::collections::BTreeMap;

/// How often each situation must be met, and how many inputs must tell each mistake.
const LEAST: usize = 20;

/// How many inputs a default run has of each function.
const INPUTS: u64 = 15_000;

/// The inputs of a function in a default run.
fn inputs(function: &str) -> impl Iterator<Item = Input> {
    let number = function_number(function).expect("a function");
    (0..INPUTS).map(move |seed| input(number, SEEDS_APART + seed))
}

/// The order of a sound table.
fn order_of(table: &[u8]) -> Option<Order> {
    parse(table).map(|table| table.order)
}

/// The field that a step is over, with the order of its table.
fn stepped(input: &Input) -> Option<(Order, Field)> {
    let Input::Step { table, id, record, cursor } = input else {
        return None;
    };
    match walk::step(table, *id, record, *cursor) {
        Step::Next(field, _) => Some((order_of(table)?, field)),
        _ => None,
    }
}

#[test]
fn every_type_is_walked_and_appended_in_both_orders() {
    let mut counts: BTreeMap<(&str, Order, u16), usize> = BTreeMap::new();
    for (order, field) in inputs("step").filter_map(|input| stepped(&input)) {
        *counts.entry(("step", order, field.kind)).or_default() += 1;
    }
    for input in inputs("append").filter(|input| input.of_model().answer() == DONE) {
        if let Input::Append { flags, kind, .. } = input {
            let order = Order::of_flags(flags).expect("flags that are accepted");
            *counts.entry(("append", order, kind)).or_default() += 1;
        }
    }
    for kind in FIELD_TYPES.iter().map(|kind| kind.number) {
        for order in [Order::Big, Order::Little] {
            for function in ["step", "append"] {
                let times = counts.get(&(function, order, kind)).copied().unwrap_or(0);
                assert!(times >= LEAST, "{function} of type {kind:x}, {order:?}: {times} times");
            }
        }
    }
}

#[test]
fn integers_at_their_limits_are_appended_and_walked_in_both_orders() {
    let mut counts: BTreeMap<(Order, u16, Value), usize> = BTreeMap::new();
    for input in inputs("whole") {
        let Input::Whole(whole) = input else { panic!("{input:?}") };
        let order = order_of(&whole.table).expect("a sound table");
        for piece in whole.pieces.iter().filter(|_| whole.refused.is_none()) {
            *counts.entry((order, piece.kind, value_of(piece.sort, piece.number))).or_default() += 1;
        }
    }
    for (kind, value) in limits() {
        for order in [Order::Big, Order::Little] {
            let times = counts.get(&(order, kind, value)).copied().unwrap_or(0);
            assert!(times >= LEAST, "type {kind} {value:?}, {order:?}: {times} times");
        }
    }
}

#[test]
fn records_in_the_wrong_order_are_met() {
    let mut counts: BTreeMap<(&str, Order), usize> = BTreeMap::new();
    for function in ["record", "open"] {
        for input in inputs(function) {
            let (Input::Record { table, id, record } | Input::Open { table, id, record }) = input else {
                panic!("{input:?}")
            };
            let mut other = table.clone();
            other.iter_mut().skip(1).take(1).for_each(|flags| *flags ^= 1);
            if judge(&table, id, &record) == RECORD_INVALID && judge(&other, id, &record) == DONE {
                *counts.entry((function, order_of(&table).expect("a sound table"))).or_default() += 1;
            }
        }
    }
    assert!(counts.len() == 4 && counts.values().all(|count| *count >= LEAST), "{counts:?}");
}

#[test]
fn flags_above_1_come_before_what_else_is_wrong() {
    let mut counts: BTreeMap<u8, usize> = BTreeMap::new();
    for input in inputs("append").filter(|input| input.of_model().answer() == UNSOUND_TABLE) {
        *counts.entry(with_flags(&input, |_| 1).of_model().answer()).or_default() += 1;
    }
    assert!([DONE, OUTPUT_TOO_SHORT, RECORD_INVALID].iter().all(|answer| counts[answer] >= LEAST), "{counts:?}");
}

/// The input with other flags: those of an append, or of a table that has such an octet.
fn with_flags(input: &Input, change: impl Fn(u8) -> u8) -> Input {
    let mut input = input.clone();
    match &mut input {
        Input::Append { flags, .. } => *flags = change(*flags),
        Input::Table { table }
        | Input::Find { table, .. }
        | Input::Record { table, .. }
        | Input::Open { table, .. }
        | Input::Step { table, .. } => table.iter_mut().skip(1).take(1).for_each(|flags| *flags = change(*flags)),
        _ => {}
    }
    input
}

/// What the right library answers to the input with other flags.
fn under(input: &Input, change: impl Fn(u8) -> u8) -> Outcome {
    with_flags(input, change).of_model()
}

/// A field of a little-endian record that is taken for another: its name, its types, how its octets are changed, and
/// whether a step shows it (an append always does).
struct Turn {
    name: &'static str,
    kinds: &'static [u16],
    change: fn(&mut [u8]),
    in_steps: bool,
}

const fn turn(name: &'static str, kinds: &'static [u16], change: fn(&mut [u8])) -> Turn {
    Turn { name, kinds, change, in_steps: true }
}

/// What a step does not show, as its value is octets.
const fn turn_of_octets(name: &'static str, kinds: &'static [u16], change: fn(&mut [u8])) -> Turn {
    Turn { name, kinds, change, in_steps: false }
}

const TURNS: [Turn; 22] = [
    turn("seconds are turned", &[0x12], |field| field.reverse()),
    turn("times of type 13 are turned", &[0x13], |field| field.reverse()),
    turn("times of type 14 are turned", &[0x14], |field| field.reverse()),
    turn("times of type 15 are turned", &[0x15], |field| field.reverse()),
    turn("times of type 16 are turned", &[0x16], |field| field.reverse()),
    turn("16 bits are not turned", &[4], |field| field.reverse()),
    turn("16 bits with a sign are not turned", &[5], |field| field.reverse()),
    turn("32 bits are not turned", &[6], |field| field.reverse()),
    turn("32 bits with a sign are not turned", &[7], |field| field.reverse()),
    turn("64 bits are not turned", &[8], |field| field.reverse()),
    turn("64 bits with a sign are not turned", &[9], |field| field.reverse()),
    turn("floats are not turned", &[0xa], |field| field.reverse()),
    turn("doubles are not turned", &[0xb], |field| field.reverse()),
    turn("32 bits are turned as two halves", &[6, 7, 0xa], |field| field.rotate_left(2)),
    turn("64 bits are turned as two halves", &[8, 9, 0xb], |field| field.rotate_left(4)),
    turn("the length of a string is not turned", &[STRING], |field| field[..4].reverse()),
    turn("the length of a blob is not turned", &[BLOB], |field| field[..4].reverse()),
    turn("a 400d is turned", &[ZERO_STRING], |field| field.reverse()),
    turn("a Boolean is turned bit by bit", &[BOOLEAN], |field| field[0] = field[0].reverse_bits()),
    turn_of_octets("an IPv4 address is turned", &[IPV4], |field| field.reverse()),
    turn_of_octets("an IPv6 address is turned", &[IPV6], |field| field.reverse()),
    turn_of_octets("the octets of strings and blobs are turned", &[STRING, BLOB], |field| field[4..].reverse()),
];

/// What a library answers to a step that reads the field so.
fn read_so(input: &Input, turn: &Turn) -> Outcome {
    let mut other = input.clone();
    match (&mut other, stepped(input)) {
        (Input::Step { record, .. }, Some((Order::Little, field))) if turn.kinds.contains(&field.kind) => {
            (turn.change)(&mut record[field.at..field.at + field.len]);
        }
        _ => {}
    }
    other.of_model()
}

/// What a library answers to an append that writes the field so.
fn written_so(input: &Input, turn: &Turn) -> Outcome {
    let mut outcome = input.of_model();
    if let Input::Append { flags: 0, kind, at, .. } = input {
        if outcome.answer() == DONE && turn.kinds.contains(kind) {
            let end = (outcome.numbers[0] - ACCEPTED) as usize;
            (turn.change)(&mut outcome.out[*at..end]);
        }
    }
    outcome
}

#[test]
fn every_turn_is_told() {
    let mut counts = [(0, 0); TURNS.len()];
    for input in inputs("step") {
        let right = input.of_model();
        for (count, turn) in counts.iter_mut().zip(&TURNS) {
            count.0 += usize::from(read_so(&input, turn) != right);
        }
    }
    for input in inputs("append") {
        let right = input.of_model();
        for (count, turn) in counts.iter_mut().zip(&TURNS) {
            count.1 += usize::from(written_so(&input, turn) != right);
        }
    }
    for ((steps, appends), turn) in counts.iter().zip(&TURNS) {
        println!("{}: {steps} steps, {appends} appends", turn.name);
        assert!(*steps >= LEAST || !turn.in_steps, "'{}' was told by {steps} steps", turn.name);
        assert!(*appends >= LEAST, "'{}' was told by {appends} appends", turn.name);
    }
}

/// A mistake, the function whose inputs tell it, and what a library with it answers.
struct Mistake {
    name: &'static str,
    function: &'static str,
    outcome: fn(&Input) -> Outcome,
}

const fn mistake(name: &'static str, function: &'static str, outcome: fn(&Input) -> Outcome) -> Mistake {
    Mistake { name, function, outcome }
}

const MISTAKES: [Mistake; 22] = [
    mistake("a table of flags 2 is sound", "table", |input| under(input, |flags| if flags == 2 { 1 } else { flags })),
    mistake("a table of flags 0 is not", "table", |input| under(input, |flags| if flags == 0 { 2 } else { flags })),
    mistake("every table is sound", "table", |input| under(input, |flags| flags.min(1))),
    mistake("a little-endian table has no templates", "find", |input| {
        under(input, |flags| if flags == 0 { 2 } else { flags })
    }),
    mistake("a template ID is turned in a little-endian table", "find", turned_id),
    mistake("records are big-endian", "record", |input| under(input, |flags| if flags == 0 { 1 } else { flags })),
    mistake("records are little-endian", "record", |input| under(input, |flags| if flags == 1 { 0 } else { flags })),
    mistake("openings are big-endian", "open", |input| under(input, |flags| if flags == 0 { 1 } else { flags })),
    mistake("openings are little-endian", "open", |input| under(input, |flags| if flags == 1 { 0 } else { flags })),
    mistake("steps are big-endian", "step", |input| under(input, |flags| if flags == 0 { 1 } else { flags })),
    mistake("steps are little-endian", "step", |input| under(input, |flags| if flags == 1 { 0 } else { flags })),
    mistake("steps under flags above 1 are taken", "step", |input| under(input, |flags| flags.min(1))),
    mistake("the sign is that of the first octet", "step", sign_of_the_first_octet),
    mistake("appends are big-endian", "append", |input| under(input, |flags| if flags == 0 { 1 } else { flags })),
    mistake("appends are little-endian", "append", |input| under(input, |flags| if flags == 1 { 0 } else { flags })),
    mistake("appends under flags above 1 are big-endian", "append", |input| under(input, |flags| flags.min(1))),
    mistake("appends under flags above 1 are little-endian", "append", |input| {
        under(input, |flags| if flags > 1 { 0 } else { flags })
    }),
    mistake("appends under flags 0 are refused", "append", |input| {
        under(input, |flags| if flags == 0 { 2 } else { flags })
    }),
    mistake("flags above 1 are judged after the value", "append", |input| after(input, RECORD_INVALID)),
    mistake("flags above 1 are judged after the room", "append", |input| after(input, OUTPUT_TOO_SHORT)),
    mistake("an append that flags refuse is written", "append", |input| {
        let (right, written) = (input.of_model(), under(input, |flags| flags.min(1)));
        Outcome { numbers: right.numbers, out: written.out }
    }),
    mistake("a record is appended in the other order than walked", "whole", |input| match input {
        Input::Whole(whole) => whole.outcome(|input| match input {
            Input::Append { .. } => under(input, |flags| flags ^ 1),
            _ => input.of_model(),
        }),
        _ => input.of_model(),
    }),
];

/// Under a little-endian table, the template is the one whose ID has the octets from behind.
fn turned_id(input: &Input) -> Outcome {
    match input {
        Input::Find { table, id } if table.get(1) == Some(&0) => {
            Input::Find { table: table.clone(), id: id.swap_bytes() }.of_model()
        }
        _ => input.of_model(),
    }
}

/// A little-endian signed number is below 0 if its first octet is 128 or more.
fn sign_of_the_first_octet(input: &Input) -> Outcome {
    let (Input::Step { table, id, record, cursor }, Some((Order::Little, field))) = (input, stepped(input)) else {
        return input.of_model();
    };
    let Step::Next(_, after) = walk::step(table, *id, record, *cursor) else {
        return input.of_model();
    };
    let value = match field.kind {
        5 | 7 | 9 => {
            let octets = &record[field.at..field.at + field.len];
            let bits = number_in(Order::Little, octets);
            let size = (1u128 << (8 * field.len)) - u128::from(bits);
            if octets[0] >= 128 {
                Value::Negative(size as u64)
            } else {
                Value::Number(bits)
            }
        }
        _ => field.value,
    };
    Outcome::of_list(&step_parts(Step::Next(Field { value, ..field }, after)))
}

/// Flags above 1 are refused only where nothing else is, up to a refusal.
fn after(input: &Input, refusal: u8) -> Outcome {
    let right = input.of_model();
    let other = under(input, |flags| flags.min(1));
    if right.answer() == UNSOUND_TABLE && other.answer() == refusal {
        other
    } else {
        right
    }
}

#[test]
fn every_mistake_is_told() {
    for mistake in &MISTAKES {
        let told = inputs(mistake.function).filter(|input| (mistake.outcome)(input) != input.of_model());
        let count = told.take(LEAST).count();
        println!("{}: {count}", mistake.name);
        assert!(count >= LEAST, "'{}' was told by {count} inputs", mistake.name);
    }
}

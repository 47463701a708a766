//! Tests of the exporter from outside: an independent model of it, seeded tapes and inputs, and what compares the
//! two.
//!
//! The model (`model`) rests on 01, 02, source document 002 and docs/DECISIONS.md, and shares no code with the
//! crates. `generate` makes tapes, `inputs` makes arguments for the libraries' functions and `batches` makes batches;
//! `program` and `library` run what is tested. `tape` and `text` are the two forms of a tape.

pub mod batches;
pub mod coverage;
pub mod difference;
pub mod examples;
pub mod generate;
pub mod inputs;
pub mod library;
pub mod messages;
pub mod model;
pub mod program;
pub mod random;
pub mod tables;
pub mod tape;
pub mod text;

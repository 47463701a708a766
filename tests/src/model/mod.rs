//! An independent model of the exporter: tables, records, messages of both editions, the exporter's
//! calls and the replay of a tape. It is plain rather than fast. It rests on 01, 02, source document
//! 002 and docs/DECISIONS.md, and shares no code with the crates; values and cursors have the
//! library's form.

pub mod answer;
pub mod append;
pub mod batch;
pub mod exporter;
pub mod ipdr;
pub mod message;
pub mod octets;
pub mod record;
pub mod replay;
pub mod table;
pub mod walk;

#[cfg(test)]
mod tests_batch;
#[cfg(test)]
mod tests_exporter;
#[cfg(test)]
mod tests_history;
#[cfg(test)]
mod tests_ipdr;
#[cfg(test)]
mod tests_order;
#[cfg(test)]
mod tests_replay;
#[cfg(test)]
mod tests_servers;
#[cfg(test)]
mod tests_support;
#[cfg(test)]
mod tests_wire;

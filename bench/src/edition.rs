//! Messages of both editions, read and written alone.

use crate::{ipdr, message};

/// Reads a message of the edition that a version names, 1 CRANE's and any other IPDR/SP's, and writes what it says: its length plus 256,
/// or the reading's or else the writing's refusal.
pub fn read_again(version: u8, m: &[u8], out: &mut [u8]) -> u64 {
    if version == message::VERSION {
        message::read_again(m, out)
    } else {
        ipdr::read_again(m, out)
    }
}

//! The exporter's batch call: DATA messages back to back in one output.

use super::answer;
use super::exporter::Exporter;

/// What a batch answers: the answer that it stopped with, how many messages it wrote and how many octets they have.
#[derive(Clone, Copy, Debug, PartialEq, Eq)]
pub struct BatchReply {
    pub answer: u8,
    pub count: usize,
    pub written: usize,
}

impl Exporter {
    /// A batch of at most `number` messages: one next data call after the other, each lent the octets that are left.
    /// It is answered 0 where all are written, else as the first call that is refused; that call changes nothing, and
    /// what was written before it stays. A batch of 0 messages is only judged 1.
    pub fn batch(&mut self, store: &[u8], out: &mut [u8], number: usize) -> BatchReply {
        let mut reply = BatchReply { answer: answer::DONE, count: 0, written: 0 };
        if number == 0 && !(self.is_sound() && store.len() == self.store_length) {
            reply.answer = answer::UNSOUND_STATE;
        }
        while reply.count < number && reply.answer == answer::DONE {
            let single = self.next_data(store, &mut out[reply.written..]);
            reply.answer = single.answer;
            reply.count += usize::from(single.answer == answer::DONE);
            reply.written += single.written;
        }
        reply
    }
}

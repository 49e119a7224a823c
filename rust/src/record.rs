//! Operations under way.

/// An operation under way, in two words.
///
/// The caller keeps it anywhere, and lends it to the operation's next step. A step writes the next record after [`UnderWay`](crate::Answer::UnderWay) and
/// the finished one after any other answer. A record does not survive a cut.
#[derive(Clone, Debug, PartialEq, Eq)]
#[must_use = "the operation goes on with its record alone"]
pub struct Record([u64; 2]);

impl Record {
    /// The record of an operation that has ended; no step takes it.
    pub const FINISHED: Record = Record([0, 0]);

    /// A record from words kept elsewhere. Any words will do: those of no record are answered
    /// [`BadRecord`](crate::Refusal::BadRecord).
    pub const fn from_words(words: [u64; 2]) -> Self {
        Record(words)
    }

    /// The words of the record, to be kept elsewhere.
    pub const fn words(&self) -> [u64; 2] {
        self.0
    }

    /// Lends the words to a call.
    pub(crate) fn lend(&mut self) -> &mut [u64] {
        &mut self.0
    }
}

//! What stands in lent buffers before a call.

use stramashly::WORK_WORDS;
use tables::Random;

/// Random words made once. A buffer takes them from a random place on, each changed
/// by the same random word: no number of it stays from call to call, at a part of the
/// time that new ones take.
pub(crate) struct Noise(Vec<u64>);

impl Noise {
    pub(crate) fn new(random: &mut Random) -> Noise {
        Noise((0..2 * WORK_WORDS).map(|_| random.word()).collect())
    }

    /// So many numbers of a buffer, each made of a word.
    pub(crate) fn put<T>(
        &self,
        random: &mut Random,
        buffer: &mut Vec<T>,
        count: usize,
        number: impl Fn(u64) -> T,
    ) {
        buffer.clear();
        while buffer.len() < count {
            let (change, start) = (random.word(), random.below(WORK_WORDS));
            let words = self.0[start..].iter().take(count - buffer.len());
            buffer.extend(words.map(|word| number(word ^ change)));
        }
    }
}

//! Pairs of tag and name as the words that the library is lent, and its answers to them.

use crate::{sys, Value};

/// Four words for each pair, and the bytes that they are parts of. A text whose place or length 32 bits do not hold is said to lie outside, which
/// the library refuses.
pub fn words_of(pairs: &[(&str, &str)]) -> (Vec<u32>, Vec<u8>) {
    let mut words = Vec::with_capacity(sys::PAIR_WORDS * pairs.len());
    let mut area = Vec::new();
    for (tag, name) in pairs {
        for text in [tag, name] {
            let place = (u32::try_from(area.len()), u32::try_from(text.len()));
            words.extend(match place {
                (Ok(start), Ok(length)) => [start, length],
                _ => [u32::MAX; 2],
            });
            area.extend_from_slice(text.as_bytes());
        }
    }
    (words, area)
}

/// The value in the words of an answer; none where nothing was found.
pub fn value_of(words: &[u32]) -> Option<Value> {
    (words[sys::PAIR_ANSWER_REFUSAL] == sys::DONE).then_some(Value { kind: words[sys::PAIR_ANSWER_TYPE], data: words[sys::PAIR_ANSWER_DATA] })
}

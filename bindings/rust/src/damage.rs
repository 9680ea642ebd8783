//! What became of a text: all of it stands in the file, or not.

use std::fmt;

use crate::sys;

/// What became of a text. Where it is not whole, the file does not have the characters that the text has.
#[derive(Clone, Copy, Debug, Default, PartialEq, Eq)]
pub enum Damage {
    /// None: every character stands in the file, a U+FFFD of the file's own too.
    #[default]
    Whole,
    /// So many characters could not be read, and each is U+FFFD in the text.
    Replaced(u32),
    /// Its UTF-16 has a surrogate that stands alone: the text is empty.
    BadUtf16,
    /// The string is cut, or lies outside the file's strings: the text is empty.
    Cut,
}

impl Damage {
    pub(crate) fn from_numbers(state: u32, replaced: u32) -> Damage {
        match state {
            sys::TEXT_WHOLE => Damage::Whole,
            sys::TEXT_REPLACED => Damage::Replaced(replaced),
            sys::TEXT_BAD_UTF16 => Damage::BadUtf16,
            _ => Damage::Cut,
        }
    }

    /// Whether there is none.
    pub fn is_whole(self) -> bool {
        self == Damage::Whole
    }
}

/// Words for people: "3 characters could not be read".
impl fmt::Display for Damage {
    fn fmt(&self, f: &mut fmt::Formatter<'_>) -> fmt::Result {
        match self {
            Damage::Whole => f.write_str("the text is whole"),
            Damage::Replaced(1) => f.write_str("1 character could not be read"),
            Damage::Replaced(n) => write!(f, "{n} characters could not be read"),
            Damage::BadUtf16 => f.write_str("the text could not be read: it is bad UTF-16"),
            Damage::Cut => f.write_str("the text could not be read: it is cut, or lies outside the file's strings"),
        }
    }
}

/// A text of the file, and what became of it.
#[derive(Clone, Debug, Default, PartialEq, Eq)]
pub struct Text {
    /// The text. A damaged one has U+FFFD in it, or is empty.
    pub text: String,
    /// What became of it.
    pub damage: Damage,
}

/// The text alone.
impl fmt::Display for Text {
    fn fmt(&self, f: &mut fmt::Formatter<'_>) -> fmt::Result {
        f.write_str(&self.text)
    }
}

#[cfg(test)]
mod tests {
    use super::*;

    #[test]
    fn words_for_people() {
        let said = |state, replaced| Damage::from_numbers(state, replaced).to_string();
        assert_eq!(said(0, 0), "the text is whole");
        assert_eq!(said(1, 1), "1 character could not be read");
        assert_eq!(said(1, 3), "3 characters could not be read");
        assert_eq!(said(2, 0), "the text could not be read: it is bad UTF-16");
        assert_eq!(said(3, 0), "the text could not be read: it is cut, or lies outside the file's strings");
    }
}

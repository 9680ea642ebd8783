//! A month of files in one table of counts.

use crate::{sys, Manifest, NoteKind, Refusal};

/// The size of a file, in six classes.
#[derive(Clone, Copy, Debug, PartialEq, Eq)]
pub enum SizeClass {
    /// Up to and with 4,096 bytes.
    UpTo4096,
    /// Up to and with 16,384 bytes.
    UpTo16384,
    /// Up to and with 65,536 bytes.
    UpTo65536,
    /// Up to and with 262,144 bytes.
    UpTo262144,
    /// Up to and with 1,048,576 bytes.
    UpTo1048576,
    /// All above.
    Above,
}

impl SizeClass {
    /// All of them, the smallest first.
    pub const ALL: [SizeClass; sys::ROUND_UP_CLASSES] = [
        SizeClass::UpTo4096,
        SizeClass::UpTo16384,
        SizeClass::UpTo65536,
        SizeClass::UpTo262144,
        SizeClass::UpTo1048576,
        SizeClass::Above,
    ];
}

/// How many files were read, how many were refused by number, and the notes kept by kind and by the size of the file (docs/FORMAT.md, R).
///
/// ```no_run
/// # fn files() -> Vec<Vec<u8>> { vec![] }
/// let mut month = itelbash::RoundUp::new();
/// for file in files() {
///     month.add(&itelbash::Manifest::read(&file), file.len())?;
/// }
/// println!("{} files were read", month.files_read());
/// # Ok::<(), itelbash::Refusal>(())
/// ```
///
/// The order in which files are added changes nothing, which is a theorem about the library (`month-order` in crates/claims).
#[derive(Clone, Debug, PartialEq, Eq)]
pub struct RoundUp {
    words: [u32; sys::ROUND_UP_WORDS],
}

impl Default for RoundUp {
    fn default() -> RoundUp {
        RoundUp::new()
    }
}

impl RoundUp {
    /// No file yet.
    pub fn new() -> RoundUp {
        RoundUp { words: [0; sys::ROUND_UP_WORDS] }
    }

    /// Adds a file: what its reading gave, and its length in bytes. A file that was refused adds to the count of its refusal alone. Where a count would pass
    /// 4,294,967,295 the round-up stays as it was, and the answer is [`Refusal::RoundUpFull`].
    pub fn add(&mut self, reading: &Result<Manifest, Refusal>, file_bytes: usize) -> Result<(), Refusal> {
        let a = match reading {
            Ok(m) => sys::round_up_add(&mut self.words, &m.notes, sys::DONE, (m.notes.len() / sys::NOTE_WORDS) as u32, file_bytes),
            Err(refusal) => sys::round_up_add(&mut self.words, &[], refusal.number(), 0, file_bytes),
        };
        Refusal::from_number(a.refusal, a.value).map_or(Ok(()), Err)
    }

    /// How many files were read.
    pub fn files_read(&self) -> u32 {
        self.words[sys::ROUND_UP_READ]
    }

    /// How many files were refused with the number of this refusal, whatever its value.
    pub fn refused(&self, refusal: &Refusal) -> u32 {
        let number = refusal.number() as usize;
        if number < sys::ROUND_UP_NUMBERS {
            self.words[sys::ROUND_UP_REFUSED + number]
        } else {
            0
        }
    }

    /// How many notes of this kind were kept in files of this size; 0 for a kind that the grid has no row for.
    pub fn notes(&self, kind: NoteKind, class: SizeClass) -> u32 {
        let kind = kind.number() as usize;
        if kind < sys::ROUND_UP_KINDS {
            self.words[sys::ROUND_UP_GRID + sys::ROUND_UP_CLASSES * kind + class as usize]
        } else {
            0
        }
    }

    /// All counts in their order (docs/FORMAT.md, R2), to be stored.
    pub fn words(&self) -> &[u32; sys::ROUND_UP_WORDS] {
        &self.words
    }

    /// A round-up of these counts, as [`RoundUp::words`] gave them: a month goes on.
    pub fn from_words(words: [u32; sys::ROUND_UP_WORDS]) -> RoundUp {
        RoundUp { words }
    }
}

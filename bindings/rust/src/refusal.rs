//! Why a file was not read.

use std::fmt;

/// Why a file was not read, or why a question has no answer. `Display` says it in words and with its numbers.
///
/// [`Manifest::read`](crate::Manifest::read) lends tables that are large enough for every file, so that it is refused by the first five, and by those of the pool and the map, alone.
#[derive(Clone, Copy, Debug, PartialEq, Eq)]
#[non_exhaustive]
pub enum Refusal {
    /// Fewer than 8 bytes, with their number.
    TooSmall(u64),
    /// More than 16,777,216 bytes.
    TooLarge,
    /// The file's header does not have 8 bytes, with what it says.
    HeaderSize(u64),
    /// There is no element that was read whole.
    NoElement,
    /// The lent system names break their rule, with the first entry that does.
    SystemNames(u64),
    /// A node has no place, with the places that there are.
    NodesFull(u64),
    /// An attribute has no place, with the places that there are.
    AttributesFull(u64),
    /// A note has no place, with the places that there are.
    NotesFull(u64),
    /// The buffer is too short, with the bytes that the text needs.
    TextShort(u64),
    /// There is no such text, or no such value.
    NothingFound,
    /// The lent tables do not fit the question, with the number of nodes, or the first bad one.
    Tables(u64),
    /// The lent items break their rule, with the first that does.
    Items(u64),
    /// A value has no plain text, with its type.
    NoPlainText(u64),
    /// There is no such mode of a reading, with its number.
    Mode(u64),
    /// A pair does not lie in its area, or words remain, with the first such pair, or how many whole ones there are.
    Pairs(u64),
    /// An answer has no place, with the places that there are.
    AnswersFull(u64),
    /// A line is none of a listing, or says what it cannot, with that line, from 1.
    ListingMalformed(u64),
    /// A line of a listing has a number over 4,294,967,295, with that line.
    ListingNumber(u64),
    /// A line of a listing is not the one due, or the text ends before it, with that line.
    ListingOrder(u64),
    /// A cap of 0, at which a reading would keep no note.
    NotesOff,
    /// There are more main activities than the list has places, with the places that there are.
    ListFull(u64),
    /// A count of a round-up would pass 4,294,967,295.
    RoundUpFull,
    /// A chunk in the string pool's place is cut, with the file offset at which its bytes should begin.
    PoolGarbage(u64),
    /// A header of the string pool, or its five numbers, are cut, with the file offset at which they should begin.
    PoolHeader(u64),
    /// The string pool's offsets are cut, with the file offset at which they should begin.
    PoolOffsets(u64),
    /// The string pool's styles are cut, with the file offset at which they should begin.
    PoolStyles(u64),
    /// The string pool's data is cut, with the file offset at which it should begin.
    PoolData(u64),
    /// The resource map's header is cut, with the file offset at which it should begin.
    MapHeader(u64),
    /// The resource map's ids are cut, with the file offset at which they should begin.
    MapIds(u64),
    /// A number that this crate does not know, and its value: the crate is older than the library.
    Other(u32, u64),
}

impl Refusal {
    /// The refusal of a number and a value, as docs/FORMAT.md has them (B1); none for number 0, which is no refusal.
    pub fn from_number(number: u32, value: u64) -> Option<Refusal> {
        Some(match number {
            0 => return None,
            1 => Refusal::TooSmall(value),
            2 => Refusal::TooLarge,
            3 => Refusal::HeaderSize(value),
            6 => Refusal::NoElement,
            7 => Refusal::SystemNames(value),
            8 => Refusal::NodesFull(value),
            9 => Refusal::AttributesFull(value),
            10 => Refusal::NotesFull(value),
            11 => Refusal::TextShort(value),
            12 => Refusal::NothingFound,
            13 => Refusal::Tables(value),
            14 => Refusal::Items(value),
            15 => Refusal::NoPlainText(value),
            16 => Refusal::Mode(value),
            20 => Refusal::Pairs(value),
            21 => Refusal::AnswersFull(value),
            24 => Refusal::ListingMalformed(value),
            25 => Refusal::ListingNumber(value),
            26 => Refusal::ListingOrder(value),
            27 => Refusal::NotesOff,
            28 => Refusal::ListFull(value),
            29 => Refusal::RoundUpFull,
            41 => Refusal::PoolGarbage(value),
            42 => Refusal::PoolHeader(value),
            43 => Refusal::PoolOffsets(value),
            44 => Refusal::PoolStyles(value),
            45 => Refusal::PoolData(value),
            51 => Refusal::MapHeader(value),
            52 => Refusal::MapIds(value),
            _ => Refusal::Other(number, value),
        })
    }

    /// Its number (docs/FORMAT.md, B1).
    pub fn number(&self) -> u32 {
        match *self {
            Refusal::TooSmall(_) => 1,
            Refusal::TooLarge => 2,
            Refusal::HeaderSize(_) => 3,
            Refusal::NoElement => 6,
            Refusal::SystemNames(_) => 7,
            Refusal::NodesFull(_) => 8,
            Refusal::AttributesFull(_) => 9,
            Refusal::NotesFull(_) => 10,
            Refusal::TextShort(_) => 11,
            Refusal::NothingFound => 12,
            Refusal::Tables(_) => 13,
            Refusal::Items(_) => 14,
            Refusal::NoPlainText(_) => 15,
            Refusal::Mode(_) => 16,
            Refusal::Pairs(_) => 20,
            Refusal::AnswersFull(_) => 21,
            Refusal::ListingMalformed(_) => 24,
            Refusal::ListingNumber(_) => 25,
            Refusal::ListingOrder(_) => 26,
            Refusal::NotesOff => 27,
            Refusal::ListFull(_) => 28,
            Refusal::RoundUpFull => 29,
            Refusal::PoolGarbage(_) => 41,
            Refusal::PoolHeader(_) => 42,
            Refusal::PoolOffsets(_) => 43,
            Refusal::PoolStyles(_) => 44,
            Refusal::PoolData(_) => 45,
            Refusal::MapHeader(_) => 51,
            Refusal::MapIds(_) => 52,
            Refusal::Other(number, _) => number,
        }
    }

    /// The value beside its number; 0 where the number says all.
    pub fn value(&self) -> u64 {
        match *self {
            Refusal::TooSmall(v) | Refusal::HeaderSize(v) | Refusal::SystemNames(v) | Refusal::NodesFull(v) => v,
            Refusal::AttributesFull(v) | Refusal::NotesFull(v) | Refusal::TextShort(v) | Refusal::Tables(v) => v,
            Refusal::Items(v) | Refusal::NoPlainText(v) | Refusal::Mode(v) | Refusal::AnswersFull(v) => v,
            Refusal::ListingMalformed(v) | Refusal::ListingNumber(v) | Refusal::ListingOrder(v) => v,
            Refusal::PoolGarbage(v) | Refusal::PoolHeader(v) | Refusal::PoolOffsets(v) | Refusal::PoolStyles(v) | Refusal::PoolData(v) => v,
            Refusal::ListFull(v) => v,
            Refusal::Pairs(v) | Refusal::MapHeader(v) | Refusal::MapIds(v) | Refusal::Other(_, v) => v,
            Refusal::TooLarge | Refusal::NoElement | Refusal::NothingFound | Refusal::NotesOff | Refusal::RoundUpFull => 0,
        }
    }

    /// What it is called, without its numbers: the words of docs/words.tsv, which `./axml-list` prints too.
    pub fn words(&self) -> &'static str {
        match *self {
            Refusal::TooSmall(_) => "the file is cut short: it has fewer than 8 bytes",
            Refusal::TooLarge => "the file is too large",
            Refusal::HeaderSize(_) => "this is not binary XML: its first header does not have 8 bytes",
            Refusal::NoElement => "the file has no element",
            Refusal::SystemNames(_) => "the system names break their rule",
            Refusal::NodesFull(_) => "the node table is full",
            Refusal::AttributesFull(_) => "the attribute table is full",
            Refusal::NotesFull(_) => "the note table is full",
            Refusal::TextShort(_) => "the buffer is too short for the text",
            Refusal::NothingFound => "nothing was found",
            Refusal::Tables(_) => "the tables do not fit the question",
            Refusal::Items(_) => "the items break their rule",
            Refusal::NoPlainText(_) => "the value has no plain text",
            Refusal::Mode(_) => "there is no such mode",
            Refusal::Pairs(_) => "the pairs do not lie in their area",
            Refusal::AnswersFull(_) => "the table of answers is full",
            Refusal::ListingMalformed(_) => "a line is none of a listing",
            Refusal::ListingNumber(_) => "a line of the listing has a number over 4294967295",
            Refusal::ListingOrder(_) => "a line of the listing is not the one due",
            Refusal::NotesOff => "a cap of 0 would keep no notes: ask for 1 or more of each kind",
            Refusal::ListFull(_) => "the list is full",
            Refusal::RoundUpFull => "a count of the round-up is full",
            Refusal::PoolGarbage(_) => "the chunk before the string pool is cut short",
            Refusal::PoolHeader(_) => "the string pool's header is cut short",
            Refusal::PoolOffsets(_) => "the string pool's offsets are cut short",
            Refusal::PoolStyles(_) => "the string pool's styles are cut short",
            Refusal::PoolData(_) => "the string pool's data is cut short",
            Refusal::MapHeader(_) => "the resource map's header is cut short",
            Refusal::MapIds(_) => "the resource map's ids are cut short",
            Refusal::Other(..) => "refused for a reason that this crate does not know",
        }
    }
}

impl fmt::Display for Refusal {
    fn fmt(&self, f: &mut fmt::Formatter<'_>) -> fmt::Result {
        f.write_str(self.words())?;
        match *self {
            Refusal::TooSmall(n) => write!(f, " (it has {n})"),
            Refusal::TooLarge => write!(f, " (at most {} bytes are read)", crate::LONGEST_FILE),
            Refusal::HeaderSize(n) => write!(f, " but {n} (an APK is a zip: take AndroidManifest.xml out of it first)"),
            Refusal::SystemNames(n) => write!(f, " at entry {n} (ids rise and have the top byte 1, names are ASCII and not empty)"),
            Refusal::NodesFull(n) | Refusal::AttributesFull(n) | Refusal::NotesFull(n) | Refusal::AnswersFull(n) => write!(f, " ({n} places)"),
            Refusal::ListFull(n) => write!(f, " ({n} places)"),
            Refusal::Items(n) => write!(f, " at item {n} (names are ASCII and not empty, items of one attribute stand together and have one kind)"),
            Refusal::NoPlainText(n) => write!(f, " (type {n})"),
            Refusal::Pairs(n) => write!(f, " at pair {n}"),
            Refusal::TextShort(n) => write!(f, " ({n} bytes are needed)"),
            Refusal::Tables(n) | Refusal::Mode(n) => write!(f, " ({n})"),
            Refusal::ListingMalformed(n) | Refusal::ListingNumber(n) | Refusal::ListingOrder(n) => write!(f, ": line {n}"),
            Refusal::PoolGarbage(n) | Refusal::PoolHeader(n) | Refusal::PoolData(n) | Refusal::MapHeader(n) => write!(f, ": byte {n} should be the first of it"),
            Refusal::PoolOffsets(n) | Refusal::PoolStyles(n) | Refusal::MapIds(n) => write!(f, ": byte {n} should be the first of them"),
            Refusal::Other(number, value) => write!(f, " (number {number}, value {value})"),
            Refusal::NoElement | Refusal::NothingFound | Refusal::NotesOff | Refusal::RoundUpFull => Ok(()),
        }
    }
}

impl std::error::Error for Refusal {}

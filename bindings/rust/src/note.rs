//! What was odd about a file that was read all the same.

use std::fmt;

/// What a note is about; the names are those of docs/FORMAT.md, B12, and [`NoteKind::number`] is the number there.
#[derive(Clone, Copy, Debug, PartialEq, Eq, PartialOrd, Ord, Hash)]
#[non_exhaustive]
#[repr(u32)]
pub enum NoteKind {
    /// A chunk of another type stands before the string pool. a: its type, b: bytes skipped.
    StringPoolGarbageChunk = 0,
    /// The string pool declares another number of strings than it has. a: declared, b: there.
    StringCountMismatch = 1,
    /// Strings begin outside the string pool. a: how many.
    StringOffsetsOutOfBounds = 2,
    /// A chunk that is not XML was skipped. a: its type.
    NonXmlChunk = 3,
    /// An XML chunk with a wrong header size was skipped. a: that size.
    XmlNodeHeaderSize = 4,
    /// An XML chunk has an unknown type. a: its type.
    UnknownChunk = 5,
    /// An element's attributes begin late. a: where.
    AttributeStartShifted = 6,
    /// An element's attributes are too long. a: bytes of each.
    AttributeSizeMismatch = 7,
    /// Bytes follow an element's attributes. a: how many.
    ElementTrailingBytes = 8,
    /// An element has an invalid name. a: its string index, b: 1 if it has a text.
    InvalidElementName = 9,
    /// An attribute has an invalid name and was dropped. a: its string index.
    InvalidAttributeName = 10,
    /// The file is cut in the middle of a chunk.
    TruncatedXml = 11,
    /// Elements are not closed. a: how many.
    UnclosedElements = 12,
    /// The name of an element is damaged. a: its string index, b: how: 1 characters were replaced, 2 bad UTF-16, 3 cut or outside its pool.
    DamagedElementName = 32,
}

impl NoteKind {
    /// All kinds, in the order of their numbers, which have gaps.
    pub const ALL: [NoteKind; 14] = [
        NoteKind::StringPoolGarbageChunk,
        NoteKind::StringCountMismatch,
        NoteKind::StringOffsetsOutOfBounds,
        NoteKind::NonXmlChunk,
        NoteKind::XmlNodeHeaderSize,
        NoteKind::UnknownChunk,
        NoteKind::AttributeStartShifted,
        NoteKind::AttributeSizeMismatch,
        NoteKind::ElementTrailingBytes,
        NoteKind::InvalidElementName,
        NoteKind::InvalidAttributeName,
        NoteKind::TruncatedXml,
        NoteKind::UnclosedElements,
        NoteKind::DamagedElementName,
    ];

    /// The kind of a number; none where there is no such kind.
    pub fn from_number(number: u32) -> Option<NoteKind> {
        NoteKind::ALL.into_iter().find(|k| k.number() == number)
    }

    /// Its number.
    pub fn number(self) -> u32 {
        self as u32
    }

    /// What it is called, without its numbers: the words of docs/words.tsv, which `./axml-list` prints too.
    pub fn words(self) -> &'static str {
        match self {
            NoteKind::StringPoolGarbageChunk => "a chunk of another type stands before the string pool",
            NoteKind::StringCountMismatch => "the string pool declares another number of strings than it has",
            NoteKind::StringOffsetsOutOfBounds => "strings begin outside the string pool",
            NoteKind::NonXmlChunk => "a chunk that is not XML was skipped",
            NoteKind::XmlNodeHeaderSize => "an XML chunk with a wrong header size was skipped",
            NoteKind::UnknownChunk => "an XML chunk has an unknown type",
            NoteKind::AttributeStartShifted => "an element's attributes begin late",
            NoteKind::AttributeSizeMismatch => "an element's attributes are too long",
            NoteKind::ElementTrailingBytes => "bytes follow an element's attributes",
            NoteKind::InvalidElementName => "an element has an invalid name",
            NoteKind::InvalidAttributeName => "an attribute has an invalid name and was dropped",
            NoteKind::TruncatedXml => "the file is cut in the middle of a chunk",
            NoteKind::UnclosedElements => "elements are not closed",
            NoteKind::DamagedElementName => "the name of an element is damaged",
        }
    }
}

/// Something odd that the reader passed over or mended. `Display` says it in words and with its numbers.
#[derive(Clone, Copy, Debug, PartialEq, Eq)]
pub struct Note {
    /// What it is about.
    pub kind: NoteKind,
    /// The first number that it tells, by kind; 0 where there is none.
    pub a: u32,
    /// The second number that it tells, by kind; 0 where there is none.
    pub b: u32,
}

impl fmt::Display for Note {
    fn fmt(&self, f: &mut fmt::Formatter<'_>) -> fmt::Result {
        let (a, b) = (self.a, self.b);
        f.write_str(self.kind.words())?;
        match self.kind {
            NoteKind::StringPoolGarbageChunk => write!(f, " (type {a:#x}, {b} bytes skipped)"),
            NoteKind::StringCountMismatch => write!(f, " ({a} declared, {b} there)"),
            NoteKind::StringOffsetsOutOfBounds | NoteKind::ElementTrailingBytes | NoteKind::UnclosedElements => write!(f, " ({a})"),
            NoteKind::NonXmlChunk | NoteKind::UnknownChunk => write!(f, " (type {a:#x})"),
            NoteKind::XmlNodeHeaderSize => write!(f, " ({a} bytes, not 16)"),
            NoteKind::AttributeStartShifted => write!(f, " (at {a}, not 20)"),
            NoteKind::AttributeSizeMismatch => write!(f, " ({a} bytes each, not 20)"),
            NoteKind::InvalidElementName if b == 0 => write!(f, " (string {a}, which has no text)"),
            NoteKind::InvalidElementName | NoteKind::InvalidAttributeName => write!(f, " (string {a})"),
            NoteKind::DamagedElementName => write!(f, " (string {a}, {})", damage_words(b)),
            NoteKind::TruncatedXml => Ok(()),
        }
    }
}

/// What the state of a text that is not whole is called.
fn damage_words(state: u32) -> &'static str {
    match state {
        1 => "of which characters could not be read",
        2 => "which is bad UTF-16",
        _ => "which is cut or lies outside its pool",
    }
}

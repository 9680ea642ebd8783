//! The functions and the numbers of include/axml.h, by the same names. All that is unsafe is here: each slice is lent as its pointer and its
//! number of elements, the tables that are written are borrowed for the call alone, and the pointer of an empty slice is aligned and not
//! null. src/held.rs holds the numbers to the header's.

use crate::{Items, SystemNames};

/// The form of the C interface that this file declares: the header's AXML_ABI.
pub const ABI: u32 = 11;

/// Bytes of the longest file that is read.
pub const LONGEST_FILE: usize = 16_777_216;
/// Kinds of notes.
pub const KINDS: usize = 14;

/// Words of a node, and the place of each.
pub const NODE_WORDS: usize = 6;
pub const NODE_NAME: usize = 0;
pub const NODE_FIXED: usize = 1;
pub const NODE_PARENT: usize = 2;
pub const NODE_FIRST: usize = 3;
pub const NODE_COUNT: usize = 4;
pub const NODE_LINE: usize = 5;
/// The parent of the first node.
pub const NO_PARENT: u32 = 4_294_967_295;

/// Words of an attribute, and the place of each.
pub const ATTRIBUTE_WORDS: usize = 6;
pub const ATTRIBUTE_OWNER: usize = 0;
pub const ATTRIBUTE_PREFIX: usize = 1;
pub const ATTRIBUTE_NAME: usize = 2;
pub const ATTRIBUTE_TYPE: usize = 3;
pub const ATTRIBUTE_DATA: usize = 4;
pub const ATTRIBUTE_NS: usize = 5;

/// Words of a note, and the place of each.
pub const NOTE_WORDS: usize = 3;
pub const NOTE_KIND: usize = 0;
pub const NOTE_A: usize = 1;
pub const NOTE_B: usize = 2;

/// Words of an item, and the place of each.
pub const ITEM_WORDS: usize = 6;
pub const ITEM_ATTRIBUTE: usize = 0;
pub const ITEM_ATTRIBUTE_LENGTH: usize = 1;
pub const ITEM_KIND: usize = 2;
pub const ITEM_NAME: usize = 3;
pub const ITEM_NAME_LENGTH: usize = 4;
pub const ITEM_VALUE: usize = 5;
pub const ITEM_ENUM: u32 = 0;
pub const ITEM_FLAG: u32 = 1;

/// Words of one of many texts, and the place of each that is read here.
pub const PART_WORDS: usize = 6;
pub const PART_REFUSAL: usize = 0;
pub const PART_START: usize = 1;
pub const PART_LENGTH: usize = 2;
pub const PART_UNCOVERED: usize = 3;
pub const PART_STATE: usize = 4;
pub const PART_REPLACED: usize = 5;

/// Words of a pair: where tag and name begin in the area, and their lengths, by turns.
pub const PAIR_WORDS: usize = 4;
/// Words of the answer to a pair, and the place of each.
pub const PAIR_ANSWER_WORDS: usize = 4;
pub const PAIR_ANSWER_REFUSAL: usize = 0;
pub const PAIR_ANSWER_TYPE: usize = 1;
pub const PAIR_ANSWER_DATA: usize = 2;

/// Words of a round-up, and the place of each.
pub const ROUND_UP_WORDS: usize = 132;
pub const ROUND_UP_READ: usize = 0;
pub const ROUND_UP_REFUSED: usize = 1;
pub const ROUND_UP_NUMBERS: usize = 53;
pub const ROUND_UP_GRID: usize = 54;
pub const ROUND_UP_KINDS: usize = 13;
pub const ROUND_UP_CLASSES: usize = 6;

pub const PREFIX_ANDROID: u32 = 1;
pub const PREFIX_XMLNS: u32 = 2;
pub const PREFIX_OWN: u32 = 3;

pub const MODE_MERGED: u32 = 1;
pub const MODE_APART: u32 = 2;

pub const SLICE_AREA: u32 = 1;
pub const SLICE_FILE: u32 = 2;

pub const TEXT_WHOLE: u32 = 0;
pub const TEXT_REPLACED: u32 = 1;
pub const TEXT_BAD_UTF16: u32 = 2;
#[cfg(test)]
pub const TEXT_CUT: u32 = 3;

pub const DONE: u32 = 0;
pub const TEXT_SHORT: u32 = 11;

#[repr(C)]
pub struct Answer {
    pub refusal: u32,
    pub value: u64,
    pub starts: u32,
    pub nodes: u32,
    pub attributes: u32,
    pub notes: u32,
}

#[repr(C)]
pub struct TextAnswer {
    pub refusal: u32,
    pub value: u64,
    pub length: u64,
    pub state: u32,
    pub replaced: u32,
}

#[repr(C)]
pub struct ValueAnswer {
    pub refusal: u32,
    pub value: u64,
    pub length: u64,
    pub uncovered: u32,
    pub state: u32,
    pub replaced: u32,
}

#[repr(C)]
pub struct ManyAnswer {
    pub refusal: u32,
    pub value: u64,
    pub count: u64,
    pub length: u64,
}

#[repr(C)]
pub struct ContentAnswer {
    pub slice: u32,
    pub start: u64,
    pub length: u64,
}

#[repr(C)]
pub struct FirstAnswer {
    pub refusal: u32,
    pub value: u64,
    pub kind: u32,
    pub data: u32,
    pub reference: u32,
}

#[repr(C)]
pub struct PairsAnswer {
    pub refusal: u32,
    pub value: u64,
    pub count: u64,
}

#[repr(C)]
pub struct MainAnswer {
    pub refusal: u32,
    pub value: u64,
    pub count: u64,
}

#[repr(C)]
pub struct AddAnswer {
    pub refusal: u32,
    pub value: u64,
}

#[repr(C)]
pub struct Relisted {
    pub refusal: u32,
    pub value: u64,
    pub starts: u32,
    pub nodes: u32,
    pub attributes: u32,
    pub notes: u32,
    pub cap: u32,
}

type Bytes = *const u8;
type Words = *const u32;
type MutWords = *mut u32;

extern "C" {
    fn axml_abi() -> u32;
    fn axml_read(
        file: Bytes, file_bytes: usize, names: Words, name_words: usize, area: Bytes, area_bytes: usize,
        nodes: MutWords, node_words: usize, attributes: MutWords, attribute_words: usize, notes: MutWords, note_words: usize, cap: u32, mode: u32,
    ) -> Answer;
    fn axml_text(
        file: Bytes, file_bytes: usize, names: Words, name_words: usize, area: Bytes, area_bytes: usize, out: *mut u8, out_bytes: usize, index: u32,
    ) -> TextAnswer;
    fn axml_content(
        file: Bytes, file_bytes: usize, names: Words, name_words: usize, area: Bytes, area_bytes: usize, index: u32,
    ) -> ContentAnswer;
    fn axml_first_value(
        file: Bytes, file_bytes: usize, names: Words, name_words: usize, area: Bytes, area_bytes: usize,
        nodes: Words, node_words: usize, attributes: Words, attribute_words: usize,
        tag: Bytes, tag_bytes: usize, name: Bytes, name_bytes: usize, node_count: u32, attribute_count: u32,
    ) -> FirstAnswer;
    fn axml_value_text(
        file: Bytes, file_bytes: usize, names: Words, name_words: usize, area: Bytes, area_bytes: usize,
        items: Words, item_words: usize, item_area: Bytes, item_area_bytes: usize, out: *mut u8, out_bytes: usize,
        owner: u32, prefix: u32, name: u32, kind: u32, data: u32, ns: u32,
    ) -> ValueAnswer;
    fn axml_value_texts(
        file: Bytes, file_bytes: usize, names: Words, name_words: usize, area: Bytes, area_bytes: usize,
        items: Words, item_words: usize, item_area: Bytes, item_area_bytes: usize, attributes: Words, attribute_words: usize,
        out: *mut u8, out_bytes: usize, answers: MutWords, answer_words: usize, attribute_count: u32,
    ) -> ManyAnswer;
    fn axml_texts(
        file: Bytes, file_bytes: usize, names: Words, name_words: usize, area: Bytes, area_bytes: usize,
        indices: Words, index_words: usize, out: *mut u8, out_bytes: usize, answers: MutWords, answer_words: usize,
    ) -> ManyAnswer;
    fn axml_first_values(
        file: Bytes, file_bytes: usize, names: Words, name_words: usize, area: Bytes, area_bytes: usize,
        nodes: Words, node_words: usize, attributes: Words, attribute_words: usize, pairs: Words, pair_words: usize, pair_area: Bytes, pair_area_bytes: usize,
        answers: MutWords, answer_words: usize, node_count: u32, attribute_count: u32,
    ) -> PairsAnswer;
    fn axml_main_activities(
        file: Bytes, file_bytes: usize, names: Words, name_words: usize, area: Bytes, area_bytes: usize,
        items: Words, item_words: usize, item_area: Bytes, item_area_bytes: usize, nodes: Words, node_words: usize, attributes: Words, attribute_words: usize,
        list: MutWords, list_words: usize, node_count: u32, attribute_count: u32,
    ) -> MainAnswer;
    fn axml_round_up_add(
        round_up: MutWords, round_up_words: usize, notes: Words, note_words: usize, refusal: u32, note_count: u32, file_bytes: usize,
    ) -> AddAnswer;
    fn axml_read_listing(
        text: Bytes, text_bytes: usize, nodes: MutWords, node_words: usize, attributes: MutWords, attribute_words: usize, notes: MutWords, note_words: usize,
    ) -> Relisted;
    fn axml_is_valid_name(text: Bytes, text_bytes: usize) -> bool;
    fn axml_complex_to_float(data: u32) -> f64;
}

/// Stops the program where the library that is linked is of another form than this file: its functions would be called wrongly.
fn same_form() {
    let there = unsafe { axml_abi() };
    assert!(there == ABI, "libaxml has the form {there} of its interface, and this crate was written for {ABI}: build both from one source");
}

pub fn read(file: &[u8], names: &SystemNames, nodes: &mut [u32], attributes: &mut [u32], notes: &mut [u32], cap: u32, mode: u32) -> Answer {
    same_form();
    let (w, a) = (&names.words, &names.area);
    unsafe {
        axml_read(
            file.as_ptr(), file.len(), w.as_ptr(), w.len(), a.as_ptr(), a.len(),
            nodes.as_mut_ptr(), nodes.len(), attributes.as_mut_ptr(), attributes.len(), notes.as_mut_ptr(), notes.len(), cap, mode,
        )
    }
}

pub fn text(file: &[u8], names: &SystemNames, out: &mut [u8], index: u32) -> TextAnswer {
    same_form();
    let (w, a) = (&names.words, &names.area);
    unsafe { axml_text(file.as_ptr(), file.len(), w.as_ptr(), w.len(), a.as_ptr(), a.len(), out.as_mut_ptr(), out.len(), index) }
}

pub fn content(file: &[u8], names: &SystemNames, index: u32) -> ContentAnswer {
    same_form();
    let (w, a) = (&names.words, &names.area);
    unsafe { axml_content(file.as_ptr(), file.len(), w.as_ptr(), w.len(), a.as_ptr(), a.len(), index) }
}

pub fn first_value(file: &[u8], names: &SystemNames, nodes: &[u32], attributes: &[u32], tag: &[u8], name: &[u8]) -> FirstAnswer {
    same_form();
    let (w, a) = (&names.words, &names.area);
    let (node_count, attribute_count) = ((nodes.len() / NODE_WORDS) as u32, (attributes.len() / ATTRIBUTE_WORDS) as u32);
    unsafe {
        axml_first_value(
            file.as_ptr(), file.len(), w.as_ptr(), w.len(), a.as_ptr(), a.len(), nodes.as_ptr(), nodes.len(), attributes.as_ptr(), attributes.len(),
            tag.as_ptr(), tag.len(), name.as_ptr(), name.len(), node_count, attribute_count,
        )
    }
}

/// `words`: those of the attribute, as a table has them.
pub fn value_text(file: &[u8], names: &SystemNames, items: &Items, out: &mut [u8], words: [u32; ATTRIBUTE_WORDS]) -> ValueAnswer {
    same_form();
    let (w, a) = (&names.words, &names.area);
    unsafe {
        axml_value_text(
            file.as_ptr(), file.len(), w.as_ptr(), w.len(), a.as_ptr(), a.len(), items.words.as_ptr(), items.words.len(),
            items.area.as_ptr(), items.area.len(), out.as_mut_ptr(), out.len(), words[ATTRIBUTE_OWNER], words[ATTRIBUTE_PREFIX],
            words[ATTRIBUTE_NAME], words[ATTRIBUTE_TYPE], words[ATTRIBUTE_DATA], words[ATTRIBUTE_NS],
        )
    }
}

pub fn value_texts(file: &[u8], names: &SystemNames, items: &Items, attributes: &[u32], out: &mut [u8], answers: &mut [u32]) -> ManyAnswer {
    same_form();
    let (w, a) = (&names.words, &names.area);
    let attribute_count = (attributes.len() / ATTRIBUTE_WORDS) as u32;
    unsafe {
        axml_value_texts(
            file.as_ptr(), file.len(), w.as_ptr(), w.len(), a.as_ptr(), a.len(), items.words.as_ptr(), items.words.len(),
            items.area.as_ptr(), items.area.len(), attributes.as_ptr(), attributes.len(), out.as_mut_ptr(), out.len(),
            answers.as_mut_ptr(), answers.len(), attribute_count,
        )
    }
}

pub fn texts(file: &[u8], names: &SystemNames, indices: &[u32], out: &mut [u8], answers: &mut [u32]) -> ManyAnswer {
    same_form();
    let (w, a) = (&names.words, &names.area);
    unsafe {
        axml_texts(
            file.as_ptr(), file.len(), w.as_ptr(), w.len(), a.as_ptr(), a.len(), indices.as_ptr(), indices.len(),
            out.as_mut_ptr(), out.len(), answers.as_mut_ptr(), answers.len(),
        )
    }
}

pub fn first_values(
    file: &[u8], names: &SystemNames, nodes: &[u32], attributes: &[u32], pairs: &[u32], pair_area: &[u8], answers: &mut [u32],
) -> PairsAnswer {
    same_form();
    let (w, a) = (&names.words, &names.area);
    let (node_count, attribute_count) = ((nodes.len() / NODE_WORDS) as u32, (attributes.len() / ATTRIBUTE_WORDS) as u32);
    unsafe {
        axml_first_values(
            file.as_ptr(), file.len(), w.as_ptr(), w.len(), a.as_ptr(), a.len(), nodes.as_ptr(), nodes.len(), attributes.as_ptr(), attributes.len(),
            pairs.as_ptr(), pairs.len(), pair_area.as_ptr(), pair_area.len(), answers.as_mut_ptr(), answers.len(), node_count, attribute_count,
        )
    }
}

pub fn main_activities(file: &[u8], names: &SystemNames, items: &Items, nodes: &[u32], attributes: &[u32], list: &mut [u32]) -> MainAnswer {
    same_form();
    let (w, a) = (&names.words, &names.area);
    let (node_count, attribute_count) = ((nodes.len() / NODE_WORDS) as u32, (attributes.len() / ATTRIBUTE_WORDS) as u32);
    unsafe {
        axml_main_activities(
            file.as_ptr(), file.len(), w.as_ptr(), w.len(), a.as_ptr(), a.len(), items.words.as_ptr(), items.words.len(),
            items.area.as_ptr(), items.area.len(), nodes.as_ptr(), nodes.len(), attributes.as_ptr(), attributes.len(),
            list.as_mut_ptr(), list.len(), node_count, attribute_count,
        )
    }
}

pub fn round_up_add(round_up: &mut [u32; ROUND_UP_WORDS], notes: &[u32], refusal: u32, note_count: u32, file_bytes: usize) -> AddAnswer {
    same_form();
    unsafe { axml_round_up_add(round_up.as_mut_ptr(), round_up.len(), notes.as_ptr(), notes.len(), refusal, note_count, file_bytes) }
}

pub fn read_listing(text: &[u8], nodes: &mut [u32], attributes: &mut [u32], notes: &mut [u32]) -> Relisted {
    same_form();
    unsafe {
        axml_read_listing(
            text.as_ptr(), text.len(), nodes.as_mut_ptr(), nodes.len(), attributes.as_mut_ptr(), attributes.len(), notes.as_mut_ptr(), notes.len(),
        )
    }
}

pub fn is_valid_name(name: &[u8]) -> bool {
    same_form();
    unsafe { axml_is_valid_name(name.as_ptr(), name.len()) }
}

pub fn complex_to_float(data: u32) -> f64 {
    same_form();
    unsafe { axml_complex_to_float(data) }
}

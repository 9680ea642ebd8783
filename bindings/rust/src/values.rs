//! The texts of values, as a page shows them: docs/FORMAT.md, V.

use crate::{sys, Attribute, Damage, Manifest, Refusal};

/// How the named values of an attribute go together.
#[derive(Clone, Copy, Debug, PartialEq, Eq)]
pub enum ItemKind {
    /// One value at a time.
    Enum,
    /// Bits, of which several can be set.
    Flag,
}

/// Named values of attributes: for `launchMode` 1 is `singleTop`, say. A library lends none of its own; oracle/attr-items.txt has those of the framework's manifest.
#[derive(Clone, Debug, Default)]
pub struct Items {
    pub(crate) words: Vec<u32>,
    pub(crate) area: Vec<u8>,
}

impl Items {
    /// No items.
    pub fn new() -> Items {
        Items::default()
    }

    /// Adds an item. Names are ASCII and not empty, and the items of an attribute stand together and have one kind: a question checks it, and refuses otherwise.
    /// The attribute's name is written once for all its items, which makes that check cheap.
    pub fn push(&mut self, attribute: &str, kind: ItemKind, name: &str, value: u32) {
        let kind = match kind {
            ItemKind::Enum => sys::ITEM_ENUM,
            ItemKind::Flag => sys::ITEM_FLAG,
        };
        let mut item = [0; sys::ITEM_WORDS];
        item[sys::ITEM_ATTRIBUTE] = self.written(attribute);
        item[sys::ITEM_ATTRIBUTE_LENGTH] = attribute.len() as u32;
        item[sys::ITEM_KIND] = kind;
        item[sys::ITEM_NAME] = self.write(name);
        item[sys::ITEM_NAME_LENGTH] = name.len() as u32;
        item[sys::ITEM_VALUE] = value;
        self.words.extend(item);
    }

    /// Where an attribute's name begins in the area: that of the last item, if it is the same.
    fn written(&mut self, attribute: &str) -> u32 {
        if let Some(last) = self.words.rchunks_exact(sys::ITEM_WORDS).next() {
            let start = last[sys::ITEM_ATTRIBUTE] as usize;
            if &self.area[start..][..last[sys::ITEM_ATTRIBUTE_LENGTH] as usize] == attribute.as_bytes() {
                return start as u32;
            }
        }
        self.write(attribute)
    }

    fn write(&mut self, name: &str) -> u32 {
        let start = self.area.len() as u32;
        self.area.extend_from_slice(name.as_bytes());
        start
    }
}

impl<'a> FromIterator<(&'a str, ItemKind, &'a str, u32)> for Items {
    fn from_iter<I: IntoIterator<Item = (&'a str, ItemKind, &'a str, u32)>>(items: I) -> Items {
        let mut all = Items::new();
        for (attribute, kind, name, value) in items {
            all.push(attribute, kind, name, value);
        }
        all
    }
}

/// The text of a value.
#[derive(Clone, Debug, PartialEq, Eq)]
pub struct ValueText {
    /// The text. A damaged one has U+FFFD in it, or is empty.
    pub text: String,
    /// How many set bits of a flag no name covers; 0 for all other values.
    pub uncovered: u32,
    /// What became of the string where the value is one; all other texts are whole.
    pub damage: Damage,
}

impl Attribute<'_> {
    /// Its value as text: what the items of its name say, else the string, the number, the reference. Refused where its type has no plain
    /// text and no item answers (`NoPlainText`), where its name has none (`NothingFound`), and where the items break their rule. What is lent is
    /// checked at each call: for all attributes of a file ask [`Manifest::value_texts`].
    pub fn value_text(&self, items: &Items) -> Result<ValueText, Refusal> {
        let words = self.words();
        let mut out = vec![0; 64];
        let mut a = sys::value_text(&self.of.file, &self.of.names, items, &mut out, words);
        if a.refusal == sys::TEXT_SHORT {
            out = vec![0; a.value as usize];
            a = sys::value_text(&self.of.file, &self.of.names, items, &mut out, words);
        }
        if let Some(refusal) = Refusal::from_number(a.refusal, a.value) {
            return Err(refusal);
        }
        out.truncate(a.length as usize);
        Ok(ValueText { text: utf8(out), uncovered: a.uncovered, damage: Damage::from_numbers(a.state, a.replaced) })
    }
}

/// Many texts, one behind the other.
#[derive(Clone, Debug)]
pub struct Texts {
    bytes: String,
    parts: Vec<u32>,
}

/// One of many texts.
#[derive(Clone, Copy, Debug, PartialEq, Eq)]
pub struct Part<'a> {
    /// The text.
    pub text: &'a str,
    /// How many set bits of a flag no name covers; 0 for all other values.
    pub uncovered: u32,
    /// What became of it.
    pub damage: Damage,
}

impl Texts {
    /// How many there are.
    pub fn len(&self) -> usize {
        self.parts.len() / sys::PART_WORDS
    }

    /// Whether there are none.
    pub fn is_empty(&self) -> bool {
        self.parts.is_empty()
    }

    /// Text `k`; none where it has none: for a value [`Attribute::value_text`] says why.
    pub fn get(&self, k: usize) -> Option<Part<'_>> {
        let w = self.parts.get(sys::PART_WORDS * k..)?.get(..sys::PART_WORDS)?;
        let start = w[sys::PART_START] as usize;
        let text = self.bytes.get(start..start + w[sys::PART_LENGTH] as usize)?;
        let damage = Damage::from_numbers(w[sys::PART_STATE], w[sys::PART_REPLACED]);
        (w[sys::PART_REFUSAL] == sys::DONE).then_some(Part { text, uncovered: w[sys::PART_UNCOVERED], damage })
    }

    /// All of them, in the order of the questions.
    pub fn iter(&self) -> impl ExactSizeIterator<Item = Option<Part<'_>>> + '_ {
        (0..self.len()).map(|k| self.get(k))
    }
}

impl Manifest {
    /// The texts of the values of all attributes, in their order; what is lent is checked once.
    pub fn value_texts(&self, items: &Items) -> Result<Texts, Refusal> {
        let count = self.attributes.len() / sys::ATTRIBUTE_WORDS;
        many(count, |out, parts| sys::value_texts(&self.file, &self.names, items, &self.attributes, out, parts))
    }

    /// The texts of string indices, in their order.
    pub fn texts(&self, indices: &[u32]) -> Result<Texts, Refusal> {
        many(indices.len(), |out, parts| sys::texts(&self.file, &self.names, indices, out, parts))
    }
}

/// Asks with some room, and once more with what is needed.
fn many(count: usize, ask: impl Fn(&mut [u8], &mut [u32]) -> sys::ManyAnswer) -> Result<Texts, Refusal> {
    let mut parts = vec![0; sys::PART_WORDS * count];
    let mut bytes = vec![0; 32 * count];
    let mut a = ask(&mut bytes, &mut parts);
    if a.refusal == sys::TEXT_SHORT {
        bytes = vec![0; a.value as usize];
        a = ask(&mut bytes, &mut parts);
    }
    if let Some(refusal) = Refusal::from_number(a.refusal, a.value) {
        return Err(refusal);
    }
    bytes.truncate(a.length as usize);
    Ok(Texts { bytes: utf8(bytes), parts })
}

/// The texts of the library are UTF-8, which the compiler cannot know.
fn utf8(bytes: Vec<u8>) -> String {
    String::from_utf8(bytes).expect("the texts of the library are UTF-8")
}

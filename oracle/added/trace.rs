//! What the patched walk tells while it runs. The answers are still the Rust's own: this only lets the driver see
//! numbers that the Rust throws away (indices, raw values, the order in which records are stored).

use std::cell::RefCell;

use crate::structs::{ResourceValueType, StringPool, XMLResourceMap, XmlAttributeElement};

/// A start that was read whole.
pub struct Start {
    pub name: u32,
    /// its name was replaced
    pub fixed: bool,
    pub line: u32,
}

/// An attribute with a valid name, kept or not. Its number stands in the tree in front of its value.
pub struct Value {
    pub start: usize,
    pub name: u32,
    pub kind: u8,
    pub data: u32,
    pub namespace: u32,
}

#[derive(Default)]
pub struct Trace {
    cap: usize,
    wants_texts: bool,
    /// values stand in the tree as they are, without a number
    bare: bool,
    pub starts: Vec<Start>,
    pub values: Vec<Value>,
    /// name indices of all notes 9 and 10, past the cap too
    pub bad_elements: Vec<u32>,
    pub bad_attributes: Vec<u32>,
    /// N a note below its cap, E a node, A an attribute
    pub due: Vec<u8>,
    /// of index 0, 1, .. to two past the longer of pool and map; none where the head was refused
    pub texts: Vec<Option<String>>,
}

thread_local! {
    static TRACE: RefCell<Trace> = RefCell::new(Trace::default());
}

fn with<T>(f: impl FnOnce(&mut Trace) -> T) -> T {
    TRACE.with(|t| f(&mut t.borrow_mut()))
}

pub fn begin(cap: usize, wants_texts: bool) {
    with(|t| *t = Trace { cap, wants_texts, ..Trace::default() });
}

/// A reading whose tree has the values alone, for questions that compare them.
pub fn begin_bare() {
    with(|t| *t = Trace { bare: true, ..Trace::default() });
}

pub fn take() -> Trace {
    with(std::mem::take)
}

pub(crate) fn cap() -> usize {
    with(|t| t.cap)
}

pub(crate) fn head(pool: &StringPool, map: &XMLResourceMap) {
    with(|t| {
        if t.wants_texts {
            let many = pool.len().max(map.resource_ids.len()) as u32 + 2;
            t.texts = (0..many)
                .map(|i| pool.get_with_resources(i, map, true).map(|s| s.into_owned()))
                .collect();
        }
    });
}

pub(crate) fn due(what: u8) {
    with(|t| t.due.push(what));
}

pub(crate) fn start(name: u32, line: u32) {
    with(|t| t.starts.push(Start { name, fixed: false, line }));
}

pub(crate) fn invalid_element(name: u32) {
    with(|t| {
        t.starts.last_mut().unwrap().fixed = true;
        t.bad_elements.push(name);
    });
}

pub(crate) fn invalid_attribute(name: u32) {
    with(|t| t.bad_attributes.push(name));
}

/// What the tree keeps in place of the value's text: the attribute's number, `|`, the text.
pub(crate) fn value(text: &str, attribute: &XmlAttributeElement) -> String {
    with(|t| {
        t.values.push(Value {
            start: t.starts.len() - 1,
            name: attribute.name,
            kind: byte_of(&attribute.typed_value.data_type),
            data: attribute.typed_value.data,
            namespace: attribute.namespace_uri,
        });
        if t.bare { text.to_string() } else { format!("{}|{}", t.values.len() - 1, text) }
    })
}

/// The byte that the Rust turns into this type: asked of its own `From`, so that no table is written down twice.
fn byte_of(kind: &ResourceValueType) -> u8 {
    (0..=255).find(|&b| ResourceValueType::from(b) == *kind).unwrap()
}

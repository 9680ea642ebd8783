//! The texts of all attributes' values: the Rust's `to_string`, with `get_attr_value` before it, as axml.rs asks them; and ours, all at once.

use crate::ours::{ATTRIBUTE_WORDS, Names};
use apk_info_axml_valued::axml::ANDROID_NAMESPACE;
use apk_info_axml_valued::head;
use apk_info_axml_valued::structs::attrs_manifest::get_attr_value;
use apk_info_axml_valued::structs::{ResourceValue, ResourceValueType, StringPool};
use std::cell::RefCell;

thread_local! {
    static KEPT: RefCell<Vec<String>> = const { RefCell::new(Vec::new()) };
}

/// Kept until `forget`.
pub fn keep(strings: Vec<String>) {
    KEPT.with(|k| *k.borrow_mut() = strings);
}

pub fn forget() {
    KEPT.with(|k| k.borrow_mut().clear());
}

/// What the Rust asks with: its pool, and for each attribute its name, found before the clock starts, and its value. No name: the leading attribute.
pub struct Asked {
    pool: StringPool,
    attributes: Vec<(Option<String>, ResourceValue)>,
}

impl Asked {
    pub fn of(file: &[u8], attributes: &[u32]) -> Asked {
        let (pool, map) = head(file).unwrap();
        let attributes = attributes
            .chunks_exact(ATTRIBUTE_WORDS)
            .map(|w| {
                let name = (w[1] != 2).then(|| pool.get_with_resources(w[2], &map, true).unwrap().into_owned());
                (name, ResourceValue { size: 8, res: 0, data_type: ResourceValueType::from(w[3] as u8), data: w[4] })
            })
            .collect();
        Asked { pool, attributes }
    }

    fn string(&self, name: &Option<String>, value: &ResourceValue) -> String {
        let Some(name) = name else {
            return ANDROID_NAMESPACE.to_string();
        };
        get_attr_value(name, &value.data).map_or_else(|| value.to_string(&self.pool, None), |s| s.into_owned())
    }

    pub fn strings(&self) -> Vec<String> {
        self.attributes.iter().map(|(name, value)| self.string(name, value)).collect()
    }

    /// Whether our texts are these; where ours has none (docs/FORMAT.md, V10), the Rust's is not compared.
    pub fn equal(&self, ours: &Texts) -> Result<(), String> {
        for (i, (theirs, w)) in self.strings().iter().zip(ours.parts.chunks_exact(6)).enumerate() {
            let text = &ours.out[w[1] as usize..][..w[2] as usize];
            if w[0] != 15 && (w[0] != 0 || text != theirs.as_bytes()) {
                return Err(format!("value {i}: Rust {theirs:?}, port {w:?} {:?}", String::from_utf8_lossy(text)));
            }
        }
        Ok(())
    }
}

/// `struct axml_many_answer`
#[repr(C)]
struct ManyAnswer {
    refusal: u32,
    value: u64,
    count: u64,
    length: u64,
}

unsafe extern "C" {
    fn axml_value_texts(
        file: *const u8, file_bytes: usize, names: *const u32, name_words: usize, area: *const u8, area_bytes: usize, items: *const u32,
        item_words: usize, item_area: *const u8, item_area_bytes: usize, attributes: *const u32, attribute_words: usize, out: *mut u8, out_bytes: usize,
        answers: *mut u32, answer_words: usize, attribute_count: u32,
    ) -> ManyAnswer;
}

/// Buffer and answers, of just the size that they need.
pub struct Texts {
    out: Vec<u8>,
    parts: Vec<u32>,
}

impl Texts {
    pub fn of(file: &[u8], names: &Names, items: &Names, attributes: &[u32]) -> Texts {
        let mut texts = Texts { out: vec![], parts: vec![0; 6 * (attributes.len() / ATTRIBUTE_WORDS)] };
        let a = texts.call(file, names, items, attributes);
        assert!(a.refusal == 11 && a.count == 0 && a.length == 0);
        texts.out = vec![0; a.value as usize];
        texts.ask(file, names, items, attributes);
        texts
    }

    fn call(&mut self, file: &[u8], names: &Names, items: &Names, attributes: &[u32]) -> ManyAnswer {
        let Texts { out, parts } = self;
        // SAFETY: each pointer lends as many elements as the length behind it says, and what is written overlaps nothing
        unsafe {
            axml_value_texts(
                file.as_ptr(), file.len(), names.words.as_ptr(), names.words.len(), names.area.as_ptr(), names.area.len(), items.words.as_ptr(),
                items.words.len(), items.area.as_ptr(), items.area.len(), attributes.as_ptr(), attributes.len(), out.as_mut_ptr(), out.len(),
                parts.as_mut_ptr(), parts.len(), (attributes.len() / ATTRIBUTE_WORDS) as u32,
            )
        }
    }

    pub fn ask(&mut self, file: &[u8], names: &Names, items: &Names, attributes: &[u32]) {
        let a = self.call(file, names, items, attributes);
        assert!(a.refusal == 0 && a.length == self.out.len() as u64);
    }

    /// With a buffer and answers of its own, which are given back.
    pub fn again(&mut self, file: &[u8], names: &Names, items: &Names, attributes: &[u32]) {
        let mut fresh = Texts { out: vec![0; self.out.len()], parts: vec![0; self.parts.len()] };
        fresh.ask(file, names, items, attributes);
    }
}

//! Forty pairs of tag and name: asked of the Rust one by one, of ours one by one, and of ours all at once.

use crate::equal;
use crate::ours::{Names, Tables};

/// What a depot asks of a manifest, those of a tag together.
pub const PAIRS: [(&str, &str); 40] = [
    ("manifest", "package"),
    ("manifest", "versionCode"),
    ("manifest", "versionName"),
    ("manifest", "installLocation"),
    ("manifest", "sharedUserId"),
    ("manifest", "compileSdkVersion"),
    ("manifest", "platformBuildVersionCode"),
    ("uses-sdk", "minSdkVersion"),
    ("uses-sdk", "targetSdkVersion"),
    ("uses-sdk", "maxSdkVersion"),
    ("uses-permission", "name"),
    ("uses-permission", "maxSdkVersion"),
    ("permission", "name"),
    ("permission", "protectionLevel"),
    ("uses-feature", "name"),
    ("uses-feature", "required"),
    ("supports-screens", "anyDensity"),
    ("supports-screens", "largeScreens"),
    ("application", "label"),
    ("application", "icon"),
    ("application", "theme"),
    ("application", "name"),
    ("application", "debuggable"),
    ("application", "allowBackup"),
    ("application", "hardwareAccelerated"),
    ("application", "largeHeap"),
    ("application", "usesCleartextTraffic"),
    ("activity", "name"),
    ("activity", "label"),
    ("activity", "launchMode"),
    ("activity", "exported"),
    ("service", "name"),
    ("service", "exported"),
    ("receiver", "name"),
    ("receiver", "exported"),
    ("provider", "name"),
    ("provider", "authorities"),
    ("meta-data", "name"),
    ("meta-data", "value"),
    ("uses-library", "name"),
];

unsafe extern "C" {
    fn axml_first_value(
        file: *const u8, file_bytes: usize, names: *const u32, name_words: usize, area: *const u8, area_bytes: usize, nodes: *const u32,
        node_words: usize, attributes: *const u32, attribute_words: usize, tag: *const u8, tag_bytes: usize, name: *const u8, name_bytes: usize,
        node_count: u32, attribute_count: u32,
    ) -> First;
    fn axml_first_values(
        file: *const u8, file_bytes: usize, names: *const u32, name_words: usize, area: *const u8, area_bytes: usize, nodes: *const u32,
        node_words: usize, attributes: *const u32, attribute_words: usize, pairs: *const u32, pair_words: usize, pair_area: *const u8,
        pair_area_bytes: usize, answers: *mut u32, answer_words: usize, node_count: u32, attribute_count: u32,
    ) -> Many;
}

/// `struct axml_first_answer`
#[repr(C)]
pub struct First {
    pub refusal: u32,
    pub value: u64,
    pub kind: u32,
    pub data: u32,
    pub reference: u32,
}

/// `struct axml_pairs_answer`
#[repr(C)]
pub struct Many {
    pub refusal: u32,
    pub value: u64,
    pub count: u64,
}

/// A file that was read, and the pairs as the words and bytes that are lent.
pub struct Asked<'a> {
    file: &'a [u8],
    names: &'a Names,
    tables: &'a Tables,
    counts: (u32, u32),
    words: Vec<u32>,
    area: Vec<u8>,
    pub answers: Vec<u32>,
}

impl<'a> Asked<'a> {
    pub fn of(file: &'a [u8], names: &'a Names, tables: &'a Tables, counts: (u32, u32)) -> Asked<'a> {
        let (mut words, mut area) = (vec![], vec![]);
        for text in PAIRS.iter().flat_map(|(tag, name)| [tag, name]) {
            words.extend([area.len() as u32, text.len() as u32]);
            area.extend(text.as_bytes());
        }
        Asked { file, names, tables, counts, words, area, answers: vec![0; 4 * PAIRS.len()] }
    }

    pub fn one(&self, tag: &str, name: &str) -> [u32; 4] {
        let (f, n, t) = (self.file, self.names, self.tables);
        // SAFETY: each pointer lends as many elements as the length behind it says
        let a = unsafe {
            axml_first_value(
                f.as_ptr(), f.len(), n.words.as_ptr(), n.words.len(), n.area.as_ptr(), n.area.len(), t.nodes.as_ptr(), t.nodes.len(),
                t.attributes.as_ptr(), t.attributes.len(), tag.as_ptr(), tag.len(), name.as_ptr(), name.len(), self.counts.0, self.counts.1,
            )
        };
        [a.refusal, a.kind, a.data, a.reference]
    }

    pub fn all(&mut self) -> Many {
        let (f, n, t) = (self.file, self.names, self.tables);
        // SAFETY: as above, and the answers overlap nothing
        unsafe {
            axml_first_values(
                f.as_ptr(), f.len(), n.words.as_ptr(), n.words.len(), n.area.as_ptr(), n.area.len(), t.nodes.as_ptr(), t.nodes.len(),
                t.attributes.as_ptr(), t.attributes.len(), self.words.as_ptr(), self.words.len(), self.area.as_ptr(), self.area.len(),
                self.answers.as_mut_ptr(), self.answers.len(), self.counts.0, self.counts.1,
            )
        }
    }

    /// Whether all at once says what each says by itself, and finds a value exactly where the Rust finds one. How many were found.
    pub fn equal(&mut self) -> Result<usize, String> {
        let many = self.all();
        if (many.refusal, many.count) != (0, PAIRS.len() as u64) {
            return Err(format!("refusal {} with {}", many.refusal, many.value));
        }
        let mut found = 0;
        for (i, (tag, name)) in PAIRS.iter().enumerate() {
            let (here, alone) = (&self.answers[4 * i..4 * i + 4], self.one(tag, name));
            if here != alone {
                return Err(format!("{tag} {name}: {here:?} among many, {alone:?} alone"));
            }
            if equal::finds(tag, name, self.names.lent()) != (here[0] == 0) {
                return Err(format!("{tag} {name}: the Rust finds otherwise than {here:?}"));
            }
            found += usize::from(here[0] == 0);
        }
        Ok(found)
    }
}

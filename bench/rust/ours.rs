//! The proved reader, by its C interface, and the tables and names that it is lent.

/// `struct axml_answer`
#[repr(C)]
#[derive(Debug)]
pub struct Answer {
    pub refusal: u32,
    pub value: u64,
    pub starts: u32,
    pub nodes: u32,
    pub attributes: u32,
    pub notes: u32,
}

unsafe extern "C" {
    fn axml_read(
        file: *const u8, file_bytes: usize, names: *const u32, name_words: usize, area: *const u8, area_bytes: usize, nodes: *mut u32,
        node_words: usize, attributes: *mut u32, attribute_words: usize, notes: *mut u32, note_words: usize, cap: u32, mode: u32,
    ) -> Answer;
}

/// The Rust's cap of notes of a kind.
const CAP: usize = 16;

/// Words of a node, and of an attribute.
pub const NODE_WORDS: usize = 6;
pub const ATTRIBUTE_WORDS: usize = 6;

/// The first mode, the Rust's, and the second, in which attributes of other namespaces are kept apart.
pub const MERGED: u32 = 1;
pub const APART: u32 = 2;

/// System names, three words for each, or items, six, and the bytes that they lie in.
pub struct Names {
    pub words: Vec<u32>,
    pub area: Vec<u8>,
}

impl Names {
    /// The names of a file: a line for each, its id in hexadecimal, a blank, the name. `none` is no names.
    pub fn of(path: &str) -> Names {
        let mut names = Names { words: vec![], area: vec![] };
        if path == "none" {
            return names;
        }
        let text = std::fs::read_to_string(path).unwrap();
        let mut all: Vec<(u32, &str)> = text
            .lines()
            .map(|line| line.split_once(' ').unwrap())
            .map(|(id, name)| (u32::from_str_radix(id.trim_start_matches("0x"), 16).unwrap(), name))
            .collect();
        all.sort();
        for (id, name) in all {
            names.words.extend([id, names.area.len() as u32, name.len() as u32]);
            names.area.extend(name.as_bytes());
        }
        names
    }

    /// The items of a file: a line for each, attribute, `enum` or `flag`, name, value in hexadecimal, a tab between them. An attribute's name stands once.
    pub fn items(path: &str) -> Names {
        let mut items = Names { words: vec![], area: vec![] };
        let text = std::fs::read_to_string(path).unwrap();
        let (mut of, mut at) = ("", [0, 0]);
        for line in text.lines() {
            let cells: Vec<&str> = line.split('\t').collect();
            let mut place = |name: &str| {
                items.area.extend(name.as_bytes());
                [(items.area.len() - name.len()) as u32, name.len() as u32]
            };
            if cells[0] != of {
                (of, at) = (cells[0], place(cells[0]));
            }
            let [start, length] = place(cells[2]);
            items.words.extend([at[0], at[1], (cells[1] == "flag") as u32, start, length, u32::from_str_radix(&cells[3][2..], 16).unwrap()]);
        }
        items
    }

    pub fn lent(&self) -> bool {
        !self.words.is_empty()
    }
}

pub struct Tables {
    pub nodes: Vec<u32>,
    pub attributes: Vec<u32>,
    pub notes: Vec<u32>,
    /// of the readings into them
    pub mode: u32,
}

impl Tables {
    /// Room for whatever a file of so many bytes holds: an element is 36 bytes or more, an attribute 20, and the first element has one more.
    pub fn of(bytes: usize) -> Tables {
        Tables::in_mode(bytes, MERGED)
    }

    pub fn in_mode(bytes: usize, mode: u32) -> Tables {
        let (nodes, attributes) = (vec![0; NODE_WORDS * (bytes / 36 + 1)], vec![0; ATTRIBUTE_WORDS * (bytes / 20 + 1)]);
        Tables { nodes, attributes, notes: vec![0; 3 * 14 * CAP], mode }
    }

    pub fn read(&mut self, file: &[u8], names: &Names) -> Answer {
        let Tables { nodes, attributes, notes, mode } = self;
        // SAFETY: each pointer lends as many elements as the length behind it says, and what is written overlaps nothing
        unsafe {
            axml_read(
                file.as_ptr(), file.len(), names.words.as_ptr(), names.words.len(), names.area.as_ptr(), names.area.len(), nodes.as_mut_ptr(),
                nodes.len(), attributes.as_mut_ptr(), attributes.len(), notes.as_mut_ptr(), notes.len(), CAP as u32, *mode,
            )
        }
    }
}

//! A listing read back.

use crate::{sys, Refusal};

/// What a listing says (docs/FORMAT.md, L9): the answer that was listed, and its records as words.
///
/// ```no_run
/// let text = std::fs::read("manifest.listing")?;
/// let listing = itelbash::Listing::read(&text)?;
/// match listing.refusal() {
///     None => println!("{} elements", listing.nodes().len()),
///     Some(refusal) => println!("the file was refused: {refusal}"),
/// }
/// # Ok::<(), Box<dyn std::error::Error>>(())
/// ```
///
/// A text that is taken is the only one that says this, which is a theorem about the library (`relist-only` in crates/claims).
#[derive(Clone, Debug, PartialEq, Eq)]
pub struct Listing {
    refusal: Option<Refusal>,
    cap: u32,
    starts: u32,
    nodes: Vec<[u32; sys::NODE_WORDS]>,
    attributes: Vec<[u32; sys::ATTRIBUTE_WORDS]>,
    notes: Vec<[u32; sys::NOTE_WORDS]>,
}

/// The records of a table, of which there are `count`.
fn records<const N: usize>(words: &[u32], count: u32) -> Vec<[u32; N]> {
    words.chunks_exact(N).take(count as usize).map(|w| w.try_into().expect("a chunk has its length")).collect()
}

impl Listing {
    /// Reads a listing, as `axml-list` prints it. Refused by [`Refusal::ListingMalformed`], [`Refusal::ListingNumber`] and [`Refusal::ListingOrder`] alone: the
    /// tables have a place for each line of the text.
    pub fn read(text: &[u8]) -> Result<Listing, Refusal> {
        let lines = text.iter().filter(|b| **b == b'\n').count();
        let mut nodes = vec![0; sys::NODE_WORDS * lines];
        let mut attributes = vec![0; sys::ATTRIBUTE_WORDS * lines];
        let mut notes = vec![0; sys::NOTE_WORDS * lines];
        let a = sys::read_listing(text, &mut nodes, &mut attributes, &mut notes);
        let refusal = Refusal::from_number(a.refusal, a.value);
        if let Some(own @ (Refusal::NodesFull(_) | Refusal::AttributesFull(_) | Refusal::NotesFull(_))) = refusal {
            return Err(own);
        }
        if let Some(own @ (Refusal::ListingMalformed(_) | Refusal::ListingNumber(_) | Refusal::ListingOrder(_))) = refusal {
            return Err(own);
        }
        Ok(Listing {
            refusal,
            cap: a.cap,
            starts: a.starts,
            nodes: records(&nodes, a.nodes),
            attributes: records(&attributes, a.attributes),
            notes: records(&notes, a.notes),
        })
    }

    /// Why the listed file was refused; none where it was read.
    pub fn refusal(&self) -> Option<Refusal> {
        self.refusal
    }

    /// How many notes of a kind the listing has at most; none where notes were switched off, so that they are unknown.
    pub fn cap(&self) -> Option<u32> {
        (self.cap != 0).then_some(self.cap)
    }

    /// How many elements the file has.
    pub fn starts(&self) -> u32 {
        self.starts
    }

    /// The words of each node (docs/FORMAT.md, B9).
    pub fn nodes(&self) -> &[[u32; sys::NODE_WORDS]] {
        &self.nodes
    }

    /// The words of each attribute (docs/FORMAT.md, B11).
    pub fn attributes(&self) -> &[[u32; sys::ATTRIBUTE_WORDS]] {
        &self.attributes
    }

    /// The words of each note (docs/FORMAT.md, B12): kind, a and b.
    pub fn notes(&self) -> &[[u32; sys::NOTE_WORDS]] {
        &self.notes
    }
}

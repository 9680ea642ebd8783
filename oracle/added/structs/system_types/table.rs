//! The framework's names are not at hand: each run chooses a set, by type and then by entry, empty where there is none.

use std::cell::Cell;

pub type Names = &'static [Vec<&'static str>];

thread_local! {
    static CHOSEN: Cell<Names> = const { Cell::new(&[]) };
}

pub struct Chosen;
pub static SYSTEM_TYPES: Chosen = Chosen;

impl Chosen {
    pub fn get(&self, kind: usize) -> Option<&'static Vec<&'static str>> {
        CHOSEN.with(Cell::get).get(kind)
    }
}

pub fn choose(names: Names) {
    CHOSEN.with(|c| c.set(names));
}

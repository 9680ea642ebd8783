//! The framework's named values are not at hand: each run chooses a set, by attribute.

use std::cell::Cell;

use super::{Kind, Values};

/// For each attribute its name, whether its values are flags, and their names with their values.
pub type Items = &'static [(&'static str, bool, Vec<(&'static str, u32)>)];

thread_local! {
    static CHOSEN: Cell<Items> = const { Cell::new(&[]) };
}

pub(super) fn attr(name: &str) -> Option<(Kind, Values)> {
    let (_, flag, values) = CHOSEN.with(Cell::get).iter().find(|a| a.0 == name)?;
    Some((if *flag { Kind::Flag } else { Kind::Enum }, values))
}

pub fn choose(items: Items) {
    CHOSEN.with(|c| c.set(items));
}

//! The crate root, which the source at hand leaves out: its modules, and `head`, by which a test of equality turns an index into its text.

pub mod anomaly;
pub mod axml;
pub mod errors;
pub mod structs;

pub use axml::AXML;

use structs::{ResChunkHeader, StringPool, XMLResourceMap};

/// Pool and map of a file that is read with no refusal.
pub fn head(file: &[u8]) -> Option<(StringPool, XMLResourceMap)> {
    let mut input = anomaly::input(file);
    ResChunkHeader::parse(&mut input.input).ok()?;
    let pool = StringPool::parse(&mut input).ok()?;
    let map = XMLResourceMap::parse(&mut input.input).ok()?;
    Some((pool, map))
}

/// Resource tables are not ported. The source names this type, and no value of it exists.
pub enum ARSC {}

impl ARSC {
    pub fn get_resource_name(&self, _: u32) -> Option<String> {
        match *self {}
    }
    pub fn get_resource_value(&self, _: u32) -> Option<String> {
        match *self {}
    }
    pub fn get_resource_value_by_name(&self, _: &str) -> Option<String> {
        match *self {}
    }
}

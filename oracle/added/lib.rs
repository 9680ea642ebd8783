//! The crate root, which the source at hand leaves out: its modules, and `trace`, which the oracle adds.

pub mod anomaly;
pub mod axml;
pub mod errors;
pub mod structs;
pub mod trace;

pub use axml::AXML;

/// Resource tables are not ported. The source names this type, and no value of it exists.
pub enum ARSC {}

impl ARSC {
    pub fn get_resource_name(&self, _: u32) -> Option<String> {
        match *self {}
    }
    pub fn get_resource_value(&self, _: u32) -> Option<String> {
        match *self {}
    }
    pub fn get_resource_value_by_name(&self, _: &str) -> Option<String> {
        match *self {}
    }
}

//! The modules of the format, as the source names them, without those of resource tables.

pub mod attrs_manifest;
mod common;
mod res_string_pool;
pub mod system_types;
mod xml_elements;

pub use common::*;
pub use res_string_pool::*;
pub use xml_elements::*;

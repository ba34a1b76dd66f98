//! Titanium 1.1 written a second time, from the document alone. It never links or copies the proved code: its outputs are what
//! the proved programs are held to.

pub mod arithmetic;
pub mod draws;
pub mod expected;
pub mod numbers;
pub mod packing;
pub mod parameters;
pub mod partial;
pub mod scheme;
pub mod sheet;
pub mod sponge;

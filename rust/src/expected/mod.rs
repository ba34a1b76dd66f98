//! What the programs of crates/run_* read and print, made by this implementation.

pub mod arithmetic;
pub mod bytes;
pub mod cases;
pub mod damage;
pub mod damage_arithmetic;
pub mod damage_bytes;
pub mod damage_scheme;
pub mod draws;
pub mod known;
pub mod known_draws;
pub mod middle;
pub mod numbers;
pub mod partial;
pub mod report;
pub mod samplers;
pub mod script;
pub mod sheets;
pub mod sponge;
pub mod store;
pub mod ties;
pub mod transforms;
pub mod whole;

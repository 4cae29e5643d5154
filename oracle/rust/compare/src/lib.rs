//! Our library beside the Rust: both are handed the same inputs, and everything that either answers is held to the other's.
pub mod account;
pub mod buffers;
pub mod case;
pub mod ceilings;
pub mod damage;
pub mod hcaa;
pub mod hrp;
pub mod listing;
pub mod matrices;
pub mod mirror;
pub mod names;
pub mod ours;
pub mod sheet;
pub mod steps;
pub mod texts;

#[path = "../../record/src/kinds.rs"]
pub mod kinds;
#[path = "../../record/src/random.rs"]
pub mod random;
#[path = "../../record/src/rules.rs"]
pub mod rules;

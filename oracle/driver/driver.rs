//! What the driver does with the engine, but for its commands and the linked functions, which are in main.rs: built once for each set of sizes,
//! with or without the proved archive.

pub mod closes;
pub mod compare;
pub mod fixed;
pub mod former;
pub mod judge;
pub mod leftovers;
pub mod met;
pub mod ours;
pub mod outside;
pub mod panics;
pub mod random;
pub mod sample;
pub mod script;
pub mod scripts;

mod closing_draws;
mod drawn;
mod due;
mod interfaces;
mod marks;
mod outside_closing;
mod outside_flags;
mod outside_interfaces;
mod paired;
mod rust;
mod style;

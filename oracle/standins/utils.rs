//! In the place of the engine's `utils`: what the judge needs from inside the crate.
//!
//! `calls`: the calls that document 01 adds, made of the engine's own functions.
//! `steps`: single steps of the engine, to be timed.
//! `mirror`: reads the private fields. Its structs repeat the engine's declarations field for field, so that the compiler lays
//! them out alike; sizes are compared when this is compiled, and `mirror_agrees` compares readings with the engine's own.

#[path = "utils_calls.rs"]
pub mod calls;
#[path = "utils_mirror.rs"]
pub mod mirror;
#[path = "utils_steps.rs"]
pub mod steps;

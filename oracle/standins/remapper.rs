//! Stand-in: the engine only exports this name.

pub struct Remapper;

//! Stand-in: the region part of the engine names nothing of this module.

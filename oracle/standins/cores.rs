//! Stand-in for the cores of the machine: only switches and `start_domain_on_core` reach them.

use crate::config::NB_CORES;
use crate::{CapaError, Domain, Handle};

pub(crate) type CoreList = [Core; NB_CORES];

pub(crate) struct Core;

impl Core {
    pub const fn new() -> Self {
        Core
    }

    pub fn initialize(&mut self, _domain: Handle<Domain>) -> Result<(), CapaError> {
        Ok(())
    }

    pub fn set_domain(&mut self, _domain: Handle<Domain>) {}
}

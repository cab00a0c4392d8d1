//! Stand-in: attestation is left out of the port (document 01, "Left out").

use crate::domain::DomainPool;
use crate::segment::RegionPool;
use crate::CapaError;

pub(crate) fn serialize(_buff: &mut [u8], _domains: &DomainPool, _regions: &RegionPool) -> Result<usize, CapaError> {
    Err(CapaError::InvalidOperation)
}

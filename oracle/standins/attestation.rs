//! Stand-in for the crate `attestation`: two types that a domain holds and no compared call reads.
#![no_std]

pub mod hashing {
    #[derive(Clone, Copy)]
    pub struct HashEnclave {
        pub low: u128,
        pub high: u128,
    }
}

pub mod signature {
    #[derive(Clone, Copy)]
    pub struct EnclaveReport;
}

//! Stands in for vine_util's big naturals, which a port may carry: 32 bits are what an image holds.

#[derive(Debug, Clone)]
pub struct Nat(pub u32);

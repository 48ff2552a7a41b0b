//! What the programs here share.

pub mod elf;
pub mod rng;
pub mod trees;

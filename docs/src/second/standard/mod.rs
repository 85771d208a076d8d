//! The standard once more: FIPS 197, SP 800-38A, SP 800-38B, ISO/IEC 29167-10 and the house rules of paper 01.

pub mod aes;
pub mod build;
pub mod calls;
pub mod chaining;
pub mod cmac;
pub mod frames;
pub mod judge;
pub mod memory;
pub mod messages;
pub mod session;
pub mod sheet;
pub mod tag;

//! Roualint for Rust: a soft tag, the reader's side, and the cipher with its chaining and its MAC, by ISO/IEC
//! 29167-10:2017.
//!
//! What is called here is proved (crates/capi): each function takes any bytes and any numbers, returns (given a few KB
//! of stack, whatever the input's length), and leaves what its contract says. This crate is the way there from safe
//! Rust and does nothing of its own: it has no dependencies, uses no heap, and lends the library only what Rust's
//! references vouch for.
//!
//! It links `libcapi.a`, which `bindings/library` proves and writes. Cargo finds it by the variable
//! `ROUALINT_LIB_DIR`, or in this repository's target/staticlib; without cargo:
//!
//! ```text
//! rustc --edition 2021 --crate-type rlib --crate-name roualint -L native=target/staticlib bindings/rust/src/lib.rs
//! rustc --edition 2021 --extern roualint=libroualint.rlib your_program.rs
//! ```
//!
//! ```no_run
//! use roualint::{Reader, Tag};
//! # fn run(sheet: &[u8], enc: [u8; 16], mac: [u8; 16]) -> Result<(), Box<dyn std::error::Error>> {
//! let mut tag = Tag::new(sheet)?;
//! let areas = tag.areas();
//! let (mut identity, mut user) = (vec![0; areas.identity], vec![0; areas.user]);
//! let reader = Reader::new(enc, Some(mac));
//! let message = reader.build_tam1(0, &[7; 10])?;
//! let answer = tag.message(&message, &[1; 10], &mut identity, &mut user)?;
//! reader.judge(&message, &answer.reply)?;
//! # Ok(())
//! # }
//! ```
#![no_std]
#![deny(missing_docs)]

mod bytes;
mod chain;
mod ffi;
mod reader;
mod refusal;
mod tag;

pub use bytes::Bytes;
pub use chain::{aes_dec, aes_enc, cbc_dec_aes, cbc_dec_aes_inv, cbc_enc_aes, cbc_enc_aes_inv, cmac_96, Block};
pub use reader::{BlockSize, Custom, Judgement, Reader, Worth};
pub use refusal::{Refusal, SheetRefusal};
pub use tag::{Accepted, Areas, State, Tag, TAG_BYTES};

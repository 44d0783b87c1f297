//! The DVB related content section (ETSI TS 102 323), read, written and edited ([`rct`]), and the resolution notification
//! section, read ([`rnt`]): a safe wrapper of libeallunsa.a.
//!
//! Bytes go in as slices. What is read borrows from them, and a link to be written borrows its texts from wherever they
//! are. Every call ends, for every input, and gives its answer or a [`Refusal`] of a fixed list; a call that refuses has
//! changed no byte of the buffer that it was lent.
#![warn(missing_docs)]

#[cfg(not(all(target_arch = "x86_64", target_os = "linux")))]
compile_error!("libeallunsa.a is code for Linux on x86-64");

mod raw;
mod records;
mod refusal;

pub mod rct;
pub mod rnt;

pub use records::{Header, Identifier, Item, Link, Locator, RctHeader, Service, Windows};
pub use refusal::Refusal;

/// The version of the library: major, minor, patch.
pub fn version() -> (u16, u16, u16) {
    // SAFETY: no arguments, and an answer by value.
    let v = unsafe { raw::eallunsa_version() };
    (v.major, v.minor, v.patch)
}

/// The CRC of ISO/IEC 13818-1; of a whole section, its stored CRC included, it is 0 if that one is right.
pub fn crc(s: &[u8]) -> u32 {
    // SAFETY: a slice's pointer is never null, and all of its length may be read.
    unsafe { raw::eallunsa_crc(s.as_ptr(), s.len()) }
}

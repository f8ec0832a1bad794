//! The independent second program of Bawnaroy.
//!
//! Digest, cipher and store are written here once more from the paper, FIPS
//! 180-4 and RFC 8439, so that the library can be compared with them call by
//! call (`compare`) and timed beside them (`bench`).

pub mod answer;
pub mod ask;
pub mod bench;
pub mod chacha20;
pub mod check;
pub mod cli;
pub mod compare;
pub mod corpus;
pub mod desk;
pub mod finish;
pub mod format;
pub mod found;
pub mod good;
pub mod item;
#[cfg(feature = "library")]
pub mod library;
pub mod place;
pub mod random;
pub mod row;
pub mod sha256;
pub mod sizes;
pub mod store;
pub mod tap;
pub mod tree;
pub mod verdict;

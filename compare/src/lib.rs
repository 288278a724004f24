//! The published texture version pool as an oracle for its rewrite.
//!
//! The modules `format` and `texture_versions` are the published ones, changed by the build script as
//! document 01 rules and by nothing else; the rest is ours.

#![forbid(unsafe_code)]

pub mod books;
pub mod changes;
pub mod copies;
pub mod cost;
pub mod coverage;
pub mod event;
#[cfg(feature = "hash_maps")]
pub mod hashing;
pub mod leaf;
pub mod limited;
pub mod lines;
pub mod lists;
pub mod options;
pub mod pool_questions;
pub mod program;
pub mod questions;
pub mod random;
pub mod refusal;
pub mod replies;
pub mod shape;
pub mod sheet;
pub mod shrink;
pub mod standins;
pub mod stores;
pub mod text;

include!(concat!(env!("OUT_DIR"), "/published.rs"));

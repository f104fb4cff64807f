//! The archive's rules, those of document 01 and of the requests 1, 2, 5, 6 and 10
//! of document 02, written a second time in plain Rust.
//!
//! It shares neither code nor tables with the proved library, so that where
//! both agree, on many worlds and many steps, the agreement says something.
//! The first group of modules is the rules; the second makes worlds and
//! journals to try them on; the third looks at what came out.

// The rules.
pub mod administrator;
pub mod client;
pub mod codec;
pub mod entry;
pub mod layout;
pub mod load;
pub mod operations;
pub mod phase;
pub mod premise;
pub mod program;
pub mod quorum;
pub mod readable;
pub mod record;
pub mod refusal;
pub mod rules;
pub mod server;
pub mod shorten;
pub mod single;
pub mod step;
pub mod take;
pub mod vouch;
pub mod world;

// Worlds and journals to try them on.
pub mod generate;
pub mod journal;
pub mod script;
pub mod sessions;
pub mod xorshift;

// What came out, and the proved library beside it.
pub mod bench;
pub mod compare;
pub mod costs;
#[cfg(feature = "library")]
pub mod exports;
pub mod history;
pub mod judge;

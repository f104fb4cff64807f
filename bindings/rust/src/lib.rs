//! A register for an archive that outlives its servers: types over the proved
//! library. A world of servers, views, clients and messages lies in an [`Image`]
//! and is moved by one [`Step`] at a time; what its rules forbid is refused with
//! a [`Refusal`]. Every answer comes from the library; the types here name its
//! bytes. Nothing panics, and there is no dependency.
//!
//! ```
//! use zemawulo::{Image, Step, World};
//!
//! // Client 1 files 7 on the only server; client 2 reads it in one exchange.
//! let mut image = Image::fresh(World { members: [1].into_iter().collect(), f: 0, r: 0 })?;
//! let journal = Step::journal(&[
//!     Step::Write { client: 1, value: 7 },
//!     Step::Deliver { server: 1, message: 1 },
//!     Step::Take { message: 2 },
//!     Step::Deliver { server: 1, message: 3 },
//!     Step::Take { message: 4 },
//!     Step::Read { client: 2 },
//!     Step::Deliver { server: 1, message: 5 },
//!     Step::Take { message: 6 },
//! ]);
//! let replayed = image.replay(&journal);
//! assert_eq!((replayed.steps, replayed.stop), (8, None));
//! assert_eq!(image.client(2).map(|client| client.entry().value()), Some(7));
//! # Ok::<(), zemawulo::Refusal>(())
//! ```
//!
//! [`bytes`] has every call of the C interface on lent bytes.
#![deny(missing_docs)]
#![warn(clippy::all)]

pub mod answers;
pub mod bytes;
mod entry;
mod image;
mod lists;
pub mod machines;
mod numbers;
mod raw;
mod records;
mod refusal;
mod step;

pub use bytes::{quorum, Replayed, Sizes};
pub use entry::Entry;
pub use image::{load, shorten, Image, LAST_CLIENT, LAST_MESSAGE, LAST_SERVER, LAST_VIEW};
pub use lists::{judge, vouch, vouch_threshold, LogLine, UnsignedAnswer};
pub use numbers::Numbers;
pub use records::{Client, Kind, Message, MessageKind, Phase, Server, View};
pub use refusal::Refusal;
pub use step::{Step, World};

//! The draw tracker of a liquid-handling scheduler, over the proved archive `libtracker.a`.
//!
//! Up to 32 decks watch draws of reagent codes. Whenever no message is under way, a desk knows
//! which codes take at least a share p of all draws, and which volume class is their q-quantile,
//! each within a leeway e, all in thousandths.
//!
//! - [`Bench`]: all decks and the desk in one process, saved to bytes and opened again
//!   ([`Bench::save`], [`Bench::open`]).
//! - [`Deck`] and [`Desk`]: one party a process; the messages between them go as
//!   [`Message::to_bytes`] has them.
//! - [`calls`]: every call over memory that the caller lends, without allocation.
//! - [`raw`]: the C functions themselves.
//!
//! ```
//! use draw_tracker::{Bench, Draw, Refusal, Settings};
//!
//! let settings =
//!     Settings { decks: 3, leeway: 100, share: 300, rank: 500, slots: 60, codes: 1000 };
//! let mut bench = Bench::start(settings)?;
//! let draws = [7, 7, 42, 7, 7].map(|code| Draw { deck: code % 3, code, class: 120 });
//!
//! let mut messages = 0;
//! bench.run_all(&draws, |_message| messages += 1).whole()?;
//! assert_eq!(bench.listed()?, [7]);
//! assert_eq!(bench.class()?, Some(120));
//! assert!(messages <= settings.allowance(5)?);
//!
//! let unknown = Draw { deck: 3, code: 7, class: 120 };
//! assert_eq!(bench.draw(unknown), Err(Refusal::UnknownDeck));
//! # Ok::<(), Refusal>(())
//! ```
//!
//! # Linking
//! The build looks for `libtracker.a` in the folder that the variable `DRAW_TRACKER_LIB` names; if
//! that is not set, in `../lib` and then in `../../target/library`, from this crate's folder. The
//! first is where a release has it, the second where `bash library/build.sh` puts it in the
//! repository. The archive is for x86-64 with the System V calling convention.
//!
//! # Features
//! The crate is `no_std`. `alloc`, which is on unless default features are off, has the types that
//! own their memory.

#![no_std]
#![warn(missing_docs)]
#![deny(unsafe_op_in_unsafe_fn)]

#[cfg(feature = "alloc")]
extern crate alloc;

#[cfg(feature = "alloc")]
mod bench;
pub mod calls;
#[cfg(feature = "alloc")]
mod deck;
#[cfg(feature = "alloc")]
mod desk;
pub mod raw;
mod records;
mod refusal;
mod values;

#[cfg(feature = "alloc")]
pub use bench::{Bench, BenchParts};
pub use calls::{Loaded, Run, Sent};
#[cfg(feature = "alloc")]
pub use deck::Deck;
#[cfg(feature = "alloc")]
pub use desk::Desk;
pub use records::{Counts, DeckRecord, DecksRecord, Delivery, DeskRecord};
pub use refusal::Refusal;
pub use values::{
    deck_numbers, decks_numbers, desk_numbers, file_bytes, most_messages, Draw, Lengths, Message,
    Settings, CLASSES, MOST_CODES, MOST_DECKS, MOST_LISTED, MOST_SLOTS, TOP_CLASS,
};

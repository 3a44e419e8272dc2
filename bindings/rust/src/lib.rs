//! The nearby-claims cursor: tables of claims, lists of the claims near a probe, and the lines between the two.
//!
//! An office keeps a [`Table`] that grows all day. A tablet loads a [`List`] of the claims near a probe, nearest first or farthest
//! first, a page at a time, over a link that may lose, repeat, delay and reorder lines. Whatever the link does, the list is at every
//! moment the first so many, in its [`Order`], of the claims within reach that the table held at the list's snapshot, and once
//! started it says complete just when none is missing. That is proved of the library behind this crate; the crate itself, which hands
//! over memory and reads results, is tested.
//!
//! ```
//! use nearby::{List, Measure, Order, Table};
//!
//! let mut table = Table::new(7, Measure::CityBlock, 1, 1024)?;
//! table.enter(&[0x65, 0x66, 0x67, 0x68, 0x69], &[2, 3, 9, 6, 5])?;
//!
//! let mut list = List::open(Order::Near, 7, Measure::CityBlock, &[4], 5, 16)?;
//! while !list.is_complete() {
//!     let ask = list.write_ask(2)?; // goes to the office
//!     let answer = table.answer(&ask)?; // comes back from it
//!     list.take(&answer)?;
//! }
//! let numbers: Vec<u16> = list.items().map(|item| item.number).collect();
//! assert_eq!(numbers, [1, 4, 0, 3, 2]);
//! # Ok::<(), nearby::Refusal>(())
//! ```
//!
//! # What is safe
//!
//! Every call of the library checks its own input, ends, and writes only the memory that it is lent. The types here own that memory
//! and lend all of it under Rust's own rules, so nothing that safe code does can be undefined (rule 9.21 of `docs/RULES.md`).
//! [`raw`] has the bare calls for those who keep their own memory.
//!
//! # What a call costs
//!
//! Each single call on a table first tests that the table is sound, which costs as much as building it. Whoever has many questions
//! at once asks them by [`Table::nearest_many`], [`Table::farthest_many`], [`Table::pages`] and [`Table::answers`], which test once.
//!
//! A call needs at most 1 MiB of stack; threads of `std` have 2 MiB.

mod items;
mod lines;
mod list;
mod refusal;
mod table;

pub mod raw;

pub use items::{Item, Mark, Measure, Order, Page, Place};
pub use lines::{Answer, Ask, ClaimLine};
pub use list::List;
pub use refusal::Refusal;
pub use table::{Claim, Table};

/// Characters of the longest ask line, its 0A counted.
pub const ASK_LINE: usize = 123;
/// Characters of the longest answer line, its 0A counted.
pub const ANSWER_LINE: usize = 573;
/// Characters of the longest claim line, its 0A counted.
pub const CLAIM_LINE: usize = 87;
/// The largest number of coordinates, d.
pub const MOST_COORDINATES: usize = 8;
/// The largest capacity of a table, and the most items of a list.
pub const MOST_CLAIMS: usize = 4096;
/// The largest page size.
pub const MOST_PAGE: usize = 16;
/// Numbers in a node of a table's memory.
pub const NODE: usize = 6;
/// Numbers in an item of a list's or a page's memory.
pub const ITEM: usize = 3;
/// Numbers that many pages take for each: an order and a place.
pub const PLACE: usize = 5;

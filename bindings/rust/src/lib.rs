//! A proved planner for task graphs on up to 16 processors.
//!
//! A [`Graph`] is a row of times (microseconds; subtasks are numbered from 1 in row order) and a row of arrows. Its
//! methods take any numbers and any text; what breaks a rule is refused with a [`Refusal`], which says why and where. What
//! the planner promises, and the table of refusals, stand in `docs/PLANNER.md` of the repository.
//!
//! ```
//! use zulagbemi::{Arrow, Entry, Graph, Verdict};
//!
//! // three subtasks of 3, 4 and 5 microseconds; the second waits for the first
//! let arrows = [Arrow::new(1, 2)];
//! let graph = Graph::new(&[3, 4, 5], &arrows);
//!
//! // on two processors with a deadline of 10 microseconds
//! assert_eq!(graph.judge(2, 10)?.verdict, Verdict::Fits { spare: 1 });
//!
//! // the list rule's plan in the order 1, 2, 3 ends at 7
//! let mut plan = [Entry::default(); 3];
//! assert_eq!(graph.list_plan(2, &[1, 2, 3], &mut plan)?, 7);
//! assert_eq!(plan[2], Entry { processor: 2, start: 0 });
//!
//! // a plan in which the second starts too early is refused, with its place
//! plan[1].start = 2;
//! let refusal = graph.check_plan(2, &plan).unwrap_err();
//! assert_eq!((refusal.number(), refusal.place()), (15, 2));
//! assert_eq!(refusal.to_string(), "refused by 15: subtask 2 starts before a predecessor ends");
//! # Ok::<(), zulagbemi::Refusal>(())
//! ```
//!
//! The crate needs no `std` and allocates nothing, but for `Graph::to_stg`, which the feature `alloc` brings. No call
//! keeps anything between calls, so threads may call as they like; each call needs less than 16 KiB of stack. The planner
//! itself is an archive for x86-64, which `build.rs` proves and builds with the Rattle toolchain, or takes from the folder
//! that `ZULAGBEMI_LIB_DIR` names.

#![no_std]
#[cfg(feature = "alloc")]
extern crate alloc;

mod graph;
mod linked;
mod nest;
#[rustfmt::skip] // bindings/refusals.sh lays it out
mod reason;
mod refusal;
mod values;

pub use graph::Graph;
pub use nest::{nest_figures, Members, NestEntry, Weights};
pub use reason::Reason;
pub use refusal::Refusal;
pub use values::{Answer, Arrow, Entry, Verdict};

/// A graph has 1 to 256 subtasks.
pub const MAX_SUBTASKS: usize = 256;
/// A time is 1 to 65,535 microseconds.
pub const MAX_TIME: u16 = 65_535;
/// A graph has at most 2,048 arrows.
pub const MAX_ARROWS: usize = 2_048;
/// A plan is for 1 to 16 processors.
pub const MAX_PROCESSORS: u32 = 16;
/// A deadline is 1 to 1,000,000 microseconds.
pub const MAX_DEADLINE: u32 = 1_000_000;
/// A start is 0 to 16,776,960 microseconds; the total work is at most as much.
pub const MAX_START: u32 = 16_776_960;
/// An STG text has at most 60,000 bytes.
pub const MAX_TEXT: usize = 60_000;
/// An STG text that [`Graph::write_stg`] writes has at most 12,422 bytes.
pub const MAX_WRITTEN: usize = 12_422;
/// A nest has at most 256 entries.
pub const MAX_NEST: usize = 256;
/// A sequence or a group has 1 to 16 members.
pub const MAX_MEMBERS: u32 = 16;
/// At most eight sequences and groups of a nest stand inside one another.
pub const MAX_OPENERS: u32 = 8;

//! A product sketched as a nest of sequences and groups.

use crate::{linked, Refusal};

/// An entry of a nest (`docs/PLANNER.md`, "Nests"): a graph, or an opener, which stands before its members.
#[repr(u32)] // as the archive reads it: the kind, then two numbers
#[derive(Clone, Copy, PartialEq, Eq, Hash, Debug)]
pub enum NestEntry {
    /// A graph with its C and P; P is 1 to C, and C at most [`MAX_START`](crate::MAX_START).
    Graph(Weights) = 0,
    /// The members that follow are joined end to end: graphs or groups.
    Sequence(Members) = 1,
    /// The members that follow are joined side by side: graphs or sequences.
    Group(Members) = 2,
}

impl NestEntry {
    /// A graph with this total work C and this longest path P.
    #[must_use]
    pub const fn graph(total_work: u32, longest_path: u32) -> Self {
        Self::Graph(Weights { total_work, longest_path })
    }

    /// The opener of a sequence with so many members.
    #[must_use]
    pub const fn sequence(members: u32) -> Self {
        Self::Sequence(Members::new(members))
    }

    /// The opener of a group with so many members.
    #[must_use]
    pub const fn group(members: u32) -> Self {
        Self::Group(Members::new(members))
    }
}

/// C and P of a graph or of a nest.
#[repr(C)]
#[derive(Clone, Copy, PartialEq, Eq, Hash, Debug)]
pub struct Weights {
    /// C: the sum of all times.
    pub total_work: u32,
    /// P: the largest sum of times along any path of arrows.
    pub longest_path: u32,
}

/// How many members an opener has: 1 to [`MAX_MEMBERS`](crate::MAX_MEMBERS), those of members not counted.
#[repr(C)]
#[derive(Clone, Copy, PartialEq, Eq, Hash, Debug)]
pub struct Members {
    count: u32,
    nought: u32, // the third number of an opener's entry
}

impl Members {
    /// So many members.
    #[must_use]
    pub const fn new(count: u32) -> Self {
        Self { count, nought: 0 }
    }

    /// How many.
    #[must_use]
    pub const fn count(self) -> u32 {
        self.count
    }
}

/// C and P of a nest, out of the row that it is written as: at most [`MAX_NEST`](crate::MAX_NEST) entries, the outermost a
/// sequence that fills the row, at most [`MAX_OPENERS`](crate::MAX_OPENERS) openers inside one another. They are those of
/// the graphs joined as the nest says, where that graph is within the limits.
///
/// ```
/// use zulagbemi::{nest_figures, NestEntry, Weights};
/// // a graph, and behind it two side by side
/// let row = [
///     NestEntry::sequence(2),
///     NestEntry::graph(5, 3),
///     NestEntry::group(2),
///     NestEntry::graph(4, 4),
///     NestEntry::graph(6, 2),
/// ];
/// assert_eq!(nest_figures(&row)?, Weights { total_work: 15, longest_path: 7 });
/// assert_eq!(nest_figures(&row[1..]).unwrap_err().number(), 32);
/// # Ok::<(), zulagbemi::Refusal>(())
/// ```
pub fn nest_figures(row: &[NestEntry]) -> Result<Weights, Refusal> {
    // SAFETY: the pointer is the slice's, beside its length, and every entry is three numbers; the call only reads.
    let r = unsafe { linked::zul_nest(row.as_ptr(), row.len()) };
    r.refusal.or(Weights { total_work: r.c, longest_path: r.p })
}

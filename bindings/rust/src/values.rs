//! What goes into a call and what comes out of it.

/// An arrow of a graph: the subtask `to` starts when `from` has ended.
#[repr(C)]
#[derive(Clone, Copy, PartialEq, Eq, PartialOrd, Ord, Hash, Debug, Default)]
pub struct Arrow {
    /// The number of the predecessor.
    pub from: u16,
    /// The number of the subtask that waits.
    pub to: u16,
}

impl Arrow {
    /// The arrow from one subtask to another.
    #[must_use]
    pub const fn new(from: u16, to: u16) -> Self {
        Self { from, to }
    }
}

/// What a plan holds for one subtask. The subtask ends at `start` plus its time.
#[repr(C)]
#[derive(Clone, Copy, PartialEq, Eq, Hash, Debug, Default)]
pub struct Entry {
    /// The number of its processor, from 1 on.
    pub processor: u8,
    /// Its start, in microseconds.
    pub start: u32,
}

/// Whether the work fits its deadline D, and by how much, in microseconds. No accepted plan ends after S / M rounded
/// down, the sure end.
#[derive(Clone, Copy, PartialEq, Eq, Debug)]
pub enum Verdict {
    /// D is at least S / M rounded down.
    Fits {
        /// D less S / M rounded down.
        spare: u32,
    },
    /// D is below S / M rounded down.
    Late {
        /// S / M rounded down, less D.
        shortfall: u32,
    },
}

/// The answer to a deadline question.
#[derive(Clone, Copy, PartialEq, Debug)]
#[non_exhaustive]
pub struct Answer {
    /// C: the sum of all times.
    pub total_work: u32,
    /// P: the largest sum of times along any path of arrows.
    pub longest_path: u32,
    /// S = C + (M − 1) × P.
    pub bound: u32,
    /// C divided by M × D, rounded once.
    pub load: f32,
    /// Whether it fits, and by how much.
    pub verdict: Verdict,
}

//! Why an input was refused. Written by `bindings/refusals.sh` from `bindings/refusals.txt`; edit that file.

use core::fmt;

/// Why an input was refused, one case for each number of the table (`docs/PLANNER.md`, "Numbers of refusal").
#[derive(Clone, Copy, PartialEq, Eq, Hash, Debug)]
#[non_exhaustive]
pub enum Reason {
    /// 1: the count of subtasks is not 1 to 256.
    SubtaskCount,
    /// 2: some time is 0.
    TimeZero,
    /// 3: there are more than 2,048 arrows.
    ArrowCount,
    /// 4: an arrow names a subtask outside 1 to n.
    ArrowOutside,
    /// 5: an arrow leads from a subtask to itself.
    ArrowToItself,
    /// 6: the same arrow stands twice.
    ArrowTwice,
    /// 7: the arrows close a cycle.
    Cycle,
    /// 8: M, the count of processors, is not 1 to 16.
    ProcessorCount,
    /// 9: D, the deadline, is not 1 to 1,000,000.
    Deadline,
    /// 10: the order is not exactly n entries that hold each of 1 to n once.
    Order,
    /// 11: the lent room is too short.
    Room,
    /// 12: the plan has not exactly n entries.
    PlanLength,
    /// 13: the plan names a processor outside 1 to M.
    ProcessorOutside,
    /// 14: a start is above 16,776,960.
    StartLarge,
    /// 15: a subtask starts before a predecessor ends.
    StartEarly,
    /// 16: two subtasks on one processor share an instant.
    Overlap,
    /// 17: at some whole t a subtask is ready and one of the processors 1 to M is free.
    Idle,
    /// 20: the text is above 60,000 bytes.
    TextLength,
    /// 21: the first line is not one number 1 to 256.
    FirstLine,
    /// 22: a task line is missing or misshapen, or something stands after the last one.
    TaskLine,
    /// 23: line 0 or line n+1 is not a proper dummy.
    DummyLine,
    /// 24: a time is above 65,535.
    TimeLarge,
    /// 30: the joined graph has more than 256 subtasks.
    JoinedSubtasks,
    /// 31: the joined graph has more than 2,048 arrows.
    JoinedArrows,
    /// 32: the row is not the writing of a nest.
    Nest,
    /// Any other number: a number that is not in the table.
    Unlisted,
}

impl Reason {
    /// The reason with this number of the table.
    #[must_use]
    pub const fn from_number(number: u32) -> Self {
        match number {
            1 => Self::SubtaskCount,
            2 => Self::TimeZero,
            3 => Self::ArrowCount,
            4 => Self::ArrowOutside,
            5 => Self::ArrowToItself,
            6 => Self::ArrowTwice,
            7 => Self::Cycle,
            8 => Self::ProcessorCount,
            9 => Self::Deadline,
            10 => Self::Order,
            11 => Self::Room,
            12 => Self::PlanLength,
            13 => Self::ProcessorOutside,
            14 => Self::StartLarge,
            15 => Self::StartEarly,
            16 => Self::Overlap,
            17 => Self::Idle,
            20 => Self::TextLength,
            21 => Self::FirstLine,
            22 => Self::TaskLine,
            23 => Self::DummyLine,
            24 => Self::TimeLarge,
            30 => Self::JoinedSubtasks,
            31 => Self::JoinedArrows,
            32 => Self::Nest,
            _ => Self::Unlisted,
        }
    }

    /// What it means, as one line of text.
    #[must_use]
    pub const fn meaning(self) -> &'static str {
        match self {
            Self::SubtaskCount => "the count of subtasks is not 1 to 256",
            Self::TimeZero => "some time is 0",
            Self::ArrowCount => "there are more than 2,048 arrows",
            Self::ArrowOutside => "an arrow names a subtask outside 1 to n",
            Self::ArrowToItself => "an arrow leads from a subtask to itself",
            Self::ArrowTwice => "the same arrow stands twice",
            Self::Cycle => "the arrows close a cycle",
            Self::ProcessorCount => "M, the count of processors, is not 1 to 16",
            Self::Deadline => "D, the deadline, is not 1 to 1,000,000",
            Self::Order => "the order is not exactly n entries that hold each of 1 to n once",
            Self::Room => "the lent room is too short",
            Self::PlanLength => "the plan has not exactly n entries",
            Self::ProcessorOutside => "the plan names a processor outside 1 to M",
            Self::StartLarge => "a start is above 16,776,960",
            Self::StartEarly => "a subtask starts before a predecessor ends",
            Self::Overlap => "two subtasks on one processor share an instant",
            Self::Idle => "at some whole t a subtask is ready and one of the processors 1 to M is free",
            Self::TextLength => "the text is above 60,000 bytes",
            Self::FirstLine => "the first line is not one number 1 to 256",
            Self::TaskLine => "a task line is missing or misshapen, or something stands after the last one",
            Self::DummyLine => "line 0 or line n+1 is not a proper dummy",
            Self::TimeLarge => "a time is above 65,535",
            Self::JoinedSubtasks => "the joined graph has more than 256 subtasks",
            Self::JoinedArrows => "the joined graph has more than 2,048 arrows",
            Self::Nest => "the row is not the writing of a nest",
            Self::Unlisted => "a number that is not in the table",
        }
    }

    /// The meaning with its place in words, where it has one.
    pub(crate) fn say(self, place: u32, second: u32, f: &mut fmt::Formatter<'_>) -> fmt::Result {
        match self {
            Self::TimeZero => write!(f, "the time of subtask {place} is 0"),
            Self::ArrowOutside => write!(f, "arrow {place} names a subtask outside 1 to n"),
            Self::ArrowToItself => write!(f, "arrow {place} leads from a subtask to itself"),
            Self::ArrowTwice => write!(f, "arrow {place} stands twice"),
            Self::Cycle => write!(f, "the arrows close a cycle through subtask {place}"),
            Self::ProcessorOutside => write!(f, "the plan puts subtask {place} on a processor outside 1 to M"),
            Self::StartLarge => write!(f, "subtask {place} starts after 16,776,960 µs"),
            Self::StartEarly => write!(f, "subtask {place} starts before a predecessor ends"),
            Self::Overlap => write!(f, "subtasks {place} and {second} share an instant on one processor"),
            Self::Idle => write!(f, "at {place} µs a subtask is ready and a processor is free"),
            _ => f.write_str(self.meaning()),
        }
    }
}

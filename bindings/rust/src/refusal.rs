use crate::Reason;
use core::{error, fmt};

/// Why an input was refused and where it is wrong: the [`number`] of the table (`docs/PLANNER.md`, "Numbers of refusal"),
/// also as a [`reason`] to match on, and its [`place`]. Its text says all of it in words.
///
/// ```
/// use zulagbemi::{Arrow, Graph, Reason};
/// let arrows = [Arrow::new(1, 2), Arrow::new(1, 3), Arrow::new(1, 2)];
/// let refusal = Graph::new(&[3, 4, 5], &arrows).total_work().unwrap_err();
/// assert_eq!(refusal.number(), 6);
/// assert_eq!(refusal.reason(), Reason::ArrowTwice);
/// assert_eq!(refusal.place(), 3);
/// assert_eq!(refusal.to_string(), "refused by 6: arrow 3 stands twice");
/// ```
///
/// [`number`]: Refusal::number
/// [`reason`]: Refusal::reason
/// [`place`]: Refusal::place
#[repr(C)] // every reply of the archive begins with one, whose number is 0 where the input was accepted
#[derive(Clone, Copy, PartialEq, Eq, Hash, Debug)]
pub struct Refusal {
    pub(crate) number: u32,
    pub(crate) place: u32,
    pub(crate) second: u32,
}

impl Refusal {
    /// The reply of a call that began so: its value where the number is 0, and the refusal otherwise.
    pub(crate) fn or<T>(self, value: T) -> Result<T, Self> {
        if self.number == 0 {
            Ok(value)
        } else {
            Err(self)
        }
    }

    /// The number in the table.
    #[must_use]
    pub const fn number(self) -> u32 {
        self.number
    }

    /// The number as a case to match on.
    #[must_use]
    pub const fn reason(self) -> Reason {
        Reason::from_number(self.number)
    }

    /// What the number means, as one line of text, without the place.
    #[must_use]
    pub const fn meaning(self) -> &'static str {
        self.reason().meaning()
    }

    /// Where the input is wrong: the number of a subtask, the position of an arrow (from 1 on) or an instant in
    /// microseconds, whichever the table gives for the number; 0 where it gives none.
    ///
    /// ```
    /// use zulagbemi::{Arrow, Graph};
    /// let arrows = [Arrow::new(1, 2), Arrow::new(3, 4), Arrow::new(4, 3)];
    /// let refusal = Graph::new(&[5, 5, 5, 5], &arrows).judge(2, 20).unwrap_err();
    /// assert_eq!((refusal.number(), refusal.place()), (7, 3)); // the lowest subtask on a cycle
    /// ```
    #[must_use]
    pub const fn place(self) -> u32 {
        self.place
    }

    /// The higher of the two subtasks that share an instant on one processor ([`place`](Self::place) is the lower); 0 with
    /// every other reason.
    ///
    /// ```
    /// use zulagbemi::{Entry, Graph};
    /// let plan = [0, 3, 4].map(|start| Entry { processor: 1, start });
    /// let refusal = Graph::new(&[3, 3, 3], &[]).check_plan(1, &plan).unwrap_err();
    /// assert_eq!((refusal.place(), refusal.second()), (2, 3));
    /// ```
    #[must_use]
    pub const fn second(self) -> u32 {
        self.second
    }
}

impl fmt::Display for Refusal {
    fn fmt(&self, f: &mut fmt::Formatter<'_>) -> fmt::Result {
        write!(f, "refused by {}: ", self.number)?;
        self.reason().say(self.place, self.second, f)
    }
}

impl error::Error for Refusal {}

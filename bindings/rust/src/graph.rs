use crate::{linked, Answer, Arrow, Entry, Refusal, Verdict};

/// A graph as two lent rows: the time of each subtask in microseconds, and the arrows. The rows may hold anything; each
/// method refuses what is no graph.
#[derive(Clone, Copy, PartialEq, Eq, Debug)]
pub struct Graph<'a> {
    times: &'a [u16],
    arrows: &'a [Arrow],
}

impl<'a> Graph<'a> {
    /// The graph of these two rows.
    #[must_use]
    pub const fn new(times: &'a [u16], arrows: &'a [Arrow]) -> Self {
        Self { times, arrows }
    }

    /// Reads a text in the layout of the Standard Task Graph Set (`docs/PLANNER.md`, "STG text") into two lent rows of
    /// at least [`MAX_SUBTASKS`](crate::MAX_SUBTASKS) times and [`MAX_ARROWS`](crate::MAX_ARROWS) arrows, and answers the
    /// graph in them. Places past the last time and the last arrow are 0; with a refusal all are.
    ///
    /// ```
    /// use zulagbemi::{Arrow, Graph, MAX_ARROWS, MAX_SUBTASKS};
    /// let (mut times, mut arrows) = ([0; MAX_SUBTASKS], [Arrow::default(); MAX_ARROWS]);
    /// let graph = Graph::read_stg(b"2\n0 0 0\n1 5 1 0\n2 7 1 1\n3 0 1 2\n", &mut times, &mut arrows)?;
    /// assert_eq!(graph, Graph::new(&[5, 7], &[Arrow::new(1, 2)]));
    /// # Ok::<(), zulagbemi::Refusal>(())
    /// ```
    pub fn read_stg(text: &[u8], times: &'a mut [u16], arrows: &'a mut [Arrow]) -> Result<Self, Refusal> {
        // SAFETY: each pointer is a slice's, beside that slice's length; the two rows are borrowed for this call alone.
        let r = unsafe {
            linked::zul_read_stg(
                text.as_ptr(),
                text.len(),
                times.as_mut_ptr(),
                times.len(),
                arrows.as_mut_ptr(),
                arrows.len(),
            )
        };
        r.refusal.or(Self::new(&times[..r.subtasks as usize], &arrows[..r.arrows as usize]))
    }

    /// Writes the graph in the layout of the Standard Task Graph Set, in the one form of `docs/PLANNER.md`, "Writing", to
    /// the front of a lent room, and answers how many bytes; [`MAX_WRITTEN`](crate::MAX_WRITTEN) are always enough. Bytes
    /// past the text stay as they were; with a refusal all do.
    ///
    /// ```
    /// use zulagbemi::{Arrow, Graph, MAX_WRITTEN};
    /// let mut room = [0; MAX_WRITTEN];
    /// let size = Graph::new(&[5, 7], &[Arrow::new(1, 2)]).write_stg(&mut room)?;
    /// assert_eq!(&room[..size], b"2\n0 0 0\n1 5 1 0\n2 7 1 1\n3 0 1 2\n");
    /// # Ok::<(), zulagbemi::Refusal>(())
    /// ```
    pub fn write_stg(self, text: &mut [u8]) -> Result<usize, Refusal> {
        let (times, arrows) = (self.times, self.arrows);
        // SAFETY: each pointer is a slice's, beside that slice's length; the room is borrowed for this call alone.
        let r = unsafe {
            linked::zul_write_stg(
                times.as_ptr(),
                times.len(),
                arrows.as_ptr(),
                arrows.len(),
                text.as_mut_ptr(),
                text.len(),
            )
        };
        r.refusal.or(r.bytes as usize)
    }

    /// The text of [`write_stg`](Self::write_stg) as a `String`. It takes the crate's feature `alloc`.
    ///
    /// ```
    /// # use zulagbemi::Graph;
    /// assert_eq!(Graph::new(&[3], &[]).to_stg()?, "1\n0 0 0\n1 3 1 0\n2 0 1 1\n");
    /// # Ok::<(), zulagbemi::Refusal>(())
    /// ```
    #[cfg(feature = "alloc")]
    pub fn to_stg(self) -> Result<alloc::string::String, Refusal> {
        let mut text = alloc::vec![0; crate::MAX_WRITTEN];
        let size = self.write_stg(&mut text)?;
        text.truncate(size);
        Ok(alloc::string::String::from_utf8(text).expect("digits, spaces and line feeds"))
    }

    /// The time of each subtask.
    #[must_use]
    pub const fn times(self) -> &'a [u16] {
        self.times
    }

    /// The arrows.
    #[must_use]
    pub const fn arrows(self) -> &'a [Arrow] {
        self.arrows
    }

    /// C, the sum of all times.
    ///
    /// ```
    /// use zulagbemi::{Arrow, Graph};
    /// assert_eq!(Graph::new(&[3, 4], &[Arrow::new(1, 2)]).total_work(), Ok(7));
    /// ```
    pub fn total_work(self) -> Result<u32, Refusal> {
        let (times, arrows) = (self.times, self.arrows);
        // SAFETY: each pointer is a slice's, beside that slice's length; the call only reads.
        let r = unsafe { linked::zul_total_work(times.as_ptr(), times.len(), arrows.as_ptr(), arrows.len()) };
        r.refusal.or(r.value)
    }

    /// P, the largest sum of times along any path of arrows; one subtask alone is a path.
    ///
    /// ```
    /// use zulagbemi::{Arrow, Graph};
    /// assert_eq!(Graph::new(&[3, 4, 5], &[Arrow::new(1, 2)]).longest_path(), Ok(7));
    /// ```
    pub fn longest_path(self) -> Result<u32, Refusal> {
        let (times, arrows) = (self.times, self.arrows);
        // SAFETY: each pointer is a slice's, beside that slice's length; the call only reads.
        let r = unsafe { linked::zul_longest_path(times.as_ptr(), times.len(), arrows.as_ptr(), arrows.len()) };
        r.refusal.or(r.value)
    }

    /// Whether the graph on `m` processors fits the deadline `d`. "Fits" holds for every plan that
    /// [`check_plan`](Self::check_plan) accepts, and goes on holding when times get shorter, arrows are dropped or
    /// processors are added.
    ///
    /// ```
    /// use zulagbemi::{Graph, Reason, Verdict};
    /// let graph = Graph::new(&[5, 5], &[]);
    /// assert_eq!(graph.judge(2, 7)?.verdict, Verdict::Fits { spare: 0 });
    /// assert_eq!(graph.judge(2, 6)?.verdict, Verdict::Late { shortfall: 1 });
    /// assert_eq!(graph.judge(17, 7).unwrap_err().reason(), Reason::ProcessorCount);
    /// # Ok::<(), zulagbemi::Refusal>(())
    /// ```
    pub fn judge(self, m: u32, d: u32) -> Result<Answer, Refusal> {
        let (times, arrows) = (self.times, self.arrows);
        // SAFETY: each pointer is a slice's, beside that slice's length; the call only reads.
        let r = unsafe { linked::zul_judge(times.as_ptr(), times.len(), arrows.as_ptr(), arrows.len(), m, d) };
        let verdict =
            if r.fits == 1 { Verdict::Fits { spare: r.margin } } else { Verdict::Late { shortfall: r.margin } };
        let answer = Answer { total_work: r.c, longest_path: r.p, bound: r.s, load: r.load, verdict };
        r.refusal.or(answer)
    }

    /// Writes the list rule's plan (`docs/PLANNER.md`, "List rule") for an order of all subtasks to the first n entries
    /// of `plan`, and answers where it ends. Entries past n stay as they were; with a refusal all do.
    ///
    /// ```
    /// use zulagbemi::{Arrow, Entry, Graph};
    /// let mut plan = [Entry::default(); 2];
    /// assert_eq!(Graph::new(&[3, 4], &[Arrow::new(1, 2)]).list_plan(2, &[1, 2], &mut plan), Ok(7));
    /// assert_eq!(plan[1], Entry { processor: 1, start: 3 });
    /// ```
    pub fn list_plan(self, m: u32, order: &[u16], plan: &mut [Entry]) -> Result<u32, Refusal> {
        let (times, arrows) = (self.times, self.arrows);
        // SAFETY: each pointer is a slice's, beside that slice's length; the row is borrowed for this call alone.
        let r = unsafe {
            linked::zul_list_plan(
                times.as_ptr(),
                times.len(),
                arrows.as_ptr(),
                arrows.len(),
                m,
                order.as_ptr(),
                order.len(),
                plan.as_mut_ptr(),
                plan.len(),
            )
        };
        r.refusal.or(r.end)
    }

    /// Checks a plan from anyone (`docs/PLANNER.md`, "Acceptance"), and answers where it ends.
    ///
    /// ```
    /// use zulagbemi::{Entry, Graph};
    /// let late = [0, 7].map(|start| Entry { processor: 1, start });
    /// let refusal = Graph::new(&[3, 4], &[]).check_plan(1, &late).unwrap_err();
    /// assert_eq!(refusal.to_string(), "refused by 17: at 3 µs a subtask is ready and a processor is free");
    /// ```
    pub fn check_plan(self, m: u32, plan: &[Entry]) -> Result<u32, Refusal> {
        let (times, arrows) = (self.times, self.arrows);
        // SAFETY: each pointer is a slice's, beside that slice's length; the call only reads.
        let r = unsafe {
            linked::zul_check_plan(
                times.as_ptr(),
                times.len(),
                arrows.as_ptr(),
                arrows.len(),
                m,
                plan.as_ptr(),
                plan.len(),
            )
        };
        r.refusal.or(r.end)
    }

    /// Joins this graph and a second one end to end (`docs/PLANNER.md`, "Joins") into two lent rows, and answers the graph in
    /// them: the second's numbers follow this one's, and each subtask of this one without successors gets an arrow to each
    /// of the second without predecessors. The arrows come by `from` and then by `to`. What lies past the joined graph stays
    /// as it was; with a refusal both rows do.
    ///
    /// ```
    /// use zulagbemi::{Arrow, Graph};
    /// let (mut times, mut arrows) = ([0; 4], [Arrow::default(); 4]);
    /// let (first, arrow) = (Graph::new(&[3, 4], &[]), [Arrow::new(1, 2)]);
    /// let joined = first.end_to_end(Graph::new(&[5, 6], &arrow), &mut times, &mut arrows)?;
    /// assert_eq!(joined, Graph::new(&[3, 4, 5, 6], &[Arrow::new(1, 3), Arrow::new(2, 3), Arrow::new(3, 4)]));
    /// # Ok::<(), zulagbemi::Refusal>(())
    /// ```
    pub fn end_to_end<'b>(
        self,
        second: Graph<'_>,
        times: &'b mut [u16],
        arrows: &'b mut [Arrow],
    ) -> Result<Graph<'b>, Refusal> {
        self.joined(linked::zul_end_to_end, second, times, arrows)
    }

    /// Joins this graph and a second one side by side: as [`end_to_end`](Self::end_to_end), without the arrows from one to
    /// the other.
    ///
    /// ```
    /// use zulagbemi::{Arrow, Graph};
    /// let (mut times, mut arrows) = ([0; 4], [Arrow::default(); 4]);
    /// let (first, arrow) = (Graph::new(&[3, 4], &[]), [Arrow::new(1, 2)]);
    /// let joined = first.side_by_side(Graph::new(&[5, 6], &arrow), &mut times, &mut arrows)?;
    /// assert_eq!(joined, Graph::new(&[3, 4, 5, 6], &[Arrow::new(3, 4)]));
    /// # Ok::<(), zulagbemi::Refusal>(())
    /// ```
    pub fn side_by_side<'b>(
        self,
        second: Graph<'_>,
        times: &'b mut [u16],
        arrows: &'b mut [Arrow],
    ) -> Result<Graph<'b>, Refusal> {
        self.joined(linked::zul_side_by_side, second, times, arrows)
    }

    /// The graph that one of the two joins leaves in the lent rows.
    fn joined<'b>(
        self,
        join: linked::Join,
        second: Graph<'_>,
        times: &'b mut [u16],
        arrows: &'b mut [Arrow],
    ) -> Result<Graph<'b>, Refusal> {
        // SAFETY: each pointer is a slice's, beside that slice's length; the two rows are borrowed for this call alone.
        let r = unsafe {
            join(
                self.times.as_ptr(),
                self.times.len(),
                self.arrows.as_ptr(),
                self.arrows.len(),
                second.times.as_ptr(),
                second.times.len(),
                second.arrows.as_ptr(),
                second.arrows.len(),
                times.as_mut_ptr(),
                times.len(),
                arrows.as_mut_ptr(),
                arrows.len(),
            )
        };
        r.refusal.or(Graph::new(&times[..r.subtasks as usize], &arrows[..r.arrows as usize]))
    }
}

//! One input to the planner and to the model, and the replies and rows compared.

use crate::common::graphs::{graph, processors, shuffle};
use crate::common::random::Random;
use crate::common::{arrows, entries, nest_entries};
use crate::model;
use zulagbemi::{nest_figures, Arrow, Entry, Graph, Reason, Refusal, Verdict, Weights, MAX_WRITTEN};

/// The reply with its refusal as the model's, whose number must be one of the table.
fn plain<T>(reply: Result<T, Refusal>) -> model::Reply<T> {
    reply.map_err(|r| {
        assert_ne!(r.reason(), Reason::Unlisted);
        (r.number(), r.place(), r.second())
    })
}

fn pairs(plan: &[Entry]) -> Vec<model::Entry> {
    plan.iter().map(|e| (e.processor, e.start)).collect()
}

/// A graph in both forms, lent to the planner and to the model.
pub struct Case {
    pub times: Vec<u16>,
    pairs: Vec<[u16; 2]>,
    arrows: Vec<Arrow>,
    m: u32,
}

impl Case {
    pub fn new(random: &mut Random) -> Self {
        let (times, pairs) = graph(random);
        let arrows = arrows(&pairs);
        Self { times, pairs, arrows, m: processors(random) }
    }

    fn graph(&self) -> Graph<'_> {
        Graph::new(&self.times, &self.arrows)
    }

    /// A deadline at or beside the least one that fits, or at a limit.
    pub fn deadline(&self, random: &mut Random) -> u32 {
        let near = model::judge(&self.times, &self.pairs, self.m, 1).map_or(1, |a| a.s / self.m);
        match random.below(12) {
            0 => random.pick(&[0, 1, 1_000_000, 1_000_001, u32::MAX]),
            _ => near.saturating_add(random.below(3) as u32).saturating_sub(1),
        }
    }

    /// Compares the figures and the verdict, and answers the verdict's reply.
    pub fn same_figures(&self, d: u32) -> model::Reply<model::Answer> {
        let (g, t, a, m) = (self.graph(), &self.times[..], &self.pairs[..], self.m);
        assert_eq!(plain(g.total_work()), model::total_work(t, a), "{g:?}");
        assert_eq!(plain(g.longest_path()), model::longest_path(t, a), "{g:?}");
        let proved = plain(g.judge(m, d)).map(|a| model::Answer {
            c: a.total_work,
            p: a.longest_path,
            s: a.bound,
            load: a.load,
            verdict: match a.verdict {
                Verdict::Fits { spare } => Ok(spare),
                Verdict::Late { shortfall } => Err(shortfall),
            },
        });
        assert_eq!(proved, model::judge(t, a, m, d), "{g:?} {m} {d}");
        proved
    }

    /// Compares the two list plans, the rows after the call too, and answers the row.
    pub fn same_list(&self, random: &mut Random, order: &[u16]) -> model::Reply<Vec<model::Entry>> {
        let (g, n, m) = (self.graph(), self.times.len(), self.m);
        let room = if random.once_in(8) { n.saturating_sub(1) } else { n + random.below(3) as usize };
        let before: Vec<model::Entry> = (0..room).map(|k| (random.below(256) as u8, k as u32 + 7)).collect();
        let (mut ours, mut theirs) = (entries(&before), before);
        let reply = plain(g.list_plan(m, order, &mut ours));
        assert_eq!(reply, model::list_plan(&self.times, &self.pairs, m, order, &mut theirs), "{g:?} {m} {order:?}");
        assert_eq!(pairs(&ours), theirs, "{g:?} {m} {order:?}");
        reply.map(|_| theirs[..n].to_vec())
    }

    /// Compares the two checks of a plan, and answers the reply.
    pub fn same_check(&self, plan: &[model::Entry]) -> model::Reply<u32> {
        let (g, m) = (self.graph(), self.m);
        let reply = plain(g.check_plan(m, &entries(plan)));
        assert_eq!(reply, model::check_plan(&self.times, &self.pairs, m, plan), "{g:?} {m} {plan:?}");
        reply
    }

    /// The model's text, empty where it refuses.
    fn text(&self) -> Vec<u8> {
        let mut text = vec![0; MAX_WRITTEN];
        let size = model::write_stg(&self.times, &self.pairs, &mut text).unwrap_or(0);
        text.truncate(size);
        text
    }

    /// Compares the two writers in a room near the text's length, the room after the call too. What was written is read
    /// again by both readers, and must be the graph with its arrows by "to" and then "from". Answers the reply.
    pub fn same_text(&self, random: &mut Random) -> model::Reply<usize> {
        let g = self.graph();
        let size = self.text().len();
        let room = match random.below(6) {
            0 => random.below(size as u64 + 1) as usize,
            1 => size.saturating_sub(1),
            2 => size,
            _ => size + random.below(40) as usize,
        };
        let before: Vec<u8> = (0..room).map(|_| random.below(256) as u8).collect();
        let (mut ours, mut theirs) = (before.clone(), before);
        let reply = plain(g.write_stg(&mut ours));
        assert_eq!(reply, model::write_stg(&self.times, &self.pairs, &mut theirs), "{g:?} {room}");
        assert_eq!(ours, theirs, "{g:?} {room}");
        if let Ok(size) = reply {
            assert!(same_reading(&ours[..size], (256, 2048)).is_ok(), "{g:?}");
            let mut sorted = self.pairs.clone();
            sorted.sort_unstable_by_key(|a| (a[1], a[0]));
            assert_eq!(model::read_stg(&ours[..size], 256, 2048), Ok((self.times.clone(), sorted)), "{g:?}");
        }
        reply
    }

    /// A graph with the same times and arrows has the same text, and one that differs in a time or an arrow another.
    pub fn text_tells_graph(&self, random: &mut Random) {
        let text = self.graph().to_stg().unwrap();
        let mut row = self.arrows.clone();
        shuffle(random, &mut row);
        assert_eq!(Graph::new(&self.times, &row).to_stg().unwrap(), text, "{row:?}");
        if row.pop().is_some() {
            assert_ne!(Graph::new(&self.times, &row).to_stg().unwrap(), text, "{row:?}");
        }
        let mut times = self.times.clone();
        let at = random.below(times.len() as u64) as usize;
        times[at] = times[at] % 65_535 + 1;
        assert_ne!(Graph::new(&times, &self.arrows).to_stg().unwrap(), text, "{times:?}");
    }
}

/// Compares the two readings of a text in rows of this much room, the rows after the call too, and answers how many
/// subtasks and arrows were read.
pub fn same_reading(text: &[u8], (t, a): (usize, usize)) -> model::Reply<(usize, usize)> {
    let (mut ours, mut ours_arrows) = (vec![0xAAAA_u16; t], vec![Arrow::new(7, 9); a]);
    let reply = plain(Graph::read_stg(text, &mut ours, &mut ours_arrows).map(|g| (g.times().len(), g.arrows().len())));
    let expected = model::read_stg(text, t, a);
    let (mut times, mut pairs) = (vec![0u16; t], vec![[0u16, 0]; a]);
    if let Ok((ts, ar)) = &expected {
        times[..ts.len()].copy_from_slice(ts);
        pairs[..ar.len()].copy_from_slice(ar);
    }
    let shown = String::from_utf8_lossy(text);
    assert_eq!(reply, expected.map(|g| (g.0.len(), g.1.len())), "{shown}");
    assert_eq!((ours, ours_arrows), (times, arrows(&pairs)), "{shown}");
    reply
}

/// Compares a join of two graphs in rows near the joined graph's size, the rows after the call too, and answers the reply.
pub fn same_join(random: &mut Random, end_to_end: bool, first: &Case, second: &Case) -> model::Reply<(usize, usize)> {
    let (a, b) = ((&first.times[..], &first.pairs[..]), (&second.times[..], &second.pairs[..]));
    let (n, m) = model::join(end_to_end, a, b, &mut [0; 256], &mut [[0; 2]; 2048]).unwrap_or((9, 9));
    let near = |random: &mut Random, size: usize| match random.below(12) {
        0 => random.below(size as u64 + 1) as usize,
        1 => size.saturating_sub(1),
        2 => size,
        _ => size + random.below(5) as usize,
    };
    let mut times: Vec<u16> = (0..near(random, n)).map(|_| random.next() as u16).collect();
    let mut row: Vec<[u16; 2]> = (0..near(random, m)).map(|_| [random.next() as u16, 7]).collect();
    let (mut ours, mut ours_arrows) = (times.clone(), arrows(&row));
    let join = if end_to_end { Graph::end_to_end } else { Graph::side_by_side };
    let joined = join(first.graph(), second.graph(), &mut ours, &mut ours_arrows);
    let reply = plain(joined.map(|g| (g.times().len(), g.arrows().len())));
    let shown = || format!("{:?} and {:?}", first.graph(), second.graph());
    assert_eq!(reply, model::join(end_to_end, a, b, &mut times, &mut row), "{}", shown());
    assert_eq!((ours, ours_arrows), (times.clone(), arrows(&row)), "{}", shown());
    if let Ok((n, m)) = reply {
        assert_figures(end_to_end, a, b, (&times[..n], &row[..m]));
    }
    reply
}

/// The joined graph is accepted; C adds, and P adds end to end and is the larger of the two side by side.
fn assert_figures(end_to_end: bool, a: model::Graph<'_>, b: model::Graph<'_>, joined: model::Graph<'_>) {
    let figures = |g: model::Graph<'_>| {
        let row = arrows(g.1);
        let g = Graph::new(g.0, &row);
        (g.total_work().unwrap(), g.longest_path().unwrap())
    };
    let ((c, p), (d, q)) = (figures(a), figures(b));
    assert_eq!(figures(joined), (c + d, if end_to_end { p + q } else { p.max(q) }), "{a:?} and {b:?}");
}

/// The archive's reply for a nest: number, place, second, C and P.
#[repr(C)]
struct Measured(u32, u32, u32, u32, u32);

extern "C" {
    /// As `nest_figures`, of entries that may be any three numbers.
    fn zul_nest(row: *const [u32; 3], len: usize) -> Measured;
}

/// Compares the figures of a nest, and answers the reply.
pub fn same_nest(row: &[[u32; 3]]) -> model::Reply<(u32, u32)> {
    let expected = model::nest(row);
    // SAFETY: the pointer is the slice's, beside its length; the call only reads.
    let r = unsafe { zul_nest(row.as_ptr(), row.len()) };
    let (c, p) = expected.unwrap_or((0, 0));
    let (number, place, second) = expected.err().unwrap_or((0, 0, 0));
    assert_eq!((r.0, r.1, r.2, r.3, r.4), (number, place, second, c, p), "{row:?}");
    if let Some(entries) = nest_entries(row) {
        let weights = |w: Weights| (w.total_work, w.longest_path);
        assert_eq!(plain(nest_figures(&entries).map(weights)), expected, "{row:?}");
    }
    expected
}

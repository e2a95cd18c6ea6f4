//! The planner, written again from docs/PLANNER.md and from nothing else: slow, plain, and as close to that page's words
//! as it can be. The tests compare every proved function with it.

mod joins;
mod plans;
mod texts;

pub use joins::{join, nest, Graph};
pub use plans::{check_plan, list_plan};
pub use texts::{read_stg, write_stg};

/// What a plan holds for one subtask.
pub type Entry = (u8, u32);

/// The number of the table, its place, and the second number.
pub type Refusal = (u32, u32, u32);

/// What a call answers, or why it refuses.
pub type Reply<T> = Result<T, Refusal>;

/// A refusal without a place.
fn bare(number: u32) -> Refusal {
    (number, 0, 0)
}

/// A refusal whose place is the first in a row, counted from 1, that this is true of; none where it is true of none.
fn first<T>(number: u32, row: &[T], wrong: impl FnMut(&T) -> bool) -> Reply<()> {
    match row.iter().position(wrong) {
        Some(k) => Err((number, k as u32 + 1, 0)),
        None => Ok(()),
    }
}

/// The lowest of 1 to 7 whose condition holds.
pub fn check(times: &[u16], arrows: &[[u16; 2]]) -> Reply<()> {
    let n = times.len();
    let inside = |j: u16| j >= 1 && usize::from(j) <= n;
    if !(1..=256).contains(&n) {
        return Err(bare(1));
    }
    first(2, times, |t| *t == 0)?;
    if arrows.len() > 2048 {
        return Err(bare(3));
    }
    first(4, arrows, |a| !inside(a[0]) || !inside(a[1]))?;
    first(5, arrows, |a| a[0] == a[1])?;
    let mut seen = std::collections::HashSet::new();
    first(6, arrows, |a| !seen.insert(*a))?;
    let after = successors(n, arrows);
    let subtasks: Vec<usize> = (0..n).collect();
    first(7, &subtasks, |j| on_cycle(*j, &after))
}

/// Where the arrows out of each subtask lead. From here on the subtask with the number j stands at j - 1.
fn successors(n: usize, arrows: &[[u16; 2]]) -> Vec<Vec<usize>> {
    let mut after = vec![Vec::new(); n];
    for a in arrows {
        after[usize::from(a[0]) - 1].push(usize::from(a[1]) - 1);
    }
    after
}

/// A path with at least one arrow leads from the subtask to itself: it is among all that can be reached from it.
fn on_cycle(j: usize, after: &[Vec<usize>]) -> bool {
    let mut reached = vec![false; after.len()];
    let mut open = vec![j];
    while let Some(i) = open.pop() {
        for k in &after[i] {
            if !reached[*k] {
                reached[*k] = true;
                open.push(*k);
            }
        }
    }
    reached[j]
}

/// C: the sum of all times.
pub fn total_work(times: &[u16], arrows: &[[u16; 2]]) -> Reply<u32> {
    check(times, arrows)?;
    Ok(times.iter().map(|t| u32::from(*t)).sum())
}

/// P: the largest sum of times along any path of arrows.
pub fn longest_path(times: &[u16], arrows: &[[u16; 2]]) -> Reply<u32> {
    fn heaviest(j: usize, times: &[u16], after: &[Vec<usize>], known: &mut [Option<u32>]) -> u32 {
        if let Some(w) = known[j] {
            return w;
        }
        let behind = after[j].iter().map(|k| heaviest(*k, times, after, known)).max().unwrap_or(0);
        let w = u32::from(times[j]) + behind;
        known[j] = Some(w);
        w
    }
    check(times, arrows)?;
    let n = times.len();
    let (after, mut known) = (successors(n, arrows), vec![None; n]);
    Ok((0..n).map(|j| heaviest(j, times, &after, &mut known)).max().unwrap())
}

/// C, P, S, the load, and the spare (`Ok`) or the shortfall (`Err`).
#[derive(Clone, Copy, PartialEq, Debug)]
pub struct Answer {
    pub c: u32,
    pub p: u32,
    pub s: u32,
    pub load: f32,
    pub verdict: Result<u32, u32>,
}

pub fn judge(times: &[u16], arrows: &[[u16; 2]], m: u32, d: u32) -> Reply<Answer> {
    let c = total_work(times, arrows)?;
    let p = longest_path(times, arrows)?;
    if !(1..=16).contains(&m) {
        return Err(bare(8));
    }
    if !(1..=1_000_000).contains(&d) {
        return Err(bare(9));
    }
    let s = c + (m - 1) * p;
    let end = s / m;
    let verdict = if d >= end { Ok(d - end) } else { Err(end - d) };
    // rounded once: a quotient of whole numbers below 2^24 goes to f64 with far more digits than f32 keeps,
    // and cannot lie so near the middle of two floats that the second rounding would matter
    let load = (f64::from(c) / f64::from(m * d)) as f32;
    Ok(Answer { c, p, s, load, verdict })
}

//! The list rule and the plan check.

use super::{bare, check, first, Entry, Reply};

/// The place in a row of the subtask with this number.
fn place(j: u16) -> usize {
    usize::from(j) - 1
}

/// The graph's own refusal, then 8.
fn check_on(times: &[u16], arrows: &[[u16; 2]], m: u32) -> Reply<()> {
    check(times, arrows)?;
    if (1..=16).contains(&m) {
        Ok(())
    } else {
        Err(bare(8))
    }
}

fn end_of(times: &[u16], plan: &[Entry], j: usize) -> u32 {
    plan[j].1 + u32::from(times[j])
}

/// Where a plan ends.
fn plan_end(times: &[u16], plan: &[Entry]) -> u32 {
    (0..times.len()).map(|j| end_of(times, plan, j)).max().unwrap()
}

fn is_order(n: usize, order: &[u16]) -> bool {
    order.len() == n && (1..=n as u16).all(|j| order.iter().filter(|x| **x == j).count() == 1)
}

/// A plan in the making.
struct Making<'a> {
    times: &'a [u16],
    arrows: &'a [[u16; 2]],
    placed: Vec<Option<Entry>>,
}

impl Making<'_> {
    fn end(&self, j: usize) -> Option<u32> {
        self.placed[j].map(|e| e.1 + u32::from(self.times[j]))
    }

    /// Some subtask on that processor has start ≤ t < end.
    fn busy(&self, p: u8, t: u32) -> bool {
        let runs = |e: Entry, j: usize| e.0 == p && e.1 <= t && t < e.1 + u32::from(self.times[j]);
        (0..self.times.len()).any(|j| self.placed[j].is_some_and(|e| runs(e, j)))
    }

    /// Every predecessor ends at t or before, and the subtask has not been placed.
    fn ready(&self, j: usize, t: u32) -> bool {
        let ended = |i: usize| self.end(i).is_some_and(|e| e <= t);
        self.placed[j].is_none() && self.arrows.iter().filter(|a| place(a[1]) == j).all(|a| ended(place(a[0])))
    }
}

/// The list rule: at t = 0, 1, 2, .. the ready subtask earliest in the order goes to the free processor with
/// the lowest number, as long as there are both. Instants at which nothing ends are passed over.
pub fn list_plan(times: &[u16], arrows: &[[u16; 2]], m: u32, order: &[u16], plan: &mut [Entry]) -> Reply<u32> {
    check_on(times, arrows, m)?;
    let n = times.len();
    if !is_order(n, order) {
        return Err(bare(10));
    }
    if plan.len() < n {
        return Err(bare(11));
    }
    let mut made = Making { times, arrows, placed: vec![None; n] };
    let mut t = 0;
    while made.placed.contains(&None) {
        loop {
            let free = (1..=m as u8).find(|p| !made.busy(*p, t));
            let ready = order.iter().map(|j| place(*j)).find(|j| made.ready(*j, t));
            match (free, ready) {
                (Some(p), Some(j)) => made.placed[j] = Some((p, t)),
                _ => break,
            }
        }
        t = (0..n).filter_map(|j| made.end(j)).filter(|e| *e > t).min().unwrap_or(t + 1);
    }
    for (j, e) in made.placed.iter().enumerate() {
        plan[j] = e.unwrap();
    }
    Ok(plan_end(times, plan))
}

/// Two subtasks on one processor share an instant.
fn overlap(times: &[u16], plan: &[Entry], i: usize, j: usize) -> bool {
    let apart = end_of(times, plan, i) <= plan[j].1 || end_of(times, plan, j) <= plan[i].1;
    plan[i].0 == plan[j].0 && !apart
}

/// At t a subtask is ready and some processor of 1..m is free.
fn idle(times: &[u16], arrows: &[[u16; 2]], m: u32, plan: &[Entry], t: u32) -> bool {
    let n = times.len();
    let runs = |j: usize| plan[j].1 <= t && t < end_of(times, plan, j);
    let free = (1..=m as u8).any(|p| !(0..n).any(|j| plan[j].0 == p && runs(j)));
    assert_eq!(free, (0..n).filter(|j| runs(*j)).count() < m as usize);
    let ended = |i: usize| end_of(times, plan, i) <= t;
    let ready = |j: usize| t < plan[j].1 && arrows.iter().filter(|a| place(a[1]) == j).all(|a| ended(place(a[0])));
    free && (0..n).any(ready)
}

/// The plan check, row by row of the table.
pub fn check_plan(times: &[u16], arrows: &[[u16; 2]], m: u32, plan: &[Entry]) -> Reply<u32> {
    check_on(times, arrows, m)?;
    let n = times.len();
    if plan.len() != n {
        return Err(bare(12));
    }
    first(13, plan, |e| !(1..=m).contains(&u32::from(e.0)))?;
    first(14, plan, |e| e.1 > 16_776_960)?;
    let early = |a: &&[u16; 2]| plan[place(a[1])].1 < end_of(times, plan, place(a[0]));
    if let Some(a) = arrows.iter().filter(early).min_by_key(|a| a[1]) {
        return Err((15, u32::from(a[1]), 0));
    }
    let mut pairs = (0..n).flat_map(|i| (i + 1..n).map(move |j| (i, j)));
    if let Some((i, j)) = pairs.find(|(i, j)| overlap(times, plan, *i, *j)) {
        return Err((16, i as u32 + 1, j as u32 + 1));
    }
    // what is ready and what is free change only at 0 and where a subtask ends or starts
    let mut instants: Vec<u32> = (0..n).flat_map(|j| [plan[j].1, end_of(times, plan, j)]).chain([0]).collect();
    instants.sort_unstable();
    instants.dedup();
    if let Some(t) = instants.into_iter().find(|t| idle(times, arrows, m, plan, *t)) {
        return Err((17, t, 0));
    }
    Ok(plan_end(times, plan))
}

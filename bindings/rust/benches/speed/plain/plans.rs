//! The list rule and the plan check.

use super::{bare, first, measure, Entry, Graph, Refusal, Reply};
use std::cmp::Reverse;
use std::collections::BinaryHeap;

pub fn list_plan(times: &[u16], arrows: &[[u16; 2]], m: u32, order: &[u16], plan: &mut [Entry]) -> Reply<u32> {
    let (_, _, graph) = measure(times, arrows)?;
    let n = times.len();
    if !(1..=16).contains(&m) {
        return Err(bare(8));
    }
    let rank = ranks(n, order).ok_or(bare(10))?;
    if plan.len() < n {
        return Err(bare(11));
    }
    Ok(run(times, &graph, m, order, &rank, plan))
}

/// The place of each subtask in the order, from 1 on.
fn ranks(n: usize, order: &[u16]) -> Option<Vec<u16>> {
    let mut rank = vec![0u16; n + 1];
    if order.len() != n {
        return None;
    }
    for (x, j) in order.iter().enumerate() {
        let j = *j as usize;
        if j < 1 || j > n || rank[j] != 0 {
            return None;
        }
        rank[j] = x as u16 + 1;
    }
    Some(rank)
}

/// The list rule, with a heap each for what is ready, what is free and what runs.
fn run(times: &[u16], graph: &Graph, m: u32, order: &[u16], rank: &[u16], plan: &mut [Entry]) -> u32 {
    let mut left = graph.waits.clone();
    let mut ready: BinaryHeap<Reverse<u16>> =
        (1..=times.len()).filter(|j| left[*j] == 0).map(|j| Reverse(rank[j])).collect();
    let mut free: BinaryHeap<Reverse<u8>> = (1..=m as u8).map(Reverse).collect();
    let mut running: BinaryHeap<Reverse<(u32, u8, u16)>> = BinaryHeap::with_capacity(16);
    let (mut t, mut end) = (0, 0);
    loop {
        while !ready.is_empty() && !free.is_empty() {
            let x = ready.pop().unwrap().0;
            let p = free.pop().unwrap().0;
            let j = order[x as usize - 1];
            plan[j as usize - 1] = (p, t);
            let e = t + times[j as usize - 1] as u32;
            end = end.max(e);
            running.push(Reverse((e, p, j)));
        }
        let Some(Reverse((e, _, _))) = running.peek() else { return end };
        t = *e;
        while let Some(Reverse((e, p, j))) = running.peek() {
            if *e > t {
                break;
            }
            free.push(Reverse(*p));
            for k in graph.after(*j as usize) {
                let k = *k as usize;
                left[k] -= 1;
                if left[k] == 0 {
                    ready.push(Reverse(rank[k]));
                }
            }
            running.pop();
        }
    }
}

pub fn check_plan(times: &[u16], arrows: &[[u16; 2]], m: u32, plan: &[Entry]) -> Reply<u32> {
    measure(times, arrows)?;
    let n = times.len();
    if !(1..=16).contains(&m) {
        return Err(bare(8));
    }
    if plan.len() != n {
        return Err(bare(12));
    }
    let stray = |e: &Entry| e.0 < 1 || e.0 as u32 > m;
    if plan.iter().any(stray) {
        return Err(first(13, plan, stray));
    }
    let large = |e: &Entry| e.1 > 16_776_960;
    if plan.iter().any(large) {
        return Err(first(14, plan, large));
    }
    let end = |j: usize| plan[j].1 + times[j] as u32;
    let mut ready = vec![0u32; n];
    for a in arrows {
        let (i, j) = (a[0] as usize - 1, a[1] as usize - 1);
        ready[j] = ready[j].max(end(i));
    }
    if let Some(j) = (0..n).find(|j| plan[*j].1 < ready[*j]) {
        return Err((15, j as u32 + 1, 0));
    }
    sweep(times, m, plan, &ready)
}

/// 16 and 17, by one pass over the subtasks in the order of their starts.
fn sweep(times: &[u16], m: u32, plan: &[Entry], ready: &[u32]) -> Reply<u32> {
    let n = times.len();
    let end = |j: usize| plan[j].1 + times[j] as u32;
    let mut row: Vec<(u32, u16)> = (0..n).map(|j| (plan[j].1, j as u16)).collect();
    row.sort_unstable();
    let mut until = [0u32; 16];
    let mut idle = false;
    let (mut before, mut slack_until, mut last) = (0, 0, 0);
    for &(s, j) in &row {
        let j = j as usize;
        let p = plan[j].0 as usize - 1;
        if s < until[p] {
            return Err(shared(times, plan, &row));
        }
        let soonest = until[..m as usize].iter().copied().min().unwrap().max(before);
        if soonest < s {
            slack_until = s;
        }
        idle |= ready[j] < slack_until;
        until[p] = end(j);
        before = s;
        last = last.max(end(j));
    }
    if idle {
        Err((17, first_idle(times, m, plan, ready, &row), 0))
    } else {
        Ok(last)
    }
}

/// 16: the lowest subtask that shares an instant with another on its processor, and the lowest that it shares one with. By
/// their starts, where one begins before all before it have ended, it shares one, and so does the one right before it.
#[cold]
fn shared(times: &[u16], plan: &[Entry], row: &[(u32, u16)]) -> Refusal {
    let n = times.len();
    let end = |j: usize| plan[j].1 + times[j] as u32;
    let (mut until, mut before) = ([0u32; 16], [0usize; 16]);
    let mut lower = n;
    for &(s, j) in row {
        let j = j as usize;
        let p = plan[j].0 as usize - 1;
        if s < until[p] {
            lower = lower.min(j).min(before[p]);
        }
        until[p] = until[p].max(end(j));
        before[p] = j;
    }
    let meets = |k: &usize| plan[*k].0 == plan[lower].0 && plan[*k].1 < end(lower) && plan[lower].1 < end(*k);
    let higher = (lower + 1..n).find(meets).map_or(0, |k| k as u32 + 1);
    (16, lower as u32 + 1, higher)
}

/// 17: the earliest instant at which a processor is free and a subtask that starts later is ready.
#[cold]
fn first_idle(times: &[u16], m: u32, plan: &[Entry], ready: &[u32], row: &[(u32, u16)]) -> u32 {
    // the spans in which a processor is free, each up to the next start, in their order
    let mut free: Vec<(u32, u32)> = Vec::new();
    let mut until = [0u32; 16];
    let (mut before, mut earliest) = (0, u32::MAX);
    for &(s, j) in row {
        let j = j as usize;
        let soonest = until[..m as usize].iter().copied().min().unwrap().max(before);
        if soonest < s {
            free.push((soonest, s));
        }
        let at = free.partition_point(|span| span.1 <= ready[j]);
        if let Some(span) = free.get(at) {
            earliest = earliest.min(span.0.max(ready[j]));
        }
        until[plan[j].0 as usize - 1] = plan[j].1 + times[j] as u32;
        before = s;
    }
    earliest
}

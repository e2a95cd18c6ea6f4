//! The joins and the nests.

use super::{bare, check, Reply};

/// A graph as two rows.
pub type Graph<'a> = (&'a [u16], &'a [[u16; 2]]);

/// The first graph's rows, then the second's with its numbers moved up; end to end each subtask of the first without
/// successors gets an arrow to each of the second without predecessors. Answers how many times and arrows were written.
pub fn join(
    end_to_end: bool,
    (times1, arrows1): Graph<'_>,
    (times2, arrows2): Graph<'_>,
    times: &mut [u16],
    arrows: &mut [[u16; 2]],
) -> Reply<(usize, usize)> {
    check(times1, arrows1)?;
    check(times2, arrows2)?;
    let (n, m) = (times1.len() as u16, times2.len() as u16);
    let all_times = [times1, times2].concat();
    let mut all: Vec<[u16; 2]> = arrows1.to_vec();
    all.extend(arrows2.iter().map(|a| [n + a[0], n + a[1]]));
    if end_to_end {
        let last = (1..=n).filter(|i| arrows1.iter().all(|a| a[0] != *i));
        let first = (1..=m).filter(|j| arrows2.iter().all(|a| a[1] != *j));
        all.extend(last.flat_map(|i| first.clone().map(move |j| [i, n + j])));
    }
    all.sort_unstable();
    if all_times.len() > 256 {
        return Err(bare(30));
    }
    if all.len() > 2048 {
        return Err(bare(31));
    }
    if times.len() < all_times.len() || arrows.len() < all.len() {
        return Err(bare(11));
    }
    times[..all_times.len()].copy_from_slice(&all_times);
    arrows[..all.len()].copy_from_slice(&all);
    Ok((all_times.len(), all.len()))
}

/// C and P of the nest that the row is the writing of.
pub fn nest(row: &[[u32; 3]]) -> Reply<(u32, u32)> {
    if row.len() > 256 {
        return Err(bare(32));
    }
    match members(row, 1, 1) {
        Some((c, p, [])) => Ok((c, p)),
        _ => Err(bare(32)),
    }
}

/// C and P of what the opener of this kind in front of the row opens, so many openers deep, and the rest of the row; nothing
/// where a rule is broken.
fn members(row: &[[u32; 3]], kind: u32, deep: u32) -> Option<(u32, u32, &[[u32; 3]])> {
    let ([opener, count, 0], mut rest) = row.split_first()? else { return None };
    if *opener != kind || !(1..=16).contains(count) || deep > 8 {
        return None;
    }
    let (mut c, mut p) = (0, 0);
    for _ in 0..*count {
        let (work, path, behind) = match rest.split_first()? {
            ([0, work, path], behind) if (1..=*work).contains(path) && *work <= 16_776_960 => (*work, *path, behind),
            ([0, ..], _) => return None,
            _ => members(rest, 3 - kind, deep + 1)?,
        };
        c += work;
        p = if kind == 1 { p + path } else { p.max(path) };
        rest = behind;
    }
    Some((c, p, rest))
}

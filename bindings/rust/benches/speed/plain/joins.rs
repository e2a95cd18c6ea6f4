//! The joins and the nests.

use super::{bare, measure, Graph, Reply};

/// The rows of a graph.
pub type Rows<'a> = (&'a [u16], &'a [[u16; 2]]);

/// `Ok` holds how many times and arrows were written.
pub fn join(
    end_to_end: bool,
    first: Rows<'_>,
    second: Rows<'_>,
    times: &mut [u16],
    arrows: &mut [[u16; 2]],
) -> Reply<(usize, usize)> {
    let (_, _, a) = measure(first.0, first.1)?;
    let (_, _, b) = measure(second.0, second.1)?;
    let (n, m) = (first.0.len(), second.0.len());
    if n + m > 256 {
        return Err(bare(30));
    }
    let entered: Vec<u16> =
        if end_to_end { (1..=m).filter(|j| b.waits[*j] == 0).map(|j| (n + j) as u16).collect() } else { Vec::new() };
    let lasts = (1..=n).filter(|j| a.after(*j).is_empty()).count();
    let many = first.1.len() + second.1.len() + lasts * entered.len();
    if many > 2048 {
        return Err(bare(31));
    }
    if times.len() < n + m || arrows.len() < many {
        return Err(bare(11));
    }
    times[..n].copy_from_slice(first.0);
    times[n..n + m].copy_from_slice(second.0);
    let at = put(&a, n, 0, &entered, &mut arrows[..many]);
    put(&b, m, n as u16, &[], &mut arrows[at..many]);
    Ok((n + m, many))
}

/// The arrows of a graph with its numbers moved up, each subtask's sorted; those without any get these. Answers how many.
fn put(graph: &Graph, n: usize, up: u16, entered: &[u16], arrows: &mut [[u16; 2]]) -> usize {
    let mut at = 0;
    for j in 1..=n {
        let (from, after) = (up + j as u16, graph.after(j));
        let row = &mut arrows[at..];
        let run = if after.is_empty() {
            row.iter_mut().zip(entered).for_each(|(arrow, to)| *arrow = [from, *to]);
            entered.len()
        } else {
            row.iter_mut().zip(after).for_each(|(arrow, to)| *arrow = [from, up + *to]);
            row[..after.len()].sort_unstable();
            after.len()
        };
        at += run;
    }
    at
}

/// C and P of a nest.
pub fn nest(row: &[[u32; 3]]) -> Reply<(u32, u32)> {
    match opened(row, 1, 8) {
        Some((c, p, [])) if row.len() <= 256 => Ok((c as u32, p as u32)),
        _ => Err(bare(32)),
    }
}

/// What the opener of this kind in front of the row opens, with so many openers left, and the rest of the row.
fn opened(row: &[[u32; 3]], kind: u32, left: u32) -> Option<(u64, u64, &[[u32; 3]])> {
    let (&[opener, count, third], mut rest) = row.split_first()?;
    if opener != kind || third != 0 || count == 0 || count > 16 || left == 0 {
        return None;
    }
    let (mut c, mut p) = (0, 0);
    for _ in 0..count {
        let (&[kind_here, work, path], behind) = rest.split_first()?;
        let (d, q) = if kind_here == 0 {
            if path == 0 || path > work || work > 16_776_960 {
                return None;
            }
            rest = behind;
            (u64::from(work), u64::from(path))
        } else {
            let (d, q, behind) = opened(rest, 3 - kind, left - 1)?;
            rest = behind;
            (d, q)
        };
        c += d;
        p = if kind == 1 { p + q } else { p.max(q) };
    }
    Some((c, p, rest))
}

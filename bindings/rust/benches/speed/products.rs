//! Joins and nests to measure with.

use crate::families::{dense, families, Sample};
use zulagbemi::NestEntry;

/// Two graphs of a family with about 128 subtasks each, which can be joined in this way within the limits.
pub struct Pair {
    pub first: Sample,
    pub second: Sample,
    pub end_to_end: bool,
}

impl Pair {
    pub fn call(&self) -> &'static str {
        if self.end_to_end {
            "end to end"
        } else {
            "side by side"
        }
    }
}

/// Every family joined to itself, end to end and side by side. Without arrows that would make 16,384, so there the second
/// graph is a chain; the dense graphs have 1,000 arrows each.
pub fn pairs() -> Vec<Pair> {
    let chain = families(128).swap_remove(0);
    let of = |first: Sample| {
        let second = if first.family == "none" { chain.clone() } else { first.clone() };
        let pair = |end_to_end| Pair { first: first.clone(), second: second.clone(), end_to_end };
        [pair(true), pair(false)]
    };
    families(128).into_iter().filter(|s| s.family != "dense").chain([crowded()]).flat_map(of).collect()
}

/// 128 subtasks with 1,000 arrows.
pub fn crowded() -> Sample {
    let mut arrows = dense(128);
    arrows.truncate(1000);
    Sample::new("dense", 128, &arrows)
}

/// Two nests of 256 entries: a sequence of 15 groups of 16 graphs; and one whose members go down to eight openers deep.
pub fn nests() -> [(&'static str, Vec<[u32; 3]>); 2] {
    let graph = |k: usize| [0, (k * 7919 % 9973 + 100) as u32, (k * 7919 % 97 + 1) as u32];
    let mut wide = vec![[1, 15, 0]];
    for g in 0..15 {
        wide.push([2, 16, 0]);
        wide.extend((0..16).map(|k| graph(16 * g + k)));
    }
    let mut deep = vec![[1, 16, 0]];
    for g in 0..15 {
        deep.extend((0..7).map(|k| [2 - k % 2, if k == 6 { 3 } else { 2 }, 0]));
        deep.extend((0..9).map(|k| graph(9 * g + k)));
    }
    deep.push([2, 14, 0]);
    deep.extend((0..14).map(graph));
    [("15 groups of 16", wide), ("eight deep", deep)]
}

/// The same as the crate takes it.
pub fn entries(row: &[[u32; 3]]) -> Vec<NestEntry> {
    let entry = |e: &[u32; 3]| match e[0] {
        0 => NestEntry::graph(e[1], e[2]),
        1 => NestEntry::sequence(e[1]),
        _ => NestEntry::group(e[1]),
    };
    row.iter().map(entry).collect()
}

//! Graphs to measure with, in several families, as large as the limits allow.

use std::collections::HashMap;
use std::fmt::Write;
use std::iter::once;
use zulagbemi::{Arrow, Graph, MAX_ARROWS, MAX_SUBTASKS};

/// A graph of a family, in each form that a call takes.
#[derive(Clone)]
pub struct Sample {
    pub family: &'static str,
    pub times: Vec<u16>,
    pub arrows: Vec<Arrow>,
    /// The arrows as pairs.
    pub pairs: Vec<[u16; 2]>,
    /// The graph as an STG text.
    pub text: Vec<u8>,
    /// The order 1..n.
    pub order: Vec<u16>,
}

impl Sample {
    pub fn new(family: &'static str, n: usize, arrows: &[[usize; 2]]) -> Self {
        // times that differ, without a random source
        let times: Vec<u16> = (1..=n).map(|j| (j * 7919 % 97 + 1) as u16).collect();
        let pairs: Vec<[u16; 2]> = arrows.iter().take(MAX_ARROWS).map(|a| a.map(|j| j as u16)).collect();
        let text = text(&times, &pairs);
        let arrows = pairs.iter().map(|a| Arrow::new(a[0], a[1])).collect();
        Self { family, times, arrows, pairs, text, order: (1..=n as u16).collect() }
    }

    pub fn graph(&self) -> Graph<'_> {
        Graph::new(&self.times, &self.arrows)
    }
}

/// The families, each with about n subtasks.
pub fn families(n: usize) -> Vec<Sample> {
    let chain: Vec<[usize; 2]> = (1..n).map(|j| [j, j + 1]).collect();
    let side = (n as f64).sqrt() as usize;
    vec![
        Sample::new("chain", n, &chain),
        Sample::new("none", n, &[]),
        Sample::new("dense", n, &dense(n)),
        cholesky(n),
        fft(n),
        Sample::new("stencil", side * side, &stencil(side)),
        Sample::new("fork-join", n, &fork_join(n)),
    ]
}

/// The family with the most arrows, at the largest size.
pub fn largest() -> Sample {
    Sample::new("dense", MAX_SUBTASKS, &dense(MAX_SUBTASKS))
}

/// From each subtask to those behind it, the nearest first.
pub fn dense(n: usize) -> Vec<[usize; 2]> {
    (1..n).flat_map(|gap| (1..=n - gap).map(move |j| [j, j + gap])).collect()
}

/// A square of points; each waits for its neighbours in the row above.
fn stencil(side: usize) -> Vec<[usize; 2]> {
    let mut arrows = Vec::new();
    for row in 1..side {
        for col in 0..side {
            for from in col.saturating_sub(1)..=(col + 1).min(side - 1) {
                arrows.push([(row - 1) * side + from + 1, row * side + col + 1]);
            }
        }
    }
    arrows
}

/// One subtask, eight side by side, one again, and so on.
fn fork_join(n: usize) -> Vec<[usize; 2]> {
    let mut arrows = Vec::new();
    for at in (1..n).step_by(9).take_while(|at| at + 9 <= n) {
        for k in 1..=8 {
            arrows.push([at, at + k]);
            arrows.push([at + k, at + 9]);
        }
    }
    arrows
}

/// The tiled Cholesky factorisation with as many tiles as n allows. In round k a step works on a tile (i, j): the corner
/// (k, k) is factored, those below it are solved with it, and the others are updated from those.
fn cholesky(n: usize) -> Sample {
    let count = |t: usize| t + t * (t - 1) + t * (t - 1) * (t.max(2) - 2) / 6;
    let tiles = (1..12).take_while(|t| count(*t) <= n).last().unwrap();
    let mut number = HashMap::new();
    let mut arrows = Vec::new();
    for k in 0..tiles {
        let solved = (k + 1..tiles).map(|i| [i, k]);
        let updated = (k + 1..tiles).flat_map(|i| once([i, i]).chain((k + 1..i).map(move |j| [i, j])));
        for [i, j] in once([k, k]).chain(solved).chain(updated) {
            let mut before = match (i, j) {
                (i, j) if i == k && j == k => vec![],
                (_, j) if j == k => vec![[k, k, k]],
                (i, j) if i == j => vec![[i, k, k]],
                _ => vec![[i, k, k], [j, k, k]],
            };
            before.extend((k > 0).then(|| [i, j, k - 1]));
            let to = number.len() + 1;
            arrows.extend(before.iter().map(|step| [number[step], to]));
            number.insert([i, j, k], to);
        }
    }
    Sample::new("cholesky", number.len(), &arrows)
}

/// Butterflies: as many points as n allows, a row of them for each stage.
fn fft(n: usize) -> Sample {
    let points = (1..8).map(|k| 1usize << k).take_while(|p| p * (p.ilog2() as usize + 1) <= n).last().unwrap_or(2);
    let stages = points.ilog2() as usize;
    let mut arrows = Vec::new();
    for stage in 0..stages {
        for i in 0..points {
            let to = (stage + 1) * points + i + 1;
            arrows.push([stage * points + i + 1, to]);
            arrows.push([stage * points + (i ^ (1 << stage)) + 1, to]);
        }
    }
    Sample::new("fft", points * (stages + 1), &arrows)
}

/// The graph as an STG text.
fn text(times: &[u16], arrows: &[[u16; 2]]) -> Vec<u8> {
    let n = times.len();
    let mut out = format!("{n}\n0 0 0\n");
    for j in 1..=n {
        let mut preds: Vec<u16> = arrows.iter().filter(|a| a[1] as usize == j).map(|a| a[0]).collect();
        if preds.is_empty() {
            preds.push(0);
        }
        write!(out, "{j} {} {}", times[j - 1], preds.len()).unwrap();
        for p in preds {
            write!(out, " {p}").unwrap();
        }
        out.push('\n');
    }
    writeln!(out, "{} 0 0", n + 1).unwrap();
    out.into_bytes()
}

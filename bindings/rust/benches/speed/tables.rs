//! The tables of docs/PERFORMANCE.md, ready to be put there.

use crate::families::Sample;

/// Each call, and the ratio that is aimed at.
const CALLS: [(&str, f64); 7] = [
    ("total work", 1.1),
    ("longest path", 1.1),
    ("verdict", 1.1),
    ("list plan", 1.1),
    ("plan check", 1.1),
    ("reader", 1.1),
    ("writer", 1.1),
];

/// The families whose arrows grow in proportion to their subtasks.
const EVEN: [&str; 4] = ["chain", "none", "stencil", "fork-join"];

/// One call on one graph, in nanoseconds.
pub struct Row {
    family: &'static str,
    subtasks: usize,
    arrows: usize,
    proved: f64,
    plain: f64,
}

impl Row {
    pub fn new(sample: &Sample, proved: f64, plain: f64) -> Self {
        Self { family: sample.family, subtasks: sample.times.len(), arrows: sample.arrows.len(), proved, plain }
    }

    fn ratio(&self) -> f64 {
        self.proved / self.plain
    }
}

/// Every call on one graph.
pub type Rows = [Row; CALLS.len()];

/// The middle one of some ratios, and the largest.
fn typical_and_worst(mut ratios: Vec<f64>) -> (f64, f64) {
    ratios.sort_by(f64::total_cmp);
    (ratios[ratios.len() / 2], ratios[ratios.len() - 1])
}

fn head(columns: &[&str]) {
    println!("| {} |\n|{}", columns.join(" | "), "---|".repeat(columns.len()));
}

/// Every ratio.
pub fn rows(rows: &[Rows]) {
    head(&["family", "subtasks", "arrows", "call", "proved, ns", "plain, ns", "ratio"]);
    for graph in rows {
        for (r, (call, _)) in graph.iter().zip(CALLS) {
            let (size, ratio) = (format!("{} | {}", r.subtasks, r.arrows), r.ratio());
            println!("| {} | {size} | {call} | {:.0} | {:.0} | {ratio:.2} |", r.family, r.proved, r.plain);
        }
    }
    println!();
}

/// How many times as long the families that grow evenly take at the largest size as at the smallest: least and most.
fn growth(rows: &[Rows], call: usize) -> (f64, f64) {
    let times = EVEN.map(|family| {
        let took: Vec<f64> = rows.iter().filter(|graph| graph[0].family == family).map(|g| g[call].proved).collect();
        took[took.len() - 1] / took[0]
    });
    (times.into_iter().fold(f64::MAX, f64::min), times.into_iter().fold(0.0, f64::max))
}

/// For each call the typical and the worst ratio over all graphs, the time on the largest one, and how it grows.
pub fn by_call(rows: &[Rows]) {
    head(&["call", "aim", "typical", "worst", "worst on", "dense 256, µs", "from 16 to 256 subtasks"]);
    for (k, (call, aim)) in CALLS.iter().enumerate() {
        let of_call = || rows.iter().map(|graph| &graph[k]);
        let (typical, worst) = typical_and_worst(of_call().map(Row::ratio).collect());
        let on = of_call().find(|r| r.ratio() == worst).expect("the worst is one of them");
        let dense = of_call().rfind(|r| r.family == "dense").expect("a dense one").proved / 1000.0;
        let (least, most) = growth(rows, k);
        let on = format!("{} {}", on.family, on.subtasks);
        println!(
            "| {call} | {aim:.1} | {typical:.2} | {worst:.2} | {on} | {dense:.1} | {least:.0} to {most:.0} times |"
        );
    }
    println!();
}

/// For each family and call the typical and the worst ratio over the three sizes.
pub fn by_family(rows: &[Rows]) {
    let calls = CALLS.map(|(call, _)| call);
    head(&[&["family"], &calls[..]].concat());
    for first in rows.iter().take_while(|graph| graph[0].subtasks <= 16) {
        let family = first[0].family;
        let sizes: Vec<&Rows> = rows.iter().filter(|graph| graph[0].family == family).collect();
        let cells = (0..CALLS.len()).map(|k| {
            let (typical, worst) = typical_and_worst(sizes.iter().map(|graph| graph[k].ratio()).collect());
            format!("{typical:.2}, {worst:.2}")
        });
        println!("| {family} | {} |", cells.collect::<Vec<_>>().join(" | "));
    }
    println!();
}

/// A join or the figures of a nest, in nanoseconds.
pub struct Product {
    pub call: &'static str,
    pub what: String,
    pub size: String,
    pub proved: f64,
    pub plain: f64,
}

/// Joins and nests, whose ratios are to be at most 1.1 too.
pub fn products(rows: &[Product]) {
    head(&["call", "of", "makes", "proved, µs", "plain, µs", "ratio"]);
    for r in rows {
        let times = format!("{:.2} | {:.2} | {:.2}", r.proved / 1000.0, r.plain / 1000.0, r.proved / r.plain);
        println!("| {} | {} | {} | {times} |", r.call, r.what, r.size);
    }
    println!();
}

/// How many times as long the model takes.
pub fn against_model(rows: &[(&str, f64)]) {
    head(&["call", "the model takes"]);
    for (call, times) in rows {
        println!("| {call} | {times:.0} times as long |");
    }
    println!();
}

/// One refused input: what is wrong, the call, what it says, and the times in nanoseconds with the bytes of stack.
pub struct Refused {
    pub what: &'static str,
    pub call: &'static str,
    pub said: String,
    pub proved: f64,
    pub plain: f64,
    pub deep: usize,
}

/// Refused inputs at the limits.
pub fn refused(rows: &[Refused]) {
    head(&["refused input", "call", "reply", "proved, µs", "plain, µs", "ratio", "stack, bytes"]);
    for r in rows {
        let times = format!("{:.1} | {:.1} | {:.2}", r.proved / 1000.0, r.plain / 1000.0, r.proved / r.plain);
        println!("| {} | {} | {} | {times} | {} |", r.what, r.call, r.said, r.deep);
    }
    println!();
}

pub fn stack(rows: &[(&str, usize)]) {
    head(&["call", "stack, bytes"]);
    for (call, bytes) in rows {
        println!("| {call} | {bytes} |");
    }
}

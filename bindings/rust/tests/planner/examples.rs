//! The Rust examples, run as a reader would run them, on graph G.

use crate::common::{example, root};
use std::fs;

fn on_g(name: &str, words: &[&str]) -> String {
    example(name, words, &fs::read_to_string(root().join("crates/vectors/data/g.stg")).unwrap())
}

#[test]
fn verdict() {
    let figures = "9 subtasks, 5 arrows\nC = 34, P = 12, S = 58\n";
    let fits = "load 0.567 on M = 3 with D = 20\nfits, spare 1: no accepted plan ends after 19\n";
    assert_eq!(on_g("verdict", &["3", "20"]), format!("{figures}{fits}"));
    let just = "load 0.596 on M = 3 with D = 19\nfits, spare 0: no accepted plan ends after 19\n";
    assert_eq!(on_g("verdict", &["3", "19"]), format!("{figures}{just}"));
    let late = "load 0.630 on M = 3 with D = 18\nlate, short 1: no accepted plan ends after 19\n";
    assert_eq!(on_g("verdict", &["3", "18"]), format!("{figures}{late}"));
}

#[test]
fn chart() {
    let expected = "\
p1  |1----------------|9----------------------------------------------------|
p2  |2----------|4----------|5----------------------|7----------------------|
p3  |3----------|           |6----------------------|8----------------------|
    0                                                                      12
";
    assert_eq!(on_g("chart", &["3"]), expected);
}

/// A text in another spelling: CR LF, tabs, zeros in front, predecessors in any order, a bare exit line, a comment.
#[test]
fn rewrite() {
    let spelt = "3\r\n0 0 0\r\n1\t007 2 3 2\r\n2 5 0\r\n 3 1 1 2\r\n4 0 0\r\n# checked\r\n";
    assert_eq!(example("rewrite", &[], spelt), "3\n0 0 0\n1 7 2 2 3\n2 5 1 0\n3 1 1 2\n4 0 1 1\n");
}

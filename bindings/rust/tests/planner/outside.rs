//! The outside texts with their expected outputs: through the crate, through the model and through `frames`.

use crate::common::{ran, root};
use crate::model;
use std::fs;
use std::path::PathBuf;
use std::process::{Command, Stdio};
use zulagbemi::{Arrow, Entry, Graph, MAX_ARROWS, MAX_SUBTASKS};

/// What `frames` prints for these figures.
fn table(n: usize, figures: impl Fn(u32) -> (u32, u32, u32), end: impl Fn(u32, &[u16]) -> u32) -> String {
    let order: Vec<u16> = (1..=n as u16).collect();
    let mut out = String::from("M,C,P,S,end\n");
    for m in 1..=4 {
        let (c, p, s) = figures(m);
        out.push_str(&format!("{m},{c},{p},{s},{}\n", end(m, &order)));
    }
    out
}

fn proved(text: &[u8]) -> String {
    let (mut times, mut arrows) = ([0; MAX_SUBTASKS], [Arrow::default(); MAX_ARROWS]);
    let graph = match Graph::read_stg(text, &mut times, &mut arrows) {
        Ok(graph) => graph,
        Err(refusal) => return format!("refused,{}\n", refusal.number()),
    };
    let figures = |m| {
        let a = graph.judge(m, 1).unwrap();
        (a.total_work, a.longest_path, a.bound)
    };
    let end = |m, order: &[u16]| graph.list_plan(m, order, &mut [Entry::default(); MAX_SUBTASKS]).unwrap();
    table(graph.times().len(), figures, end)
}

fn modelled(text: &[u8]) -> String {
    let (times, arrows) = match model::read_stg(text, 256, 2048) {
        Ok(graph) => graph,
        Err((number, ..)) => return format!("refused,{number}\n"),
    };
    let figures = |m| {
        let a = model::judge(&times, &arrows, m, 1).unwrap();
        (a.c, a.p, a.s)
    };
    let end = |m, order: &[u16]| model::list_plan(&times, &arrows, m, order, &mut vec![(0, 0); times.len()]).unwrap();
    table(times.len(), figures, end)
}

/// The stored texts.
fn texts() -> Vec<PathBuf> {
    let folder = fs::read_dir(root().join("crates/vectors/data")).unwrap();
    let texts: Vec<PathBuf> =
        folder.map(|f| f.unwrap().path()).filter(|p| p.extension().is_some_and(|e| e == "stg")).collect();
    assert_eq!(texts.len(), 47);
    texts
}

#[test]
fn texts_from_outside() {
    for file in texts() {
        let text = fs::read(&file).unwrap();
        let expected = fs::read_to_string(file.with_extension("out")).unwrap();
        assert_eq!(proved(&text), expected, "{}", file.display());
        assert_eq!(modelled(&text), expected, "{}", file.display());
    }
}

/// Each stored text that reads, written and read again: the same times, the same arrows by "to" and then "from", and
/// written once more the same text.
#[test]
fn texts_written_again() {
    let mut written = 0;
    for file in texts() {
        let text = fs::read(&file).unwrap();
        let (mut times, mut arrows) = ([0; MAX_SUBTASKS], [Arrow::default(); MAX_ARROWS]);
        let Ok(graph) = Graph::read_stg(&text, &mut times, &mut arrows) else { continue };
        let first = graph.to_stg().unwrap();
        let (mut times, mut arrows) = ([0; MAX_SUBTASKS], [Arrow::default(); MAX_ARROWS]);
        let again = Graph::read_stg(first.as_bytes(), &mut times, &mut arrows).unwrap();
        assert_eq!(again.times(), graph.times(), "{}", file.display());
        let mut sorted = graph.arrows().to_vec();
        sorted.sort_unstable_by_key(|a| (a.to, a.from));
        assert_eq!(again.arrows(), sorted, "{}", file.display());
        assert_eq!(again.to_stg().unwrap(), first, "{}", file.display());
        written += 1;
    }
    assert!(written > 20);
}

/// The bench program `frames`, to the byte, on every outside text. It is built by `rt`, and not tried where there is none.
#[test]
fn bench_program() {
    if Command::new("rt").arg("version").output().is_err() {
        println!("rt is not on the PATH: frames is not tried");
        return;
    }
    let crate_folder = root().join("crates/frames");
    ran(Command::new("rt").arg("run").stdin(Stdio::null()).current_dir(&crate_folder));
    for file in texts() {
        let mut frames = Command::new(crate_folder.join("out/frames"));
        let written = ran(frames.stdin(fs::File::open(&file).unwrap()));
        assert_eq!(written, fs::read_to_string(file.with_extension("out")).unwrap(), "{}", file.display());
    }
}

//! What the tests share: inputs to try, and the way from the model's rows to the crate's.

pub mod graphs;
pub mod nests;
pub mod random;
pub mod tally;
pub mod texts;

use crate::model;
use std::fs;
use std::path::{Path, PathBuf};
use std::process::Command;
use zulagbemi::{Arrow, Entry, NestEntry};

/// The repository's root.
pub fn root() -> PathBuf {
    Path::new(env!("CARGO_MANIFEST_DIR")).join("../..")
}

/// The model's arrows as the crate's.
pub fn arrows(row: &[[u16; 2]]) -> Vec<Arrow> {
    row.iter().map(|a| Arrow::new(a[0], a[1])).collect()
}

/// The model's plan as the crate's.
pub fn entries(plan: &[model::Entry]) -> Vec<Entry> {
    plan.iter().map(|e| Entry { processor: e.0, start: e.1 }).collect()
}

/// The model's row of a nest as the crate's, where each entry is one that the crate can say.
pub fn nest_entries(row: &[[u32; 3]]) -> Option<Vec<NestEntry>> {
    row.iter()
        .map(|entry| match *entry {
            [0, c, p] => Some(NestEntry::graph(c, p)),
            [1, members, 0] => Some(NestEntry::sequence(members)),
            [2, members, 0] => Some(NestEntry::group(members)),
            _ => None,
        })
        .collect()
}

/// What a command writes to standard output; it must succeed.
pub fn ran(command: &mut Command) -> String {
    let done = command.output().unwrap_or_else(|error| panic!("{command:?}: {error}"));
    assert!(done.status.success(), "{command:?}:\n{}", String::from_utf8_lossy(&done.stderr));
    String::from_utf8(done.stdout).unwrap()
}

/// What an example of this crate writes, given these words and this input. It is built in a folder of its own, with the
/// archive that the tests are linked with.
pub fn example(name: &str, words: &[&str], input: &str) -> String {
    let folder = Path::new(env!("CARGO_TARGET_TMPDIR"));
    let file = folder.join(format!("input-{name}-{}", words.join("-")));
    fs::write(&file, input).unwrap();
    let mut command = Command::new(env!("CARGO"));
    command.current_dir(env!("CARGO_MANIFEST_DIR")).env("ZULAGBEMI_LIB_DIR", env!("ZULAGBEMI_LINKED"));
    command.args(["run", "--offline", "--quiet", "--target-dir"]).arg(folder.join("examples"));
    command.args(["--example", name, "--"]).args(words);
    ran(command.stdin(fs::File::open(&file).unwrap()))
}

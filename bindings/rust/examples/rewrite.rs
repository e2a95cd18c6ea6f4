//! From an STG text to the same graph in the planner's one form: single spaces, predecessors ascending, the last line with
//! every subtask that has no successor, no comments.
//!
//!     cargo run --example rewrite < FILE

use std::error::Error;
use std::io::Read;
use zulagbemi::{Arrow, Graph, MAX_ARROWS, MAX_SUBTASKS};

fn run() -> Result<(), Box<dyn Error>> {
    let mut text = Vec::new();
    std::io::stdin().read_to_end(&mut text)?;

    let (mut times, mut arrows) = ([0; MAX_SUBTASKS], [Arrow::default(); MAX_ARROWS]);
    let graph = Graph::read_stg(&text, &mut times, &mut arrows)?;
    print!("{}", graph.to_stg()?);
    Ok(())
}

fn main() {
    if let Err(error) = run() {
        eprintln!("rewrite: {error}");
        std::process::exit(1);
    }
}

//! The list plan of an STG text on M processors, in the order 1..n, as a chart in the terminal.
//!
//!     cargo run --example chart -- M < FILE

use std::error::Error;
use std::io::Read;
use zulagbemi::{Arrow, Entry, Graph, MAX_ARROWS, MAX_SUBTASKS};

/// Columns from the plan's begin to its end.
const WIDE: u64 = 72;

/// The row of one processor: each subtask as a box with its number, where it has room.
fn row(graph: Graph, plan: &[Entry], processor: u8, end: u32) -> String {
    let column = |t: u32| (u64::from(t) * WIDE / u64::from(end)) as usize;
    let mut row = vec![' '; WIDE as usize + 1];
    for (j, entry) in plan.iter().enumerate().filter(|(_, entry)| entry.processor == processor) {
        let (from, to) = (column(entry.start), column(entry.start + u32::from(graph.times()[j])));
        row[from..to].fill('-');
        (row[from], row[to]) = ('|', '|');
        let number = (j + 1).to_string();
        if number.len() < to - from {
            row[from + 1..].iter_mut().zip(number.chars()).for_each(|(place, digit)| *place = digit);
        }
    }
    row.into_iter().collect::<String>().trim_end().to_string()
}

fn run() -> Result<(), Box<dyn Error>> {
    let m: u32 = std::env::args().nth(1).ok_or("usage: chart M < FILE")?.parse()?;
    let mut text = Vec::new();
    std::io::stdin().read_to_end(&mut text)?;

    let (mut times, mut arrows) = ([0; MAX_SUBTASKS], [Arrow::default(); MAX_ARROWS]);
    let graph = Graph::read_stg(&text, &mut times, &mut arrows)?;
    let order: Vec<u16> = (1..=graph.times().len() as u16).collect();
    let mut plan = vec![Entry::default(); order.len()];
    let end = graph.list_plan(m, &order, &mut plan)?;

    for processor in 1..=m as u8 {
        println!("p{processor:<2} {}", row(graph, &plan, processor, end));
    }
    println!("    0{end:>width$}", width = WIDE as usize);
    Ok(())
}

fn main() {
    if let Err(error) = run() {
        eprintln!("chart: {error}");
        std::process::exit(1);
    }
}

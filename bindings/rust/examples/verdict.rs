//! From an STG text to a verdict: whether the graph fits a deadline of D microseconds on M processors.
//!
//!     cargo run --example verdict -- M D < FILE

use std::error::Error;
use std::io::Read;
use zulagbemi::{Arrow, Graph, Verdict, MAX_ARROWS, MAX_SUBTASKS};

fn run() -> Result<(), Box<dyn Error>> {
    let numbers = std::env::args().skip(1).map(|word| word.parse()).collect::<Result<Vec<u32>, _>>()?;
    let [m, d] = numbers[..] else { return Err("usage: verdict M D < FILE".into()) };
    let mut text = Vec::new();
    std::io::stdin().read_to_end(&mut text)?;

    let (mut times, mut arrows) = ([0; MAX_SUBTASKS], [Arrow::default(); MAX_ARROWS]);
    let graph = Graph::read_stg(&text, &mut times, &mut arrows)?;
    let answer = graph.judge(m, d)?;

    println!("{} subtasks, {} arrows", graph.times().len(), graph.arrows().len());
    println!("C = {}, P = {}, S = {}", answer.total_work, answer.longest_path, answer.bound);
    println!("load {:.3} on M = {m} with D = {d}", answer.load);
    match answer.verdict {
        Verdict::Fits { spare } => println!("fits, spare {spare}: no accepted plan ends after {}", d - spare),
        Verdict::Late { shortfall } => {
            println!("late, short {shortfall}: no accepted plan ends after {}", d + shortfall)
        }
    }
    Ok(())
}

fn main() {
    if let Err(error) = run() {
        eprintln!("verdict: {error}");
        std::process::exit(1);
    }
}

//! Graphs and plans at the limits, 256 subtasks and 2,048 arrows, that are refused, and only at their end.

use crate::families::{dense, Sample};
use zulagbemi::{Entry, Graph, Refusal, MAX_ARROWS, MAX_SUBTASKS};

pub const PROCESSORS: u32 = 4;

/// What is wrong, and the input: a graph alone, or with a plan for it.
pub struct Refused {
    pub what: &'static str,
    pub sample: Sample,
    pub plan: Option<Vec<Entry>>,
}

impl Refused {
    /// The call that refuses it.
    pub fn call(&self) -> &'static str {
        if self.plan.is_some() {
            "plan check"
        } else {
            "total work"
        }
    }

    pub fn reply(&self) -> Result<u32, Refusal> {
        let graph = self.sample.graph();
        self.plan.as_ref().map_or_else(|| graph.total_work(), |plan| graph.check_plan(PROCESSORS, plan))
    }
}

pub fn refused() -> [Refused; 4] {
    let (sample, plan) = planned();
    let with = |what, plan| Refused { what, sample: sample.clone(), plan: Some(plan) };
    [
        graph("a repeated arrow at the end of 2,048", [1, 2]),
        graph("a cycle through the last subtask", [MAX_SUBTASKS, MAX_SUBTASKS - 1]),
        with("two that share an instant", moved(sample.graph(), &plan)),
        with("an idle instant late in the plan", delayed(&plan)),
    ]
}

/// As many arrows as are allowed, this one the last.
fn graph(what: &'static str, last: [usize; 2]) -> Refused {
    let mut arrows = dense(MAX_SUBTASKS);
    arrows.truncate(MAX_ARROWS - 1);
    arrows.push(last);
    Refused { what, sample: Sample::new("dense", MAX_SUBTASKS, &arrows), plan: None }
}

/// 16 layers of 16 subtasks, each of which waits for 8 or 9 of the layer before, and their list plan.
fn planned() -> (Sample, Vec<Entry>) {
    let (wide, all) = (16, MAX_SUBTASKS);
    let more = |j: usize| if j <= 9 * wide { 9 } else { 8 };
    let before = |j: usize, k: usize| (j - 1) / wide * wide - wide + 1 + (j + k) % wide;
    let arrows: Vec<[usize; 2]> = (wide + 1..=all).flat_map(|j| (0..more(j)).map(move |k| [before(j, k), j])).collect();
    let sample = Sample::new("layers", all, &arrows);
    let mut plan = vec![Entry::default(); all];
    sample.graph().list_plan(PROCESSORS, &sample.order, &mut plan).expect("an accepted graph");
    (sample, plan)
}

/// The last subtask goes to the processor of the highest other one that runs with it.
fn moved(graph: Graph, plan: &[Entry]) -> Vec<Entry> {
    let runs = |j: usize| plan[j].start..plan[j].start + u32::from(graph.times()[j]);
    let last = plan.len() - 1;
    let with = |j: &usize| runs(*j).start < runs(last).end && runs(last).start < runs(*j).end;
    let other = (0..last).rfind(with).expect("several run at once");
    let mut plan = plan.to_vec();
    plan[last].processor = plan[other].processor;
    plan
}

/// What starts last starts later by 1.
fn delayed(plan: &[Entry]) -> Vec<Entry> {
    let last = plan.iter().map(|entry| entry.start).max().expect("a plan");
    plan.iter().map(|entry| Entry { start: entry.start + u32::from(entry.start == last), ..*entry }).collect()
}

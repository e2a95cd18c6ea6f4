//! Proved against plain Rust and against the model, in one process, on several families of graphs, and the stack of each
//! call: the tables of docs/PERFORMANCE.md.
//!
//!     cargo bench                  the tables
//!     cargo bench -- --rows        first every ratio that they are made from

mod families;
#[allow(dead_code, unused_imports)]
#[path = "../../tests/planner/model/mod.rs"]
mod model;
mod painted;
mod plain;
mod products;
mod refused;
mod tables;

use families::{families, Sample};
use products::Pair;
use refused::Refused;
use std::hint::black_box;
use std::time::Instant;
use tables::{Row, Rows};
use zulagbemi::{nest_figures, Arrow, Entry, Graph, MAX_ARROWS, MAX_NEST, MAX_SUBTASKS, MAX_WRITTEN};

const M: u32 = 4;
const D: u32 = 1000;

/// The least time of one call over many, in nanoseconds, of two programs taken turn by turn.
fn least<A, B>(rounds: usize, mut one: impl FnMut() -> A, mut other: impl FnMut() -> B) -> (f64, f64) {
    (0..rounds).fold((f64::MAX, f64::MAX), |best, _| (best.0.min(timed(&mut one)), best.1.min(timed(&mut other))))
}

/// The time of one call, in nanoseconds, as a part of 8.
fn timed<T>(call: &mut impl FnMut() -> T) -> f64 {
    let start = Instant::now();
    for _ in 0..8 {
        black_box(call());
    }
    start.elapsed().as_nanos() as f64 / 8.0
}

/// The two list plans, which must be the same.
fn plans(s: &Sample, list: impl Fn(&mut [(u8, u32)]) -> plain::Reply<u32>) -> (Vec<Entry>, Vec<plain::Entry>) {
    let (mut ours, mut theirs) = (vec![Entry::default(); s.order.len()], vec![(0, 0); s.order.len()]);
    let end = s.graph().list_plan(M, &s.order, &mut ours).expect("an accepted graph");
    assert_eq!(list(&mut theirs), Ok(end));
    assert!(entries(&ours) == theirs);
    (ours, theirs)
}

fn entries(plan: &[Entry]) -> Vec<plain::Entry> {
    plan.iter().map(|entry| (entry.processor, entry.start)).collect()
}

/// Two rooms for the text, in which both writers must have written the same.
fn rooms(s: &Sample) -> (Vec<u8>, Vec<u8>) {
    let (mut ours, mut theirs) = (vec![0; MAX_WRITTEN], vec![0; MAX_WRITTEN]);
    let size = s.graph().write_stg(&mut ours).expect("an accepted graph");
    assert_eq!(plain::write_stg(&s.times, &s.pairs, &mut theirs), Ok(size));
    assert_eq!(ours, theirs);
    (ours, theirs)
}

/// Every call against plain Rust.
fn against_plain(s: &Sample) -> Rows {
    let (t, a, order) = (&s.times[..], &s.pairs[..], &s.order[..]);
    let (plan, pairs) = plans(s, |row| plain::list_plan(t, a, M, order, row));
    let (mut ours, mut theirs) = (plan.clone(), pairs.clone());
    let (mut times, mut arrows) = (vec![0u16; MAX_SUBTASKS], vec![Arrow::default(); MAX_ARROWS]);
    let (mut times2, mut arrows2) = (vec![0u16; MAX_SUBTASKS], vec![[0u16; 2]; MAX_ARROWS]);
    let (mut room, mut room2) = rooms(s);
    let g = || Graph::new(black_box(t), &s.arrows);
    let read = |row: &mut [u16], arrows: &mut [Arrow]| Graph::read_stg(black_box(&s.text), row, arrows).is_ok();
    let n = 300;
    [
        least(n, || g().total_work(), || plain::total_work(black_box(t), a)),
        least(n, || g().longest_path(), || plain::longest_path(black_box(t), a)),
        least(n, || g().judge(M, D), || plain::judge(black_box(t), a, M, D)),
        least(n, || g().list_plan(M, order, &mut ours), || plain::list_plan(black_box(t), a, M, order, &mut theirs)),
        least(n, || g().check_plan(M, &plan), || plain::check_plan(black_box(t), a, M, &pairs)),
        least(n, || read(&mut times, &mut arrows), || plain::read_stg(black_box(&s.text), &mut times2, &mut arrows2)),
        least(n, || g().write_stg(&mut room), || plain::write_stg(black_box(t), a, &mut room2)),
    ]
    .map(|(proved, other)| Row::new(s, proved, other))
}

/// Three calls against the model, which is written to be read and not to be fast.
fn against_model(s: &Sample) -> [(&'static str, f64); 3] {
    let (g, t, a, order) = (s.graph(), &s.times[..], &s.pairs[..], &s.order[..]);
    let (plan, pairs) = plans(s, |row| model::list_plan(t, a, M, order, row));
    let (mut ours, mut theirs) = (plan.clone(), pairs.clone());
    [
        ("verdict", least(10, || g.judge(M, D), || model::judge(t, a, M, D))),
        ("list plan", least(3, || g.list_plan(M, order, &mut ours), || model::list_plan(t, a, M, order, &mut theirs))),
        ("plan check", least(3, || g.check_plan(M, &plan), || model::check_plan(t, a, M, &pairs))),
    ]
    .map(|(call, (proved, model))| (call, model / proved))
}

/// A refused input against plain Rust, which must refuse it by the same number at the same place.
fn against_refused(r: &Refused) -> tables::Refused {
    let (t, a) = (&r.sample.times[..], &r.sample.pairs[..]);
    let plan = r.plan.as_deref().map(entries);
    let check = |plan: &Vec<plain::Entry>| plain::check_plan(black_box(t), a, refused::PROCESSORS, plan);
    let other = || plan.as_ref().map_or_else(|| plain::total_work(black_box(t), a), check);
    let refusal = r.reply().expect_err("a refused input");
    assert_eq!(other(), Err((refusal.number(), refusal.place(), refusal.second())));
    let (proved, plain) = least(300, || black_box(r).reply(), other);
    let deep = painted::deep(|| r.reply());
    tables::Refused { what: r.what, call: r.call(), said: refusal.to_string(), proved, plain, deep }
}

/// A join against plain Rust, which must leave the same in both rows.
fn against_join(pair: &Pair) -> tables::Product {
    let (a, b) = (&pair.first, &pair.second);
    let (mut times, mut arrows) = (vec![0u16; MAX_SUBTASKS], vec![Arrow::default(); MAX_ARROWS]);
    let (mut times2, mut pairs) = (times.clone(), vec![[0u16; 2]; MAX_ARROWS]);
    let call = if pair.end_to_end { Graph::end_to_end } else { Graph::side_by_side };
    let mut ours = || call(Graph::new(black_box(&a.times), &a.arrows), b.graph(), &mut times, &mut arrows).is_ok();
    let second = (&b.times[..], &b.pairs[..]);
    let mut other = || plain::join(pair.end_to_end, (black_box(&a.times), &a.pairs), second, &mut times2, &mut pairs);
    assert!(ours());
    let (subtasks, many) = other().expect("two graphs that can be joined");
    let (proved, plain) = least(300, ours, other);
    assert!(times == times2 && arrows.iter().map(|a| [a.from, a.to]).eq(pairs));
    let what = format!("{} {} and {} {}", a.family, a.times.len(), b.family, b.times.len());
    tables::Product { call: pair.call(), what, size: format!("{subtasks} subtasks, {many} arrows"), proved, plain }
}

/// The figures of a nest against plain Rust.
fn against_nest((what, row): &(&'static str, Vec<[u32; 3]>)) -> tables::Product {
    assert_eq!(row.len(), MAX_NEST);
    let entries = products::entries(row);
    let weights = nest_figures(&entries).expect("a nest");
    assert_eq!(plain::nest(row), Ok((weights.total_work, weights.longest_path)));
    let (proved, plain) = least(300, || nest_figures(black_box(&entries)), || plain::nest(black_box(row)));
    tables::Product { call: "nest", what: (*what).into(), size: format!("{} entries", row.len()), proved, plain }
}

fn main() {
    let rows: Vec<Rows> = [16, 64, 256].into_iter().flat_map(families).map(|s| against_plain(&s)).collect();
    if std::env::args().any(|word| word == "--rows") {
        tables::rows(&rows);
    }
    tables::by_call(&rows);
    tables::by_family(&rows);
    let stencil = families(64).into_iter().find(|s| s.family == "stencil").expect("the family");
    tables::against_model(&against_model(&stencil));
    let joins = products::pairs();
    let nests = products::nests();
    tables::products(&joins.iter().map(against_join).chain(nests.iter().map(against_nest)).collect::<Vec<_>>());
    tables::refused(&refused::refused().map(|r| against_refused(&r)));
    let crowded = products::crowded();
    let depths = [painted::depths(&families::largest()), painted::product_depths(&crowded, &crowded)];
    tables::stack(&depths.concat());
}

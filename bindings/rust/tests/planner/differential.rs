//! Every proved function against the independent model, rows after each call included. ZUL_CASES sets how many graphs
//! and texts are tried (each gives several comparisons); the seed is fixed, so a difference can be found again.

use crate::common::arrows;
use crate::common::graphs::{graph, order, shuffle};
use crate::common::nests;
use crate::common::random::Random;
use crate::common::tally::Tally;
use crate::common::texts::text;
use crate::compare::{same_join, same_nest, same_reading, Case};
use crate::model;
use zulagbemi::{Arrow, Entry, Graph, Verdict};

fn cases() -> u64 {
    std::env::var("ZUL_CASES").ok().and_then(|n| n.parse().ok()).unwrap_or(30_000)
}

/// A plan near a good one, mostly with one fault, sometimes with several.
fn changed(random: &mut Random, plan: &[model::Entry]) -> Vec<model::Entry> {
    let mut plan = plan.to_vec();
    for _ in 0..random.pick(&[1, 1, 2, 5]) {
        if plan.is_empty() {
            break;
        }
        let at = random.below(plan.len() as u64) as usize;
        match random.below(9) {
            0 => plan[at].0 = random.pick(&[0, 1, 2, 3, 16, 17, 255]),
            1 => plan[at].1 = random.pick(&[0, 1, 16_776_959, 16_776_960, 16_776_961, u32::MAX]),
            2 => plan[at].1 = plan[at].1.saturating_add(random.among(1, 3) as u32),
            3 => plan[at].1 = plan[at].1.saturating_sub(1),
            4 => {
                plan.remove(at);
            }
            5 => plan.push((1, 0)),
            6 => {
                let other = random.below(plan.len() as u64) as usize;
                plan.swap(at, other);
            }
            7 => plan[at].0 = random.pick(&plan).0,
            _ => later(&mut plan, at),
        }
    }
    plan
}

/// What starts where this entry does, or after it, does so later by 1: there a processor idles.
fn later(plan: &mut [model::Entry], at: usize) {
    let from = plan[at].1;
    plan.iter_mut().filter(|e| e.1 >= from).for_each(|e| e.1 = e.1.saturating_add(1));
}

/// Any processors and starts, few enough of them that some plans come near to a good one.
fn any_plan(random: &mut Random, n: usize) -> Vec<model::Entry> {
    let least = random.below(2);
    let last = random.pick(&[4, 20, 60]);
    (0..n).map(|_| (random.among(least, 3) as u8, random.below(last) as u32)).collect()
}

#[test]
fn graphs_and_plans() {
    let mut random = Random(1);
    let (mut verdicts, mut lists, mut checks) = (Tally::default(), Tally::default(), Tally::default());
    for _ in 0..cases() {
        let case = Case::new(&mut random);
        let d = case.deadline(&mut random);
        verdicts.add(&case.same_figures(d));
        let order = order(&mut random, case.times.len());
        let listed = case.same_list(&mut random, &order);
        lists.add(&listed);
        let base = listed.clone().unwrap_or_else(|_| case.times.iter().map(|_| (1, 0)).collect());
        let mut plans = vec![base.clone(), changed(&mut random, &base), changed(&mut random, &base)];
        if case.times.len() <= 12 {
            plans.push(any_plan(&mut random, case.times.len()));
        }
        for plan in plans {
            checks.add(&case.same_check(&plan));
        }
        if listed.is_ok() {
            assert!(case.same_check(&base).is_ok());
        }
    }
    verdicts.has("verdicts", &[0, 1, 2, 3, 4, 5, 6, 7, 8, 9]);
    lists.has("list plans", &[0, 1, 2, 3, 4, 5, 6, 7, 8, 10, 11]);
    checks.has("plan checks", &[0, 1, 2, 3, 4, 5, 6, 7, 8, 12, 13, 14, 15, 16, 17]);
}

#[test]
fn demand_three() {
    let mut random = Random(2);
    let mut tried = 0;
    for _ in 0..cases() / 4 {
        let (times, pairs) = graph(&mut random);
        let row = arrows(&pairs);
        let g = Graph::new(&times, &row);
        let m = random.among(1, 6) as u32;
        let Ok(answer) = g.judge(m, 1) else { continue };
        let d = answer.bound / m;
        if d > zulagbemi::MAX_DEADLINE {
            continue;
        }
        assert!(matches!(g.judge(m, d).unwrap().verdict, Verdict::Fits { .. }));
        let shorter: Vec<u16> = times.iter().map(|t| random.among(1, u64::from(*t)) as u16).collect();
        let mut fewer: Vec<Arrow> = row.iter().copied().filter(|_| !random.once_in(4)).collect();
        shuffle(&mut random, &mut fewer);
        let altered = Graph::new(&shorter, &fewer);
        let wider = random.among(u64::from(m), 16) as u32;
        assert!(matches!(altered.judge(wider, d).unwrap().verdict, Verdict::Fits { .. }));
        let mut order: Vec<u16> = (1..=times.len() as u16).collect();
        shuffle(&mut random, &mut order);
        let mut plan = vec![Entry::default(); times.len()];
        let end = altered.list_plan(wider, &order, &mut plan).unwrap();
        assert_eq!(altered.check_plan(wider, &plan), Ok(end));
        assert!(end <= d);
        tried += 1;
    }
    assert!(tried > 100);
}

#[test]
fn texts() {
    let mut random = Random(3);
    let mut tally = Tally::default();
    for _ in 0..cases() {
        let (times, arrows) = graph(&mut random);
        let mut text = text(&mut random, &times, &arrows);
        if random.once_in(200) {
            text.resize(random.pick(&[59_999, 60_000, 60_001, 70_000]), random.pick(b" \n#"));
        }
        let room = match random.below(50) {
            0 => (255, 2048),
            1 => (256, 2047),
            2 => (0, 0),
            3 => (300, 2100),
            _ => (256, 2048),
        };
        tally.add(&same_reading(&text, room));
    }
    tally.has("readings", &[0, 2, 3, 4, 5, 6, 7, 11, 20, 21, 22, 23, 24]);
}

#[test]
fn written_texts() {
    let mut random = Random(4);
    let mut tally = Tally::default();
    for _ in 0..cases() {
        let case = Case::new(&mut random);
        let reply = case.same_text(&mut random);
        tally.add(&reply);
        if reply.is_ok() {
            case.text_tells_graph(&mut random);
        }
    }
    tally.has("written texts", &[0, 1, 2, 3, 4, 5, 6, 7, 11]);
}

#[test]
fn joins() {
    let mut random = Random(5);
    let (mut ends, mut sides) = (Tally::default(), Tally::default());
    for _ in 0..cases() {
        let (first, second) = (Case::new(&mut random), Case::new(&mut random));
        ends.add(&same_join(&mut random, true, &first, &second));
        sides.add(&same_join(&mut random, false, &first, &second));
    }
    ends.has("joins end to end", &[0, 1, 2, 3, 4, 5, 6, 7, 11, 30, 31]);
    sides.has("joins side by side", &[0, 1, 2, 3, 4, 5, 6, 7, 11, 30, 31]);
}

#[test]
fn nests() {
    let mut random = Random(6);
    let mut tally = Tally::default();
    let mut largest = 0;
    for _ in 0..cases() {
        let row = nests::nest(&mut random);
        let reply = same_nest(&row);
        largest = largest.max(if reply.is_ok() { row.len() } else { 0 });
        tally.add(&reply);
    }
    assert!(largest > 60, "no nest of more than {largest} entries was accepted");
    assert_eq!(same_nest(&nests::largest()), Ok((240 * 16_776_960, 15 * 16_776_960)));
    tally.has("nests", &[0, 32]);
}

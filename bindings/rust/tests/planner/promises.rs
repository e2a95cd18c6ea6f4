//! What the header and the crate say of stack, threads and libraries.

use crate::common::ran;
use crate::{families, painted, products, refused};
use std::process::Command;
use zulagbemi::{Arrow, Entry, Graph, MAX_ARROWS, MAX_SUBTASKS, MAX_TIME, MAX_WRITTEN};

/// Every call on the largest graph and on refused ones, the plan check of refused plans, joins and a nest.
#[test]
fn less_than_16_kib_of_stack() {
    let mut measured: Vec<_> = painted::depths(&families::largest()).into_iter().map(|d| ("accepted", d)).collect();
    for r in refused::refused() {
        measured.extend(painted::depths(&r.sample).into_iter().map(|d| (r.what, d)));
        measured.push((r.what, (r.call(), painted::deep(|| r.reply().unwrap_err()))));
    }
    let crowded = products::crowded();
    measured.extend(painted::product_depths(&crowded, &crowded).into_iter().map(|d| ("joined", d)));
    measured.extend(painted::product_depths(&families::largest(), &crowded).into_iter().map(|d| ("refused by 30", d)));
    for (input, (call, deep)) in measured {
        println!("{input}, {call}: {deep} bytes");
        let least = if call == "nest" { 200 } else { 1024 };
        assert!(deep > least, "{input}, {call}: {deep} bytes, which is too little to be true");
        assert!(deep < 16 * 1024, "{input}, {call}: {deep} bytes");
    }
}

/// The longest text: 2,048 arrows from 22 subtasks with numbers of three digits to 94 others, each of which has 10 of them
/// or more before it.
#[test]
fn longest_text() {
    let first = |to: u16| if to <= 2 { 245 } else { 235 };
    let arrows: Vec<Arrow> = (1..=94).flat_map(|to| (first(to)..=256).map(move |from| Arrow::new(from, to))).collect();
    assert_eq!(arrows.len(), MAX_ARROWS);
    let text = Graph::new(&[MAX_TIME; MAX_SUBTASKS], &arrows).to_stg().unwrap();
    assert_eq!(text.len(), MAX_WRITTEN);
}

#[test]
fn threads_at_once() {
    let sample = families::largest();
    let (graph, order) = (sample.graph(), &sample.order);
    let replies = || {
        let mut plan = vec![Entry::default(); order.len()];
        let end = graph.list_plan(4, order, &mut plan);
        (graph.judge(4, 1000), end, graph.check_plan(4, &plan), plan)
    };
    let alone = replies();
    std::thread::scope(|s| {
        let threads = [(); 8].map(|()| s.spawn(|| (0..200).all(|_| replies() == alone)));
        assert!(threads.into_iter().all(|thread| thread.join().unwrap()));
    });
}

/// What the archive leaves to be linked is what a freestanding C library has too.
#[test]
fn no_library_but_memory() {
    let listed = ran(Command::new("nm").args(["-u", concat!(env!("ZULAGBEMI_LINKED"), "/libzulagbemi.a")]));
    let names = listed.lines().filter_map(|line| line.trim().strip_prefix("U "));
    let others: Vec<&str> = names.filter(|name| !["memcpy", "memmove", "memset", "memcmp"].contains(name)).collect();
    assert!(others.is_empty(), "{others:?}");
}

//! Where it is wrong: for each number that has a place an input with several such faults, worked by hand, and what the
//! refusal says of it.

use zulagbemi::{Arrow, Entry, Graph, Refusal, MAX_ARROWS, MAX_SUBTASKS, MAX_WRITTEN};

/// Number, place, second number and the words for them. `refusals` has an input for each.
pub const SAID: [(u32, u32, u32, &str); 10] = [
    (2, 3, 0, "the time of subtask 3 is 0"),
    (4, 2, 0, "arrow 2 names a subtask outside 1 to n"),
    (5, 3, 0, "arrow 3 leads from a subtask to itself"),
    (6, 4, 0, "arrow 4 stands twice"),
    (7, 3, 0, "the arrows close a cycle through subtask 3"),
    (13, 2, 0, "the plan puts subtask 2 on a processor outside 1 to M"),
    (14, 4, 0, "subtask 4 starts after 16,776,960 µs"),
    (15, 3, 0, "subtask 3 starts before a predecessor ends"),
    (16, 2, 4, "subtasks 2 and 4 share an instant on one processor"),
    (17, 41, 0, "at 41 µs a subtask is ready and a processor is free"),
];

const TIMES: [u16; 5] = [41, 41, 5, 5, 5];

/// A graph with these arrows.
fn graph(arrows: &[(u16, u16)]) -> Result<u32, Refusal> {
    Graph::new(&TIMES, &row(arrows)).total_work()
}

fn row(arrows: &[(u16, u16)]) -> Vec<Arrow> {
    arrows.iter().map(|(from, to)| Arrow::new(*from, *to)).collect()
}

/// A plan on two processors, for a graph with these arrows.
fn plan(arrows: &[(u16, u16)], entries: [(u8, u32); 5]) -> Result<u32, Refusal> {
    let entries = entries.map(|(processor, start)| Entry { processor, start });
    Graph::new(&TIMES, &row(arrows)).check_plan(2, &entries)
}

/// In the order of `SAID`.
fn refusals() -> [Refusal; 10] {
    [
        Graph::new(&[1, 1, 0, 0], &[]).total_work(),
        graph(&[(1, 2), (6, 1), (0, 2)]),
        graph(&[(1, 2), (2, 3), (4, 4), (5, 5)]),
        graph(&[(1, 2), (1, 3), (2, 3), (1, 3), (1, 2)]),
        // 1 leads to the cycle 5, 3, 4, and 2 lies behind it
        graph(&[(1, 2), (1, 5), (5, 3), (3, 4), (4, 5), (5, 2)]),
        plan(&[], [(1, 0), (3, 0), (1, 41), (0, 41), (1, 46)]),
        plan(&[], [(1, 0), (2, 0), (1, 16_776_960), (2, 16_776_961), (1, u32::MAX)]),
        plan(&[(2, 4), (1, 3)], [(1, 0), (2, 0), (1, 40), (2, 40), (1, 46)]),
        // by their starts 2 and 5 come first; 4 and 5 share one too
        plan(&[], [(2, 0), (1, 0), (2, 41), (1, 40), (1, 39)]),
        // and again from 46 on
        plan(&[], [(1, 0), (2, 0), (1, 42), (2, 41), (1, 52)]),
    ]
    .map(|reply| reply.unwrap_err())
}

#[test]
fn said() {
    for (refusal, (number, place, second, words)) in refusals().into_iter().zip(SAID) {
        assert_eq!((refusal.number(), refusal.place(), refusal.second()), (number, place, second));
        assert_eq!(refusal.to_string(), format!("refused by {number}: {words}"));
    }
}

#[test]
fn said_without_a_place() {
    let refusal = Graph::new(&[3], &[]).check_plan(1, &[]).unwrap_err();
    assert_eq!((refusal.number(), refusal.place(), refusal.second()), (12, 0, 0));
    assert_eq!(refusal.to_string(), "refused by 12: the plan has not exactly n entries");
}

/// Every call answers the graph's own refusal, before what it asks itself; the reader counts arrows as they stand in the
/// text.
#[test]
fn passed_on() {
    let arrows = row(&[(4, 5), (1, 3), (1, 3), (5, 4)]);
    let g = Graph::new(&TIMES, &arrows);
    let said = "refused by 6: arrow 3 stands twice";
    assert_eq!(g.total_work().unwrap_err().to_string(), said);
    assert_eq!(g.longest_path().unwrap_err().to_string(), said);
    assert_eq!(g.judge(0, 0).unwrap_err().to_string(), said);
    assert_eq!(g.list_plan(0, &[], &mut []).unwrap_err().to_string(), said);
    assert_eq!(g.check_plan(0, &[]).unwrap_err().to_string(), said);
    assert_eq!(g.write_stg(&mut [0; MAX_WRITTEN]).unwrap_err().to_string(), said);

    let text = b"3\n0 0 0\n1 5 1 3\n2 5 2 0 1\n3 5 2 1 1\n4 0 0\n";
    let (mut times, mut arrows) = ([0; MAX_SUBTASKS], [Arrow::default(); MAX_ARROWS]);
    assert_eq!(
        Graph::read_stg(text, &mut times, &mut arrows).unwrap_err().to_string(),
        "refused by 6: arrow 4 stands twice"
    );
}

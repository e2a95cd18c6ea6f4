//! Nests to try: mostly by the rules, often at a limit, sometimes damaged.

use super::random::Random;

const MOST_WORK: u64 = 16_776_960;

/// The row of a nest.
pub fn nest(random: &mut Random) -> Vec<[u32; 3]> {
    let mut row = Vec::new();
    let deep = random.pick(&[1, 2, 3, 3, 7, 8, 8, 9]);
    let crowd = random.pick(&[3, 3, 3, 16]);
    opener(random, &mut row, 1, deep, crowd);
    for _ in 0..random.pick(&[0, 0, 0, 0, 1, 1, 2]) {
        damage(random, &mut row);
    }
    row
}

/// An opener of this kind and its members, with up to so many openers inside one another.
fn opener(random: &mut Random, row: &mut Vec<[u32; 3]>, kind: u32, deep: u32, crowd: u64) {
    let full = random.once_in(30);
    let members = if full { random.pick(&[16, 16, 17, 0]) } else { random.among(1, crowd) as u32 };
    row.push([kind, members, 0]);
    for k in 0..members {
        // one way down to the depth that was asked for, and now and then another
        let down = k == 0 || (random.once_in(3) && row.len() < 240);
        if deep > 1 && down {
            opener(random, row, 3 - kind, deep - 1, crowd);
        } else {
            row.push(graph(random));
        }
    }
}

fn graph(random: &mut Random) -> [u32; 3] {
    let most = random.pick(&[1, 9, 9, 1000, MOST_WORK]);
    let work = random.among(1, most);
    [0, work as u32, random.among(1, work) as u32]
}

/// One fault.
fn damage(random: &mut Random, row: &mut Vec<[u32; 3]>) {
    let at = random.below(row.len() as u64) as usize;
    match random.below(8) {
        0 => row[at][0] = random.pick(&[0, 1, 2, 3, u32::MAX]),
        1 => row[at][1] = random.pick(&[0, 1, 16, 17, MOST_WORK as u32, MOST_WORK as u32 + 1, u32::MAX]),
        2 => row[at][2] = random.pick(&[0, 1, u32::MAX]),
        3 => {
            row.remove(at);
            if row.is_empty() {
                row.push([1, 1, 0]);
            }
        }
        4 => row.push(graph(random)),
        5 => row[at][2] = row[at][1].wrapping_add(1),
        6 => row.truncate(at + 1),
        _ => row.resize(random.pick(&[255, 256, 257, 300]), [0, 1, 1]),
    }
}

/// A row of exactly 256 entries that breaks no rule: 15 groups of 16 graphs, of C and P as large as can be.
pub fn largest() -> Vec<[u32; 3]> {
    let most = MOST_WORK as u32;
    let mut row = vec![[1, 15, 0]];
    for _ in 0..15 {
        row.push([2, 16, 0]);
        row.extend([[0, most, most]; 16]);
    }
    assert_eq!(row.len(), 256);
    row
}

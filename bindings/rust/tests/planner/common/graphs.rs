//! Graphs, orders and counts of processors to try: mostly sound, sometimes at a limit, sometimes damaged.

use super::random::Random;

/// A graph, as the model's two rows.
pub fn graph(random: &mut Random) -> (Vec<u16>, Vec<[u16; 2]>) {
    let crowded = random.once_in(1000);
    let n = match random.below(40) {
        _ if crowded => random.among(66, 80),
        0 => random.pick(&[0, 255, 256, 257, 300]),
        1 => random.among(13, 60),
        _ => random.among(1, 12),
    } as usize;
    let longest = random.pick(&[1, 2, 5, 9, 100, 65_535]);
    let mut times: Vec<u16> = (0..n).map(|_| random.among(1, longest) as u16).collect();
    let mut arrows = if crowded { many_arrows(random, n) } else { some_arrows(random, n) };
    // subtasks need not be numbered in order
    if random.once_in(2) {
        let mut name: Vec<u16> = (1..=n as u16).collect();
        shuffle(random, &mut name);
        for a in &mut arrows {
            *a = [name[a[0] as usize - 1], name[a[1] as usize - 1]];
        }
    }
    let mut fault = random.below(8);
    for _ in 0..random.pick(&[0, 0, 0, 0, 0, 0, 0, 0, 0, 1, 2, 4]) {
        damage(random, fault, &mut times, &mut arrows);
        // mostly the same fault at several places
        if random.once_in(4) {
            fault = random.below(8);
        }
    }
    (times, arrows)
}

/// Up to 3n arrows from lower numbers to higher ones, none twice.
fn some_arrows(random: &mut Random, n: usize) -> Vec<[u16; 2]> {
    let mut arrows = Vec::new();
    for _ in 0..random.below(3 * n.max(1) as u64) {
        let (a, b) = (random.among(1, n.max(1) as u64), random.among(1, n.max(1) as u64));
        let arrow = [a.min(b) as u16, a.max(b) as u16];
        if arrow[0] != arrow[1] && !arrows.contains(&arrow) {
            arrows.push(arrow);
        }
    }
    arrows
}

/// As many arrows from lower numbers to higher ones as are allowed, a few less or a few more, none twice.
fn many_arrows(random: &mut Random, n: usize) -> Vec<[u16; 2]> {
    let mut arrows: Vec<[u16; 2]> = (2..=n as u16).flat_map(|b| (1..b).map(move |a| [a, b])).collect();
    shuffle(random, &mut arrows);
    arrows.truncate(random.pick(&[2047, 2048, 2049, 2060]));
    arrows
}

/// One fault of 2 or 4 to 7, where there is something to damage.
fn damage(random: &mut Random, fault: u64, times: &mut [u16], arrows: &mut Vec<[u16; 2]>) {
    let n = times.len();
    let at = random.below(arrows.len() as u64 + 1) as usize;
    match fault {
        0 if n > 0 => times[random.below(n as u64) as usize] = 0,
        1 => {
            arrows.insert(at, [random.pick(&[0, n as u16, n as u16 + 1, 65_535]), random.among(1, n as u64 + 1) as u16])
        }
        2 => arrows.insert(at, [random.among(1, n as u64 + 1) as u16, random.pick(&[0, n as u16 + 1, 65_535])]),
        3 => {
            let j = random.among(1, n as u64 + 1) as u16;
            arrows.insert(at, [j, j]);
        }
        4 if !arrows.is_empty() => {
            let again = random.pick(arrows);
            arrows.insert(at, again);
        }
        5 if !arrows.is_empty() => {
            let back = random.pick(arrows);
            arrows.insert(at, [back[1], back[0]]);
        }
        6 if !arrows.is_empty() => {
            let (a, b) = (random.pick(arrows), random.pick(arrows));
            arrows.insert(at, [a[1], b[0]]);
        }
        7 if n > 1 => ring(random, n, arrows),
        _ => {}
    }
}

/// A cycle through 2 to 5 subtasks, of arrows put anywhere among the others; none twice.
fn ring(random: &mut Random, n: usize, arrows: &mut Vec<[u16; 2]>) {
    let mut on: Vec<u16> = (1..=n as u16).collect();
    shuffle(random, &mut on);
    on.truncate(random.among(2, 5) as usize);
    for k in 0..on.len() {
        let arrow = [on[k], on[(k + 1) % on.len()]];
        if !arrows.contains(&arrow) {
            arrows.insert(random.below(arrows.len() as u64 + 1) as usize, arrow);
        }
    }
}

/// The row in another order.
pub fn shuffle<T>(random: &mut Random, row: &mut [T]) {
    for i in (1..row.len()).rev() {
        row.swap(i, random.below(i as u64 + 1) as usize);
    }
}

/// A count of processors, sometimes not 1..16.
pub fn processors(random: &mut Random) -> u32 {
    match random.below(30) {
        0 => random.pick(&[0, 17, 18, 255, 256, u32::MAX]),
        1 => 16,
        _ => random.among(1, 5) as u32,
    }
}

/// An order of 1..n, sometimes damaged.
pub fn order(random: &mut Random, n: usize) -> Vec<u16> {
    let mut order: Vec<u16> = (1..=n as u16).collect();
    if random.once_in(2) {
        shuffle(random, &mut order);
    }
    if random.once_in(12) && n > 0 {
        let at = random.below(n as u64) as usize;
        match random.below(4) {
            0 => order[at] = random.pick(&[0, 1, n as u16, n as u16 + 1, 65_535]),
            1 => order.push(random.among(1, n as u64) as u16),
            2 => {
                order.remove(at);
            }
            _ => order[at] = order[0],
        }
    }
    order
}

//! A graph as an STG text, in many spellings, sometimes damaged.

use super::random::Random;

/// Such a text.
pub fn text(random: &mut Random, times: &[u16], arrows: &[[u16; 2]]) -> Vec<u8> {
    let end: &[u8] = if random.once_in(3) { b"\r\n" } else { b"\n" };
    let most = if random.once_in(6) { 9 } else { 8 };
    let mut lines = lines(random, times, arrows);
    if random.once_in(6) {
        damage_line(random, &mut lines);
    }
    let mut text = Vec::new();
    let count = lines.len();
    for (k, line) in lines.iter().enumerate() {
        spell(random, line, most, &mut text);
        if k + 1 < count || !random.once_in(5) {
            text.extend_from_slice(end);
        }
    }
    if random.once_in(4) {
        for _ in 0..random.below(4) {
            let after: [&[u8]; 8] =
                [b"# note\n", b"\n", b" \t\r\n", b"#\r\n", b"x\n", b" # no\n", b"#\r x\n", b"\r\r\n"];
            text.extend_from_slice(random.pick(&after));
        }
    }
    if random.once_in(5) {
        for _ in 0..random.among(1, 3) {
            damage_byte(random, &mut text);
        }
    }
    text
}

/// The numbers of each line.
fn lines(random: &mut Random, times: &[u16], arrows: &[[u16; 2]]) -> Vec<Vec<u64>> {
    let n = times.len();
    let mut lines: Vec<Vec<u64>> = vec![vec![n as u64], vec![0, 0, 0]];
    for j in 1..=n {
        let mut preds: Vec<u64> = arrows.iter().filter(|a| a[1] as usize == j).map(|a| u64::from(a[0])).collect();
        if preds.is_empty() && random.once_in(2) {
            preds.push(0);
        }
        let mut line = vec![j as u64, u64::from(times[j - 1]), preds.len() as u64];
        line.extend(preds);
        lines.push(line);
    }
    let exit: Vec<u64> = (0..=n as u64).filter(|_| random.once_in(4)).collect();
    let mut line = vec![n as u64 + 1, 0, exit.len() as u64];
    line.extend(exit);
    lines.push(line);
    lines
}

/// A line gone, a field too many or too few, an empty line, or a number at a limit.
fn damage_line(random: &mut Random, lines: &mut Vec<Vec<u64>>) {
    let at = random.below(lines.len() as u64) as usize;
    match random.below(6) {
        0 => {
            lines.remove(at);
        }
        1 => lines[at].push(random.pick(&[0, 1, 99_999_999])),
        2 => {
            lines[at].pop();
        }
        3 => lines[at] = Vec::new(),
        _ => {
            let k = random.below(lines[at].len().max(1) as u64) as usize;
            if k < lines[at].len() {
                lines[at][k] = random.pick(&[0, 1, 2, 257, 65_535, 65_536, 70_000, 99_999_999, 100_000_000]);
            }
        }
    }
}

/// A line's fields, with blanks and zeros before some of them, up to so many digits.
fn spell(random: &mut Random, line: &[u64], most: usize, text: &mut Vec<u8>) {
    if random.once_in(9) {
        text.extend_from_slice(random.pick(&[&b" "[..], b"\t", b"  "]));
    }
    for (i, v) in line.iter().enumerate() {
        if i > 0 {
            let gap = if random.once_in(9) { random.pick(&[&b"\t"[..], b"  ", b" \t "]) } else { b" " };
            text.extend_from_slice(gap);
        }
        let digits = if random.once_in(20) { random.pick(&[2, 3, most]) } else { 1 };
        text.extend_from_slice(format!("{v:0digits$}").as_bytes());
    }
    if random.once_in(9) {
        text.push(b' ');
    }
}

/// A byte put in, changed or taken out.
fn damage_byte(random: &mut Random, text: &mut Vec<u8>) {
    let at = random.below(text.len() as u64 + 1) as usize;
    let byte = random.pick(&[b'0', b'7', b' ', b'\t', b'\n', b'\r', b'#', b'-', b'x', 0, 255]);
    match random.below(3) {
        0 => text.insert(at, byte),
        1 if at < text.len() => text[at] = byte,
        _ if at < text.len() => {
            text.remove(at);
        }
        _ => {}
    }
}

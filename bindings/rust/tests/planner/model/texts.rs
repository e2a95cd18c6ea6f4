//! The reader and the writer.

use super::{bare, check, first, Reply};

/// `Ok` holds the times and the arrows of the graph that was read.
pub fn read_stg(text: &[u8], times_room: usize, arrows_room: usize) -> Reply<(Vec<u16>, Vec<[u16; 2]>)> {
    if times_room < 256 || arrows_room < 2048 {
        return Err(bare(11));
    }
    if text.len() > 60_000 {
        return Err(bare(20));
    }
    let (times, arrows) = graph(&lines(text)).map_err(bare)?;
    let n = times.len() as u64;
    first(2, &times, |t| *t == 0)?;
    if arrows.len() > 2048 {
        return Err(bare(3));
    }
    // a predecessor as it was written can be above what 16 bits hold
    first(4, &arrows, |a| a[0] > n)?;
    let arrows: Vec<[u16; 2]> = arrows.iter().map(|a| [a[0] as u16, a[1] as u16]).collect();
    check(&times, &arrows)?;
    Ok((times, arrows))
}

/// The first line, the lines of the tasks and what stands behind them, or the number of the earliest line that is wrong.
fn graph(lines: &[&[u8]]) -> Result<(Vec<u16>, Vec<[u64; 2]>), u32> {
    let first = lines.first().and_then(|l| numbers(l)).ok_or(21u32)?;
    if first.len() != 1 || !(1..=256).contains(&first[0]) {
        return Err(21);
    }
    let n = first[0] as usize;
    let read = tasks(n, &lines[1..])?;
    for line in &lines[(n + 3).min(lines.len())..] {
        let blank = line.iter().all(|b| *b == b' ' || *b == b'\t');
        if !blank && line.first() != Some(&b'#') {
            return Err(22);
        }
    }
    Ok(read)
}

/// The lines of a text without their ends, LF or CR LF; the last may lack its end.
fn lines(text: &[u8]) -> Vec<&[u8]> {
    let mut lines: Vec<&[u8]> = text.split(|b| *b == b'\n').collect();
    if lines.last() == Some(&&b""[..]) {
        lines.pop();
    }
    let ended = if text.ends_with(b"\n") { lines.len() } else { lines.len().saturating_sub(1) };
    for line in &mut lines[..ended] {
        *line = line.strip_suffix(b"\r").unwrap_or(line);
    }
    lines
}

/// The lines of tasks 0 to n+1: each subtask's time, and every arrow with a predecessor as it was written.
fn tasks(n: usize, lines: &[&[u8]]) -> Result<(Vec<u16>, Vec<[u64; 2]>), u32> {
    let mut times: Vec<u16> = Vec::new();
    let mut arrows: Vec<[u64; 2]> = Vec::new();
    for i in 0..=n + 1 {
        let fields = lines.get(i).and_then(|l| numbers(l)).ok_or(22u32)?;
        if fields.len() < 3 || fields[0] != i as u64 || fields.len() as u64 - 3 != fields[2] {
            return Err(22);
        }
        let (time, preds) = (fields[1], &fields[3..]);
        if i == 0 || i == n + 1 {
            let proper = time == 0 && if i == 0 { preds.is_empty() } else { preds.iter().all(|p| *p <= n as u64) };
            if !proper {
                return Err(23);
            }
            continue;
        }
        if time > 65_535 {
            return Err(24);
        }
        times.push(time as u16);
        arrows.extend(preds.iter().filter(|p| **p != 0).map(|p| [*p, i as u64]));
    }
    Ok((times, arrows))
}

/// The numbers of a line, or nothing where it is misshapen.
fn numbers(line: &[u8]) -> Option<Vec<u64>> {
    line.split(|b| *b == b' ' || *b == b'\t')
        .filter(|f| !f.is_empty())
        .map(|f| {
            let digits = f.len() <= 8 && f.iter().all(u8::is_ascii_digit);
            digits.then(|| f.iter().fold(0, |v, b| v * 10 + u64::from(b - b'0')))
        })
        .collect()
}

/// The graph as a text, put at the front of the room; answers its length.
pub fn write_stg(times: &[u16], arrows: &[[u16; 2]], room: &mut [u8]) -> Reply<usize> {
    check(times, arrows)?;
    let text = written(times, arrows);
    room.get_mut(..text.len()).ok_or(bare(11))?.copy_from_slice(text.as_bytes());
    Ok(text.len())
}

/// The count of subtasks, then the lines of tasks 0 to n+1.
fn written(times: &[u16], arrows: &[[u16; 2]]) -> String {
    let n = times.len() as u16;
    let mut lines: Vec<Vec<u16>> = vec![vec![n], vec![0, 0, 0]];
    for (j, time) in (1..=n).zip(times) {
        let mut before: Vec<u16> = arrows.iter().filter(|a| a[1] == j).map(|a| a[0]).collect();
        before.sort_unstable();
        if before.is_empty() {
            before.push(0);
        }
        lines.push([vec![j, *time, before.len() as u16], before].concat());
    }
    let last: Vec<u16> = (1..=n).filter(|j| arrows.iter().all(|a| a[0] != *j)).collect();
    lines.push([vec![n + 1, 0, last.len() as u16], last].concat());
    let line = |numbers: &Vec<u16>| numbers.iter().map(u16::to_string).collect::<Vec<_>>().join(" ") + "\n";
    lines.iter().map(line).collect()
}

//! The reader, in one pass over the text.

use super::{bare, first, measure, Reply};

/// `Ok` holds the counts.
pub fn read_stg(text: &[u8], times: &mut [u16], arrows: &mut [[u16; 2]]) -> Reply<(usize, usize)> {
    times.fill(0);
    arrows.fill([0, 0]);
    let result = read(text, times, arrows);
    if result.is_err() {
        times.fill(0);
        arrows.fill([0, 0]);
    }
    result
}

fn read(text: &[u8], times: &mut [u16], arrows: &mut [[u16; 2]]) -> Reply<(usize, usize)> {
    if times.len() < 256 || arrows.len() < 2048 {
        return Err(bare(11));
    }
    if text.len() > 60_000 {
        return Err(bare(20));
    }
    let mut at = 0;
    let n = match field(text, &mut at) {
        Some(Ok(n)) if (1..=256).contains(&n) => n as usize,
        _ => return Err(bare(21)),
    };
    if !end_line(text, &mut at) {
        return Err(bare(21));
    }
    let mut count = 0;
    for i in 0..=n + 1 {
        task(text, &mut at, i, n, times, arrows, &mut count).map_err(bare)?;
    }
    rest(text, at).map_err(bare)?;
    if times[..n].contains(&0) {
        return Err(first(2, times, |t| *t == 0));
    }
    if count > 2048 {
        return Err(bare(3));
    }
    measure(&times[..n], &arrows[..count])?;
    Ok((n, count))
}

/// The line of task i.
#[inline(always)]
fn task(
    text: &[u8],
    at: &mut usize,
    i: usize,
    n: usize,
    times: &mut [u16],
    arrows: &mut [[u16; 2]],
    count: &mut usize,
) -> Result<(), u32> {
    let Some(Ok(index)) = field(text, at) else { return Err(22) };
    let Some(Ok(time)) = field(text, at) else { return Err(22) };
    let Some(Ok(preds)) = field(text, at) else { return Err(22) };
    if index != i as u32 {
        return Err(22);
    }
    let dummy = i == 0 || i == n + 1;
    let (mut k, mut wrong) = (0, false);
    while let Some(f) = field(text, at) {
        let Ok(p) = f else { return Err(22) };
        k += 1;
        if dummy {
            wrong |= i == 0 || p > n as u32;
        } else if p != 0 {
            if *count < 2048 {
                arrows[*count] = [p.min(65_535) as u16, i as u16];
            }
            *count += 1;
        }
    }
    if !end_line(text, at) || k != preds {
        return Err(22);
    }
    if dummy {
        return if time != 0 || wrong { Err(23) } else { Ok(()) };
    }
    times[i - 1] = u16::try_from(time).map_err(|_| 24u32)?;
    Ok(())
}

/// What may stand after the last task's line.
#[inline(always)]
fn rest(text: &[u8], mut at: usize) -> Result<(), u32> {
    while at < text.len() {
        if text[at] == b'#' {
            at = text[at..].iter().position(|b| *b == b'\n').map_or(text.len(), |k| at + k + 1);
        } else if field(text, &mut at).is_some() || !end_line(text, &mut at) {
            return Err(22);
        }
    }
    Ok(())
}

/// The next field of the line: none at its end, an error where it is misshapen.
#[inline]
fn field(text: &[u8], at: &mut usize) -> Option<Result<u32, ()>> {
    let mut i = *at;
    while i < text.len() && (text[i] == b' ' || text[i] == b'\t') {
        i += 1;
    }
    let start = i;
    let mut value = 0u32;
    while i < text.len() && text[i].is_ascii_digit() {
        value = value.wrapping_mul(10).wrapping_add((text[i] - b'0') as u32);
        i += 1;
    }
    *at = i;
    let over = i == text.len() || matches!(text[i], b' ' | b'\t' | b'\n') || text[i..].starts_with(b"\r\n");
    if !over || i - start > 8 {
        return Some(Err(()));
    }
    if i == start {
        None
    } else {
        Some(Ok(value))
    }
}

#[inline]
fn end_line(text: &[u8], at: &mut usize) -> bool {
    let mut i = *at;
    while i < text.len() && (text[i] == b' ' || text[i] == b'\t') {
        i += 1;
    }
    *at = text.len().min(i + 1);
    if text[i..].starts_with(b"\r\n") {
        *at = i + 2;
        return true;
    }
    i == text.len() || text[i] == b'\n'
}

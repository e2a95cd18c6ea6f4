//! The writer.

use super::{bare, measure, Reply};

/// `Ok` holds how many bytes were written.
pub fn write_stg(times: &[u16], arrows: &[[u16; 2]], room: &mut [u8]) -> Reply<usize> {
    let (_, _, graph) = measure(times, arrows)?;
    let n = times.len();
    // predecessors in one row, by counting; each comes in turn, so every subtask's are ascending
    let mut begins = vec![0u32; n + 2];
    for a in arrows {
        begins[a[1] as usize + 1] += 1;
    }
    for j in 1..begins.len() {
        begins[j] += begins[j - 1];
    }
    let mut at = begins.clone();
    let mut tails = vec![0u16; arrows.len()];
    for j in 1..=n {
        for k in graph.after(j) {
            let slot = &mut at[*k as usize];
            tails[*slot as usize] = j as u16;
            *slot += 1;
        }
    }
    let mut text = Vec::with_capacity(20 + 18 * n + 4 * arrows.len());
    number(&mut text, n as u16);
    text.extend_from_slice(b"\n0 0 0\n");
    for j in 1..=n {
        let before = &tails[begins[j] as usize..begins[j + 1] as usize];
        number(&mut text, j as u16);
        more(&mut text, times[j - 1]);
        if before.is_empty() {
            text.extend_from_slice(b" 1 0\n");
            continue;
        }
        more(&mut text, before.len() as u16);
        before.iter().for_each(|i| more(&mut text, *i));
        text.push(b'\n');
    }
    let last = || (1..=n).filter(|j| graph.after(*j).is_empty());
    number(&mut text, n as u16 + 1);
    more(&mut text, 0);
    more(&mut text, last().count() as u16);
    last().for_each(|j| more(&mut text, j as u16));
    text.push(b'\n');
    room.get_mut(..text.len()).ok_or(bare(11))?.copy_from_slice(&text);
    Ok(text.len())
}

#[inline]
fn more(text: &mut Vec<u8>, x: u16) {
    text.push(b' ');
    number(text, x);
}

#[inline]
fn number(text: &mut Vec<u8>, x: u16) {
    let digit = |unit: u16| b'0' + (x / unit % 10) as u8;
    match x {
        0..=9 => text.push(digit(1)),
        10..=99 => text.extend_from_slice(&[digit(10), digit(1)]),
        100..=999 => text.extend_from_slice(&[digit(100), digit(10), digit(1)]),
        1000..=9999 => text.extend_from_slice(&[digit(1000), digit(100), digit(10), digit(1)]),
        _ => text.extend_from_slice(&[digit(10000), digit(1000), digit(100), digit(10), digit(1)]),
    }
}

//! How deep each call reaches into the stack: it runs on a thread whose stack was painted before, and the paint that is
//! gone is counted.

use crate::families::Sample;
use crate::products;
use std::hint::black_box;
use zulagbemi::{nest_figures, Arrow, Entry, Graph, MAX_ARROWS, MAX_SUBTASKS, MAX_WRITTEN};

const PAINT: u8 = 0xA5;
const DEEP: usize = 256 * 1024;

/// Paints the stack below this frame, and answers where the paint begins and ends.
#[inline(never)]
fn paint() -> (usize, usize) {
    let mut room = [0u8; DEEP];
    for byte in &mut room {
        // SAFETY: the byte is borrowed from the room above. A volatile write is one that is not left out.
        unsafe { std::ptr::write_volatile(byte, PAINT) };
    }
    let begin = black_box(&room).as_ptr() as usize;
    (begin, begin + DEEP)
}

/// How far up the paint is gone. It must reach below the stack pointer to see it, so it has no large frame of its own.
#[inline(never)]
fn depth(begin: usize, end: usize) -> usize {
    // SAFETY: every address is one of this thread's own stack, mapped since it was painted; it lies below the stack
    // pointer, where nothing else of the thread writes meanwhile, and any byte may be read as a u8.
    let byte = |at: usize| unsafe { std::ptr::read_volatile(at as *const u8) };
    end - begin - (begin..end).take_while(|at| byte(*at) == PAINT).count()
}

#[inline(never)]
fn used(call: impl FnOnce()) -> usize {
    let (begin, end) = paint();
    call();
    depth(begin, end)
}

fn on_thread(call: impl FnOnce() + Send) -> usize {
    std::thread::scope(|s| {
        let thread = std::thread::Builder::new().stack_size(4 * DEEP).spawn_scoped(s, || used(call)).unwrap();
        thread.join().unwrap()
    })
}

/// The bytes of stack that one call uses.
pub fn deep<T>(call: impl FnOnce() -> T + Send) -> usize {
    on_thread(|| drop(black_box(call()))).saturating_sub(on_thread(|| {}))
}

/// Each call and the bytes of stack it uses on this graph; the plan check is asked for its list plan, where it has one.
pub fn depths(sample: &Sample) -> Vec<(&'static str, usize)> {
    let (g, order) = (sample.graph(), &sample.order);
    let mut plan = vec![Entry::default(); order.len()];
    let _ = g.list_plan(4, order, &mut plan);
    let fixed = plan.clone();
    let (mut times, mut arrows) = (vec![0u16; MAX_SUBTASKS], vec![Arrow::default(); MAX_ARROWS]);
    let mut room = vec![0u8; MAX_WRITTEN];
    vec![
        ("total work", deep(|| g.total_work())),
        ("longest path", deep(|| g.longest_path())),
        ("verdict", deep(|| g.judge(4, 1000))),
        ("list plan", deep(|| g.list_plan(4, order, &mut plan))),
        ("plan check", deep(|| g.check_plan(4, &fixed))),
        ("reader", deep(|| Graph::read_stg(&sample.text, &mut times, &mut arrows).is_ok())),
        ("writer", deep(|| g.write_stg(&mut room))),
    ]
}

/// The same for the joins of these two graphs, and for the figures of a nest that is eight openers deep.
pub fn product_depths(first: &Sample, second: &Sample) -> Vec<(&'static str, usize)> {
    let (mut times, mut arrows) = (vec![0u16; MAX_SUBTASKS], vec![Arrow::default(); MAX_ARROWS]);
    let (a, b) = (first.graph(), second.graph());
    let [_, (_, nest)] = products::nests();
    let nest = products::entries(&nest);
    vec![
        ("end to end", deep(|| a.end_to_end(b, &mut times, &mut arrows).is_ok())),
        ("side by side", deep(|| a.side_by_side(b, &mut times, &mut arrows).is_ok())),
        ("nest", deep(|| nest_figures(&nest))),
    ]
}

//! Draws docs/graham.svg: the list plan of graph G on 3 processors above that of G with every time shorter by 1, which is
//! longer. Both plans are the planner's own answers.
//!
//!     cargo run --example draw > ../../docs/graham.svg

use zulagbemi::{Arrow, Entry, Graph, Refusal};

const TIMES: [u16; 9] = [3, 2, 2, 2, 4, 4, 4, 4, 9];
const ARROWS: [Arrow; 5] = [Arrow::new(1, 9), Arrow::new(4, 5), Arrow::new(4, 6), Arrow::new(4, 7), Arrow::new(4, 8)];
const ORDER: [u16; 9] = [1, 2, 3, 4, 5, 6, 7, 8, 9];
const PROCESSORS: u32 = 3;

/// The fill of each subtask, light enough for dark letters.
const FILLS: [&str; 9] =
    ["#f6c177", "#b8d8ba", "#b8d8ba", "#8ecae6", "#cdb4db", "#cdb4db", "#cdb4db", "#cdb4db", "#f2a7a0"];

/// Lengths of the drawing, in its own units.
const LEFT: u32 = 128;
const UNIT: u32 = 44;
const ROW: u32 = 36;
const GAP: u32 = 6;
const PANEL: u32 = 196;
const LAST: u32 = 13;
const WIDE: u32 = LEFT + LAST * UNIT + 112;
const HIGH: u32 = 2 * PANEL + 12;

fn x(t: u32) -> u32 {
    LEFT + t * UNIT
}

fn text(at: (u32, u32), class: &str, words: &str) {
    println!(r#"  <text x="{}" y="{}" class="{class}">{words}</text>"#, at.0, at.1);
}

/// One plan: its title, a lane for each processor, a box for each subtask, where it ends, and the clock.
fn panel(top: u32, title: &str, times: &[u16]) -> Result<(), Refusal> {
    let mut plan = [Entry::default(); 9];
    let end = Graph::new(times, &ARROWS).list_plan(PROCESSORS, &ORDER, &mut plan)?;
    let lane = |processor: u32| top + 38 + (processor - 1) * (ROW + GAP);
    let below = lane(PROCESSORS) + ROW;

    text((24, top + 22), "title", title);
    for processor in 1..=PROCESSORS {
        text((24, lane(processor) + 23), "label", &format!("processor {processor}"));
        println!(r#"  <rect x="{LEFT}" y="{}" width="{}" height="{ROW}" class="lane"/>"#, lane(processor), end * UNIT);
    }
    for (j, entry) in plan.iter().enumerate() {
        let (at, wide) = (x(entry.start), u32::from(times[j]) * UNIT);
        let y = lane(u32::from(entry.processor));
        println!(r#"  <rect x="{at}" y="{y}" width="{wide}" height="{ROW}" class="box" fill="{}"/>"#, FILLS[j]);
        text((at + wide / 2, y + 24), "number", &(j + 1).to_string());
    }
    println!(r#"  <path d="M{} {}V{}" class="end"/>"#, x(end), lane(1) - 6, below + 6);
    text((x(end) + 8, lane(1) + 23), "ends", &format!("ends at {end}"));
    text((24, below + 22), "unit", "microseconds");
    for t in 0..=LAST {
        text((x(t), below + 22), "clock", &t.to_string());
    }
    Ok(())
}

const STYLE: &str = "  <style>
    text { font-family: sans-serif; font-size: 14px; fill: #24292f }
    .title { font-size: 16px; font-weight: bold }
    .number { font-size: 16px; font-weight: bold; text-anchor: middle }
    .clock { font-size: 12px; fill: #57606a; text-anchor: middle }
    .unit { font-size: 12px; fill: #57606a }
    .ends { font-weight: bold; fill: #b3261e }
    .lane { fill: #eef0f2 }
    .box { stroke: #24292f; stroke-width: 1.25 }
    .end { stroke: #b3261e; stroke-width: 2.5 }
  </style>";

fn main() -> Result<(), Refusal> {
    let size = format!(r#"viewBox="0 0 {WIDE} {HIGH}" width="{WIDE}" height="{HIGH}""#);
    println!(r#"<svg xmlns="http://www.w3.org/2000/svg" {size} role="img">"#);
    println!("  <title>Graph G on 3 processors: the list plan ends at 12; with every time shorter by 1, at 13</title>");
    println!("{STYLE}");
    // a card of its own, so that the drawing is the same on light and dark pages
    let card = format!(r#"width="{}" height="{}" rx="8""#, WIDE - 1, HIGH - 1);
    println!(r##"  <rect x="0.5" y="0.5" {card} fill="#ffffff" stroke="#d0d7de"/>"##);
    panel(8, "Graph G on 3 processors", &TIMES)?;
    panel(8 + PANEL, "The same with every time shorter by 1", &TIMES.map(|time| time - 1))?;
    println!("</svg>");
    Ok(())
}

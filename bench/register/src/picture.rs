//! The result as a picture: nanoseconds a call over the load, a panel for each work and setting.

use crate::speed::{Case, WORKS};
use std::fmt::Write;

const COLOURS: [&str; 6] = ["#c0392b", "#2c3e50", "#95a5a6", "#2980b9", "#27ae60", "#8e44ad"];
const LOADS: [f64; 4] = [0.5, 0.8, 0.9, 0.95];
const PANEL: (f64, f64) = (210.0, 150.0);
const STEP: (f64, f64) = (265.0, 205.0);

/// A number above `most` with one digit that counts.
fn top(most: f64) -> f64 {
    let unit = 10_f64.powf(most.log10().floor());
    (most / unit).ceil() * unit
}

fn panel(text: &mut String, cases: &[&Case], work: usize, x: f64, y: f64) {
    let (w, h) = PANEL;
    let shown = cases.iter().flat_map(|case| case.lines.iter().filter_map(|line| line.times[work]));
    let most = top(shown.fold(1.0, f64::max));
    let case = cases[0];
    let _ =
        writeln!(text, "<text x='{x}' y='{}' class='head'>{}, M {}, rule {}</text>", y - 8.0, WORKS[work], case.slots, case.rule);
    let _ = writeln!(text, "<rect x='{x}' y='{y}' width='{w}' height='{h}' fill='none' stroke='#999'/>");
    for part in [0.0, 0.5, 1.0] {
        let at = y + h * (1.0 - part);
        let _ = writeln!(text, "<text x='{}' y='{}' class='axis' text-anchor='end'>{}</text>", x - 5.0, at + 4.0, most * part);
        let _ = writeln!(text, "<line x1='{x}' y1='{at}' x2='{}' y2='{at}' stroke='#ddd'/>", x + w);
    }
    let across = |i: usize| x + 12.0 + (w - 24.0) * i as f64 / 3.0;
    for (i, load) in LOADS.iter().enumerate() {
        let _ = writeln!(text, "<text x='{}' y='{}' class='axis' text-anchor='middle'>{load}</text>", across(i), y + h + 15.0);
    }
    for t in (0..case.lines.len()).rev() {
        let place = |i: usize| cases[i].lines[t].times[work].map(|ns| (across(i), y + h * (1.0 - ns / most)));
        let points: Vec<(f64, f64)> = (0..cases.len()).filter_map(place).collect();
        let line: Vec<String> = points.iter().map(|(a, b)| format!("{a:.1},{b:.1}")).collect();
        let width = if t == 0 { 2.5 } else { 1.3 };
        let _ = writeln!(
            text,
            "<polyline points='{}' fill='none' stroke='{}' stroke-width='{width}'/>",
            line.join(" "),
            COLOURS[t % 6]
        );
        for (i, (a, b)) in points.iter().enumerate() {
            let inside = if cases[i].lines[t].grown { "#fff" } else { COLOURS[t % 6] };
            let _ = writeln!(text, "<circle cx='{a:.1}' cy='{b:.1}' r='3' fill='{inside}' stroke='{}'/>", COLOURS[t % 6]);
        }
    }
}

/// Find, store and remove; both sizes and both rules.
pub fn svg(cases: &[Case]) -> String {
    let settings = [(2_048, 0), (2_048, 1), (32_768, 0), (32_768, 1)];
    let (width, height) = (60.0 + 4.0 * STEP.0, 85.0 + 4.0 * STEP.1);
    let mut text =
        format!("<svg xmlns='http://www.w3.org/2000/svg' width='{width}' height='{height}' viewBox='0 0 {width} {height}'>\n");
    text.push_str("<style>text{font-family:sans-serif;fill:#222}.head{font-size:13px;font-weight:bold}.axis{font-size:11px}.key{font-size:13px}</style>\n");
    text.push_str("<rect width='100%' height='100%' fill='#fff'/>\n");
    for (t, line) in cases[0].lines.iter().enumerate() {
        let x = 60.0 + 160.0 * t as f64;
        let _ = writeln!(text, "<line x1='{x}' y1='26' x2='{}' y2='26' stroke='{}' stroke-width='3'/>", x + 22.0, COLOURS[t % 6]);
        let _ = writeln!(text, "<text x='{}' y='31' class='key'>{}</text>", x + 28.0, line.table);
    }
    let _ = writeln!(text, "<text x='60' y='{}' class='key'>Nanoseconds a call over the load. A hollow mark: the table holds its records in more than M slots.</text>", height - 14.0);
    for (column, (slots, rule)) in settings.iter().enumerate() {
        let here: Vec<&Case> = cases.iter().filter(|case| case.slots == *slots && case.rule == *rule).collect();
        for work in 0..4 {
            panel(&mut text, &here, work, 60.0 + STEP.0 * column as f64, 75.0 + STEP.1 * work as f64);
        }
    }
    text.push_str("</svg>\n");
    text
}

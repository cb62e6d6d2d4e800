//! The result as a table in Markdown.

use crate::probes::Probes;
use crate::speed::{Case, Line, WORKS};
use std::fmt::Write;

fn thousands(n: usize) -> String {
    if n < 1_000 {
        n.to_string()
    } else {
        format!("{},{:03}", n / 1_000, n % 1_000)
    }
}

fn time(line: &Line, work: usize) -> String {
    match line.times[work] {
        Some(t) => format!("{t:.1}{}", if line.grown { "\\*" } else { "" }),
        None => "-".into(),
    }
}

/// The built register's time in another's.
pub fn ratio(case: &Case, work: usize, other: &str) -> Option<f64> {
    let line = case.lines.iter().find(|line| line.table == other)?;
    Some(case.lines[0].times[work]? / line.times[work]?)
}

/// Times, each work and setting a row.
pub fn times(cases: &[Case]) -> String {
    let mut text = String::new();
    let names: Vec<&str> = cases[0].lines.iter().map(|line| line.table).collect();
    let _ = writeln!(text, "| Work | M | Rule | Load | {} | to plain Rust | to plain, masked |", names.join(" | "));
    let _ = writeln!(text, "|---|---|---|---|{}---|---|", "---|".repeat(names.len()));
    for (work, name) in WORKS.iter().enumerate() {
        for case in cases {
            let shown: Vec<String> = case.lines.iter().map(|line| time(line, work)).collect();
            let against = |other| ratio(case, work, other).map_or("-".into(), |r| format!("{r:.2}"));
            let (m, rule, load) = (thousands(case.slots), case.rule, case.load);
            let (plain, masked) = (against("plain Rust"), against("plain, masked"));
            let _ = writeln!(text, "| {name} | {m} | {rule} | {load} | {} | {plain} | {masked} |", shown.join(" | "));
        }
    }
    text
}

/// The least and greatest ratio of each work to each table that stands in M slots, and in how many cases it is above a bound.
pub fn targets(cases: &[Case]) -> String {
    let mut text = String::new();
    let _ =
        writeln!(text, "| Work | to plain Rust | above 1.10 | to plain, masked | above 1.10 | to tsl::robin_map | above 1.00 |");
    let _ = writeln!(text, "|---|---|---|---|---|---|---|");
    for (work, name) in WORKS.iter().enumerate() {
        let column = |other: &str, bound: f64| {
            let same = |case: &&Case| case.lines.iter().any(|line| line.table == other && !line.grown);
            let ratios: Vec<f64> = cases.iter().filter(same).filter_map(|case| ratio(case, work, other)).collect();
            format!("{} | {} of {}", span(&ratios), ratios.iter().filter(|r| **r >= bound + 0.005).count(), ratios.len())
        };
        let (plain, masked) = (column("plain Rust", 1.10), column("plain, masked", 1.10));
        let _ = writeln!(text, "| {name} | {plain} | {masked} | {} |", column("tsl::robin_map", 1.0));
    }
    text
}

fn span(ratios: &[f64]) -> String {
    let least = ratios.iter().copied().fold(f64::INFINITY, f64::min);
    let most = ratios.iter().copied().fold(0.0, f64::max);
    if ratios.is_empty() {
        "-".into()
    } else {
        format!("{least:.2} to {most:.2}")
    }
}

/// Average probes beside the expected ones.
pub fn probes(all: &[Probes]) -> String {
    let mut text = String::new();
    let _ = writeln!(text, "| M | Rule | Load | found | expected | absent by census | expected | absent by the walk | store, to the empty slot | expected |");
    let _ = writeln!(text, "|---|---|---|---|---|---|---|---|---|---|");
    for p in all {
        let m = thousands(p.slots);
        let _ = writeln!(
            text,
            "| {m} | {} | {} | {:.3} | {:.3} | {:.3} | {:.3} | {:.3} | {:.2} | {:.2} |",
            p.rule, p.load, p.found.0, p.found.1, p.absent.0, p.absent.1, p.walked, p.to_empty.0, p.to_empty.1
        );
    }
    text
}

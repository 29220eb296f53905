//! The table and what it comes to, as Markdown.
use crate::measure::{Aim, Bench, Line, Point};
use std::fmt::Write;

/// A number of readings: a power of ten, or with a comma before each three digits.
fn size(n: usize) -> String {
    let digits = n.to_string();
    if n >= 1000 && digits.trim_end_matches('0') == "1" {
        return format!("10^{}", digits.len() - 1);
    }
    let groups: Vec<_> = digits.as_bytes().rchunks(3).rev().map(|group| String::from_utf8_lossy(group)).collect();
    groups.join(",")
}
/// Whether a ratio is above what is aimed at, as the table rounds it.
fn above(aim: Aim, ratio: f64) -> bool {
    aim.most().is_some_and(|most| (ratio * 1000.0).round() > most * 1000.0)
}

fn machine() -> String {
    let info = std::fs::read_to_string("/proc/cpuinfo").unwrap_or_default();
    let value = |key: &str| info.lines().find(|line| line.starts_with(key)).and_then(|line| Some(line.split_once(':')?.1.trim()));
    let cores = info.lines().filter(|line| line.starts_with("processor")).count();
    format!("{}, {cores} cores", value("model name").unwrap_or("unknown"))
}

pub fn head(command: &str) -> String {
    format!("- Machine: {}\n- Compiler of the Rust: {}\n- Command: `{command}`\n", machine(), env!("COMPILER"))
}

fn row(line: &Line, sizes: &[usize]) -> String {
    let ns = |seconds: f64, n: usize| format!("{:.2}", seconds / n as f64 * 1e9);
    let mut row = format!("| {} |", line.name);
    for n in sizes {
        let Some(point) = line.points.iter().find(|point| point.n == *n) else {
            row += " | | |";
            continue;
        };
        let mark = if above(line.aim, point.ratio()) { "**" } else { "" };
        let (rust, ours) = (ns(point.rust.best, *n), ns(point.ours.best, *n));
        _ = write!(row, " {rust} | {ours} | {mark}{:.3}{mark} ({:.3}) |", point.ratio(), point.median_ratio());
    }
    let slope = |time: fn(&Point) -> f64| line.slope(time).map_or(String::new(), |slope| format!("{slope:.2}"));
    _ = writeln!(row, " {} | {} |", slope(|p| p.rust.best), slope(|p| p.ours.best));
    row
}

pub fn tables(bench: &Bench) -> String {
    let mut text = String::new();
    let mut section = "";
    for line in &bench.lines {
        if line.section != section {
            section = line.section;
            _ = write!(text, "\n### {section}\n\n| case |");
            for n in &bench.options.sizes {
                _ = write!(text, " {}: Rust | ours | ratio |", size(*n));
            }
            let columns = "---:|".repeat(3 * bench.options.sizes.len() + 2);
            _ = writeln!(text, " slope: Rust | ours |\n|---|{columns}");
        }
        text += &row(line, &bench.options.sizes);
    }
    text
}

pub fn summary(bench: &Bench) -> String {
    let mut text =
        String::from("\n### Summary\n\n| section | aim | ratios | above | largest | where |\n|---|---:|---:|---:|---:|---|\n");
    let mut sections: Vec<&str> = bench.lines.iter().map(|line| line.section).collect();
    sections.dedup();
    for section in sections {
        let lines = bench.lines.iter().filter(|line| line.section == section);
        let aimed: Vec<_> = lines.filter_map(|line| line.aim.most().map(|most| (line, most))).collect();
        let points = || aimed.iter().flat_map(|(line, most)| line.points.iter().map(move |point| (*line, *most, point)));
        let Some((line, most, worst)) = points().max_by(|a, b| a.2.ratio().total_cmp(&b.2.ratio())) else { continue };
        let (count, over) = (points().count(), points().filter(|(line, _, point)| above(line.aim, point.ratio())).count());
        let (ratio, at) = (worst.ratio(), size(worst.n));
        _ = writeln!(text, "| {section} | {most} | {count} | {over} | {ratio:.3} | {}, {at} |", line.name);
    }
    text += "\nAbove what is aimed at, with the median in brackets:\n\n";
    for line in &bench.lines {
        let over: Vec<_> = line.points.iter().filter(|point| above(line.aim, point.ratio())).collect();
        let ratios: Vec<_> =
            over.iter().map(|p| format!("{:.3} ({:.3}) at {}", p.ratio(), p.median_ratio(), size(p.n))).collect();
        if !over.is_empty() {
            _ = writeln!(text, "- {}: {}: {}", line.section, line.name, ratios.join(", "));
        }
    }
    if bench.lines.iter().all(|line| line.points.iter().all(|point| !above(line.aim, point.ratio()))) {
        text += "- nothing\n";
    }
    text += "\nBesides:\n\n";
    let slopes = bench.lines.iter().filter_map(|line| Some((line.slope(|p| p.ours.best)?, line)));
    if let Some((slope, line)) = slopes.max_by(|a, b| a.0.total_cmp(&b.0)) {
        let rust = line.slope(|p| p.rust.best).unwrap_or(f64::NAN);
        _ = writeln!(text, "- Largest slope of ours: {slope:.2} ({}: {}), the Rust's there {rust:.2}", line.section, line.name);
    }
    for line in &bench.lines {
        for (n, seconds) in &line.left_out {
            _ = writeln!(text, "- Left out: {}: {}, {}: about {seconds:.0} s a turn", line.section, line.name, size(*n));
        }
    }
    _ = writeln!(text, "- Answers compared: {}; that differ: {}", bench.compared, bench.differ);
    text
}

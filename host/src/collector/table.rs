//! The table, as text and as CSV.
use crate::number::{six_digits, Decimals};
use crate::options::Options;
use crate::progress::Progress;
use crate::report::{Report, Row};
use crate::text::{capped, count, WIDEST};
use crate::trace::Traces;
use std::borrow::Cow;
use std::fmt::Display;
use std::io::{self, IsTerminal, Write};

/// Columns of the text table: row, label, start, to, end, from, to, valid, figure, lowest, highest. A row's mark stands behind its figure.
const COLUMNS: usize = 11;
const LABEL: usize = 1;
const FIGURE: usize = 8;
const TO_THE_LEFT: [bool; COLUMNS] = [false, true, false, true, false, true, true, false, false, false, false];
const GAPS: [&str; COLUMNS] = ["", "  ", "  ", " ", " ", "  ", "  ", "  ", "  ", "  ", "  "];
type Cells<'a> = [&'a dyn Display; COLUMNS];
const MARK: &str = " !";

/// What the lines have in common, found before the first is written.
struct Layout {
    widths: [usize; COLUMNS],
    labels: bool,
    extremes: bool,
    /// Of the lowest and the highest readings.
    decimals: Decimals,
    missing: usize,
    /// Rows without a lowest and a highest reading.
    no_extremes: usize,
    /// Rows that are marked, from a reading that is not finite and from finite readings alone.
    from_readings: usize,
    from_finite: usize,
}
impl Layout {
    fn of(report: &Report<'_>, heading: &[&str; COLUMNS]) -> Self {
        let (mut largest, mut texts, mut numbers) = ([0; 4], [0; 3], [0; 3]);
        let (mut missing, mut no_extremes, mut from_readings, mut from_finite) = (0, 0, 0, 0);
        let decimals = report.extremes().fold(Decimals::These(0), Decimals::with);
        for (number, row) in report.rows().enumerate() {
            raise(&mut largest, [number, row.start, row.end, row.valid]);
            raise(&mut texts, [row.label, row.from, row.to].map(|text| text.chars().take(WIDEST).count()));
            raise(&mut numbers, shown(&row, decimals).map(|text| text.len()));
            missing += usize::from(row.figure.is_none());
            no_extremes += usize::from(row.lowest.or(row.highest).is_none());
            from_readings += usize::from(row.is_marked() && row.not_finite > 0);
            from_finite += usize::from(row.is_marked() && row.not_finite == 0);
        }
        let ([row, start, end, valid], [label, from, to]) = (largest.map(|number| number.to_string().len()), texts);
        let ([figure, lowest, highest], mut widths) = (numbers, heading.map(str::len));
        raise(&mut widths, [row, label, start, "to".len(), end, from, to, valid, figure, lowest, highest]);
        let (labels, extremes) = (report.has_labels(), report.has_extremes());
        Layout { widths, labels, extremes, decimals, missing, no_extremes, from_readings, from_finite }
    }
    fn marked(&self) -> usize {
        self.from_readings + self.from_finite
    }
    fn line(&self, out: &mut dyn Write, cells: Cells<'_>, mark: &str) -> io::Result<()> {
        // What stands behind a mark is under its heading whether the row is marked or not.
        let mark_width = if self.extremes && self.marked() > 0 { MARK.len() } else { 0 };
        for (column, (cell, width)) in cells.into_iter().zip(self.widths).enumerate() {
            match (TO_THE_LEFT.get(column), GAPS.get(column).copied().unwrap_or("")) {
                _ if column == LABEL && !self.labels => {}
                _ if column > FIGURE && !self.extremes => {}
                (Some(true), gap) => write!(out, "{gap}{cell:<width$}")?,
                (_, gap) => write!(out, "{gap}{cell:>width$}")?,
            }
            if column == FIGURE {
                write!(out, "{mark:<mark_width$}")?;
            }
        }
        writeln!(out)
    }
}
fn raise<const N: usize>(largest: &mut [usize; N], by: [usize; N]) {
    largest.iter_mut().zip(by).for_each(|(largest, by)| *largest = by.max(*largest));
}

/// The rows with their numbers, telling how far they have come unless the terminal shows the table itself.
fn numbered<'a>(report: &'a Report<'a>) -> impl Iterator<Item = (usize, Row<'a>)> {
    let mut progress = Progress::new(report.options.output.is_some() || !io::stdout().is_terminal());
    report.rows().enumerate().inspect(move |(number, _)| progress.step(|| format!("writing row {number}")))
}

/// Figure, lowest and highest reading.
fn shown(row: &Row<'_>, decimals: Decimals) -> [String; 3] {
    let or_missing = |text: Option<String>| text.unwrap_or("-".to_string());
    let reading = |reading: Option<f64>| or_missing(reading.map(|reading| decimals.text(reading)));
    [or_missing(row.figure.map(six_digits)), reading(row.lowest), reading(row.highest)]
}

/// The table for reading: what was asked, the rows, and what their signs mean.
pub fn text(report: &Report<'_>, out: &mut dyn Write) -> io::Result<()> {
    let heading = ["row", "label", "start", "", "end", "from", "to", "valid", report.options.figure(), "lowest", "highest"];
    let layout = Layout::of(report, &heading);
    writeln!(out, "{}", report.options.in_words())?;
    sources(report, out)?;
    let rows = count(report.len(), "row");
    writeln!(out, "windows  {}: {rows}; places count from 0, a window's end is not in it\n", report.windows())?;
    layout.line(out, heading.each_ref().map(|name| name as &dyn Display), "")?;
    for (number, row) in numbered(report) {
        let [label, from, to] = [row.label, row.from, row.to].map(capped);
        let [figure, lowest, highest] = shown(&row, layout.decimals);
        let cells: Cells = [&number, &label, &row.start, &"to", &row.end, &from, &to, &row.valid, &figure, &lowest, &highest];
        layout.line(out, cells, if row.is_marked() { MARK } else { "" })?;
    }
    legend(&layout, report.options, out)
}

fn sources(report: &Report<'_>, out: &mut dyn Write) -> io::Result<()> {
    let Traces { first, second, .. } = &report.traces;
    let Some(second) = second else { return writeln!(out, "trace    {}: {}", first.file, first.in_words()) };
    for (name, trace) in [("first", first), ("second", second)] {
        writeln!(out, "{name:<9}{}: {}", trace.file, trace.in_words())?;
    }
    writeln!(out, "pairs    {}; a pair is missing where either reading is", report.readings())?;
    let mut other = report.traces.at_other_times();
    if let Some((place, first, second)) = other.next() {
        let (places, first, second) = (count(1 + other.count(), "place"), capped(first), capped(second));
        writeln!(out, "times    differ at {places}, first at place {place}: {first} and {second}; the first trace's are shown")?;
    }
    Ok(())
}

fn legend(layout: &Layout, options: &Options, out: &mut dyn Write) -> io::Result<()> {
    let unit = options.unit();
    let (marked, no_extremes) = (layout.marked(), if layout.extremes { layout.no_extremes } else { 0 });
    if layout.missing + no_extremes + marked > 0 {
        writeln!(out)?;
    }
    if layout.missing > 0 {
        writeln!(out, "-  missing, in {}: too few {unit}s for the figure or for the minimum", count(layout.missing, "row"))?;
    }
    if no_extremes > 0 {
        let rows = count(no_extremes, "row");
        writeln!(out, "-  lowest and highest missing, in {rows}: no finite reading, or too few places for the minimum")?;
    }
    if marked > 0 {
        writeln!(out, "!  not finite, in {}:", count(marked, "row"))?;
        writeln!(out, "   {} with a {unit} that is not finite", count(layout.from_readings, "window"))?;
        let (finite, none) = (count(layout.from_finite, "window"), options.has_no_figure());
        writeln!(out, "   {finite} of finite {unit}s (an overflow, or no such figure, as {none})")?;
    }
    Ok(())
}

/// The table for programs: numbers in the fewest digits that give them back.
pub fn csv(report: &Report<'_>, out: &mut dyn Write) -> io::Result<()> {
    let extremes = report.has_extremes();
    writeln!(out, "row,label,start,end,from,to,valid,figure,mark{}", if extremes { ",lowest,highest" } else { "" })?;
    for (number, row) in numbered(report) {
        let Row { start, end, valid, .. } = row;
        let [label, from, to] = [row.label, row.from, row.to].map(field);
        let [figure, lowest, highest] =
            [row.figure, row.lowest, row.highest].map(|number| number.map_or("-".to_string(), |number| format!("{number:?}")));
        let mark = if row.is_marked() { "not finite" } else { "" };
        write!(out, "{number},{label},{start},{end},{from},{to},{valid},{figure},{mark}")?;
        if extremes {
            write!(out, ",{lowest},{highest}")?;
        }
        writeln!(out)?;
    }
    Ok(())
}

/// In quotes where it would be read as something else.
fn field(text: &str) -> Cow<'_, str> {
    if text.contains([',', '"', '\r', '\n']) || text.trim() != text {
        format!("\"{}\"", text.replace('"', "\"\"")).into()
    } else {
        text.into()
    }
}

#[cfg(test)]
mod tests {
    use super::*;

    #[test]
    fn fields_in_quotes() {
        assert_eq!(
            ["a\tb", "a,b", "a\"b", " a", "", "a\rb"].map(field),
            ["a\tb", "\"a,b\"", "\"a\"\"b\"", "\" a\"", "", "\"a\rb\""]
        );
    }
}

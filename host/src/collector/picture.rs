//! The picture: the figure and the trace over the same places, the figure above one trace and below two.
use crate::options::Asked;
use crate::report::{Report, Row, Rows};
use crate::scale::Scale;
use crate::text::{capped, count};
use crate::trace::Trace;
use moments::{PairFigure, Setting};
use std::fmt::Write;

const WIDTH: f64 = 1200.0;
/// More of it where the figure's panel has a second axis at its right.
const SECOND_AXIS: f64 = 56.0;
const HEIGHT: f64 = 660.0;
const LEFT: f64 = 84.0;
const RIGHT: f64 = 1180.0;
/// A plan with more rows is drawn as a line.
const MOST_BARS: usize = 400;
/// A line of more points shows none of them as a dot, but those that stand alone.
const MOST_DOTS: usize = 150;

const GRID: &str = "#e9e9e9";
const FRAME: &str = "#9a9a9a";
const MISSING: &str = "#f3dfae";
const MISSING_FIGURE: &str = "#8c8c8c";
const NOT_FINITE: &str = "#d01c1c";
/// The first trace and the second.
const TRACES: [&str; 2] = ["#1f5f99", "#2f9e6e"];
/// Widths of lines. Of two traces the first is the wide one: where they lie on one another, it shows beside the second.
const THIN: f64 = 1.3;
const WIDE: f64 = 2.6;
const FIGURE: &str = "#b4500f";
/// From the lowest to the highest reading of a window, and what is written of it.
const BAND: &str = "#d3e3f1";
const OF_BAND: &str = "#1f5f99";
/// Between a bar and 0.
pub const BELOW: &str = "#f8e6d8";

/// From where to where.
type Span = (f64, f64);

/// A part of the picture with its own vertical axis.
struct Panel {
    top: f64,
    bottom: f64,
    scale: Option<Scale>,
}
/// Where the two panels are from top to bottom.
const UPPER: (f64, f64) = (86.0, 312.0);
const LOWER: (f64, f64) = (350.0, 566.0);
impl Panel {
    fn new((top, bottom): (f64, f64), scale: Option<Scale>) -> Self {
        Panel { top, bottom, scale }
    }
    fn y(&self, value: f64) -> f64 {
        let fraction = self.scale.map_or(0.5, |scale| scale.fraction(value));
        self.bottom - fraction * (self.bottom - self.top)
    }
}

/// A picture of a report, complete and valid whatever the report holds.
pub fn svg(report: &Report<'_>) -> String {
    Picture::new(report).draw()
}

struct Picture<'a> {
    report: &'a Report<'a>,
    out: String,
    figure: Panel,
    /// The figure's panel by its axis of readings, at the right.
    swing: Panel,
    trace: Panel,
    /// What occurs, for the key.
    key: Vec<(Swatch, &'static str, String)>,
}
#[derive(Clone, Copy)]
enum Swatch {
    Line,
    Band,
    Mark,
}

impl<'a> Picture<'a> {
    fn new(report: &'a Report<'a>) -> Self {
        let readings = report.traces.all().flat_map(|trace| (0..trace.len()).filter_map(|place| trace.reading(place)));
        let (above, below) = if report.traces.second.is_some() { (LOWER, UPPER) } else { (UPPER, LOWER) };
        let figure = Panel::new(above, figure_scale(report));
        let swing = Panel::new(above, Scale::around(report.extremes(), false));
        let trace = Panel::new(below, Scale::around(readings, false));
        Picture { report, out: String::new(), figure, swing, trace, key: Vec::new() }
    }
    fn draw(mut self) -> String {
        let width = if self.swing.scale.is_some() { WIDTH + SECOND_AXIS } else { WIDTH };
        self.push(format_args!(
            "<svg xmlns=\"http://www.w3.org/2000/svg\" width=\"{width}\" height=\"{HEIGHT}\" viewBox=\"0 0 {width} {HEIGHT}\" \
             font-family=\"sans-serif\" font-size=\"13\" fill=\"#222222\">"
        ));
        self.rect((0.0, width), (0.0, HEIGHT), "#ffffff");
        self.titles();
        self.swings();
        self.places();
        self.values(|picture| &picture.figure, "no figure");
        self.values(|picture| &picture.trace, "no reading");
        self.figures();
        self.readings();
        self.frames();
        self.keys();
        self.out.push_str("</svg>\n");
        self.out
    }

    fn push(&mut self, element: std::fmt::Arguments<'_>) {
        // Writing to a string does not fail.
        let _ = writeln!(self.out, "{element}");
    }
    fn rect(&mut self, (from, to): (f64, f64), (top, bottom): (f64, f64), fill: &str) {
        let (width, height) = (to - from, bottom - top);
        self.push(format_args!(
            "<rect x=\"{from:.1}\" y=\"{top:.1}\" width=\"{width:.1}\" height=\"{height:.1}\" fill=\"{fill}\"/>"
        ));
    }
    fn line(&mut self, (x1, y1): (f64, f64), (x2, y2): (f64, f64), stroke: &str) {
        self.push(format_args!("<line x1=\"{x1:.1}\" y1=\"{y1:.1}\" x2=\"{x2:.1}\" y2=\"{y2:.1}\" stroke=\"{stroke}\"/>"));
    }
    fn drawn(&mut self, drawn: &Drawn, stroke: &str, width: f64) {
        for (path, width) in [(&drawn.line, width), (&drawn.dots, width + 2.7)] {
            if !path.is_empty() {
                self.push(format_args!(
                    "<path d=\"{path}\" fill=\"none\" stroke=\"{stroke}\" stroke-width=\"{width}\" stroke-linecap=\"round\" \
                     stroke-linejoin=\"round\"/>"
                ));
            }
        }
    }
    fn text(&mut self, (x, y): (f64, f64), style: &str, text: &str) {
        let text = escaped(text);
        self.push(format_args!("<text x=\"{x:.1}\" y=\"{y:.1}\" {style}>{text}</text>"));
    }
    /// Where a place starts.
    fn x(&self, place: f64) -> f64 {
        let places = self.report.traces.len().max(1) as f64;
        LEFT + (place / places).clamp(0.0, 1.0) * (RIGHT - LEFT)
    }
    fn across(&self, start: usize, end: usize) -> (f64, f64) {
        (self.x(start as f64), self.x(end as f64))
    }

    fn titles(&mut self) {
        let report = self.report;
        let windows = file_name(&report.windows());
        let mut title = report.options.in_words();
        if let Some(first) = title.get_mut(..1) {
            first.make_ascii_uppercase();
        }
        self.text((LEFT, 30.0), "font-size=\"19\" font-weight=\"bold\"", &title);
        let (rows, readings) = (count(report.len(), "row"), report.readings());
        let trace = match report.traces.second {
            None => format!("trace {}: {readings}", file_name(&report.traces.first.file)),
            Some(_) => readings,
        };
        self.text((LEFT, 51.0), "", &format!("{trace}; windows {windows}: {rows}"));
        let logarithmic = self.figure.scale.is_some_and(|scale| scale.logarithmic);
        let axis = match logarithmic {
            true if report.figures().any(|figure| figure == 0.0) => " (logarithmic axis; 0 stands at its base)",
            true => " (logarithmic axis)",
            false => "",
        };
        self.text((LEFT, self.figure.top - 8.0), "font-weight=\"bold\"", &format!("{}{axis}", report.options.figure()));
        self.text((LEFT, self.trace.top - 8.0), "font-weight=\"bold\"", "temperature");
        if report.traces.second.is_some() {
            let mut x = LEFT + 110.0;
            for (trace, color) in report.traces.all().zip(TRACES) {
                x = self.swatch((x, self.trace.top - 12.5), (Swatch::Line, color, &file_name(&trace.file)));
            }
        }
    }

    /// The horizontal axis, which both panels share.
    fn places(&mut self) {
        let places = self.report.traces.len();
        let scale = Scale::linear(0.0, places as f64);
        // A tick stands at the middle of a place, where its reading is.
        let ticks = scale.ticks(9).into_iter().filter(|(tick, _)| tick.fract() == 0.0).map(|(tick, _)| tick as usize);
        let ticks: Vec<usize> = ticks.filter(|tick| *tick < places).collect();
        let times = short_times(ticks.iter().map(|tick| self.report.traces.first.times.get(*tick)));
        let (_, base) = LOWER;
        for (tick, time) in ticks.iter().zip(times) {
            let x = self.x(*tick as f64 + 0.5);
            for (top, bottom) in [UPPER, LOWER] {
                self.line((x, top), (x, bottom), GRID);
            }
            self.line((x, base), (x, base + 5.0), FRAME);
            self.text((x, base + 19.0), "text-anchor=\"middle\"", &tick.to_string());
            self.text((x, base + 36.0), "text-anchor=\"middle\" fill=\"#555555\"", &time);
        }
        self.text((LEFT - 12.0, base + 19.0), "text-anchor=\"end\" fill=\"#555555\"", "place");
    }
    /// A panel's vertical axis.
    fn values(&mut self, panel: impl Fn(&Self) -> &Panel, if_none: &str) {
        let Panel { top, bottom, scale } = *panel(self);
        let Some(scale) = scale else {
            self.text(((LEFT + RIGHT) / 2.0, (top + bottom) / 2.0), "text-anchor=\"middle\" fill=\"#777777\"", if_none);
            return;
        };
        for (tick, text) in scale.ticks(6) {
            let y = panel(self).y(tick);
            self.line((LEFT, y), (RIGHT, y), if tick == 0.0 { "#bdbdbd" } else { GRID });
            self.text((LEFT - 8.0, y + 4.5), "text-anchor=\"end\"", &text);
        }
    }
    /// The axis of readings at the right of the figure's panel. It has no lines of its own across the panel.
    fn second_values(&mut self) {
        let Some(scale) = self.swing.scale else { return };
        for (tick, text) in scale.ticks(6) {
            let y = self.swing.y(tick);
            self.line((RIGHT, y), (RIGHT + 5.0, y), OF_BAND);
            self.text((RIGHT + 8.0, y + 4.5), &format!("fill=\"{OF_BAND}\""), &text);
        }
        let title = "shaded: lowest to highest reading of each window (right axis)";
        self.text((RIGHT, self.swing.top - 8.0), &format!("text-anchor=\"end\" fill=\"{OF_BAND}\""), title);
    }
    fn frames(&mut self) {
        for (top, bottom) in [UPPER, LOWER] {
            let (width, height) = (RIGHT - LEFT, bottom - top);
            self.push(format_args!(
                "<rect x=\"{LEFT}\" y=\"{top}\" width=\"{width}\" height=\"{height}\" fill=\"none\" stroke=\"{FRAME}\"/>"
            ));
        }
    }

    fn readings(&mut self) {
        let traces = &self.report.traces;
        let spans = |such: fn(Option<bool>) -> bool| {
            let places = (0..traces.len()).filter(move |place| such(traces.is_finite(*place)));
            stretches(places.map(|place| self.across(place, place + 1)), 1.0)
        };
        let missing = spans(|finite| finite.is_none());
        let not_finite = spans(|finite| finite == Some(false));
        let drawn: Vec<Drawn> = traces.all().map(|trace| self.drawn_trace(trace)).collect();
        let Panel { top, bottom, .. } = self.trace;
        for span in &missing {
            self.rect(*span, (top, bottom), MISSING);
        }
        for span in &not_finite {
            self.rect(*span, (top, bottom), "#fbdcdc");
        }
        let pair = traces.second.is_some();
        let widths = [if pair { WIDE } else { THIN }, THIN];
        drawn.iter().zip(TRACES).zip(widths).for_each(|((drawn, color), width)| self.drawn(drawn, color, width));
        for (from, to) in &not_finite {
            let half = ((to - from) / 2.0).max(1.0);
            let middle = (from + to) / 2.0;
            self.rect((middle - half, middle + half), (top, top + 9.0), NOT_FINITE);
        }
        let unit = self.report.options.unit();
        // Two traces have their key beside the panel's title.
        self.in_key(!pair && drawn.iter().any(Drawn::is_any), Swatch::Line, TRACES[0], unit);
        self.in_key(!missing.is_empty(), Swatch::Band, MISSING, &format!("{unit} missing"));
        self.in_key(!not_finite.is_empty(), Swatch::Mark, NOT_FINITE, &format!("{unit} not finite"));
    }
    fn drawn_trace(&self, trace: &Trace) -> Drawn {
        let points = (0..trace.len()).map(|place| {
            let reading = trace.reading(place).filter(|x| x.is_finite());
            (self.x(place as f64 + 0.5), reading.map(|x| self.trace.y(x)))
        });
        Drawn::new(points, trace.len() <= MOST_DOTS)
    }

    /// Whether each row is drawn over its window, and not as a point of a line.
    fn has_bars(&self) -> bool {
        matches!(self.report.rows, Rows::Plan(_)) && self.report.len() <= MOST_BARS
    }
    /// The band from the lowest to the highest reading of each window, with its axis.
    fn swings(&mut self) {
        if self.swing.scale.is_none() {
            return;
        }
        let mut text = "lowest to highest";
        if self.has_bars() {
            let (bands, apart) = self.bands();
            bands.into_iter().for_each(|(across, down)| self.rect(across, down, BAND));
            text = if apart { text } else { "lowest to highest, overlaps halved" };
        } else {
            let band = area(self.points().map(|(x, row)| (x, self.swing_of(&row))));
            self.push(format_args!("<path d=\"{band}\" fill=\"{BAND}\"/>"));
        }
        self.second_values();
        self.in_key(true, Swatch::Band, BAND, text);
    }
    /// Where a row's band starts and ends from top to bottom. Of one reading alone it is a line.
    fn swing_of(&self, row: &Row<'_>) -> Option<Span> {
        let (lowest, highest) = row.lowest.zip(row.highest)?;
        Some(widened((self.swing.y(highest), self.swing.y(lowest)), 1.5))
    }
    /// The bands across and down, and whether all windows lie apart. Neighbours that overlap have half of that each, so that every one
    /// shows: as starts and ends do not fall, no band then lies on another.
    fn bands(&self) -> (Vec<(Span, Span)>, bool) {
        let (mut bands, mut apart, mut from) = (Vec::new(), true, 0.0);
        let mut rows = self.report.rows().peekable();
        while let Some(row) = rows.next() {
            let next = rows.peek().map_or(row.end, |next| next.start);
            let to = (row.end as f64).min((row.end + next) as f64 / 2.0);
            let (left, right) = widened((self.x(f64::max(from, row.start as f64)), self.x(to)), 2.0);
            // Where there is room, a line between neighbours tells them apart.
            let right = if right - left > 5.0 { right - 1.0 } else { right };
            bands.extend(self.swing_of(&row).map(|down| ((left, right), down)));
            (from, apart) = (to, apart && next >= row.end);
        }
        (bands, apart)
    }

    fn figures(&mut self) {
        let bars = self.has_bars();
        if bars {
            self.bars();
        } else {
            let points = self.points().map(|(x, row)| (x, row.figure.filter(|x| x.is_finite()).map(|x| self.figure.y(x))));
            let drawn = Drawn::new(points, self.report.len() <= MOST_DOTS);
            self.drawn(&drawn, FIGURE, THIN);
            let at = match self.report.rows {
                Rows::Fixed(window) if !window.center => "figure, at its window's last place",
                _ => "figure, at its window's middle",
            };
            self.in_key(drawn.is_any(), Swatch::Line, FIGURE, at);
        }
        let spans = |such: fn(&Row<'_>) -> bool| {
            let rows = self.points().filter(move |(_, row)| such(row));
            stretches(rows.map(|(x, row)| if bars { self.across(row.start, row.end) } else { (x, x) }), 2.0)
        };
        let missing = spans(|row| row.figure.is_none());
        let not_finite = spans(|row| row.is_marked());
        let Panel { top, bottom, .. } = self.figure;
        for span in &missing {
            self.rect(*span, (bottom - 6.0, bottom), MISSING_FIGURE);
        }
        for span in &not_finite {
            self.rect(*span, (top, top + 9.0), NOT_FINITE);
        }
        self.in_key(!missing.is_empty(), Swatch::Mark, MISSING_FIGURE, "figure missing");
        self.in_key(!not_finite.is_empty(), Swatch::Mark, NOT_FINITE, "figure not finite");
    }
    /// The rows from left to right: a plan's stands at its window's middle, another at its own place.
    fn points(&self) -> impl Iterator<Item = (f64, Row<'_>)> + '_ {
        let fixed = matches!(self.report.rows, Rows::Fixed(_));
        self.report.rows().enumerate().map(move |(number, row)| {
            let place = if fixed { number as f64 + 0.5 } else { (row.start + row.end) as f64 / 2.0 };
            (self.x(place), row)
        })
    }
    fn bars(&mut self) {
        let report = self.report;
        let mut drawn = false;
        let mut end = 0;
        let apart = report.rows().all(|row| row.start >= std::mem::replace(&mut end, row.end));
        // Bars down to the axis would hide the band.
        let filled = self.swing.scale.is_none();
        for row in report.rows() {
            let Some(figure) = row.figure.filter(|figure| figure.is_finite()) else { continue };
            let (from, to) = widened(self.across(row.start, row.end), 2.0);
            let (y, zero) = (self.figure.y(figure), self.figure.y(0.0));
            if apart && filled {
                self.rect((from, to), (y.min(zero), y.max(zero)), BELOW);
            } else if !apart {
                // Bars that lie over one another are told apart by their ends.
                [from, to - 1.5].iter().for_each(|end| self.rect((*end, end + 1.5), (y - 4.5, y + 4.5), FIGURE));
            }
            self.rect((from, to), (y - 1.25, y + 1.25), FIGURE);
            drawn = true;
        }
        self.in_key(drawn, Swatch::Line, FIGURE, "figure, over its window");
    }

    fn in_key(&mut self, occurs: bool, swatch: Swatch, color: &'static str, text: &str) {
        if occurs {
            self.key.push((swatch, color, text.to_string()));
        }
    }
    fn keys(&mut self) {
        let (mut x, y) = (LEFT, HEIGHT - 22.0);
        for (swatch, color, text) in std::mem::take(&mut self.key) {
            x = self.swatch((x, y), (swatch, color, &text));
        }
    }
    /// A sign and what it means. It gives where the next one stands.
    fn swatch(&mut self, (x, y): (f64, f64), (swatch, color, text): (Swatch, &str, &str)) -> f64 {
        let width = match swatch {
            Swatch::Line => 24.0,
            Swatch::Band => 14.0,
            Swatch::Mark => 4.0,
        };
        let height = if matches!(swatch, Swatch::Line) { 2.5 } else { 12.0 };
        self.rect((x, x + width), (y - height / 2.0, y + height / 2.0), color);
        self.text((x + width + 6.0, y + 4.5), "", text);
        x + width + 30.0 + 6.6 * text.chars().count() as f64
    }
}

/// The figure's vertical axis; none if no figure is finite. A correlation lies from -1 to 1, but for what rounding may add: all of that
/// range is shown, and what is past it too.
fn figure_scale(report: &Report<'_>) -> Option<Scale> {
    let from_zero = Scale::around(report.figures(), true)?;
    Some(match &report.options.asked {
        Asked::Variance(..) => Scale::logarithmic(report.figures()).unwrap_or(from_zero),
        Asked::Pair(_, Setting { figure: PairFigure::PearsonCorr, .. }) => {
            Scale::around(report.figures().chain([-1.0, 1.0]), false).unwrap_or(from_zero)
        }
        _ => from_zero,
    })
}

/// The last part of a path, as far as it has room.
fn file_name(path: &str) -> String {
    capped(path.rsplit('/').next().unwrap_or(path)).into_owned()
}

/// Times to stand below ticks: of ISO times the dates, unless two neighbours then read the same.
fn short_times<'a>(times: impl Iterator<Item = &'a str>) -> Vec<String> {
    let times: Vec<&str> = times.collect();
    let cut =
        |most: usize| times.iter().map(move |time| if is_iso(time) { time.chars().take(most).collect() } else { brief(time) });
    let dates: Vec<String> = cut("2025-01-31".len()).collect();
    if dates.iter().zip(dates.iter().skip(1)).any(|(date, next)| date == next) {
        return cut("2025-01-31T12:30".len()).collect();
    }
    dates
}
fn is_iso(time: &str) -> bool {
    let mut bytes = time.bytes();
    let date = b"dddd-dd-dd"
        .iter()
        .all(|form| bytes.next().is_some_and(|byte| if *form == b'd' { byte.is_ascii_digit() } else { byte == *form }));
    date && matches!(bytes.next(), None | Some(b'T' | b't' | b' '))
}
fn brief(time: &str) -> String {
    let most = "2025-01-31T12:30".len();
    let mut brief: String = time.chars().take(most).collect();
    if time.chars().nth(most).is_some() {
        brief.push('…');
    }
    brief
}

/// Text for an XML element. What XML cannot have is left out.
fn escaped(text: &str) -> String {
    let mut escaped = String::new();
    for c in text.chars() {
        match c {
            '&' => escaped.push_str("&amp;"),
            '<' => escaped.push_str("&lt;"),
            '>' => escaped.push_str("&gt;"),
            '\t' | '\n' | '\r' => escaped.push(' '),
            '\u{0}'..='\u{1F}' | '\u{7F}'..='\u{9F}' | '\u{FFFE}' | '\u{FFFF}' => {}
            c => escaped.push(c),
        }
    }
    escaped
}

/// At least so wide, about its middle.
fn widened((from, to): (f64, f64), least: f64) -> (f64, f64) {
    let more = ((least - (to - from)) / 2.0).max(0.0);
    (from - more, to + more)
}

/// Spans that come in order, each at least so wide; those that touch are one, so that there are never more than fit side by side.
fn stretches(spans: impl Iterator<Item = (f64, f64)>, least: f64) -> Vec<(f64, f64)> {
    let mut all: Vec<(f64, f64)> = Vec::new();
    for span in spans {
        let (from, to) = widened(span, least);
        match all.last_mut() {
            Some(last) if from <= last.1 + 0.5 => last.1 = last.1.max(to),
            _ => all.push((from, to)),
        }
    }
    all
}

/// What a band has in one pixel's width.
#[derive(Clone, Copy)]
struct Slice {
    from: f64,
    to: f64,
    top: f64,
    bottom: f64,
}

/// The area between two lines as one path: along the upper one and back along the lower, anew behind a gap. Points come in order of x,
/// each with the y of both. A place without them breaks the area, if its pixel has no other.
fn area(points: impl Iterator<Item = (f64, Option<Span>)>) -> String {
    let (mut runs, mut gap) = (Vec::<Vec<Slice>>::new(), None);
    for (x, down) in points {
        let pixel = x.floor();
        let slice = runs.last_mut().and_then(|run| run.last_mut()).filter(|slice| slice.from.floor() == pixel);
        match (down, slice) {
            (None, Some(_)) => {}
            (None, None) => gap = gap.or(Some(pixel)),
            (Some((top, bottom)), Some(slice)) => {
                *slice = Slice { from: slice.from, to: x, top: top.min(slice.top), bottom: bottom.max(slice.bottom) };
            }
            (Some((top, bottom)), None) => {
                let breaks = gap.take().is_some_and(|gap| gap != pixel);
                let slice = Slice { from: x, to: x, top, bottom };
                match runs.last_mut().filter(|_| !breaks) {
                    Some(run) => run.push(slice),
                    None => runs.push(vec![slice]),
                }
            }
        }
    }
    runs.iter().map(|run| outline(run)).collect()
}
fn outline(run: &[Slice]) -> String {
    let (Some(first), Some(last)) = (run.first(), run.last()) else { return String::new() };
    // A run of one place would else have nothing to see.
    let (from, to) = widened((first.from, last.to), 2.0);
    let between = run.iter().skip(1).map(|slice| (slice.from, slice));
    let mut slices: Vec<(f64, f64, f64)> = std::iter::once((from, first))
        .chain(between)
        .chain([(to, last)])
        .map(|(x, slice)| (x, slice.top, slice.bottom))
        .collect();
    slices.dedup();
    let (top, bottom) = (slices.iter().map(|(x, top, _)| (x, top)), slices.iter().rev().map(|(x, _, bottom)| (x, bottom)));
    let mut path = String::new();
    for (number, (x, y)) in top.chain(bottom).enumerate() {
        let _ = write!(path, "{}{x:.1} {y:.1}", if number == 0 { "M" } else { "L" });
    }
    path + "Z"
}

/// The points of one pixel's width that a line cannot do without.
#[derive(Clone, Copy)]
struct Column {
    number: i64,
    first: (f64, f64),
    low: (f64, f64),
    high: (f64, f64),
    last: (f64, f64),
}
impl Column {
    fn new(number: i64, point: (f64, f64)) -> Self {
        Column { number, first: point, low: point, high: point, last: point }
    }
    fn add(&mut self, point: (f64, f64)) {
        self.low = if point.1 < self.low.1 { point } else { self.low };
        self.high = if point.1 > self.high.1 { point } else { self.high };
        self.last = point;
    }
    /// Draws on from the column before, or anew.
    fn draw(&self, path: &mut String, anew: bool) {
        let between = if self.low.0 <= self.high.0 { [self.low, self.high] } else { [self.high, self.low] };
        let mut points = vec![self.first, between[0], between[1], self.last];
        points.dedup();
        for (number, (x, y)) in points.into_iter().enumerate() {
            let _ = write!(path, "{}{x:.1} {y:.1}", if anew && number == 0 { "M" } else { "L" });
        }
    }
}

/// Points as paths: a line through them, and dots for those that it does not show.
#[derive(Default)]
struct Drawn {
    line: String,
    dots: String,
}
impl Drawn {
    /// The points come in order of x. A place without one breaks the line, if its pixel has no other.
    fn new(points: impl Iterator<Item = (f64, Option<f64>)>, all_dots: bool) -> Self {
        let (mut drawn, mut column, mut gap, mut anew) = (Drawn::default(), None::<Column>, None, true);
        for (x, y) in points {
            let number = x.floor() as i64;
            let same = column.is_some_and(|column| column.number == number);
            if let Some(y) = y.filter(|_| all_dots) {
                drawn.dot((x, y));
            }
            match (y, &mut column) {
                (None, _) if same => {}
                (None, _) => gap = gap.or(Some(number)),
                (Some(y), Some(column)) if same => column.add((x, y)),
                (Some(y), _) => {
                    let breaks = gap.take().is_some_and(|gap| gap != number);
                    if let Some(column) = column.replace(Column::new(number, (x, y))) {
                        drawn.column(&column, anew, breaks);
                        anew = breaks;
                    }
                }
            }
        }
        if let Some(column) = column {
            drawn.column(&column, anew, true);
        }
        drawn
    }
    fn column(&mut self, column: &Column, anew: bool, breaks: bool) {
        column.draw(&mut self.line, anew);
        if anew && breaks {
            self.dot(column.last);
        }
    }
    /// Its ends are round.
    fn dot(&mut self, (x, y): (f64, f64)) {
        let _ = write!(self.dots, "M{x:.1} {y:.1}h0");
    }
    fn is_any(&self) -> bool {
        !self.line.is_empty()
    }
}

#[cfg(test)]
mod tests {
    use super::*;

    #[test]
    fn lines_break_at_gaps_and_keep_extremes() {
        let drawn = |points: &[(f64, Option<f64>)]| {
            let Drawn { line, dots } = Drawn::new(points.iter().copied(), false);
            (line, dots)
        };
        let few = [(0.5, Some(1.0)), (1.5, Some(2.0)), (2.5, None), (3.5, Some(3.0)), (4.5, None)];
        assert_eq!(drawn(&few), ("M0.5 1.0L1.5 2.0M3.5 3.0".into(), "M3.5 3.0h0".into()));
        assert_eq!(Drawn::new(few.into_iter(), true).dots, "M0.5 1.0h0M1.5 2.0h0M3.5 3.0h0M3.5 3.0h0");
        let many = [(0.1, Some(5.0)), (0.2, Some(9.0)), (0.3, None), (0.4, Some(1.0)), (0.5, Some(4.0)), (1.2, Some(4.0))];
        assert_eq!(drawn(&many), ("M0.1 5.0L0.2 9.0L0.4 1.0L0.5 4.0L1.2 4.0".into(), String::new()));
        let long = [(0.1, Some(5.0)), (1.1, None), (2.1, None), (2.2, Some(5.0)), (3.1, Some(5.0))];
        assert_eq!(drawn(&long), ("M0.1 5.0M2.2 5.0L3.1 5.0".into(), "M0.1 5.0h0".into()));
        let inside = [(0.1, Some(5.0)), (1.1, None), (1.2, Some(5.0)), (2.1, Some(5.0))];
        assert_eq!(drawn(&inside).0, "M0.1 5.0L1.2 5.0L2.1 5.0");
        assert_eq!(drawn(&[(0.1, None)]), (String::new(), String::new()));
    }

    #[test]
    fn areas_break_at_gaps_and_keep_extremes() {
        let drawn = |points: &[(f64, Option<(f64, f64)>)]| area(points.iter().copied());
        let few = [(0.5, Some((1.0, 3.0))), (4.5, Some((2.0, 5.0))), (6.5, None), (8.5, Some((3.0, 4.0))), (9.5, None)];
        assert_eq!(drawn(&few), "M0.5 1.0L4.5 2.0L4.5 5.0L0.5 3.0ZM7.5 3.0L9.5 3.0L9.5 4.0L7.5 4.0Z");
        let many =
            [(0.1, Some((5.0, 6.0))), (0.2, Some((4.0, 5.0))), (0.3, None), (0.4, Some((5.0, 9.0))), (7.2, Some((1.0, 2.0)))];
        assert_eq!(drawn(&many), "M0.1 4.0L7.2 1.0L7.2 2.0L0.1 9.0Z");
        let inside = [(0.1, Some((1.0, 2.0))), (3.1, None), (3.2, Some((1.0, 2.0))), (3.6, Some((1.0, 2.0)))];
        assert_eq!(drawn(&inside), "M0.1 1.0L3.2 1.0L3.6 1.0L3.6 2.0L3.2 2.0L0.1 2.0Z");
        assert_eq!(drawn(&[(0.1, None)]), "");
    }

    #[test]
    fn stretches_that_touch_are_one() {
        let spans = [(0.0, 0.1), (0.1, 0.2), (5.0, 9.0), (6.0, 7.0)];
        assert_eq!(stretches(spans.into_iter(), 1.0), [(-0.45, 0.65), (5.0, 9.0)]);
    }

    #[test]
    fn texts_for_xml() {
        assert_eq!(escaped("a<b>&\u{0}\u{1b}\u{FFFF}\tc\"'é"), "a&lt;b&gt;&amp; c\"'é");
    }

    #[test]
    fn times_below_ticks() {
        let short = |times: &[&str]| short_times(times.iter().copied());
        assert_eq!(short(&["2025-01-01T00:00", "2025-01-02T00:00:00Z"]), ["2025-01-01", "2025-01-02"]);
        assert_eq!(short(&["2025-01-01 00:00:00", "2025-01-01 06:00:00"]), ["2025-01-01 00:00", "2025-01-01 06:00"]);
        assert_eq!(short(&["1/2/2025 3:04", "", "2025-01-31x2345678901"]), ["1/2/2025 3:04", "", "2025-01-31x23456…"]);
    }
}

//! The whole of a report without files: nothing that is read makes it panic or its picture invalid.
use crate::options::{self, Options, Request};
use crate::report::Report;
use crate::{picture, table};
use std::ffi::OsString;

#[path = "../../tests/support/xml.rs"]
mod xml;

/// Numbers that are the same in every run.
struct Numbers(u64);
impl Numbers {
    fn next(&mut self) -> u64 {
        self.0 = self.0.wrapping_mul(6364136223846793005).wrapping_add(1442695040888963407);
        self.0 >> 33
    }
    fn below(&mut self, limit: usize) -> usize {
        (self.next() % limit.max(1) as u64) as usize
    }
    fn one<T: Copy>(&mut self, of: &[T]) -> T {
        of[self.below(of.len())]
    }
}

fn options(line: &str) -> Options {
    match options::parse(line.split_whitespace().map(OsString::from)) {
        Ok(Request::Report(options)) => options,
        other => panic!("{line}: {other:?}"),
    }
}

/// The text, the CSV and the picture of a report, or why there is none.
fn make(options: &Options, trace: &[u8], plan: &[u8]) -> Result<[String; 3], String> {
    make_of_two(options, trace, b"", plan)
}
/// The same where the figure may be of two traces.
fn make_of_two(options: &Options, first: &[u8], second: &[u8], mut plan: &[u8]) -> Result<[String; 3], String> {
    let report = Report::make(options, &mut [Box::new(first), Box::new(second)], Some(&mut plan))?;
    let (mut text, mut csv) = (Vec::new(), Vec::new());
    table::text(&report, &mut text).expect("text");
    table::csv(&report, &mut csv).expect("csv");
    let svg = picture::svg(&report);
    assert_eq!(xml::wrong_with(&svg), None, "{}", String::from_utf8_lossy(&text));
    let csv = String::from_utf8(csv).expect("CSV is UTF-8");
    assert_eq!(csv.lines().count(), report.len() + 1);
    Ok([String::from_utf8(text).expect("text is UTF-8"), csv, svg])
}

const SETTINGS: [&str; 17] = [
    "t --plan p",
    "t --plan p --ddof 0 --minimum 3",
    "t --plan p --figure skewness",
    "t --plan p --figure kurtosis --unbiased --pearson",
    "t --window 0",
    "t --window 1",
    "t --window 3 --figure skewness --unbiased",
    "t --window 4 --centered --figure kurtosis",
    "t --window 18446744073709551615 --centered --ddof 0",
    "t --window 2 --weights 1,0.5",
    "t --window 2 --weights 2,-1 --minimum 0",
    "t --window 1 --weights -1e308 --minimum 18446744073709551615",
    "t u --plan p --figure covariance",
    "t u --plan p --figure correlation --minimum 2",
    "t u --window 0 --figure correlation --minimum 0",
    "t u --window 3 --figure covariance --ddof 0",
    "t u --window 4 --centered --figure correlation",
];

/// Bytes that look a little like a file.
fn bytes(numbers: &mut Numbers, words: &[&[u8]]) -> Vec<u8> {
    let mut bytes = Vec::new();
    for _ in 0..numbers.below(40) {
        match numbers.below(30) {
            0 => bytes.push(numbers.below(256) as u8),
            _ => bytes.extend(numbers.one(words)),
        }
    }
    bytes
}

#[test]
fn any_bytes_are_read_or_refused() {
    let words: [&[u8]; 22] = [
        b",",
        b",",
        b"\n",
        b"\n",
        b"\r\n",
        b"\"",
        b"\"\"",
        b" ",
        b"0",
        b"1",
        b"7",
        b"-",
        b".5",
        b"e3",
        b"NA",
        b"nan",
        b"inf",
        b"time,temperature\n",
        b"label,start,end\n",
        b"\xEF\xBB\xBF",
        b"\xC3\xA9",
        b"4294967295",
    ];
    let (mut numbers, mut made) = (Numbers(1), [0; 2]);
    for run in 0..8000 {
        let options = options(numbers.one(&SETTINGS));
        let [first, other, plan] = [(); 3].map(|()| bytes(&mut numbers, &words));
        let second = if run % 2 == 0 { &first } else { &other };
        match make_of_two(&options, &first, second, &plan) {
            Ok(_) => made[options.asked.sources().len() - 1] += 1,
            Err(message) => assert!(message.contains(": "), "run {run}: {message}"),
        }
    }
    assert!(made[0] > 100 && made[1] > 20, "{made:?} were read, of one trace and of two");
}

#[test]
fn any_readings_and_rows_are_shown() {
    let readings = [
        "",
        "NA",
        "nan",
        "inf",
        "-inf",
        "0",
        "-0",
        "1",
        "-18.25",
        "5e-324",
        "1e-300",
        "1e308",
        "-1e308",
        "1.7976931348623157e308",
    ];
    let times = ["", "2025-01-01T00:00", "2025-01-02", "<&>\"", "\u{1b}[2J", "\u{FFFF}", "é".repeat(90).leak()];
    let mut numbers = Numbers(2);
    for run in 0..1500 {
        let few = 1 + numbers.below(readings.len());
        let from = numbers.below(readings.len());
        let kinds: Vec<&str> = readings.iter().cycle().skip(from).take(few).copied().collect();
        let lines = numbers.one(&[0, 1, 2, 7, 40, 600, 3000]);
        let lines = if run % 20 == 0 { lines } else { lines.min(40) };
        let [first, second] = [(); 2].map(|()| {
            let line = |_| format!("\"{}\",{}\n", numbers.one(&times).replace('"', "\"\""), numbers.one(&kinds));
            (0..lines).map(line).collect::<String>()
        });
        let (mut plan, mut start, mut end) = (String::new(), 0, 0);
        let rows = if lines > 500 { numbers.below(900) } else { numbers.below(12) };
        for _ in 0..rows {
            start += numbers.below(3).min(lines - start);
            end = (start + numbers.below(9)).max(end).min(lines).max(start);
            plan += &format!("\"{}\",{start},{end}\n", numbers.one(&times).replace('"', "\"\""));
        }
        let line = numbers.one(&SETTINGS);
        let made = make_of_two(&options(line), first.as_bytes(), second.as_bytes(), plan.as_bytes());
        let refused = line.contains("--weights") && made.as_ref().is_err_and(|message| message.contains("weights were given"));
        assert!(made.is_ok() || refused, "run {run}, {line}: {:?}\n{first}\n{second}\n{plan}", made.err());
    }
}

#[test]
fn pictures_of_hardly_anything() {
    for (trace, plan) in [("", ""), ("a,1\n", ""), ("a,\n", "0,1\n"), ("a,nan\n", "0,0\n1,1\n"), ("a,1\nb,1\n", "0,2\n")] {
        for setting in ["t --plan p", "t --window 1", "t --window 0 --minimum 0", "t u --plan p --figure correlation"] {
            let made = make_of_two(&options(setting), trace.as_bytes(), trace.as_bytes(), plan.as_bytes());
            assert!(made.is_ok(), "{trace:?} {plan:?} {setting}: {:?}", made.err());
        }
    }
}

#[test]
fn marks_say_where_they_come_from() {
    let trace = b"a,1e200\nb,-1e200\nc,nan\nd,2\ne,\nf,1\n";
    let [text, csv, svg] = make(&options("t --plan p --ddof 0"), trace, b"0,2\n1,3\n3,4\n4,5\n5,6\n").expect("a report");
    assert!(text.contains("-  missing, in 1 row:") && text.contains("!  not finite, in 2 rows:"), "{text}");
    assert!(text.contains("   1 window with a reading that is not finite\n   1 window of finite readings"), "{text}");
    assert_eq!(csv.matches(",not finite,").count(), 2, "{csv}");
    assert!(csv.contains("\n3,,4,5,e,e,0,-,,-,-\n"), "{csv}");
    assert!(svg.contains("figure not finite") && svg.contains("figure missing"), "{svg}");
    let [text, ..] = make(&options("t --plan p --ddof 0"), b"a,1\nb,2\n", b"0,2\n").expect("a report");
    assert!(!text.contains("missing, in") && !text.contains('!'), "{text}");
}

#[test]
fn bars_that_lie_apart_stand_on_the_axis() {
    let bars = |figure: &str, plan: &str| {
        let options = options(&format!("t --plan p {figure}"));
        let [_, _, svg] = make(&options, b"a,1\nb,2\nc,4\nd,9\n", plan.as_bytes()).expect("a report");
        svg.matches(picture::BELOW).count()
    };
    let kurtosis = "--figure kurtosis";
    assert_eq!([bars(kurtosis, "0,2\n2,4\n"), bars(kurtosis, "0,2\n1,4\n"), bars(kurtosis, "")], [2, 0, 0]);
    // with a band behind them there is nothing to hide it
    assert_eq!([bars("--ddof 0", "0,2\n2,4\n"), bars("--ddof 0", "0,2\n1,4\n")], [0, 0]);
}

/// The numbers after these attributes, of each element that is drawn in a colour.
fn drawn<const N: usize>(svg: &str, element: &str, color: &str, attributes: [&str; N]) -> Vec<[f64; N]> {
    let elements = svg.lines().filter(|line| line.starts_with(&format!("<{element} ")) && line.contains(color));
    let number = |line: &str, name: &str| {
        let (_, rest) = line.split_once(&format!(" {name}=\"")).expect("the attribute");
        rest.split_once('"').expect("its end").0.parse().expect("a number")
    };
    elements.map(|line| attributes.map(|name| number(line, name))).collect()
}
/// Where a text stands.
fn text_at(svg: &str, text: &str) -> (f64, f64) {
    let line = svg.lines().find(|line| line.ends_with(&format!("{text}</text>"))).expect(text);
    let [x, y] = drawn(line, "text", "", ["x", "y"])[0];
    (x, y)
}
/// Where a value stands on its panel's axis.
fn tick_at(svg: &str, value: &str) -> f64 {
    text_at(svg, &format!("text-anchor=\"end\">{value}")).1 - 4.5
}
/// The points of the first path in a colour.
fn path(svg: &str, color: &str) -> Vec<(f64, f64)> {
    let line = svg.lines().find(|line| line.starts_with("<path ") && line.contains(color)).expect("a path");
    let (_, rest) = line.split_once("d=\"").expect("its points");
    let numbers: Vec<f64> = rest
        .split_once('"')
        .expect("their end")
        .0
        .split(|c: char| !(c.is_ascii_digit() || ".-".contains(c)))
        .filter(|text| !text.is_empty())
        .map(|text| text.parse().expect("a number"))
        .collect();
    numbers.chunks(2).map(|pair| (pair[0], pair[1])).collect()
}
const ACROSS: (f64, f64) = (84.0, 1180.0);
const FIGURES: (f64, f64) = (86.0, 312.0);
const READINGS: (f64, f64) = (350.0, 566.0);
/// Four places share the width.
fn at(place: f64) -> f64 {
    ACROSS.0 + (ACROSS.1 - ACROSS.0) * place / 4.0
}
fn near(a: f64, b: f64) -> bool {
    (a - b).abs() < 0.11
}

#[test]
fn bars_bands_and_marks_stand_where_their_windows_do() {
    let [.., svg] = make(&options("t --plan p --ddof 0"), b"a,0\nb,10\nc,\nd,nan\n", b"0,2\n2,3\n3,4\n").expect("a report");
    // the bar of row 0, its key behind it: over its two places, high above 0
    let bars = drawn(&svg, "rect", "#b4500f", ["x", "width", "y"]);
    assert!(near(bars[0][0], at(0.0)) && near(bars[0][1], at(2.0) - at(0.0)), "{bars:?}");
    assert!(bars[0][2] > FIGURES.0 && bars[0][2] < (FIGURES.0 + FIGURES.1) / 2.0, "{bars:?}");
    // row 1 is missing: at the base of its own place alone, and so is its reading over the whole panel
    let missing = drawn(&svg, "rect", "#8c8c8c", ["x", "width", "y", "height"]);
    assert!(near(missing[0][0], at(2.0)) && near(missing[0][0] + missing[0][1], at(3.0)), "{missing:?}");
    assert!(near(missing[0][2] + missing[0][3], FIGURES.1) && missing.len() == 2, "one and its key: {missing:?}");
    let gap = drawn(&svg, "rect", "#f3dfae", ["x", "width", "y", "height"]);
    assert!(near(gap[0][0], at(2.0)) && near(gap[0][1], at(1.0) - at(0.0)), "{gap:?}");
    assert!(near(gap[0][2], READINGS.0) && near(gap[0][3], READINGS.1 - READINGS.0) && gap.len() == 2, "{gap:?}");
    // row 2 and its reading are not finite: at the top of either panel, with a key for both
    let marks = drawn(&svg, "rect", "#d01c1c", ["x", "width", "y"]);
    assert_eq!(marks.len(), 4);
    for (mark, top) in marks.iter().zip([FIGURES.0, READINGS.0]) {
        assert!(near(mark[0], at(3.0)) && near(mark[0] + mark[1], at(4.0)) && near(mark[2], top), "{marks:?}");
    }
    // readings stand at the middle of their places, the higher one above
    let readings = path(&svg, "#1f5f99");
    assert!(near(readings[0].0, at(0.5)) && near(readings[1].0, at(1.5)), "{readings:?}");
    assert!(readings[1].1 < readings[0].1 && readings.iter().all(|(_, y)| (READINGS.0..=READINGS.1).contains(y)), "{readings:?}");
}

/// Both traces above, the figure below, on the axis of a correlation.
#[test]
fn two_traces_stand_above_their_figure() {
    let (first, second) = (b"a,0\nb,10\nc,5\nd,\n", b"a,1\nb,21\nc,nan\nd,4\n");
    let two = |options: &Options, plan: &[u8]| make_of_two(options, first, second, plan).expect("a report");
    let [text, csv, svg] = two(&options("first.csv second.csv --figure correlation --plan p"), b"0,2\n2,3\n3,4\n");
    assert!(text.starts_with("correlation, minimum 1\nfirst    first.csv: 4 readings, 1 missing, 0 not finite\n"), "{text}");
    assert!(
        text.contains("\nsecond   second.csv: 4 readings, 0 missing, 1 not finite\npairs    4 pairs, 1 missing, 1 not finite;"),
        "{text}"
    );
    assert!(
        text.contains("valid  correlation\n") && text.contains("\n  2      3 to   4  d     d       0            -\n"),
        "{text}"
    );
    assert!(csv.contains("\n0,,0,2,a,b,2,1.0,\n1,,2,3,c,c,1,NaN,not finite\n2,,3,4,d,d,0,-,\n"), "{csv}");
    // the panels have changed places
    let (traces, figures) = (FIGURES, READINGS);
    for (color, points) in [("#1f5f99", [0.5, 1.5, 2.5].as_slice()), ("#2f9e6e", &[0.5, 1.5, 3.5])] {
        let readings = path(&svg, color);
        assert!(
            readings.len() == points.len() && readings.iter().zip(points).all(|((x, _), place)| near(*x, at(*place))),
            "{readings:?}"
        );
        assert!(readings.iter().all(|(_, y)| (traces.0..=traces.1).contains(y)), "{readings:?}");
    }
    // the second's are higher on the one axis, and each trace is named beside its colour
    let [lower, upper] = ["#1f5f99", "#2f9e6e"].map(|color| path(&svg, color)[1].1);
    assert!(upper < lower, "{upper} {lower}");
    for (color, name) in [("#1f5f99", "first.csv"), ("#2f9e6e", "second.csv")] {
        let swatch = drawn(&svg, "rect", color, ["x", "width", "y"])[0];
        let (x, y) = text_at(&svg, name);
        assert!(
            x > swatch[0] + swatch[1] && x < swatch[0] + swatch[1] + 10.0 && (y - swatch[2]).abs() < 8.0 && y < traces.0,
            "{name}"
        );
    }
    let axis = ["-1.0", "-0.5", "0.5", "1.0"].map(|tick| tick_at(&svg, tick));
    assert!(axis.windows(2).all(|pair| pair[0] > pair[1]) && axis[0] < figures.1 && axis[3] > figures.0, "{axis:?}");
    let bars = drawn(&svg, "rect", "#b4500f", ["x", "width", "y", "height"]);
    assert!(near(bars[0][0], at(0.0)) && near(bars[0][1], at(2.0) - at(0.0)), "{bars:?}");
    assert!(near(bars[0][2] + bars[0][3] / 2.0, axis[3]), "a correlation of 1 stands at 1: {bars:?} {axis:?}");
    // a pair is missing where either reading is, and its row at the base of the figure's panel
    let gap = drawn(&svg, "rect", "#f3dfae", ["x", "width", "y", "height"]);
    assert!(
        near(gap[0][0], at(3.0)) && near(gap[0][2], traces.0) && near(gap[0][3], traces.1 - traces.0) && gap.len() == 2,
        "{gap:?}"
    );
    let missing = drawn(&svg, "rect", "#8c8c8c", ["x", "width", "y", "height"]);
    assert!(near(missing[0][0], at(3.0)) && near(missing[0][2] + missing[0][3], figures.1), "{missing:?}");
    let marks = drawn(&svg, "rect", "#d01c1c", ["x", "y"]);
    assert!(near(marks[0][0], at(2.0)) && near(marks[0][1], figures.0), "{marks:?}");
    assert!(near(marks[1][0], at(2.0)) && near(marks[1][1], traces.0), "{marks:?}");
    for text in ["pair missing", "pair not finite", "figure missing", "figure not finite"] {
        assert!(svg.contains(&format!(">{text}<")), "{text}");
    }
}

/// Rounding takes a correlation past 1, by a hair or by much: it is shown as it is, within its panel.
#[test]
fn a_correlation_past_one_is_not_hidden() {
    let hair: [&[u8]; 2] = [b"a,0.9\nb,0.8\nc,0.9\n", b"a,2.7\nb,2.4\nc,2.7\n"];
    let much: [&[u8]; 2] = [b"a,4503599627370498\nb,4503599627370499\nc,\n", b"a,4503599627370496\nb,4503599627370499\nc,\n"];
    for ([first, second], correlation, tick) in [(hair, "1.0000000000000013", "1.0"), (much, "1.7320508075688774", "1")] {
        let options = options("t u --figure correlation --plan p");
        let [_, csv, svg] = make_of_two(&options, first, second, b"0,3\n").expect("a report");
        assert!(csv.ends_with(&format!(",{correlation},\n")), "{csv}");
        let [y, height] = drawn(&svg, "rect", "#b4500f", ["y", "height"])[0];
        let (middle, one) = (y + height / 2.0, tick_at(&svg, tick));
        assert!(y > READINGS.0 && if tick == "1" { middle < one - 20.0 } else { near(middle, one) }, "{svg}");
    }
}

#[test]
fn times_that_differ_are_told() {
    let options = options("t u --figure covariance --plan p");
    let [text, ..] = make_of_two(&options, b"a,1\nb,2\nc,3\n", b"a,1\nB,2\n,3\n", b"0,3\n").expect("a report");
    assert!(text.contains("\ntimes    differ at 2 places, first at place 1: b and B; the first trace's are shown\n"), "{text}");
    let [text, ..] = make_of_two(&options, b"a,1\n", b"a,1\n", b"0,1\n").expect("a report");
    assert!(!text.contains("\ntimes "), "{text}");
}

#[test]
fn figures_of_fixed_windows_stand_at_their_own_places() {
    let [.., svg] = make(&options("t --window 2 --ddof 0"), b"a,0\nb,2\nc,6\nd,6\n", b"").expect("a report");
    let figures = path(&svg, "#b4500f");
    assert_eq!(figures.len(), 4, "{figures:?}");
    assert!(figures.iter().enumerate().all(|(row, (x, _))| near(*x, at(row as f64 + 0.5))), "{figures:?}");
    // variances 0, 1, 4 and 0
    let [zero, one, four, again] = [0, 1, 2, 3].map(|row| figures[row].1);
    assert!(near(zero, again) && near(zero - four, 4.0 * (zero - one)) && one < zero, "{figures:?}");
}

/// Where a reading stands on the axis at the right.
fn right_tick_at(svg: &str, value: &str) -> f64 {
    let line = svg.lines().find(|line| line.starts_with("<text x=\"1188.0\" ") && line.ends_with(&format!(">{value}</text>")));
    drawn(line.expect(value), "text", "", ["y"])[0][0] - 4.5
}
const BAND: &str = "#d3e3f1";

#[test]
fn bands_reach_from_the_lowest_to_the_highest_reading_of_their_windows() {
    let of = |plan: &str| -> String {
        let [.., svg] = make(&options("t --plan p"), b"a,-10\nb,0\nc,nan\nd,-4\n", plan.as_bytes()).expect("a report");
        svg
    };
    // the last one is the key's
    let bands = |svg: &str| drawn(svg, "rect", BAND, ["x", "width", "y", "height"]);
    let svg = of("0,2\n2,3\n3,4\n");
    let ([all, one, key], ticks) = (&bands(&svg)[..], ["-10", "-4", "0"].map(|value| right_tick_at(&svg, value))) else {
        panic!("two bands and their key: {svg}")
    };
    assert!(near(all[0], at(0.0)) && near(all[0] + all[1], at(2.0) - 1.0), "{all:?}");
    assert!(near(all[2], ticks[2]) && near(all[2] + all[3], ticks[0]), "{all:?} {ticks:?}");
    // one reading is a line, its variance is missing, and a window without one has no band
    assert!(near(one[0], at(3.0)) && near(one[0] + one[1], at(4.0) - 1.0), "{one:?}");
    assert!(near(one[2] + one[3] / 2.0, ticks[1]) && near(one[3], 1.5), "{one:?} {ticks:?}");
    assert!(key[2] > READINGS.1, "{key:?}");
    assert!(svg.contains("shaded: lowest to highest reading of each window (right axis)") && svg.contains(">lowest to highest<"));
    // the figure stands before its band
    let place = |color: &str| svg.lines().position(|line| line.starts_with("<rect ") && line.contains(color)).expect(color);
    assert!(place(BAND) < place("#b4500f"));
    // of windows that overlap each has a half of that
    let svg = of("0,2\n1,2\n1,4\n");
    let across: Vec<(f64, f64)> = bands(&svg).iter().map(|[x, width, ..]| (*x, x + width)).collect();
    let wanted = [(0.0, 1.5), (1.5, 1.5), (1.5, 4.0)].map(|(from, to)| (at(from), at(to)));
    assert!(
        near(across[0].1, wanted[0].1 - 1.0) && near(across[2].0, wanted[2].0) && near(across[2].1, wanted[2].1 - 1.0),
        "{across:?}"
    );
    assert!(near(across[1].0, wanted[1].0 - 1.0) && near(across[1].1, wanted[1].1 + 1.0), "{across:?}");
    assert!(svg.contains(">lowest to highest, overlaps halved<"));
}

#[test]
fn the_band_of_fixed_windows_stands_at_their_own_places() {
    let [.., svg] = make(&options("t --window 2"), b"a,-10\nb,0\nc,nan\nd,nan\n", b"").expect("a report");
    let band = path(&svg, BAND);
    let [low, high] = ["-10", "0"].map(|value| right_tick_at(&svg, value));
    // a reading, both, the second alone, none
    let half = 0.75;
    let wanted = [
        (at(0.5), low - half),
        (at(1.5), high),
        (at(2.5), high - half),
        (at(2.5), high + half),
        (at(1.5), low),
        (at(0.5), low + half),
    ];
    assert!(band.len() == 6 && band.iter().zip(wanted).all(|(a, b)| near(a.0, b.0) && near(a.1, b.1)), "{band:?} {wanted:?}");
}

#[test]
fn there_is_no_second_axis_without_a_band() {
    for (line, trace) in [
        ("t --plan p", &b"a,nan\nb,\n"[..]),
        ("t --window 2 --minimum 3", b"a,1\nb,2\n"),
        ("t --window 1 --weights 1", b"a,1\nb,2\n"),
        ("t --plan p --figure skewness", b"a,1\nb,2\n"),
    ] {
        let [.., svg] = make(&options(line), trace, b"0,2\n").expect("a report");
        assert!(svg.contains(" width=\"1200\" ") && !svg.contains("lowest") && !svg.contains(BAND), "{line}");
    }
    let [.., svg] = make(&options("t --plan p --ddof 255"), b"a,1\nb,2\n", b"0,2\n").expect("a report");
    assert!(svg.contains(" width=\"1256\" ") && svg.contains("no figure") && svg.contains(BAND), "{svg}");
}

//! The program `collector`, run as a process: its example, its messages, and that a failure writes nothing.
use std::fs;
use std::io::{Read, Write};
use std::path::{Path, PathBuf};
use std::process::{Command, Output, Stdio};
use std::sync::atomic::{AtomicUsize, Ordering};

#[path = "support/xml.rs"]
mod xml;

fn host() -> &'static Path {
    Path::new(env!("CARGO_MANIFEST_DIR"))
}
fn expected(name: &str) -> String {
    fs::read_to_string(host().join("tests/expected").join(name)).expect("an expected file")
}

/// A folder of its own, gone at the end.
struct Folder(PathBuf);
impl Folder {
    fn new() -> Self {
        static NUMBER: AtomicUsize = AtomicUsize::new(0);
        let name = format!("collector-test-{}-{}", std::process::id(), NUMBER.fetch_add(1, Ordering::Relaxed));
        let folder = std::env::temp_dir().join(name);
        fs::create_dir(&folder).expect("a new folder");
        Folder(folder)
    }
    fn with(files: &[(&str, &[u8])]) -> Self {
        let folder = Folder::new();
        files.iter().for_each(|(name, bytes)| folder.write(name, bytes));
        folder
    }
    fn write(&self, name: &str, bytes: &[u8]) {
        fs::write(self.0.join(name), bytes).expect("a file");
    }
    /// Every file and what it holds.
    fn holds(&self) -> Vec<(String, Vec<u8>)> {
        let entries = fs::read_dir(&self.0).expect("the folder").map(|entry| entry.expect("an entry"));
        let mut files: Vec<_> = entries
            .filter(|entry| entry.path().is_file())
            .map(|entry| (entry.file_name().to_string_lossy().into_owned(), fs::read(entry.path()).expect("a file")))
            .collect();
        files.sort();
        files
    }
    fn run(&self, line: &str) -> Output {
        run_in(&self.0, &line.split_whitespace().collect::<Vec<_>>(), b"")
    }
    /// Standard output of a run that goes well and says nothing else.
    fn table(&self, line: &str) -> String {
        let output = self.run(line);
        assert_eq!((said(&output), output.status.code()), (String::new(), Some(0)), "{line}");
        String::from_utf8(output.stdout).expect("UTF-8")
    }
    /// The message of a run that fails. Neither standard output nor any file has changed by it.
    fn message(&self, line: &str) -> String {
        let before = self.holds();
        let output = self.run(line);
        assert_eq!((output.status.code(), output.stdout.as_slice()), (Some(2), b"".as_slice()), "{line}: {}", said(&output));
        assert!(self.holds() == before, "{line} changed a file");
        said(&output).trim_end().to_string()
    }
}
impl Drop for Folder {
    fn drop(&mut self) {
        let _ = fs::remove_dir_all(&self.0);
    }
}

fn said(output: &Output) -> String {
    String::from_utf8_lossy(&output.stderr).into_owned()
}
fn command(folder: &Path, args: &[&str]) -> Command {
    let mut command = Command::new(env!("CARGO_BIN_EXE_collector"));
    command.args(args).current_dir(folder).stdin(Stdio::piped()).stdout(Stdio::piped()).stderr(Stdio::piped());
    command
}
fn run_in(folder: &Path, args: &[&str], input: &[u8]) -> Output {
    let mut child = command(folder, args).spawn().expect("the program");
    // It may end before it has read all.
    let _ = child.stdin.take().expect("its input").write_all(input);
    child.wait_with_output().expect("its output")
}
/// The fields of each line behind the heading.
fn rows(csv: &str) -> Vec<Vec<String>> {
    csv.lines().skip(1).map(|line| line.split(',').map(String::from).collect()).collect()
}
fn column(csv: &str, number: usize) -> Vec<String> {
    rows(csv).into_iter().map(|mut row| row.swap_remove(number)).collect()
}
const VALID: usize = 6;
const FIGURE: usize = 7;
const MARK: usize = 8;
const LOWEST: usize = 9;
const HIGHEST: usize = 10;
const HEADING: &str = "row,label,start,end,from,to,valid,figure,mark";

/// The two traces of the other example.
const FAN: [&str; 2] = ["examples/floor.csv", "examples/top_shelf.csv"];

#[test]
fn the_example_s_tables() {
    for (args, file) in [
        (&["examples/year.csv", "--plan", "examples/weeks.csv"][..], "weeks.txt"),
        (&["examples/year.csv", "--plan", "examples/weeks.csv", "--csv"], "weeks.csv"),
        (
            &["examples/year.csv", "--plan", "examples/weeks.csv", "--figure", "kurtosis", "--unbiased", "--minimum", "130"],
            "weeks_kurtosis.txt",
        ),
        (&[FAN[0], FAN[1], "--figure", "correlation", "--plan", "examples/fan_weeks.csv"], "fan_weeks.txt"),
        (&[FAN[0], FAN[1], "--figure", "covariance", "--plan", "examples/fan_weeks.csv", "--csv"], "fan_weeks.csv"),
    ] {
        let output = run_in(host(), args, b"");
        assert_eq!((output.status.code(), said(&output)), (Some(0), String::new()));
        assert_eq!(String::from_utf8_lossy(&output.stdout), expected(file), "{file}");
    }
}

/// Every line of the README's tables is one that the program prints.
#[test]
fn the_readme_s_tables() {
    let readme = fs::read_to_string(host().join("../README.md")).expect("the README").replace("host/examples/", "examples/");
    let printed = ["weeks.txt", "fan_weeks.txt"].map(expected);
    for (heading, table) in ["  valid   variance    lowest  highest\n", "  valid  correlation\n"].iter().zip(printed) {
        let block = readme.split("```").find(|block| block.starts_with("text\n") && block.contains(heading)).expect("a table");
        let lines =
            block.lines().skip(1).filter(|line| !line.starts_with("..") && !line.starts_with("$ ") && !line.starts_with("    "));
        let lines: Vec<&str> = lines.collect();
        assert!(lines.len() > 4);
        lines.iter().for_each(|line| assert!(table.lines().any(|printed| printed == *line), "{line}"));
    }
}

#[test]
fn the_example_s_pictures() {
    let folder = Folder::new();
    let svg = folder.0.join("out.svg");
    let windows: [(&[&str], &[&str]); 3] = [
        (
            &["--plan", "examples/weeks.csv"],
            &["logarithmic axis", "figure, over its window", "figure missing", "(right axis)", ">lowest to highest<"],
        ),
        (
            &["--window", "168"],
            &["trailing, of 168 places", "figure, at its window's last place", "figure not finite", ">lowest to highest<"],
        ),
        (&["--window", "24", "--centered", "--figure", "kurtosis"], &["Kurtosis less three, biased", "centred, of 24 places"]),
    ];
    for (windows, texts) in windows {
        let mut args = vec!["examples/year.csv", "--svg", svg.to_str().expect("a name"), "--csv"];
        args.extend(windows);
        assert_eq!(run_in(host(), &args, b"").status.code(), Some(0));
        let picture = fs::read_to_string(&svg).expect("a picture");
        assert_eq!(xml::wrong_with(&picture), None);
        let texts =
            texts.iter().chain(&["reading missing", "reading not finite", "2025-01-01", ">8000<", "year.csv: 8760 readings"]);
        texts.for_each(|text| assert!(picture.contains(text), "{windows:?} lacks {text}"));
        assert_eq!(picture.contains("lowest"), !windows.contains(&"kurtosis"), "{windows:?}");
        assert!(picture.len() < 200_000, "{} bytes", picture.len());
    }
}

#[test]
fn the_pictures_of_two_traces() {
    let folder = Folder::new();
    let svg = folder.0.join("out.svg");
    let settings: [(&[&str], &[&str]); 3] = [
        (
            &["--figure", "correlation", "--plan", "examples/fan_weeks.csv"],
            &["Correlation, minimum 1", ">-1.0<", ">1.0<", "fan_weeks.csv: 20 rows"],
        ),
        (&["--figure", "correlation", "--window", "168"], &["trailing, of 168 places", ">-1.0<", ">1.0<"]),
        (
            &["--figure", "covariance", "--window", "24", "--centered"],
            &["Covariance, ddof 1, minimum 1", "centred, of 24 places"],
        ),
    ];
    for (settings, texts) in settings {
        let args = [&FAN[..], &["--svg", svg.to_str().expect("a name"), "--csv"], settings].concat();
        assert_eq!(run_in(host(), &args, b"").status.code(), Some(0));
        let picture = fs::read_to_string(&svg).expect("a picture");
        assert_eq!(xml::wrong_with(&picture), None);
        let both = [">floor.csv<", ">top_shelf.csv<", "3360 pairs, 252 missing, 9 not finite", "pair missing", "pair not finite"];
        let figures = ["figure missing", "figure not finite", "2025-03-03", ">3000<"];
        let texts = texts.iter().chain(&both).chain(&figures);
        texts.for_each(|text| assert!(picture.contains(text), "{settings:?} lacks {text}"));
        assert!(picture.len() < 200_000, "{} bytes", picture.len());
    }
}

#[test]
fn the_examples_are_what_their_scripts_write() {
    let scripts = [
        ("make_year.py", ["quarters_refused.csv", "weeks.csv", "year.csv"]),
        ("make_fan.py", ["fan_weeks.csv", "floor.csv", "top_shelf.csv"]),
    ];
    for (script, files) in scripts {
        let folder = Folder::new();
        let made = Command::new("python3").arg("-B").arg(host().join("examples").join(script)).arg(&folder.0).status();
        assert!(made.expect("python3").success());
        let names: Vec<String> = folder.holds().into_iter().map(|(name, _)| name).collect();
        assert_eq!(names, files);
        for (name, bytes) in folder.holds() {
            assert!(bytes == fs::read(host().join("examples").join(&name)).expect("an example"), "{name} differs");
        }
    }
}

#[test]
fn the_example_of_a_refused_plan() {
    let output = run_in(host(), &["examples/year.csv", "--plan", "examples/quarters_refused.csv"], b"");
    let message = "examples/quarters_refused.csv:6: row 4 starts at 0, before row 3, which starts at 6552: starts must not fall (label \"the whole year\")\n";
    assert_eq!((output.status.code(), said(&output).as_str(), output.stdout.len()), (Some(2), message, 0));
}

/// A trace of the examples, its text and what it holds.
fn example(name: &str) -> (String, Vec<f64>, Option<Vec<u8>>) {
    let text = fs::read_to_string(host().join(name)).expect("the example");
    let readings = text.lines().skip(1).map(|line| line.split_once(',').expect("two fields").1);
    let (trace, map) = moments::trace_of(readings.map(|field| field.parse().ok()));
    (text, trace, map)
}

/// Figures, bounds and counts of fixed windows are those of the library.
#[test]
fn fixed_windows_agree_with_the_library() {
    let (text, trace, map) = example("examples/year.csv");
    let setting = moments::Setting::skew(true).min_periods(5);
    for (window, args) in [
        (moments::Window::trailing(30), &["--window", "30"][..]),
        (moments::Window::centered(31), &["--window", "31", "--centered"]),
    ] {
        let mut all = vec!["examples/year.csv", "--csv", "--figure", "skewness", "--minimum", "5"];
        all.extend(args);
        let csv = String::from_utf8(run_in(host(), &all, b"").stdout).expect("UTF-8");
        let answers = moments::rolling(&trace, map.as_deref(), window, setting).expect("figures");
        let shown = answers.iter().map(|answer| answer.map_or("-".to_string(), |figure| format!("{figure:?}")));
        assert_eq!(column(&csv, FIGURE), shown.collect::<Vec<_>>());
        for row in rows(&csv) {
            let [start, end, valid] = [2, 3, VALID].map(|at| row[at].parse::<usize>().expect("a number"));
            assert_eq!(valid, (start..end).filter(|place| moments::is_valid(map.as_deref(), *place)).count(), "{row:?}");
        }
        // A plan of the same bounds has the same figures.
        let folder = Folder::with(&[("t.csv", text.as_bytes())]);
        let plan: String = rows(&csv).iter().map(|row| format!("{},{}\n", row[2], row[3])).collect();
        folder.write("p.csv", plan.as_bytes());
        let by_plan = folder.table("t.csv --plan p.csv --csv --figure skewness --minimum 5");
        assert_eq!(column(&by_plan, FIGURE), column(&csv, FIGURE));
    }
}

/// Variances, lowest and highest readings are those of the library.
#[test]
fn variances_agree_with_the_library() {
    let (_, trace, map) = example("examples/year.csv");
    for (window, args) in [
        (moments::Window::trailing(30), &["--window", "30"][..]),
        (moments::Window::centered(31), &["--window", "31", "--centered"]),
    ] {
        let args = [&["examples/year.csv", "--csv", "--ddof", "2", "--minimum", "5"], args].concat();
        let csv = String::from_utf8(run_in(host(), &args, b"").stdout).expect("UTF-8");
        let setting = moments::Setting::var(2).min_periods(5);
        let answers = moments::rolling_var(&trace, map.as_deref(), window, setting).expect("figures");
        let shown = |number: Option<f64>| number.map_or("-".to_string(), |number| format!("{number:?}"));
        for (row, answer) in rows(&csv).iter().zip(&answers) {
            let wanted = [answer.variance, answer.lowest, answer.highest].map(shown);
            assert_eq!([FIGURE, LOWEST, HIGHEST].map(|at| row[at].clone()), wanted, "{row:?}");
        }
        assert_eq!(rows(&csv).len(), answers.len());
    }
}

/// The figures of two traces and their counts of pairs are those of the library.
#[test]
fn figures_of_two_traces_agree_with_the_library() {
    let [(_, x, x_map), (_, y, y_map)] = FAN.map(example);
    let (x_map, y_map) = (x_map.as_deref(), y_map.as_deref());
    let csv = |args: &[&str]| {
        let args = [&FAN[..], &["--csv"], args].concat();
        String::from_utf8(run_in(host(), &args, b"").stdout).expect("UTF-8")
    };
    let shown = |answers: Result<Vec<Option<f64>>, moments::Refusal>| -> Vec<String> {
        let answers = answers.expect("figures").into_iter();
        answers.map(|answer| answer.map_or("-".to_string(), |figure| format!("{figure:?}"))).collect()
    };
    let (window, corr, cov) = (moments::Window::centered(31), moments::Setting::pearson_corr(), moments::Setting::cov(0));
    let fixed = csv(&["--window", "31", "--centered", "--figure", "correlation", "--minimum", "5"]);
    let wanted = moments::rolling_pair(&x, x_map, &y, y_map, window, corr.min_periods(5));
    assert_eq!(column(&fixed, FIGURE), shown(wanted));
    for row in rows(&fixed) {
        let [start, end, valid] = [2, 3, VALID].map(|at| row[at].parse::<usize>().expect("a number"));
        let pair = |place: &usize| moments::is_valid(x_map, *place) && moments::is_valid(y_map, *place);
        assert_eq!(valid, (start..end).filter(pair).count(), "{row:?}");
    }
    let by_plan = csv(&["--plan", "examples/fan_weeks.csv", "--figure", "covariance", "--ddof", "0"]);
    let starts: Vec<u32> = (0..20).map(|week| week * 168).collect();
    let ends: Vec<u32> = starts.iter().map(|start| start + 168).collect();
    let wanted = moments::plan_pair(&x, x_map, &y, y_map, moments::Plan::new(&starts, &ends), cov);
    assert_eq!(column(&by_plan, FIGURE), shown(wanted));
}

#[test]
fn two_traces_and_what_is_wrong_with_them() {
    let folder = Folder::with(&[
        ("t.csv", b"time,temperature\na,1\nb,2\nc,4\n"),
        ("u.csv", b"a,2\nb,4\nc,3\n"),
        ("short.csv", b"a,2\nb,4\n"),
        ("bad.csv", b"a,2\nb,warm\nc,3\n"),
        ("p.csv", b"label,start,end\nx,0,2\ny,1,3\n"),
        ("q.csv", b"0,2\n1,4\n"),
        ("old.txt", b"old table"),
        ("old.svg", b"old picture"),
    ]);
    let csv = folder.table("t.csv u.csv --figure covariance --plan p.csv --csv");
    assert_eq!(csv, format!("{HEADING}\n0,x,0,2,a,b,2,1.0,\n1,y,1,3,b,c,2,-1.0,\n"));
    assert_eq!(column(&folder.table("t.csv u.csv --figure covariance --plan p.csv --csv --ddof 0"), FIGURE), ["0.5", "-0.5"]);
    assert_eq!(column(&folder.table("u.csv t.csv --figure correlation --window 2 --csv"), FIGURE), ["NaN", "1.0", "-1.0"]);
    assert_eq!(
        column(&folder.table("t.csv t.csv --figure correlation --window 2 --csv --minimum 2"), FIGURE),
        ["-", "1.0", "1.0"]
    );
    let text = folder.table("t.csv u.csv --figure correlation --plan p.csv");
    assert!(text.starts_with("correlation, minimum 1\nfirst    t.csv: 3 readings, "), "{text}");
    assert!(text.contains("\nrow  label  start    end  from  to  valid  correlation\n"), "{text}");
    // either trace from standard input
    for (args, wanted) in [(["t.csv", "-"], "1.0"), (["-", "t.csv"], "1.0")] {
        let args = [&args[..], &["--figure", "covariance", "--plan", "p.csv", "--csv"]].concat();
        let output = run_in(&folder.0, &args, b"a,2\nb,4\nc,3\n");
        assert_eq!(column(&String::from_utf8_lossy(&output.stdout), FIGURE)[0], wanted, "{}", said(&output));
    }
    let cases = [
        (
            "t.csv short.csv",
            "p.csv",
            "short.csv: the second trace has 2 readings, the first 3, but two traces must be of one length (the first is t.csv)",
        ),
        (
            "short.csv t.csv",
            "p.csv",
            "t.csv: the second trace has 3 readings, the first 2, but two traces must be of one length (the first is short.csv)",
        ),
        ("t.csv bad.csv", "p.csv", "bad.csv:2: \"warm\" is no number"),
        ("bad.csv t.csv", "p.csv", "bad.csv:2: \"warm\" is no number"),
        ("t.csv u.csv", "q.csv", "q.csv:2: row 1 ends at 4, but with 3 readings a row can end at 3 at most"),
    ];
    for (traces, plan, message) in cases {
        for figure in ["covariance", "correlation"] {
            for targets in ["", "--output old.txt --svg old.svg", "--output new.txt --svg new.svg --csv"] {
                assert_eq!(folder.message(&format!("{traces} --figure {figure} --plan {plan} {targets}")), message);
            }
        }
    }
    assert!(folder.message("t.csv none.csv --figure covariance --plan p.csv").starts_with("none.csv: cannot be opened: "));
    assert_eq!(folder.message("t.csv short.csv --figure covariance --window 2"), cases[0].2);
}

#[test]
fn bad_files_are_named_with_their_line() {
    let good: (&[u8], &[u8]) = (b"time,temperature\na,1\nb,2\nc,3\n", b"label,start,end\nx,0,2\n");
    let traces: [(&[u8], &str); 14] = [
        (b"date,temp\na,1\n", "t.csv:1: \"temp\" is no number; a heading reads time,temperature"),
        (b"time,temperature\na,1\nb,warm\n", "t.csv:3: \"warm\" is no number"),
        (b"a,1\nb,1e999\n", "t.csv:2: \"1e999\" is too large for a 64-bit float"),
        (b"a,1\nb,2,3\n", "t.csv:2: a line has two fields, time and temperature, but this one has 3"),
        (
            b"a,1\nb;2\n",
            "t.csv:2: fields are parted by commas and decimals by points, but a semicolon or a tab stands in the time",
        ),
        (b"a;-18,5\n", "t.csv:1: fields are parted by commas and decimals by points"),
        (b"a,1\nb\t-18,5\n", "t.csv:2: fields are parted by commas and decimals by points"),
        (b"a,1\nb,-18,5\n", "t.csv:2: a line has two fields, time and temperature, but this one has 3"),
        (b"a,1\n\nb,2\n", "t.csv:2: the line is blank: a missing reading is written as its time and a comma, `time,`"),
        (b"\na,1\n", "t.csv:1: the line is blank"),
        (b"a,1\nb\xFF,2\n", "t.csv:2: the line is not UTF-8 text"),
        (b"a,1\n\"b,2\n", "t.csv:2: a field's closing quote is missing"),
        (b"a,1\n\"b\"c,2\n", "t.csv:2: a comma is missing after a closing quote"),
        (b"a,1\ntime,temperature\n", "t.csv:2: \"temperature\" is no number"),
    ];
    let plans: [(&[u8], &str); 10] = [
        (
            b"from,to\n0,1\n",
            "p.csv:1: \"from\" is no place: a start or an end is a whole number from 0 to 4294967295; a heading reads start,end",
        ),
        (b"0,1\n1,2.5\n", "p.csv:2: \"2.5\" is no place"),
        (b"0,1\n-1,2\n", "p.csv:2: \"-1\" is no place"),
        (b"0,1\n0,4294967296\n", "p.csv:2: \"4294967296\" is no place"),
        (b"0,1\n,2\n", "p.csv:2: \"\" is no place"),
        (b"label,start,end\n0,1\n", "p.csv:2: this line has 2 fields, but those before it have 3"),
        (b"0,1\nx,0,1\n", "p.csv:2: this line has 3 fields, but those before it have 2"),
        (b"0,1\nx,y,0,1\n", "p.csv:2: a line has start and end, or label, start and end, but this one has 4 fields"),
        (b"0,1\n\n0,1\n", "p.csv:2: the line is blank"),
        (b"0,1\n\xC3,1\n", "p.csv:2: the line is not UTF-8 text"),
    ];
    let cases = traces.map(|(trace, message)| (trace, good.1, message)).into_iter();
    let cases = cases.chain(plans.map(|(plan, message)| (good.0, plan, message)));
    for (trace, plan, message) in cases {
        let old: &[(&str, &[u8])] = &[("t.csv", trace), ("p.csv", plan), ("old.txt", b"old table"), ("old.svg", b"old picture")];
        let folder = Folder::with(old);
        for targets in ["", "--output old.txt --svg old.svg", "--output new.txt --svg new.svg --csv"] {
            let said = folder.message(&format!("t.csv --plan p.csv {targets}"));
            assert!(said.starts_with(message) && said.lines().count() == 1, "{said}\nand not\n{message}");
        }
    }
    let folder = Folder::with(&[("t.csv", good.0), ("p.csv", good.1)]);
    assert!(folder.message("none.csv --plan p.csv").starts_with("none.csv: cannot be opened: "));
    assert!(folder.message("t.csv --plan none.csv").starts_with("none.csv: cannot be opened: "));
    assert!(folder.message(". --plan p.csv").starts_with(".: cannot be read: "));
}

#[test]
fn refusals_in_words() {
    let folder =
        Folder::with(&[("t.csv", b"a,1\nb,\nc,3\n"), ("whole.csv", b"time,temperature\na,1\nb,2\nc,3\n"), ("old.txt", b"old")]);
    let plans: [(&str, &str); 6] = [
        ("0,1\n2,1\n", "p.csv:2: row 1 starts at 2, after its end at 1"),
        ("start,end\n0,1\n0,4\n", "p.csv:3: row 1 ends at 4, but with 3 readings a row can end at 3 at most"),
        ("start,end\n1,2\n0,2\n", "p.csv:3: row 1 starts at 0, before row 0, which starts at 1: starts must not fall"),
        ("0,3\n1,2\n", "p.csv:2: row 1 ends at 2, before row 0, which ends at 3: ends must not fall"),
        (
            "label,start,end\na,1,2\n\"b, \"\"c\"\"\",0,1\n",
            "p.csv:3: row 1, from 0 to 1, goes back behind row 0, from 1 to 2: starts and ends must not fall (label \"b, \"c\"\")",
        ),
        ("label,start,end\n,0,9\n", "p.csv:2: row 0 ends at 9, but with 3 readings a row can end at 3 at most (label \"\")"),
    ];
    for (plan, message) in plans {
        folder.write("p.csv", plan.as_bytes());
        assert_eq!(folder.message("t.csv --plan p.csv"), message);
        assert_eq!(folder.message("t.csv --plan p.csv --csv --output old.txt --svg new.svg"), message);
    }
    let with_map = "t.csv:2: weights were given for a trace with a map: a weighted window cannot have missing readings; the first that is missing is here";
    assert_eq!(folder.message("t.csv --window 2 --weights 1,1"), with_map);
    let zero = "--weights: the weights add up to zero, so they cannot be divided by their sum";
    assert_eq!(folder.message("whole.csv --window 2 --weights 1,-1 --output old.txt"), zero);
    let count = "--weights: a window of 3 places needs as many weights, but has 2";
    assert_eq!(folder.message("whole.csv --window 3 --weights 1,1"), count);
}

#[test]
fn missing_readings_and_readings_that_are_not_finite() {
    let folder =
        Folder::with(&[("t.csv", b"a,2\nb,\nc,4\nd,na\ne, NaN\nf,-INF\ng,1\nh,3\n"), ("p.csv", b"0,3\n3,4\n3,5\n4,6\n6,8\n")]);
    let csv = folder.table("t.csv --plan p.csv --csv");
    assert_eq!(column(&csv, FIGURE), ["2.0", "-", "-", "NaN", "2.0"]);
    assert_eq!(column(&csv, VALID), ["2", "0", "1", "2", "2"]);
    assert_eq!(column(&csv, MARK), ["", "", "", "not finite", ""]);
    let text = folder.table("t.csv --plan p.csv");
    assert!(text.contains("8 readings, 2 missing, 2 not finite"), "{text}");
    assert!(text.contains("\n  3      4 to   6  e     f       2       NaN !       -        -\n"), "{text}");
    // lowest and highest are of the readings that are finite
    assert_eq!(column(&csv, LOWEST), ["2.0", "-", "-", "-", "1.0"]);
    assert_eq!(column(&csv, HIGHEST), ["4.0", "-", "-", "-", "3.0"]);
    // With a missing reading anywhere the minimum counts valid readings, and else places.
    assert_eq!(column(&folder.table("t.csv --plan p.csv --csv --minimum 2 --ddof 0"), FIGURE), ["1.0", "-", "-", "NaN", "1.0"]);
    folder.write("whole.csv", b"a,2\nb,4\nc,6\n");
    folder.write("p.csv", b"0,2\n1,2\n1,1\n0,0\n");
    assert!(folder.message("whole.csv --plan p.csv").starts_with("p.csv:3: row 2 ends at 1"));
    folder.write("p.csv", b"0,0\n0,2\n1,2\n2,2\n");
    assert_eq!(column(&folder.table("whole.csv --plan p.csv --csv --minimum 2 --ddof 0"), FIGURE), ["-", "1.0", "-", "-"]);
    assert_eq!(rows(&folder.table("whole.csv --plan p.csv --csv"))[0][4..6], ["", ""]);
    assert_eq!(rows(&folder.table("whole.csv --plan p.csv --csv"))[1][4..6], ["a", "b"]);
}

#[test]
fn every_figure() {
    let folder = Folder::with(&[("t.csv", b"a,0\nb,0\nc,0\nd,0\ne,5\nf,1\ng,3\n"), ("p.csv", b"0,5\n5,7\n")]);
    let figures = |options: &str| column(&folder.table(&format!("t.csv --plan p.csv --csv {options}")), FIGURE);
    assert_eq!(figures("--figure variance --ddof 0"), ["4.0", "1.0"]);
    assert_eq!(figures("--ddof 2"), ["6.666666666666667", "-"]);
    assert!(figures("--figure skewness")[0].starts_with("1.5"));
    assert_eq!(figures("--figure skewness --unbiased")[1], "-");
    assert_eq!(figures("--figure kurtosis")[1], "-2.0");
    assert_eq!(figures("--figure kurtosis --pearson")[1], "1.0");
    assert_eq!(figures("--figure kurtosis --unbiased")[1], "-");
    assert_eq!(column(&folder.table("t.csv --window 0 --csv --minimum 0"), FIGURE), ["-"; 7]);
}

#[test]
fn weighted_variance() {
    let folder = Folder::with(&[("t.csv", b"a,1\nb,3\n")]);
    assert_eq!(column(&folder.table("t.csv --window 2 --weights 1,1 --csv"), FIGURE), ["0.0", "1.0"]);
    assert_eq!(column(&folder.table("t.csv --window 2 --weights 1,0 --csv"), FIGURE), ["0.0", "0.0"]);
    assert_eq!(column(&folder.table("t.csv --window 2 --weights 1,1 --csv --minimum 2"), FIGURE), ["-", "1.0"]);
    let text = folder.table("t.csv --window 2 --weights 1,1 --svg out.svg");
    assert!(text.starts_with("weighted variance, minimum 1\n"));
    // it has no lowest and no highest, nowhere
    assert!(folder.table("t.csv --window 2 --weights 1,1 --csv").starts_with(&format!("{HEADING}\n")));
    let svg = fs::read_to_string(folder.0.join("out.svg")).expect("a picture");
    assert!([&text, &svg].iter().all(|text| !text.contains("lowest")), "{text}");
}

/// The lowest and the highest reading stand behind the variance, and with no other figure.
#[test]
fn lowest_and_highest() {
    let trace = b"a,-18.5\nb,-0\nc,nan\nd,-17.25\ne,3\nf,inf\n";
    let folder =
        Folder::with(&[("t.csv", trace), ("p.csv", b"0,2\n1,4\n3,4\n4,4\n4,5\n4,6\n5,6\n"), ("m.csv", b"a,1\nb,\nc,5\n")]);
    let csv = folder.table("t.csv --plan p.csv --csv");
    assert_eq!(csv.lines().next(), Some(&format!("{HEADING},lowest,highest")[..]));
    assert_eq!(column(&csv, LOWEST), ["-18.5", "-17.25", "-17.25", "-", "3.0", "3.0", "-"]);
    assert_eq!(column(&csv, HIGHEST), ["0.0", "0.0", "-17.25", "-", "3.0", "3.0", "-"]);
    assert_eq!(column(&csv, FIGURE), ["171.125", "NaN", "-", "-", "-", "NaN", "-"]);
    let text = folder.table("t.csv --plan p.csv");
    for line in [
        "row  start    end  from  to  valid  variance    lowest  highest",
        "  0      0 to   2  a     b       2   171.125    -18.50     0.00",
        "  1      1 to   4  b     d       3       NaN !  -17.25     0.00",
        "  2      3 to   4  d     d       1         -    -17.25   -17.25",
        "  3      4 to   4                0         -         -        -",
        "  4      4 to   5  e     e       1         -      3.00     3.00",
        "-  missing, in 4 rows: too few readings for the figure or for the minimum",
        "-  lowest and highest missing, in 2 rows: no finite reading, or too few places for the minimum",
    ] {
        assert!(text.lines().any(|printed| printed == line), "{line}\n{text}");
    }
    // where no reading is missing, a window shorter than the minimum has none; else it has
    let short = folder.table("t.csv --window 2 --minimum 2 --csv");
    assert_eq!((column(&short, LOWEST)[0].as_str(), column(&short, LOWEST)[1].as_str()), ("-", "-18.5"));
    let with_map = folder.table("m.csv --window 2 --minimum 2 --csv");
    assert_eq!(
        (column(&with_map, FIGURE), column(&with_map, LOWEST)),
        (vec!["-".into(); 3], ["1.0", "1.0", "5.0"].map(String::from).to_vec())
    );
    for figure in ["skewness", "kurtosis"] {
        let other = folder.table(&format!("t.csv --plan p.csv --csv --figure {figure}"));
        assert!(other.starts_with(&format!("{HEADING}\n")), "{other}");
        assert!(!folder.table(&format!("t.csv --plan p.csv --figure {figure}")).contains("lowest"));
    }
}

#[test]
fn files_as_they_come() {
    let plain: (&[u8], &[u8]) = (b"time,temperature\na,1\nb,2\n", b"label,start,end\nx,0,2\n");
    let folder = Folder::with(&[("t.csv", plain.0), ("p.csv", plain.1)]);
    let table = folder.table("t.csv --plan p.csv");
    let traces: [&[u8]; 6] = [
        b"\xEF\xBB\xBFtime,temperature\r\na,1\r\nb,2\r\n",
        b" Time , TEMPERATURE\na, 1 \nb,2",
        b"\"time\",\"temperature\"\n\"a\",\"1\"\n \"b\" , 2\n\n \n",
        b"a,1\nb,2\n",
        b"\xEF\xBB\xBFa,1\nb,+2.0e0",
        b"a,1\r\nb,2\r\n\r\n",
    ];
    for trace in traces {
        folder.write("t.csv", trace);
        assert_eq!(folder.table("t.csv --plan p.csv"), table, "{}", String::from_utf8_lossy(trace));
    }
    for plan in [&b"\xEF\xBB\xBFLabel, Start ,END\r\nx,0,2\r\n"[..], b"\"x\",\"0\",2", b"x, 0 ,2\n\n\n"] {
        folder.write("p.csv", plan);
        assert_eq!(folder.table("t.csv --plan p.csv"), table, "{}", String::from_utf8_lossy(plan));
    }
}

#[test]
fn nothing_to_read() {
    let folder = Folder::with(&[
        ("none.csv", b""),
        ("heading.csv", b"time,temperature\n"),
        ("p.csv", b""),
        ("t.csv", b"a,1\n"),
        ("r.csv", b"0,0\n"),
    ]);
    let heading = format!("{HEADING},lowest,highest\n");
    for line in [
        "none.csv --plan p.csv",
        "heading.csv --plan p.csv",
        "t.csv --plan p.csv",
        "none.csv --window 3",
        "none.csv --window 3 --centered",
    ] {
        assert_eq!(folder.table(&format!("{line} --csv --svg out.svg")), heading, "{line}");
        assert_eq!(xml::wrong_with(&fs::read_to_string(folder.0.join("out.svg")).expect("a picture")), None);
        assert!(folder.table(line).contains(" 0 rows;"), "{line}");
    }
    assert_eq!(folder.table("none.csv --plan r.csv --csv"), format!("{heading}0,,0,0,,,0,-,,-,-\n"));
}

#[test]
fn labels_in_quotes_and_long_ones() {
    let long = "ß".repeat(60);
    let folder = Folder::with(&[("t.csv", b"\"a, b\",1\nc,2\nd,4\n")]);
    folder.write("p.csv", format!("\"top, \"\"shelf\"\"\",0,1\n{long},0,2\nx\ty,1,3\n").as_bytes());
    let csv = folder.table("t.csv --plan p.csv --csv --ddof 0");
    assert!(csv.contains("\n0,\"top, \"\"shelf\"\"\",0,1,\"a, b\",\"a, b\",1,0.0,,1.0,1.0\n"), "{csv}");
    assert!(csv.contains(&format!("\n1,{long},0,2,\"a, b\",c,2,0.25,,1.0,2.0\n")), "{csv}");
    let text = folder.table("t.csv --plan p.csv --ddof 0");
    assert!(
        text.contains("top, \"shelf\"") && text.contains(&format!("\n  1  {}…      0 to   2  a, b  c ", "ß".repeat(39))),
        "{text}"
    );
    let widths: Vec<usize> = text.lines().skip(4).take(4).map(|line| line.chars().count()).collect();
    assert_eq!(widths, [widths[0]; 4], "{text}");
    assert!(!text.contains('\t'));
}

#[test]
fn standard_input() {
    let folder = Folder::with(&[("p.csv", b"0,2\n")]);
    let output = run_in(&folder.0, &["-", "--plan", "p.csv", "--csv"], b"a,1\nb,3\n");
    assert_eq!(
        (output.status.code(), column(&String::from_utf8_lossy(&output.stdout), FIGURE)),
        (Some(0), vec!["2.0".to_string()])
    );
    let output = run_in(&folder.0, &["-", "--plan", "p.csv"], b"a,1\nb,x\n");
    assert_eq!((output.status.code(), said(&output).as_str()), (Some(2), "standard input:2: \"x\" is no number\n"));
    let output = run_in(&folder.0, &["-", "--plan", "p.csv"], b"a,1\nb,3\n");
    assert!(String::from_utf8_lossy(&output.stdout).contains("trace    standard input: 2 readings"));
}

#[test]
fn wrong_command_lines_get_a_hint() {
    let folder = Folder::with(&[("t.csv", b"a,1\n"), ("p.csv", b"0,1\n")]);
    let cases = [
        ("", "no trace is named"),
        ("t.csv", "--plan or --window is needed"),
        ("t.csv --plan p.csv --tabel x", "there is no option \"--tabel\""),
        ("t.csv --plan p.csv --csv --csv", "--csv is given twice"),
        ("t.csv --plan p.csv --output", "--output is given without its value"),
        ("t.csv --plan p.csv --centered", "--centered goes with --window and not with --plan"),
        ("t.csv --window 1 --weights 1 --ddof 1", "--ddof has no meaning for the weighted variance"),
        ("t.csv --plan p.csv --output x --svg x", "--output and --svg name the same file"),
        ("t.csv --plan p.csv --output x --svg ./x", "--output and --svg name the same file"),
        ("t.csv --plan p.csv --output ./t.csv", "--output names the file of the trace"),
        ("t.csv --plan p.csv --svg p.csv", "--svg names the file of the plan"),
        ("t.csv --plan p.csv --output p.csv", "--output names the file of the plan"),
        ("t.csv --plan p.csv --svg t.csv", "--svg names the file of the trace"),
        ("t.csv p.csv --window 1 --figure correlation --output t.csv", "--output names the file of the first trace"),
        ("t.csv p.csv --window 1 --figure correlation --svg ./p.csv", "--svg names the file of the second trace"),
        ("t.csv --plan p.csv --figure correlation", "the correlation is of two traces, but one is named"),
        ("t.csv p.csv t.csv --window 1 --figure covariance", "the covariance is of two traces, but \"t.csv\" is named too"),
        (
            "t.csv p.csv --window 1",
            "the variance is of one trace, but \"p.csv\" is named too; --figure covariance and correlation are of two",
        ),
    ];
    for (line, wrong) in cases {
        assert_eq!(folder.message(line), format!("collector: {wrong}\n`collector --help` has the options"), "{line}");
    }
    let help = folder.table("--help");
    let options =
        ["--plan", "--window", "--centered", "--weights", "--figure", "--ddof", "--unbiased", "--pearson", "--minimum", "--csv"];
    for option in options.iter().chain(&["--output", "--svg", "--help"]) {
        assert!(help.contains(&format!("\n  {option} ")), "{option}");
    }
    assert!(help.lines().all(|line| line.chars().count() <= 120));
}

#[test]
fn files_are_written_whole_or_not_at_all() {
    let folder = Folder::with(&[("t.csv", b"a,1\nb,3\n"), ("p.csv", b"0,2\n"), ("out.txt", b"old")]);
    let table = folder.table("t.csv --plan p.csv");
    assert_eq!(folder.table("t.csv --plan p.csv --output out.txt --svg out.svg"), "");
    let names: Vec<String> = folder.holds().into_iter().map(|(name, _)| name).collect();
    assert_eq!(names, ["out.svg", "out.txt", "p.csv", "t.csv"]);
    assert_eq!(fs::read_to_string(folder.0.join("out.txt")).expect("the table"), table);
    fs::create_dir(folder.0.join("folder")).expect("a folder");
    let _socket = std::os::unix::net::UnixListener::bind(folder.0.join("socket")).expect("a socket");
    folder.write("locked.svg", b"locked");
    let mut locked = fs::metadata(folder.0.join("locked.svg")).expect("a file").permissions();
    locked.set_readonly(true);
    fs::set_permissions(folder.0.join("locked.svg"), locked).expect("a locked file");
    for (line, name) in [
        ("--output out.txt --svg none/out.svg", "none/out.svg"),
        ("--svg none/out.svg", "none/out.svg"),
        ("--output none/out.txt --svg out.svg", "none/out.txt"),
        ("--output out.txt --svg folder", "folder"),
        ("--output folder --svg out.svg", "folder"),
        ("--output out.txt --svg locked.svg", "locked.svg"),
        ("--output out.txt --svg socket", "socket"),
    ] {
        let said = folder.message(&format!("t.csv --plan p.csv --csv {line}"));
        assert!(said.contains(&format!("{name}: cannot be written: ")) && said.lines().count() == 1, "{line}: {said}");
    }
}

#[cfg(unix)]
#[test]
fn a_file_that_is_replaced_keeps_its_permissions() {
    use std::os::unix::fs::PermissionsExt;
    let folder = Folder::with(&[("t.csv", b"a,1\nb,3\n"), ("old.txt", b"old")]);
    let file = folder.0.join("old.txt");
    fs::set_permissions(&file, fs::Permissions::from_mode(0o640)).expect("its permissions");
    assert_eq!(folder.table("t.csv --window 2 --output old.txt"), "");
    assert_ne!(fs::read(&file).expect("the table"), b"old");
    assert_eq!(fs::metadata(&file).expect("the table").permissions().mode() & 0o777, 0o640);
}

/// Standard output that takes nothing, by a device that Linux has. The picture is then not there either.
#[test]
#[cfg_attr(not(target_os = "linux"), ignore = "/dev/full is Linux's")]
fn standard_output_that_cannot_be_written() {
    let full = fs::OpenOptions::new().write(true).open("/dev/full").expect("the device");
    let folder = Folder::with(&[("t.csv", b"a,1\nb,3\n"), ("p.csv", b"0,2\n"), ("old.svg", b"old")]);
    let before = folder.holds();
    let args = ["t.csv", "--plan", "p.csv", "--svg", "old.svg"];
    let output = command(&folder.0, &args).stdout(full).spawn().expect("the program").wait_with_output().expect("its end");
    assert_eq!(output.status.code(), Some(2));
    assert!(said(&output).starts_with("standard output: cannot be written: "), "{}", said(&output));
    assert!(folder.holds() == before);
}

#[test]
fn a_reader_that_goes_away_is_no_failure() {
    let mut child = command(host(), &["examples/year.csv", "--window", "24"]).spawn().expect("the program");
    let mut first = [0; 10];
    let mut stdout = child.stdout.take().expect("its output");
    stdout.read_exact(&mut first).expect("some of the table");
    drop(stdout);
    let output = child.wait_with_output().expect("its end");
    assert_eq!((output.status.code(), said(&output)), (Some(0), String::new()));
}

/// The library's own limits, and no more memory for what lies past them. Run it with `--ignored`.
#[test]
#[ignore = "reads 67 million lines, a minute without optimisation"]
fn too_many_readings_or_rows() {
    let folder = Folder::with(&[("t.csv", b"a,1\n")]);
    let lines = |count: usize| b"0,0\n".repeat(count);
    for (count, code) in [(moments::MOST, 0), (moments::MOST + 1, 2), (moments::MOST + 5, 2)] {
        let output = run_in(&folder.0, &["-", "--window", "0", "--csv"], &lines(count));
        assert_eq!(output.status.code(), Some(code), "{}", said(&output));
        let message = format!("standard input: the trace has {count} readings, but 16777216 is the most that is taken\n");
        assert_eq!(said(&output), if code == 0 { String::new() } else { message });
    }
    let output = run_in(&folder.0, &["t.csv", "-", "--figure", "covariance", "--window", "0"], &lines(moments::MOST + 5));
    let message = "standard input: the second trace has 16777221 readings, but 16777216 is the most that is taken\n";
    assert_eq!((output.status.code(), said(&output).as_str()), (Some(2), message));
    folder.write("p.csv", &lines(moments::MOST + 2));
    assert_eq!(folder.message("t.csv --plan p.csv"), "p.csv: the plan has 16777218 rows, but 16777216 is the most that is taken");
}

/// Files of any bytes, as a process: it ends by itself, and never by a panic.
#[test]
fn any_bytes_end_with_a_status() {
    let mut state = 3u64;
    let mut next = || {
        state = state.wrapping_mul(6364136223846793005).wrapping_add(1442695040888963407);
        (state >> 33) as usize
    };
    let folder = Folder::new();
    for run in 0..60 {
        for name in ["t.csv", "p.csv"] {
            let words: [&[u8]; 10] = [b",", b"\n", b"1", b"2", b"\"", b"nan", b"NA", b"\r\n", b"\x00", b"\xF0\x9F"];
            let bytes: Vec<u8> = match run % 3 {
                0 => (0..next() % 200).map(|_| next() as u8).collect(),
                _ => (0..next() % 30).flat_map(|_| words[next() % words.len()]).copied().collect(),
            };
            folder.write(name, &bytes);
        }
        let lines = [
            "t.csv --plan p.csv --svg o.svg",
            "t.csv --window 2 --svg o.svg --csv",
            "t.csv t.csv --window 2 --figure correlation --svg o.svg",
        ];
        let output = folder.run(lines[run % lines.len()]);
        assert!(matches!(output.status.code(), Some(0 | 2)), "run {run}: {:?} {}", output.status, said(&output));
    }
}

//! How long each entry of libmoments.a takes beside the Rust that it comes from, with document 01's stand-ins, in one process and in turn.
//!
//! Both are given the same and asked for the same, and their answers are compared. The Rust allocates what it answers with; our
//! entries write to lists that are lent, made once before. Lines that end in 'allocating' are host's functions that allocate too.
//! A plan call of ours is given the trace's bytes and decodes them, which the Rust has no need of. The Rust's arrays and maps are made once
//! before, the count of missing places with them. For states see `states`, for windows of two traces, which the Rust lacks, `pairs`, and
//! for variance with the lowest and the highest reading, which it lacks too, `extremes`.
mod arrays;
mod extremes;
mod input;
mod measure;
mod pairs;
mod report;
mod states;
mod windows;

use measure::{Bench, Options};
use std::process::exit;

const USAGE: &str = "bench [--n LIST] [--reps K] [--budget SECONDS] [--filter TEXT] [--into FILE]

  --n        readings, a list with commas (100000,1000000,10000000)
  --reps     repetitions of a line at each size (61)
  --budget   seconds for the repetitions of a line at each size (2); there are 3 at least
  --filter   only lines whose section or name has this text in it
  --into     the file in which the figures are put between the marks, besides standard output";
const MARKS: [&str; 2] = ["<!-- bench: from here -->\n", "<!-- bench: to here -->\n"];

fn fail(why: &str) -> ! {
    eprintln!("{why}");
    exit(1)
}
fn number<T: std::str::FromStr>(text: &str) -> T {
    text.parse().unwrap_or_else(|_| fail(&format!("{text} is no number here\n{USAGE}")))
}

/// The text with what stands between the marks replaced.
fn put(text: &str, figures: &str) -> Option<String> {
    let (before, rest) = text.split_once(MARKS[0])?;
    let (_, after) = rest.split_once(MARKS[1])?;
    Some([before, MARKS[0], "\n", figures, "\n", MARKS[1], after].concat())
}

fn main() {
    let mut options = Options { sizes: vec![100_000, 1_000_000, 10_000_000], reps: 61, budget: 2.0, filter: String::new() };
    let (mut into, mut command) = (None, String::from("bench"));
    let mut args = std::env::args().skip(1);
    while let Some(name) = args.next() {
        if name == "--help" {
            println!("{USAGE}");
            return;
        }
        let value = args.next().unwrap_or_else(|| fail(USAGE));
        match name.as_str() {
            "--n" => options.sizes = value.split(',').map(number).collect(),
            "--reps" => options.reps = number(&value),
            "--budget" => options.budget = number(&value),
            "--filter" => options.filter.clone_from(&value),
            "--into" => {
                into = Some(value);
                continue;
            }
            _ => fail(USAGE),
        }
        command += &format!(" {name} {value}");
    }
    options.sizes.sort();
    let read = |file: &str| std::fs::read_to_string(file).unwrap_or_else(|e| fail(&format!("{file} cannot be read: {e}")));
    if into.as_deref().is_some_and(|file| put(&read(file), "").is_none()) {
        fail("the file has no marks");
    }

    // the first line would else be measured while the processor is still waking up
    let start = std::time::Instant::now();
    while start.elapsed().as_secs() < 2 {
        std::hint::black_box(moments::root(std::hint::black_box(2.0)));
    }
    let mut bench = Bench::new(options);
    for n in bench.options.sizes.clone() {
        let input = input::Input::new(n);
        windows::plans(&mut bench, &input);
        windows::fixed(&mut bench, &input);
        windows::weighted(&mut bench, &input);
        extremes::windows(&mut bench, &input);
        pairs::windows(&mut bench, &input);
        arrays::whole(&mut bench, &input);
        arrays::ranges(&mut bench, &input);
        states::root(&mut bench, &input);
        states::states(&mut bench, &input);
    }
    let figures = report::head(&command) + &report::tables(&bench) + &report::summary(&bench);
    print!("{figures}");
    if let Some(file) = into {
        let text = put(&read(&file), &figures).unwrap_or_else(|| fail("the file has no marks"));
        std::fs::write(&file, text).unwrap_or_else(|e| fail(&format!("{file} cannot be written: {e}")));
    }
    exit((bench.differ > 0).into());
}

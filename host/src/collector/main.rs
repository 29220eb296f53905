//! `collector` (document 01's word for the program that reaches the plan call from Rust): figures of a temperature trace, or of
//! two, by window, as a table and a picture.
//!
//! It reads the traces and a plan (or is told a window's size), has the library work out a figure for each row, and writes nothing
//! unless all of that went well. `collector --help` is its manual.
mod bounds;
mod csv;
mod number;
mod options;
mod output;
mod picture;
mod plan;
mod progress;
mod report;
mod scale;
mod table;
#[cfg(test)]
mod tests;
mod text;
mod trace;

use options::{Options, Request, Source, Windows};
use output::Draft;
use report::Report;
use std::fs::File;
use std::io::{self, BufRead, BufReader, BufWriter, Write};
use std::path::Path;
use std::process::ExitCode;

/// Of a wrong command line, a bad file, a refused plan and a file that cannot be written.
const FAILED: u8 = 2;

fn main() -> ExitCode {
    let done = match options::parse(std::env::args_os().skip(1)) {
        Ok(Request::Help) => print(&mut |out| out.write_all(options::HELP.as_bytes())),
        Ok(Request::Report(options)) => run(&options),
        Err(wrong) => Err(usage(&wrong)),
    };
    match done {
        Ok(()) => ExitCode::SUCCESS,
        Err(message) => {
            // Standard error may be closed; there is then nowhere left to say so.
            let _ = writeln!(io::stderr(), "{message}");
            ExitCode::from(FAILED)
        }
    }
}

fn usage(wrong: &str) -> String {
    format!("collector: {wrong}\n`collector --help` has the options")
}

fn run(options: &Options) -> Result<(), String> {
    output::check_names(options).map_err(|wrong| usage(&wrong))?;
    let mut plan = match &options.windows {
        Windows::Plan(path) => Some(open(path)?),
        Windows::Fixed { .. } => None,
    };
    let traces: Result<Vec<_>, String> = options.asked.sources().iter().map(input).collect();
    let report = Report::make(options, &mut traces?, plan.as_mut().map(|plan| plan as &mut dyn BufRead))?;
    write(options, &report)
}

fn input(source: &Source) -> Result<Box<dyn BufRead>, String> {
    Ok(match source {
        Source::File(path) => Box::new(open(path)?),
        Source::StandardInput => Box::new(io::stdin().lock()),
    })
}

fn open(path: &Path) -> Result<BufReader<File>, String> {
    let file = File::open(path).map_err(|why| format!("{}: cannot be opened: {why}", text::name(path)))?;
    Ok(BufReader::with_capacity(1 << 16, file))
}

/// Both files are complete beside their targets, and standard output is written, before the first takes its name.
fn write(options: &Options, report: &Report) -> Result<(), String> {
    let mut lines = |out: &mut dyn Write| if options.csv { table::csv(report, out) } else { table::text(report, out) };
    let svg = match &options.svg {
        Some(path) => Some(Draft::new(path, &mut |out| out.write_all(picture::svg(report).as_bytes()))?),
        None => None,
    };
    let table = match &options.output {
        Some(path) => Some(Draft::new(path, &mut lines)?),
        None => {
            print(&mut lines)?;
            None
        }
    };
    [svg, table].into_iter().flatten().try_for_each(Draft::keep)
}

/// A reader that has seen enough and closed the pipe is no failure.
fn print(fill: &mut dyn FnMut(&mut dyn Write) -> io::Result<()>) -> Result<(), String> {
    let mut out = BufWriter::with_capacity(1 << 16, io::stdout().lock());
    let done = fill(&mut out).and_then(|()| out.flush());
    // What is left in the buffer after a failure is not tried again.
    let _ = out.into_parts();
    match done {
        Err(why) if why.kind() != io::ErrorKind::BrokenPipe => Err(format!("standard output: cannot be written: {why}")),
        _ => Ok(()),
    }
}

//! The command line.
use crate::number::double;
use crate::text::{name, quoted};
use moments::{PairFigure, Setting, Shape, Var, Window};
use std::ffi::OsString;
use std::fmt::Display;
use std::path::PathBuf;
use std::str::FromStr;

/// The manual.
pub const HELP: &str = "\
collector: figures of a temperature trace, or of two, by window, as a table and a picture

    collector TRACE.csv --plan PLAN.csv [options]
    collector TRACE.csv --window SIZE [--centered] [--weights W,W,..] [options]
    collector FIRST.csv SECOND.csv --figure covariance|correlation (--plan PLAN.csv | --window SIZE) [options]

TRACE.csv  a line for each reading: time,temperature. Such a heading may come first. A temperature that is empty
           or NA is missing; nan and inf are readings. `-` is standard input. Places count from 0. Two traces have
           equally many places and are paired by them, not by their times; a pair takes a reading of both.
PLAN.csv   a line for each window: start,end or label,start,end. Such a heading may come first. Both are places,
           the end not included; neither starts nor ends may fall from one line to the next.

windows
  --plan FILE        the windows of a plan
  --window SIZE      for each reading a window of SIZE places, its own the last; fewer at the trace's ends
  --centered         its own place in the middle, of an even SIZE the first behind it
  --weights W,W,..   weighted variance, a weight for each place of a window; no reading may be missing

figure
  --figure NAME      of one trace: variance (the default), skewness or kurtosis; of two: covariance or correlation.
                     With the variance, unless it is weighted, come the lowest and the highest finite reading
  --ddof N           variance and covariance: divided by the count less N, from 0 to 255 (default 1)
  --unbiased         skewness and kurtosis: corrected for bias
  --pearson          kurtosis: not less three, so that a normal distribution has 3 and not 0
  --minimum N        a window with fewer readings has no figure (default 1). If any reading of a trace is missing,
                     the library is lent a map and counts a window's valid readings or pairs, and else its places

output
  --csv              the table as CSV: row,label,start,end,from,to,valid,figure,mark and, with the variance unless it is
                     weighted, lowest,highest
  --output FILE      the table to FILE instead of standard output
  --svg FILE         a picture of the figure and the trace or traces; behind the variance the band from the lowest
                     to the highest reading of each window
  --help             this text

In the table `-` is a missing number, and `!` (in CSV the mark `not finite`) a figure that is NaN or infinite.
A wrong command line, a bad file or a refused plan gets a message and exit status 2, and nothing is written.
";

const VALUED: [&str; 8] = ["--plan", "--window", "--weights", "--figure", "--ddof", "--minimum", "--output", "--svg"];
const BARE: [&str; 4] = ["--centered", "--unbiased", "--pearson", "--csv"];

/// What the command line asks for.
#[derive(Debug, PartialEq)]
pub enum Request {
    Help,
    Report(Options),
}

/// A report's sources, setting and targets.
#[derive(Debug, PartialEq)]
pub struct Options {
    pub asked: Asked,
    pub windows: Windows,
    pub csv: bool,
    pub output: Option<PathBuf>,
    pub svg: Option<PathBuf>,
}

/// Where a trace is read from.
#[derive(Debug, PartialEq)]
pub enum Source {
    StandardInput,
    File(PathBuf),
}
impl Source {
    pub fn path(&self) -> Option<&PathBuf> {
        match self {
            Source::StandardInput => None,
            Source::File(path) => Some(path),
        }
    }
    pub fn name(&self) -> String {
        self.path().map_or("standard input".to_string(), |path| name(path))
    }
}

/// What is asked of each window, and of which traces.
#[derive(Debug, PartialEq)]
pub enum Asked {
    /// With the lowest and the highest reading of each window; with weights it is the weighted variance alone, which has no ddof.
    Variance(Source, Setting<Var>),
    Shape(Source, Setting<Shape>),
    Pair([Source; 2], Setting<PairFigure>),
}
impl Asked {
    pub fn sources(&self) -> &[Source] {
        match self {
            Asked::Variance(source, _) | Asked::Shape(source, _) => std::slice::from_ref(source),
            Asked::Pair(sources, _) => sources,
        }
    }
}

/// Which windows.
#[derive(Debug, PartialEq)]
pub enum Windows {
    Plan(PathBuf),
    Fixed { window: Window, weights: Option<Vec<f64>> },
}

impl Options {
    pub fn weights(&self) -> Option<&[f64]> {
        match &self.windows {
            Windows::Fixed { weights, .. } => weights.as_deref(),
            Windows::Plan(_) => None,
        }
    }
    /// The figure in a word.
    pub fn figure(&self) -> &'static str {
        match &self.asked {
            Asked::Variance(..) => "variance",
            Asked::Shape(_, setting) => match setting.figure {
                Shape::Skew { .. } => "skewness",
                Shape::Kurtosis { .. } => "kurtosis",
            },
            Asked::Pair(_, setting) => match setting.figure {
                PairFigure::Cov { .. } => "covariance",
                PairFigure::PearsonCorr => "correlation",
            },
        }
    }
    /// What a window's places hold, in a word.
    pub fn unit(&self) -> &'static str {
        match self.asked {
            Asked::Variance(..) | Asked::Shape(..) => "reading",
            Asked::Pair(..) => "pair",
        }
    }
    /// Where finite readings have no figure, in words.
    pub fn has_no_figure(&self) -> &'static str {
        match self.asked {
            Asked::Variance(..) | Asked::Shape(..) => "where all readings are alike",
            Asked::Pair(..) => "of one pair or where all readings of a trace are alike",
        }
    }
    /// The figure and its setting.
    pub fn in_words(&self) -> String {
        let (name, biased) = (self.figure(), |bias: bool| if bias { "biased" } else { "unbiased" });
        let (figure, minimum) = match &self.asked {
            Asked::Variance(_, setting) if self.weights().is_some() => (format!("weighted {name}"), setting.min_periods),
            Asked::Variance(_, Setting { figure: Var { ddof }, min_periods }) => (format!("{name}, ddof {ddof}"), *min_periods),
            Asked::Shape(_, Setting { figure, min_periods }) => {
                let figure = match *figure {
                    Shape::Skew { bias } | Shape::Kurtosis { fisher: false, bias } => format!("{name}, {}", biased(bias)),
                    Shape::Kurtosis { fisher: true, bias } => format!("{name} less three, {}", biased(bias)),
                };
                (figure, *min_periods)
            }
            Asked::Pair(_, Setting { figure: PairFigure::Cov { ddof }, min_periods }) => {
                (format!("{name}, ddof {ddof}"), *min_periods)
            }
            Asked::Pair(_, Setting { figure: PairFigure::PearsonCorr, min_periods }) => (name.to_string(), *min_periods),
        };
        format!("{figure}, minimum {minimum}")
    }
}

/// The arguments, sorted out.
#[derive(Default)]
struct Given {
    values: Vec<(&'static str, OsString)>,
    bare: Vec<&'static str>,
    traces: Vec<OsString>,
}
impl Given {
    fn gather(args: impl Iterator<Item = OsString>) -> Result<Given, String> {
        let (mut given, mut args) = (Given::default(), args.peekable());
        while let Some(arg) = args.next() {
            let option = arg.to_str().filter(|text| text.starts_with('-') && *text != "-");
            if let Some(option) = VALUED.into_iter().find(|name| Some(*name) == option) {
                let value = args.next_if(|value| !value.to_str().is_some_and(|text| text.starts_with("--")));
                let value = value.ok_or(format!("{option} is given without its value"))?;
                given.once(option)?;
                given.values.push((option, value));
            } else if let Some(option) = BARE.into_iter().find(|name| Some(*name) == option) {
                given.once(option)?;
                given.bare.push(option);
            } else if let Some(option) = option {
                return Err(format!("there is no option {}", quoted(option)));
            } else {
                given.traces.push(arg);
            }
        }
        Ok(given)
    }
    fn once(&self, option: &str) -> Result<(), String> {
        match self.has(option) {
            true => Err(format!("{option} is given twice")),
            false => Ok(()),
        }
    }
    fn has(&self, option: &str) -> bool {
        self.bare.contains(&option) || self.values.iter().any(|(name, _)| *name == option)
    }
    fn value(&self, option: &str) -> Option<&OsString> {
        self.values.iter().find(|(name, _)| *name == option).map(|(_, value)| value)
    }
    fn path(&self, option: &str) -> Result<Option<PathBuf>, String> {
        match self.value(option) {
            Some(value) if value.is_empty() || value == "-" => Err(format!("{option} takes the name of a file")),
            value => Ok(value.map(PathBuf::from)),
        }
    }
    fn text(&self, option: &str) -> Option<String> {
        self.value(option).map(|value| value.to_string_lossy().into_owned())
    }
    fn whole<T: FromStr + Display>(&self, option: &str, most: T) -> Result<Option<T>, String> {
        let whole = |text: String| {
            text.parse().map_err(|_| format!("{option} takes a whole number from 0 to {most}, not {}", quoted(&text)))
        };
        self.text(option).map(whole).transpose()
    }
    /// Options that have no meaning here.
    fn without(&self, options: &[&str], why: &str) -> Result<(), String> {
        match options.iter().find(|option| self.has(option)) {
            Some(option) => Err(format!("{option} {why}")),
            None => Ok(()),
        }
    }
    fn sources(&self) -> Result<Vec<Source>, String> {
        let source = |name: &OsString| match name.to_str() {
            Some("") => Err("a trace's name is empty".to_string()),
            Some("-") => Ok(Source::StandardInput),
            _ => Ok(Source::File(PathBuf::from(name))),
        };
        match self.traces.iter().filter(|name| *name == "-").count() {
            _ if self.traces.is_empty() => Err("no trace is named".to_string()),
            0 | 1 => self.traces.iter().map(source).collect(),
            _ => Err("standard input is named for two traces".to_string()),
        }
    }
    fn windows(&self) -> Result<Windows, String> {
        match (self.path("--plan")?, self.whole("--window", usize::MAX)?) {
            (Some(_), Some(_)) => Err("--plan and --window exclude each other".to_string()),
            (None, None) => Err("--plan or --window is needed".to_string()),
            (Some(plan), None) => {
                self.without(&["--centered", "--weights"], "goes with --window and not with --plan")?;
                Ok(Windows::Plan(plan))
            }
            (None, Some(size)) => {
                let window = Window { size, center: self.has("--centered") };
                Ok(Windows::Fixed { window, weights: self.weights()? })
            }
        }
    }
    /// Of weights whose sum is not finite the library makes zeros or NaN: a swing would read as none.
    fn weights(&self) -> Result<Option<Vec<f64>>, String> {
        let Some(text) = self.text("--weights") else { return Ok(None) };
        let weights: Result<Vec<f64>, String> = text.split(',').map(|weight| double(weight.trim())).collect();
        let weights = weights.map_err(|text| format!("--weights: {text}"))?;
        match weights.iter().sum::<f64>().is_finite() {
            true => Ok(Some(weights)),
            false => Err("--weights takes finite numbers with a finite sum".to_string()),
        }
    }
    fn ddof(&self) -> Result<u8, String> {
        Ok(self.whole("--ddof", u8::MAX)?.unwrap_or(1))
    }
    fn asked(&self, sources: Vec<Source>) -> Result<Asked, String> {
        let named = self.text("--figure");
        let figure = named.as_deref().unwrap_or("variance");
        let without = |options: &[&str]| self.without(options, &format!("has no meaning for the {figure}"));
        match figure {
            "variance" => {
                without(&["--unbiased", "--pearson"])?;
                if self.has("--weights") {
                    self.without(&["--ddof"], "has no meaning for the weighted variance")?;
                }
                let setting = Setting::var(self.ddof()?);
                Ok(Asked::Variance(only(figure, sources)?, setting.min_periods(self.minimum()?)))
            }
            "skewness" => {
                without(&["--ddof", "--weights", "--pearson"])?;
                self.of_shape(figure, sources, Setting::skew(!self.has("--unbiased")))
            }
            "kurtosis" => {
                without(&["--ddof", "--weights"])?;
                self.of_shape(figure, sources, Setting::kurtosis(!self.has("--pearson"), !self.has("--unbiased")))
            }
            "covariance" => {
                without(&["--weights", "--unbiased", "--pearson"])?;
                self.of_two(figure, sources, Setting::cov(self.ddof()?))
            }
            "correlation" => {
                without(&["--ddof", "--weights", "--unbiased", "--pearson"])?;
                self.of_two(figure, sources, Setting::pearson_corr())
            }
            other => {
                let figures = "variance, skewness, kurtosis, covariance or correlation";
                Err(format!("--figure is {figures}, not {}", quoted(other)))
            }
        }
    }
    fn of_shape(&self, figure: &str, sources: Vec<Source>, setting: Setting<Shape>) -> Result<Asked, String> {
        Ok(Asked::Shape(only(figure, sources)?, setting.min_periods(self.minimum()?)))
    }
    fn of_two(&self, figure: &str, sources: Vec<Source>, setting: Setting<PairFigure>) -> Result<Asked, String> {
        match <[Source; 2]>::try_from(sources) {
            Ok(sources) => Ok(Asked::Pair(sources, setting.min_periods(self.minimum()?))),
            Err(sources) => Err(format!("the {figure} is of two traces, but {}", named_too(&sources, 2))),
        }
    }
    fn minimum(&self) -> Result<usize, String> {
        Ok(self.whole("--minimum", usize::MAX)?.unwrap_or(1))
    }
}

/// The one trace that a figure is of.
fn only(figure: &str, sources: Vec<Source>) -> Result<Source, String> {
    <[Source; 1]>::try_from(sources).map(|[source]| source).map_err(|sources| {
        let too_many = named_too(&sources, 1);
        format!("the {figure} is of one trace, but {too_many}; --figure covariance and correlation are of two")
    })
}

/// What is wrong with the number of traces where it should be another.
fn named_too(sources: &[Source], number: usize) -> String {
    sources.get(number).map_or("one is named".to_string(), |source| format!("{} is named too", quoted(&source.name())))
}

/// What is asked, or what is wrong with how it is asked.
pub fn parse(args: impl Iterator<Item = OsString>) -> Result<Request, String> {
    let args: Vec<OsString> = args.collect();
    if args.iter().any(|arg| arg == "--help" || arg == "-h") {
        return Ok(Request::Help);
    }
    let given = Given::gather(args.into_iter())?;
    let (sources, windows) = (given.sources()?, given.windows()?);
    let (asked, csv, output, svg) = (given.asked(sources)?, given.has("--csv"), given.path("--output")?, given.path("--svg")?);
    Ok(Request::Report(Options { asked, windows, csv, output, svg }))
}

#[cfg(test)]
mod tests {
    use super::*;

    fn ask(line: &str) -> Result<Request, String> {
        parse(line.split_whitespace().map(OsString::from))
    }
    fn asked(line: &str) -> String {
        match ask(line) {
            Ok(Request::Report(options)) => options.in_words(),
            other => format!("{other:?}"),
        }
    }

    #[test]
    fn figures_and_their_settings() {
        assert_eq!(asked("t --plan p"), "variance, ddof 1, minimum 1");
        assert_eq!(asked("--ddof 0 --minimum 3 t --window 4"), "variance, ddof 0, minimum 3");
        assert_eq!(asked("- --window 2 --weights 1,-2e3 --centered"), "weighted variance, minimum 1");
        assert_eq!(asked("t --plan p --figure skewness"), "skewness, biased, minimum 1");
        assert_eq!(asked("t --plan p --figure kurtosis --unbiased"), "kurtosis less three, unbiased, minimum 1");
        assert_eq!(asked("t --plan p --figure kurtosis --pearson"), "kurtosis, biased, minimum 1");
        assert_eq!(asked("t u --plan p --figure covariance"), "covariance, ddof 1, minimum 1");
        assert_eq!(asked("t - --figure covariance --window 3 --ddof 0 --minimum 2"), "covariance, ddof 0, minimum 2");
        assert_eq!(asked("--figure correlation - u --window 3 --centered"), "correlation, minimum 1");
        assert_eq!(ask("t --plan --help"), Ok(Request::Help));
    }

    #[test]
    fn wrong_command_lines() {
        let cases = [
            ("", "no trace is named"),
            ("t", "--plan or --window is needed"),
            (
                "t u --plan p",
                "the variance is of one trace, but \"u\" is named too; --figure covariance and correlation are of two",
            ),
            (
                "t u v --plan p --figure kurtosis",
                "the kurtosis is of one trace, but \"u\" is named too; --figure covariance and correlation are of two",
            ),
            ("t --plan p --figure covariance", "the covariance is of two traces, but one is named"),
            ("- --window 2 --figure correlation", "the correlation is of two traces, but one is named"),
            ("t u v --window 2 --figure correlation", "the correlation is of two traces, but \"v\" is named too"),
            ("- - --window 2 --figure correlation", "standard input is named for two traces"),
            ("t u --window 2 --figure covariance --weights 1,1", "--weights has no meaning for the covariance"),
            ("t u --window 2 --figure correlation --ddof 1", "--ddof has no meaning for the correlation"),
            ("t u --window 2 --figure correlation --pearson", "--pearson has no meaning for the correlation"),
            ("t u --window 2 --figure covariance --unbiased", "--unbiased has no meaning for the covariance"),
            ("t --plan p --window 3", "--plan and --window exclude each other"),
            ("t --plan", "--plan is given without its value"),
            ("t --plan --csv", "--plan is given without its value"),
            ("t --plan -", "--plan takes the name of a file"),
            ("t --plan p --plan q", "--plan is given twice"),
            ("t --plan p --csv --csv", "--csv is given twice"),
            ("t --plan p --cvs", "there is no option \"--cvs\""),
            ("t --plan p -x", "there is no option \"-x\""),
            ("t --plan p --centered", "--centered goes with --window and not with --plan"),
            ("t --plan p --weights 1", "--weights goes with --window and not with --plan"),
            ("t --window 3.5", "--window takes a whole number from 0 to 18446744073709551615, not \"3.5\""),
            ("t --window -1", "--window takes a whole number from 0 to 18446744073709551615, not \"-1\""),
            ("t --window 2 --weights 1,x", "--weights: \"x\" is no number"),
            ("t --window 2 --weights 1,nan", "--weights takes finite numbers with a finite sum"),
            ("t --window 2 --weights 1e308,1e308", "--weights takes finite numbers with a finite sum"),
            ("t --window 2 --weights 1,1e999", "--weights: \"1e999\" is too large for a 64-bit float"),
            ("t --window 2 --weights 1,1 --ddof 0", "--ddof has no meaning for the weighted variance"),
            ("t --window 2 --weights 1,1 --figure skewness", "--weights has no meaning for the skewness"),
            ("t --plan p --ddof 256", "--ddof takes a whole number from 0 to 255, not \"256\""),
            ("t --plan p --ddof 1 --figure skewness", "--ddof has no meaning for the skewness"),
            ("t --plan p --pearson --figure skewness", "--pearson has no meaning for the skewness"),
            ("t --plan p --ddof 1 --figure kurtosis", "--ddof has no meaning for the kurtosis"),
            ("t --plan p --unbiased", "--unbiased has no meaning for the variance"),
            ("t --plan p --figure mean", "--figure is variance, skewness, kurtosis, covariance or correlation, not \"mean\""),
            ("t --plan p --minimum many", "--minimum takes a whole number from 0 to 18446744073709551615, not \"many\""),
        ];
        for (line, wrong) in cases {
            assert_eq!(ask(line), Err(wrong.to_string()), "{line}");
        }
    }
}

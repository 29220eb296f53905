//! The rows of a table: what was asked, and what the library answered.
use crate::bounds::bounds;
use crate::options::{Asked, Options, Windows};
use crate::plan::PlanFile;
use crate::text::{count, name, quoted};
use crate::trace::{Trace, Traces};
use moments::{plan, plan_pair, plan_var, rolling, rolling_pair, rolling_var, rolling_var_weights};
use moments::{Answer, PairFigure, Plan, Refusal, Setting, Shape, Var, Which, Window};
use std::io::BufRead;

/// Where the rows come from.
pub enum Rows {
    Plan(PlanFile),
    Fixed(Window),
}

/// What the library answered of the rows.
enum Answers {
    /// Variances with the lowest and the highest reading of each window.
    Variances(Vec<Answer>),
    Figures(Vec<Option<f64>>),
}

/// A trace or two, the rows and their figures.
pub struct Report<'a> {
    pub options: &'a Options,
    pub traces: Traces,
    pub rows: Rows,
    answers: Answers,
}

/// One row of the table.
pub struct Row<'a> {
    pub label: &'a str,
    pub start: usize,
    pub end: usize,
    /// The times of the window's first and last reading; nothing if it has none.
    pub from: &'a str,
    pub to: &'a str,
    pub valid: usize,
    /// Readings, or pairs of them, that are not finite.
    pub not_finite: usize,
    pub figure: Option<f64>,
    /// The lowest and the highest finite reading; none where it is missing or the report has none.
    pub lowest: Option<f64>,
    pub highest: Option<f64>,
}
impl Row<'_> {
    /// Whether there is a figure that is not finite.
    pub fn is_marked(&self) -> bool {
        self.figure.is_some_and(|figure| !figure.is_finite())
    }
}

impl<'a> Report<'a> {
    /// Reads the plan, if there is one, then each trace, and asks the library.
    pub fn make(
        options: &'a Options,
        inputs: &mut [Box<dyn BufRead + '_>],
        plan: Option<&mut dyn BufRead>,
    ) -> Result<Self, String> {
        let rows = match (&options.windows, plan) {
            (Windows::Plan(path), Some(input)) => Rows::Plan(PlanFile::read(input, &name(path))?),
            (Windows::Fixed { window, .. }, _) => Rows::Fixed(*window),
            (Windows::Plan(path), None) => return Err(format!("{}: was not opened", name(path))),
        };
        let (traces, answers) = match (&options.asked, inputs) {
            (Asked::Variance(source, setting), [input, ..]) => {
                let trace = Trace::read(input, &source.name())?;
                let answers = variances(&trace, &rows, *setting, options.weights());
                (Traces::new(trace, None), answers)
            }
            (Asked::Shape(source, setting), [input, ..]) => {
                let trace = Trace::read(input, &source.name())?;
                let answers = of_trace(&trace, &rows, *setting).map(Answers::Figures);
                (Traces::new(trace, None), answers)
            }
            (Asked::Pair([first, second], setting), [x, y, ..]) => {
                let (x, y) = (Trace::read(x, &first.name())?, Trace::read(y, &second.name())?);
                let answers = of_pair(&x, &y, &rows, *setting).map(Answers::Figures);
                (Traces::new(x, Some(y)), answers)
            }
            _ => return Err("a trace was not opened".to_string()),
        };
        let answers = answers.map_err(|refusal| in_words(refusal, &traces, &rows))?;
        Ok(Report { options, traces, rows, answers })
    }
    pub fn len(&self) -> usize {
        match &self.answers {
            Answers::Variances(answers) => answers.len(),
            Answers::Figures(figures) => figures.len(),
        }
    }
    /// Whether rows have a lowest and a highest reading.
    pub fn has_extremes(&self) -> bool {
        matches!(self.answers, Answers::Variances(_))
    }
    /// A row's figure, and its lowest and highest reading.
    fn answer(&self, row: usize) -> [Option<f64>; 3] {
        match &self.answers {
            Answers::Variances(answers) => {
                let Answer { variance, lowest, highest } = answers.get(row).copied().unwrap_or_default();
                [variance, lowest, highest]
            }
            Answers::Figures(figures) => [figures.get(row).copied().flatten(), None, None],
        }
    }
    /// The figures alone, without those that are missing.
    pub fn figures(&self) -> impl Iterator<Item = f64> + '_ {
        (0..self.len()).filter_map(|row| self.answer(row)[0])
    }
    /// The lowest and the highest readings alone.
    pub fn extremes(&self) -> impl Iterator<Item = f64> + '_ {
        (0..self.len()).flat_map(|row| {
            let [_, lowest, highest] = self.answer(row);
            [lowest, highest].into_iter().flatten()
        })
    }
    pub fn rows(&self) -> impl Iterator<Item = Row<'_>> {
        (0..self.len()).map(|row| self.row(row))
    }
    fn row(&self, row: usize) -> Row<'_> {
        let ((start, end), label) = match &self.rows {
            Rows::Plan(plan) => (plan.bounds(row), plan.label(row).unwrap_or("")),
            Rows::Fixed(window) => (bounds(*window, self.traces.len(), row), ""),
        };
        let time = |place: usize| if start < end { self.traces.first.times.get(place) } else { "" };
        let (from, to) = (time(start), time(end.saturating_sub(1)));
        let (valid, not_finite) = (self.traces.valid(start, end), self.traces.not_finite(start, end));
        let [figure, lowest, highest] = self.answer(row);
        Row { label, start, end, from, to, valid, not_finite, figure, lowest, highest }
    }
    pub fn has_labels(&self) -> bool {
        matches!(&self.rows, Rows::Plan(plan) if plan.labels.is_some())
    }
    /// The windows, in words.
    pub fn windows(&self) -> String {
        match &self.rows {
            Rows::Plan(plan) => plan.file.clone(),
            Rows::Fixed(window) => {
                format!("{}, of {}", if window.center { "centred" } else { "trailing" }, count(window.size, "place"))
            }
        }
    }
    /// What the places hold, in words.
    pub fn readings(&self) -> String {
        let n = self.traces.len();
        in_numbers(n, self.options.unit(), n - self.traces.valid(0, n), self.traces.not_finite(0, n))
    }
}
impl Trace {
    /// The trace, in words.
    pub fn in_words(&self) -> String {
        let readings = (0..self.len()).map(|place| self.reading(place));
        let missing = readings.clone().filter(|reading| reading.is_none()).count();
        let not_finite = readings.flatten().filter(|reading| !reading.is_finite()).count();
        in_numbers(self.len(), "reading", missing, not_finite)
    }
}
fn in_numbers(n: usize, unit: &str, missing: usize, not_finite: usize) -> String {
    format!("{}, {missing} missing, {not_finite} not finite", count(n, unit))
}
impl PlanFile {
    fn plan(&self) -> Plan<'_> {
        Plan::new(&self.starts, &self.ends)
    }
    fn bounds(&self, row: usize) -> (usize, usize) {
        let place = |places: &[u32]| places.get(row).map_or(0, |place| *place as usize);
        (place(&self.starts), place(&self.ends))
    }
    fn label(&self, row: usize) -> Option<&str> {
        self.labels.as_ref().map(|labels| labels.get(row))
    }
}

type Figures = Result<Vec<Option<f64>>, Refusal>;

fn variances(trace: &Trace, rows: &Rows, setting: Setting<Var>, weights: Option<&[f64]>) -> Result<Answers, Refusal> {
    let (readings, map) = (&trace.readings, trace.map.as_deref());
    Ok(match (rows, weights) {
        (Rows::Plan(file), _) => Answers::Variances(plan_var(readings, map, file.plan(), setting)?),
        (Rows::Fixed(window), None) => Answers::Variances(rolling_var(readings, map, *window, setting)?),
        (Rows::Fixed(window), Some(weights)) => {
            Answers::Figures(rolling_var_weights(readings, map, *window, setting.min_periods, weights)?)
        }
    })
}
fn of_trace(trace: &Trace, rows: &Rows, setting: Setting<Shape>) -> Figures {
    let (readings, map) = (&trace.readings, trace.map.as_deref());
    match rows {
        Rows::Plan(file) => plan(readings, map, file.plan(), setting),
        Rows::Fixed(window) => rolling(readings, map, *window, setting),
    }
}
fn of_pair(x: &Trace, y: &Trace, rows: &Rows, setting: Setting<PairFigure>) -> Figures {
    let (x, x_map, y, y_map) = (&x.readings, x.map.as_deref(), &y.readings, y.map.as_deref());
    match rows {
        Rows::Plan(file) => plan_pair(x, x_map, y, y_map, file.plan(), setting),
        Rows::Fixed(window) => rolling_pair(x, x_map, y, y_map, *window, setting),
    }
}

/// A refusal's sentence, behind the file and line that it speaks of.
fn in_words(refusal: Refusal, traces: &Traces, rows: &Rows) -> String {
    let first = &traces.first;
    match (refusal, rows) {
        (Refusal::TooManyReadings { trace: which, .. }, _) => {
            let trace = traces.told(which);
            format!("{}: {}", trace.file, Refusal::TooManyReadings { trace: which, readings: trace.seen })
        }
        (Refusal::LengthsDiffer { .. }, _) => {
            format!("{}: {refusal} (the first is {})", traces.told(Which::Second).file, first.file)
        }
        (Refusal::PlanLengths { .. }, Rows::Plan(plan)) => {
            format!("{}: {}", plan.file, Refusal::PlanLengths { starts: plan.seen, ends: plan.seen })
        }
        (Refusal::WeightsWithMap, _) => {
            let line = first.first_missing().map_or(0, |place| first.line(place));
            format!("{}:{line}: {refusal}; the first that is missing is here", first.file)
        }
        (Refusal::WeightsSumToZero | Refusal::WeightCount { .. }, _) => format!("--weights: {refusal}"),
        (_, Rows::Plan(plan)) => match refusal.row() {
            Some(row) => {
                let label = plan.label(row).map_or(String::new(), |label| format!(" (label {})", quoted(label)));
                format!("{}:{}: {refusal}{label}", plan.file, plan.line(row))
            }
            None => format!("{}: {refusal}", plan.file),
        },
        (_, Rows::Fixed(_)) => format!("{}: {refusal}", first.file),
    }
}

//! Both implementations in turn, the time of each, and whether they answer alike.
use std::hint::black_box;
use std::time::Instant;

/// A line of which one turn of both takes longer than this many seconds is left out.
const TOO_LONG: f64 = 40.0;
/// Each line is repeated this often at least.
const LEAST: usize = 3;

pub struct Options {
    pub sizes: Vec<usize>,
    pub reps: usize,
    /// Seconds that the repetitions of a line may take at each size, but for the first few.
    pub budget: f64,
    /// Part of the name of a section or of a line.
    pub filter: String,
}

/// The ratio that is aimed at, if any is.
#[derive(Clone, Copy)]
pub enum Aim {
    AtMost(f64),
    None,
}
impl Aim {
    pub fn most(self) -> Option<f64> {
        match self {
            Aim::AtMost(most) => Some(most),
            Aim::None => None,
        }
    }
}
/// What is measured.
pub struct Case {
    pub section: &'static str,
    pub name: String,
    pub aim: Aim,
    /// Rows, readings or calls.
    pub n: usize,
}

/// Seconds of one run.
#[derive(Clone, Copy)]
pub struct Time {
    pub best: f64,
    pub median: f64,
}
impl Time {
    fn of(mut times: Vec<f64>) -> Self {
        times.sort_by(f64::total_cmp);
        Time { best: times[0], median: times[times.len() / 2] }
    }
}
pub struct Point {
    pub n: usize,
    pub rust: Time,
    pub ours: Time,
}
impl Point {
    pub fn ratio(&self) -> f64 {
        self.ours.best / self.rust.best
    }
    pub fn median_ratio(&self) -> f64 {
        self.ours.median / self.rust.median
    }
}
/// A case at each size.
pub struct Line {
    pub section: &'static str,
    pub name: String,
    pub aim: Aim,
    pub points: Vec<Point>,
    /// The sizes at which it was left out, with the seconds that a turn would have taken.
    pub left_out: Vec<(usize, f64)>,
}
impl Line {
    /// Seconds of one turn at a size, going by the size before it.
    fn expected(&self, n: usize) -> Option<f64> {
        self.points.last().map(|last| (last.rust.best + last.ours.best) * n as f64 / last.n as f64)
    }
    /// The least-squares slope of log(time) over log(n): 1 where cost grows with n.
    pub fn slope(&self, time: impl Fn(&Point) -> f64) -> Option<f64> {
        let logs: Vec<(f64, f64)> = self.points.iter().map(|p| ((p.n as f64).ln(), time(p).ln())).collect();
        let count = logs.len() as f64;
        let (x, y) = logs.iter().fold((0.0, 0.0), |sum, log| (sum.0 + log.0 / count, sum.1 + log.1 / count));
        let (xy, xx) = logs.iter().fold((0.0, 0.0), |sum, log| (sum.0 + (log.0 - x) * (log.1 - y), sum.1 + (log.0 - x).powi(2)));
        (logs.len() > 1).then_some(xy / xx)
    }
}

pub struct Bench {
    pub options: Options,
    pub lines: Vec<Line>,
    /// Answers that were compared, and those of them that differ.
    pub compared: usize,
    pub differ: usize,
}
impl Bench {
    pub fn new(options: Options) -> Self {
        Bench { options, lines: vec![], compared: 0, differ: 0 }
    }
    /// Times a case. `make` makes what both work on; it is made only if the case is asked for. `compare` tells of each answer whether
    /// both gave the same.
    pub fn run<T, C: Iterator<Item = bool>>(
        &mut self,
        case: Case,
        make: impl FnOnce() -> T,
        mut rust: impl FnMut(&mut T),
        mut ours: impl FnMut(&mut T),
        compare: impl FnOnce(T) -> C,
    ) {
        let Case { section, name, aim, n } = case;
        if !format!("{section} {name}").to_lowercase().contains(&self.options.filter.to_lowercase()) {
            return;
        }
        let at = self.lines.iter().position(|line| line.section == section && line.name == name).unwrap_or(self.lines.len());
        if at == self.lines.len() {
            self.lines.push(Line { section, name, aim, points: vec![], left_out: vec![] });
        }
        let line = &mut self.lines[at];
        if let Some(seconds) = line.expected(n).filter(|seconds| *seconds > TOO_LONG) {
            eprintln!("{n:>9}  {section}: {}: left out, {seconds:.0} s a turn", line.name);
            line.left_out.push((n, seconds));
            return;
        }
        eprint!("{n:>9}  {section}: {}", line.name);

        let mut shared = make();
        let mut turn = || {
            let start = Instant::now();
            rust(black_box(&mut shared));
            let between = Instant::now();
            ours(black_box(&mut shared));
            ((between - start).as_secs_f64(), between.elapsed().as_secs_f64())
        };
        let first = turn();
        let both = first.0 + first.1;
        let reps = ((self.options.budget / both) as usize).min(self.options.reps).max(LEAST);
        // a turn that takes long has no use for another before it that warms up
        let mut turns = if both > 1.0 { vec![first] } else { vec![] };
        turns.resize_with(reps, &mut turn);
        let (rust, ours) = turns.into_iter().unzip();
        let point = Point { n, rust: Time::of(rust), ours: Time::of(ours) };

        let (mut compared, mut differ) = (0, 0);
        for same in compare(shared) {
            compared += 1;
            differ += usize::from(!same);
        }
        self.compared += compared;
        self.differ += differ;
        let ns = |time: Time| time.best / n as f64 * 1e9;
        let (rust, ours) = (ns(point.rust), ns(point.ours));
        eprintln!(
            ": {rust:.2} {ours:.2}, ratio {:.3} ({:.3}), {reps} times, {differ} differ",
            point.ratio(),
            point.median_ratio()
        );
        line.points.push(point);
    }
}

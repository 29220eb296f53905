//! Windows of two traces, plans and fixed ones, beside the oracle's Rust of the same account (`oracle::model`): the source has none. That
//! Rust is lent what ours is lent, in lists of its own, decodes the bytes of a plan's traces too, and leaves a NaN the bits that it has.
use crate::input::Input;
use crate::measure::{Aim, Bench, Case};
use crate::windows::{name, windows as fixed_windows, Lent, SIZES};
use moments::{plan_pair_into, rolling_pair_into, Encoded, Plan, Window};
use oracle::model::pairs_into;
use oracle::second::pair_setting;
use oracle::PairFigure;
use std::hint::black_box;

/// Correlation pays our root in every row.
const FIGURES: [(&str, PairFigure, f64); 2] =
    [("Covariance windows", PairFigure::Cov { ddof: 1 }, 1.0), ("Correlation windows", PairFigure::Pearson, 1.8)];

/// What each of the two is lent, with the list of the second trace's readings.
struct Both {
    rust: (Lent, Vec<f64>),
    ours: (Lent, Vec<f64>),
}
impl Both {
    fn new(n: usize, readings: usize, work: usize) -> Self {
        let lent = || (Lent::new(n, readings, work), vec![0.0; readings]);
        Both { rust: lent(), ours: lent() }
    }
    fn compare(self) -> impl Iterator<Item = bool> {
        self.ours.0.figures.compare(self.rust.0.figures.answers())
    }
}
/// What a host in Rust does with the bytes of a trace.
pub fn decode(bytes: &[u8], readings: &mut [f64]) {
    let words = bytes.chunks_exact(8).map(|word| f64::from_le_bytes(word.try_into().expect("eight bytes")));
    readings.iter_mut().zip(words).for_each(|(reading, x)| *reading = x);
}
type Maps<'a> = [Option<&'a [u8]>; 2];
fn rust(
    traces: [&[f64]; 2],
    maps: Maps,
    rows: impl Iterator<Item = (usize, usize)> + Clone,
    figure: PairFigure,
    lent: &mut Lent,
) {
    let Lent { work, figures, .. } = lent;
    let put = |i: usize, row: Option<f64>| figures.put(i, row);
    pairs_into(traces, maps, rows, figure, 1, work, put, &mut ());
}
impl Input {
    /// Without a map, with the first trace's, and with both.
    fn pair_maps(&self) -> [(Maps<'_>, &'static str); 3] {
        let (x, y) = (Some(&self.map[..]), Some(&self.y_map[..]));
        [([None, None], "no map"), ([x, None], "one map"), ([x, y], "both maps")]
    }
}

/// A figure with the section of its lines and the ratio that is aimed at.
#[derive(Clone, Copy)]
struct Asked {
    section: &'static str,
    figure: PairFigure,
    aim: Aim,
}

pub fn windows(bench: &mut Bench, input: &Input) {
    let encode = |trace: &[f64]| trace.iter().flat_map(|x| x.to_le_bytes()).collect::<Vec<u8>>();
    let bytes = [encode(&input.x), encode(&input.y)];
    let plans = SIZES.map(|size| (name(size), input.trailing(size))).into_iter().chain([("uneven".into(), input.uneven())]);
    let plans: Vec<_> = plans.collect();
    for (section, figure, most) in FIGURES {
        let asked = Asked { section, figure, aim: Aim::AtMost(most) };
        for (plan_name, (starts, ends)) in &plans {
            of_plan(bench, input, &bytes, asked, plan_name, Plan::new(starts, ends));
        }
        SIZES.into_iter().flat_map(fixed_windows).for_each(|(window, name)| of_fixed(bench, input, asked, &name, window));
    }
}
fn of_plan(bench: &mut Bench, input: &Input, [x, y]: &[Vec<u8>; 2], asked: Asked, plan_name: &str, plan: Plan<'_>) {
    let (n, Asked { section, figure, aim }) = (input.n, asked);
    let setting = pair_setting(figure, 1);
    for (maps, tag) in input.pair_maps() {
        bench.run(
            Case { section, name: format!("plan {plan_name}, {tag}"), aim, n },
            || Both::new(n, n, setting.work(plan.widest())),
            |both| {
                let rows = plan.starts.iter().zip(plan.ends).map(|(start, end)| (*start as usize, *end as usize));
                let (lent, second) = &mut both.rust;
                let mut first = std::mem::take(&mut lent.readings);
                decode(x, &mut first);
                decode(y, second);
                rust([&first, second], maps, rows, figure, lent);
                lent.readings = first;
            },
            |Both { ours: (lent, second), .. }| {
                let (readings, lists) = lent.lists();
                let x = Encoded { bytes: x, readings, map: maps[0] };
                let y = Encoded { bytes: y, readings: second, map: maps[1] };
                black_box(plan_pair_into(x, y, plan, setting, lists)).expect("accepted");
            },
            Both::compare,
        );
    }
}
fn of_fixed(bench: &mut Bench, input: &Input, asked: Asked, window_name: &str, window: Window) {
    let (n, Asked { section, figure, aim }, Window { size, center }) = (input.n, asked, window);
    let setting = pair_setting(figure, 1);
    for (maps, tag) in input.pair_maps() {
        bench.run(
            Case { section, name: format!("fixed {window_name}, {tag}"), aim, n },
            || Both::new(n, 0, setting.work(size.min(n))),
            |both| {
                let rows = (0..n).map(|i| oracle::offsets(i, size, n, center));
                rust([&input.x, &input.y], maps, rows, figure, &mut both.rust.0);
            },
            |Both { ours: (lent, _), .. }| {
                let lists = lent.lists().1;
                black_box(rolling_pair_into(&input.x, maps[0], &input.y, maps[1], window, setting, lists)).expect("accepted");
            },
            Both::compare,
        );
    }
}

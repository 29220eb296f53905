//! Variance with the lowest and the highest reading of each window, plans and fixed ones, beside the oracle's Rust of the same
//! (`oracle::model`): the source gives the variance alone, beside which `windows` sets it. That Rust has the source's own state and the two
//! numbers in one record of the front stack and in the back state. It is lent what ours is lent, in lists of its own, decodes the bytes of
//! a plan's trace too, and leaves a NaN the bits that it has.
use crate::input::Input;
use crate::measure::{Aim, Bench, Case};
use crate::windows::{name, windows as fixed_windows, Column, Lent, SIZES};
use moments::{plan_var_into, rolling_var_into, Plan, Setting, Window};
use oracle::extremes::Extremes;
use oracle::model::plan_into;
use oracle::Figure;
use std::hint::black_box;

const SECTION: &str = "Variance with lowest and highest";
const DDOF: u8 = 1;

/// What each of the two is lent.
struct Both {
    rust: Lent,
    ours: Lent,
}
impl Both {
    fn new(n: usize, readings: usize, work: usize) -> Self {
        let lent = || Lent::with_extremes(n, readings, work);
        Both { rust: lent(), ours: lent() }
    }
    /// Whether each answer of a row is the other's: the variances, then the lowest, then the highest.
    fn compare(self) -> impl Iterator<Item = bool> {
        let [figures, lowest, highest] = self.rust.columns().map(Column::answers);
        let [our_figures, our_lowest, our_highest] = self.ours.columns();
        our_figures.compare(figures).chain(our_lowest.compare(lowest)).chain(our_highest.compare(highest))
    }
}
fn rust(x: &[f64], map: Option<&[u8]>, rows: impl Iterator<Item = (usize, usize)> + Clone, lent: &mut Lent) {
    let Lent { work, figures, lowest, highest, .. } = lent;
    let put = |i: usize, figure: Option<f64>, [low, high]: Extremes| {
        figures.put(i, figure);
        lowest.put(i, low);
        highest.put(i, high);
    };
    plan_into(x, map, rows, Figure::Var { ddof: DDOF }, 1, work, put, &mut ());
}

pub fn windows(bench: &mut Bench, input: &Input) {
    let bytes: Vec<u8> = input.x.iter().flat_map(|x| x.to_le_bytes()).collect();
    for size in SIZES {
        of_plan(bench, input, &bytes, &name(size), input.trailing(size));
    }
    of_plan(bench, input, &bytes, "uneven", input.uneven());
    SIZES.into_iter().flat_map(fixed_windows).for_each(|(window, name)| of_fixed(bench, input, &name, window));
}
fn of_plan(bench: &mut Bench, input: &Input, bytes: &[u8], plan_name: &str, (starts, ends): (Vec<u32>, Vec<u32>)) {
    let (n, plan, setting) = (input.n, Plan::new(&starts, &ends), Setting::var(DDOF));
    for (map, tag) in input.maps() {
        bench.run(
            Case { section: SECTION, name: format!("plan {plan_name}, {tag}"), aim: Aim::AtMost(0.9), n },
            || Both::new(n, n, setting.work(plan.widest())),
            |both| {
                let rows = plan.starts.iter().zip(plan.ends).map(|(start, end)| (*start as usize, *end as usize));
                let mut readings = std::mem::take(&mut both.rust.readings);
                crate::pairs::decode(bytes, &mut readings);
                rust(&readings, map, rows, &mut both.rust);
                both.rust.readings = readings;
            },
            |both| {
                let (readings, lists) = both.ours.var_lists();
                black_box(plan_var_into(bytes, readings, map, plan, setting, lists)).expect("accepted");
            },
            Both::compare,
        );
    }
}
fn of_fixed(bench: &mut Bench, input: &Input, window_name: &str, window: Window) {
    let (n, Window { size, center }, setting) = (input.n, window, Setting::var(DDOF));
    for (map, tag) in input.maps() {
        bench.run(
            Case { section: SECTION, name: format!("fixed {window_name}, {tag}"), aim: Aim::AtMost(0.9), n },
            || Both::new(n, 0, setting.work(size.min(n))),
            |both| rust(&input.x, map, (0..n).map(|i| oracle::offsets(i, size, n, center)), &mut both.rust),
            |both| {
                let (_, lists) = both.ours.var_lists();
                black_box(rolling_var_into(&input.x, map, window, setting, lists)).expect("accepted");
            },
            Both::compare,
        );
    }
}

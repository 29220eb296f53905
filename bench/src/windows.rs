//! Plans, fixed windows and weights.
use crate::input::Input;
use crate::measure::{Aim, Bench, Case};
use moments::{plan, plan_into, plan_var_into, rolling, rolling_into, rolling_var_into, rolling_var_weights_into};
use moments::{Figure as Asked, Lists, Plan, Refusal, Setting, VarLists, Window};
use oracle::rolling::no_nulls;
use oracle::second::setting;
use oracle::Figure;
use std::hint::black_box;

pub const SIZES: [usize; 3] = [8, 128, 4096];
/// The size at which what differs little from the other lines is measured: biased figures, functions that allocate.
const MIDDLE: usize = 128;
const VARIANCE: (&str, Figure) = ("variance", Figure::Var { ddof: 1 });
const SKEWNESS: (&str, Figure) = ("skewness", Figure::Skew { bias: false });
const KURTOSIS: (&str, Figure) = ("kurtosis", Figure::Kurt { fisher: true, bias: false });
const BIASED: [(&str, Figure); 2] =
    [("skewness biased", Figure::Skew { bias: true }), ("kurtosis biased", Figure::Kurt { fisher: true, bias: true })];

fn figures(size: usize) -> Vec<(&'static str, Figure)> {
    let biased = if size == MIDDLE { &BIASED[..] } else { &[] };
    [&[VARIANCE, SKEWNESS, KURTOSIS], biased].concat()
}
pub fn name(size: usize) -> String {
    if size < 1000 {
        size.to_string()
    } else {
        format!("{},{:03}", size / 1000, size % 1000)
    }
}

/// Two lists that take an answer a row.
#[derive(Default)]
pub struct Column {
    pub values: Vec<f64>,
    pub present: Vec<u8>,
}
impl Column {
    fn new(rows: usize) -> Self {
        Column { values: vec![0.0; rows], present: vec![0; rows] }
    }
    /// What a host in Rust does with an answer.
    #[inline(always)]
    pub fn put(&mut self, row: usize, answer: Option<f64>) {
        (self.values[row], self.present[row]) = (answer.unwrap_or(0.0), answer.is_some() as u8);
    }
    pub fn answers(self) -> Vec<Option<f64>> {
        self.values.into_iter().zip(self.present).map(|(value, present)| (present == 1).then_some(value)).collect()
    }
    /// Whether each row's answer is the Rust's.
    pub fn compare(self, rust: Vec<Option<f64>>) -> impl Iterator<Item = bool> {
        assert_eq!(rust.len(), self.values.len());
        rust.into_iter().zip(self.values).zip(self.present).map(|((rust, value), present)| match rust {
            None => present == 0 && value.to_bits() == 0,
            Some(rust) => present == 1 && oracle::same(rust, value),
        })
    }
    fn lend(&mut self) -> moments::Column<'_> {
        moments::Column::new(&mut self.values, &mut self.present)
    }
}
/// What our entries are lent.
pub struct Lent {
    pub readings: Vec<f64>,
    pub work: Vec<f64>,
    pub figures: Column,
    /// Lent to variance alone, as the next.
    pub lowest: Column,
    pub highest: Column,
}
impl Lent {
    pub fn new(rows: usize, readings: usize, work: usize) -> Self {
        let (readings, work, figures) = (vec![0.0; readings], vec![0.0; work], Column::new(rows));
        Lent { readings, work, figures, lowest: Column::default(), highest: Column::default() }
    }
    pub fn with_extremes(rows: usize, readings: usize, work: usize) -> Self {
        Lent { lowest: Column::new(rows), highest: Column::new(rows), ..Lent::new(rows, readings, work) }
    }
    pub fn columns(self) -> [Column; 3] {
        [self.figures, self.lowest, self.highest]
    }
    /// As host's functions take them: the list of readings, and the others.
    pub fn lists(&mut self) -> (&mut [f64], Lists<'_>) {
        let Lent { readings, work, figures: Column { values, present }, .. } = self;
        (readings, Lists { work, figures: values, present })
    }
    pub fn var_lists(&mut self) -> (&mut [f64], VarLists<'_>) {
        let Lent { readings, work, figures, lowest, highest } = self;
        (readings, VarLists { work, variance: figures.lend(), lowest: lowest.lend(), highest: highest.lend() })
    }
    /// The lists that this figure takes.
    fn of(figure: Figure, rows: usize, readings: usize, work: usize) -> Self {
        if figure.has_extremes() {
            Lent::with_extremes(rows, readings, work)
        } else {
            Lent::new(rows, readings, work)
        }
    }
}
/// Of variance ours gives the lowest and the highest too, which the Rust beside it does not; `extremes` has a Rust that does.
fn title(name: &str, figure: Figure, tag: &str) -> (String, Aim) {
    if figure.has_extremes() {
        (format!("{name}, {tag}, ours with lowest and highest"), Aim::AtMost(1.05))
    } else {
        (format!("{name}, {tag}"), Aim::AtMost(1.0))
    }
}
fn compare(rust: Vec<Option<f64>>, ours: Vec<Option<f64>>) -> impl Iterator<Item = bool> {
    assert_eq!(rust.len(), ours.len());
    rust.into_iter().zip(ours).map(|(rust, ours)| oracle::same_row(rust, ours))
}

/// The plan call of a figure, or of variance, into what is lent.
fn into_plan(bytes: &[u8], map: Option<&[u8]>, rows: Plan<'_>, setting: Setting, lent: &mut Lent) -> Result<(), Refusal> {
    let Setting { figure, min_periods } = setting;
    match figure {
        Asked::Var(figure) => {
            let (readings, lists) = lent.var_lists();
            plan_var_into(bytes, readings, map, rows, Setting { figure, min_periods }, lists)
        }
        Asked::Shape(figure) => {
            let (readings, lists) = lent.lists();
            plan_into(bytes, readings, map, rows, Setting { figure, min_periods }, lists)
        }
    }
}
/// The same over fixed windows.
fn into_rolling(x: &[f64], map: Option<&[u8]>, window: Window, setting: Setting, lent: &mut Lent) -> Result<(), Refusal> {
    let Setting { figure, min_periods } = setting;
    match figure {
        Asked::Var(figure) => rolling_var_into(x, map, window, Setting { figure, min_periods }, lent.var_lists().1),
        Asked::Shape(figure) => rolling_into(x, map, window, Setting { figure, min_periods }, lent.lists().1),
    }
}

/// Plans of as many rows as readings, so that the Rust's own driver runs them.
pub fn plans(bench: &mut Bench, input: &Input) {
    let bytes: Vec<u8> = input.x.iter().flat_map(|x| x.to_le_bytes()).collect();
    for size in SIZES {
        of_plan(bench, input, &bytes, &name(size), size, input.trailing(size));
    }
    of_plan(bench, input, &bytes, "uneven", 0, input.uneven());
    of_plan(bench, input, &bytes, "growing", 0, input.trailing(input.n));
}
fn of_plan(bench: &mut Bench, input: &Input, bytes: &[u8], plan_name: &str, size: usize, (starts, ends): (Vec<u32>, Vec<u32>)) {
    let (n, rows) = (input.n, Plan::new(&starts, &ends));
    for (map, tag) in input.maps() {
        let bitmap = map.map(|map| oracle::bitmap(map, n));
        let case = |name: String, aim: Aim| Case { section: "Plans", name, aim, n };
        for (figure_name, figure) in figures(size) {
            let (setting, rust) = (setting(figure, 1), || oracle::plan_raw(&input.x, bitmap.as_ref(), &starts, &ends, figure, 1));
            let (name, aim) = title(&format!("{plan_name}, {figure_name}"), figure, tag);
            bench.run(
                case(name, aim),
                || Lent::of(figure, n, n, setting.work(rows.widest())),
                |_| drop(black_box(rust())),
                |lent| black_box(into_plan(bytes, map, rows, setting, lent)).expect("accepted"),
                |lent| lent.figures.compare(oracle::rows_of(&rust())),
            );
        }
        for (figure_name, figure) in [VARIANCE, SKEWNESS].into_iter().filter(|_| size == MIDDLE) {
            let (setting, rust) = (setting(figure, 1), || oracle::plan_raw(&input.x, bitmap.as_ref(), &starts, &ends, figure, 1));
            let ours = || plan(&input.x, map, rows, setting);
            bench.run(
                case(format!("{plan_name}, {figure_name}, {tag}, allocating (no target)"), Aim::None),
                || (),
                |_| drop(black_box(rust())),
                |_| drop(black_box(ours())),
                |_| compare(oracle::rows_of(&rust()), ours().expect("accepted")),
            );
        }
    }
}

pub fn windows(size: usize) -> [(Window, String); 2] {
    [(Window::trailing(size), name(size)), (Window::centered(size), format!("{} centred", name(size)))]
}

pub fn fixed(bench: &mut Bench, input: &Input) {
    let (n, x) = (input.n, &input.x);
    for (size, (map, tag)) in SIZES.into_iter().flat_map(|size| input.maps().map(|map| (size, map))) {
        let array = oracle::array(x, map);
        for (window, window_name) in windows(size) {
            let case = |name: String, aim: Aim| Case { section: "Fixed windows", name, aim, n };
            let rust = |figure: Figure| oracle::fixed_raw(&array, size, 1, window.center, figure);
            for (figure_name, figure) in figures(size) {
                let setting = setting(figure, 1);
                let (name, aim) = title(&format!("{window_name}, {figure_name}"), figure, tag);
                bench.run(
                    case(name, aim),
                    || Lent::of(figure, n, 0, setting.work(size.min(n))),
                    |_| drop(black_box(rust(figure))),
                    |lent| black_box(into_rolling(x, map, window, setting, lent)).expect("accepted"),
                    |lent| lent.figures.compare(oracle::rows_of(&rust(figure))),
                );
            }
            for (figure_name, figure) in [VARIANCE, SKEWNESS].into_iter().filter(|_| size == MIDDLE && !window.center) {
                let ours = || rolling(x, map, window, setting(figure, 1));
                bench.run(
                    case(format!("{window_name}, {figure_name}, {tag}, allocating (no target)"), Aim::None),
                    || (),
                    |_| drop(black_box(rust(figure))),
                    |_| drop(black_box(ours())),
                    |_| compare(oracle::rows_of(&rust(figure)), ours().expect("accepted")),
                );
            }
        }
    }
}

/// Weights are refused with a map.
pub fn weighted(bench: &mut Bench, input: &Input) {
    let (n, x) = (input.n, &input.x);
    for size in SIZES {
        let weights: Vec<f64> = (0..size).map(|i| 1.0 + i as f64).collect();
        for (window, name) in windows(size) {
            let rust = || no_nulls::rolling_var(x, size, 1, window.center, Some(&weights), None);
            bench.run(
                Case { section: "Weighted windows", name, aim: Aim::AtMost(1.0), n },
                || Lent::new(n, 0, 0),
                |_| drop(black_box(rust())),
                |Lent { figures: Column { values, present }, .. }| {
                    black_box(rolling_var_weights_into(x, None, window, 1, &weights, values, present)).expect("accepted");
                },
                |lent| lent.figures.compare(oracle::weighted(x, size, 1, window.center, &weights).expect("accepted")),
            );
        }
    }
}

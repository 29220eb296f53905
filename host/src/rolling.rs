//! Figures of moving windows: plans, fixed windows and weights.
use crate::abi;
use crate::moment::map_parts;
use crate::refusal::{Given, GivenTrace, Refusal, MOST};

/// A plan of windows, as two lists of equal length: a row's window holds the places `start` up to but not including `end`.
///
/// Nothing is tested here; a call with the plan answers what is wrong with it.
#[derive(Clone, Copy, Debug, Default, PartialEq, Eq)]
pub struct Plan<'a> {
    /// Where each row starts.
    pub starts: &'a [u32],
    /// Where each row ends.
    pub ends: &'a [u32],
}
impl<'a> Plan<'a> {
    /// The plan of these lists.
    pub fn new(starts: &'a [u32], ends: &'a [u32]) -> Self {
        Plan { starts, ends }
    }
    /// The rows as (start, end), as many as have both.
    pub fn rows(&self) -> impl Iterator<Item = (u32, u32)> + 'a {
        self.starts.iter().copied().zip(self.ends.iter().copied())
    }
    /// Places of the widest window.
    ///
    /// ```
    /// assert_eq!(moments::Plan::new(&[0, 1, 3], &[2, 4, 4]).widest(), 3);
    /// ```
    pub fn widest(&self) -> usize {
        self.rows().map(|(start, end)| end.saturating_sub(start) as usize).max().unwrap_or(0)
    }
    /// As an entry takes it: the starts and their length, the ends and theirs.
    fn parts(&self) -> (*const u32, usize, *const u32, usize) {
        (self.starts.as_ptr(), self.starts.len(), self.ends.as_ptr(), self.ends.len())
    }
    /// The first row that is refused over a trace of so many readings, each tested for 5, 6 and 7.
    pub(crate) fn first_refusal(&self, readings: usize) -> Option<Refusal> {
        let mut before = (0, 0);
        for (row, bounds) in self.rows().enumerate() {
            let (start, end) = bounds;
            if start > end {
                return Some(Refusal::StartAfterEnd { row, start, end });
            }
            if end as usize > readings {
                return Some(Refusal::EndPastTrace { row, end, readings });
            }
            if start < before.0 || end < before.1 {
                return Some(Refusal::BelowRowBefore { row, bounds, before });
            }
            before = bounds;
        }
        None
    }
}

/// Windows of one size, a row for each reading: the places up to the row's own, or about it.
#[derive(Clone, Copy, Debug, PartialEq, Eq)]
pub struct Window {
    /// How many places; fewer at the trace's ends.
    pub size: usize,
    /// Whether the row's own place stands in the middle, and not last.
    pub center: bool,
}
impl Window {
    /// Windows that end with the row's own place.
    pub fn trailing(size: usize) -> Self {
        Window { size, center: false }
    }
    /// Windows about the row's own place.
    pub fn centered(size: usize) -> Self {
        Window { size, center: true }
    }
}

/// What is asked of a window: of one trace [`Var`], [`Shape`] or either as [`Figure`], of two [`PairFigure`].
pub trait Kind {
    /// Doubles of work that a call needs for each place of its widest window.
    fn work_per_place(&self) -> usize;
}

/// The variance, divided by the count less `ddof`; [`plan_var`] and [`rolling_var`] give the lowest and the highest reading with it.
#[derive(Clone, Copy, Debug, PartialEq, Eq)]
pub struct Var {
    /// 0 for all readings there are, 1 for a sample of them.
    pub ddof: u8,
}
impl Kind for Var {
    fn work_per_place(&self) -> usize {
        6
    }
}

/// A figure of how readings lie about their mean.
#[derive(Clone, Copy, Debug, PartialEq, Eq)]
pub enum Shape {
    /// The skewness.
    Skew {
        /// Whether it is left biased.
        bias: bool,
    },
    /// The kurtosis.
    Kurtosis {
        /// Whether it is less three, so that of a normal distribution it is 0.
        fisher: bool,
        /// Whether it is left biased.
        bias: bool,
    },
}
impl Kind for Shape {
    fn work_per_place(&self) -> usize {
        match self {
            Shape::Skew { .. } => 5,
            Shape::Kurtosis { .. } => 6,
        }
    }
}

/// A figure of one trace, where it is not known before the program runs which.
///
/// ```
/// use moments::{plan, Plan, Setting};
/// for (name, wanted) in [("variance", 1.0), ("kurtosis", -2.0)] {
///     let setting: Setting = if name == "variance" { Setting::var(0).into() } else { Setting::kurtosis(true, true).into() };
///     assert_eq!(plan(&[2.0, 4.0], None, Plan::new(&[0], &[2]), setting)?, [Some(wanted)]);
/// }
/// # Ok::<(), moments::Refusal>(())
/// ```
#[derive(Clone, Copy, Debug, PartialEq, Eq)]
pub enum Figure {
    /// The variance.
    Var(Var),
    /// The skewness or the kurtosis.
    Shape(Shape),
}
impl Kind for Figure {
    fn work_per_place(&self) -> usize {
        match self {
            Figure::Var(figure) => figure.work_per_place(),
            Figure::Shape(figure) => figure.work_per_place(),
        }
    }
}

/// A figure of a window over two traces: of its pairs, which are the places that are valid in both. A pair with a reading that is not
/// finite makes it NaN.
#[derive(Clone, Copy, Debug, PartialEq, Eq)]
pub enum PairFigure {
    /// The covariance, divided by the count of pairs less `ddof`; missing where that count is at most `ddof`.
    Cov {
        /// 0 for all pairs there are, 1 for a sample of them.
        ddof: u8,
    },
    /// Pearson's correlation as it is worked out: rounding may take it past 1 or -1. Of one pair, or where a trace does not change, it
    /// is NaN; of no pair it is missing.
    PearsonCorr,
}
impl Kind for PairFigure {
    fn work_per_place(&self) -> usize {
        match self {
            PairFigure::Cov { .. } => 6,
            PairFigure::PearsonCorr => 8,
        }
    }
}

/// What is asked of each window: a figure, and how many readings, or pairs of them, it takes at least.
///
/// ```
/// use moments::{rolling, Setting, Window};
/// let trace = [2.0, 4.0, 6.0, 8.0];
/// assert_eq!(rolling(&trace, None, Window::trailing(2), Setting::var(1))?, [None, Some(2.0), Some(2.0), Some(2.0)]);
/// assert_eq!(rolling(&trace, None, Window::trailing(2), Setting::var(0))?[0], Some(0.0));
/// assert_eq!(rolling(&trace, None, Window::trailing(2), Setting::var(0).min_periods(2))?[0], None);
/// # Ok::<(), moments::Refusal>(())
/// ```
#[derive(Clone, Copy, Debug, PartialEq, Eq)]
pub struct Setting<F = Figure> {
    /// The figure.
    pub figure: F,
    /// The minimum: with a map a window with fewer valid readings is missing, without one a window with fewer places. Of two traces it is
    /// enough that one has a map, and the valid places are those of both.
    pub min_periods: usize,
}
impl Setting<Var> {
    /// Variance with a minimum of 1.
    pub fn var(ddof: u8) -> Self {
        Setting { figure: Var { ddof }, min_periods: 1 }
    }
}
impl Setting<Shape> {
    /// Skewness with a minimum of 1.
    pub fn skew(bias: bool) -> Self {
        Setting { figure: Shape::Skew { bias }, min_periods: 1 }
    }
    /// Kurtosis with a minimum of 1.
    pub fn kurtosis(fisher: bool, bias: bool) -> Self {
        Setting { figure: Shape::Kurtosis { fisher, bias }, min_periods: 1 }
    }
}
impl From<Setting<Var>> for Setting {
    fn from(Setting { figure, min_periods }: Setting<Var>) -> Self {
        Setting { figure: Figure::Var(figure), min_periods }
    }
}
impl From<Setting<Shape>> for Setting {
    fn from(Setting { figure, min_periods }: Setting<Shape>) -> Self {
        Setting { figure: Figure::Shape(figure), min_periods }
    }
}
impl Setting<PairFigure> {
    /// Covariance with a minimum of 1.
    pub fn cov(ddof: u8) -> Self {
        Setting { figure: PairFigure::Cov { ddof }, min_periods: 1 }
    }
    /// Correlation with a minimum of 1.
    pub fn pearson_corr() -> Self {
        Setting { figure: PairFigure::PearsonCorr, min_periods: 1 }
    }
}
impl<F: Kind> Setting<F> {
    /// The same with another minimum.
    #[must_use]
    pub fn min_periods(self, min_periods: usize) -> Self {
        Setting { min_periods, ..self }
    }
    /// Doubles of work that a call needs whose widest window has so many places.
    ///
    /// ```
    /// assert_eq!(moments::Setting::var(1).work(96), 576);
    /// assert_eq!(moments::Setting::skew(true).work(96), 480);
    /// assert_eq!(moments::Setting::pearson_corr().work(96), 768);
    /// ```
    pub fn work(&self, widest: usize) -> usize {
        widest.saturating_mul(self.figure.work_per_place())
    }
}

/// What a caller lends to a call that answers a figure a row. Past the rows, past the work that is needed, and everywhere if the call is
/// refused, each list keeps what it holds.
#[derive(Debug)]
pub struct Lists<'a> {
    /// [`Setting::work`] doubles, for the call's own use.
    pub work: &'a mut [f64],
    /// Takes a figure a row, +0.0 where it is missing.
    pub figures: &'a mut [f64],
    /// Takes 1 for a figure that is present, and 0 for one that is missing.
    pub present: &'a mut [u8],
}
impl Lists<'_> {
    /// As an entry takes them: work, figures and present bytes, each with its length.
    fn parts(&mut self) -> (*mut f64, usize, *mut f64, usize, *mut u8, usize) {
        let Lists { work, figures, present } = self;
        (work.as_mut_ptr(), work.len(), figures.as_mut_ptr(), figures.len(), present.as_mut_ptr(), present.len())
    }
    /// What a refusal can say of them where so many rows are asked for.
    fn given(&self, rows: usize) -> Given<'static> {
        let Lists { work, figures, present } = self;
        Given { rows, work: work.len(), figures: figures.len(), present: present.len(), ..Given::default() }
    }
}

/// Two lists that take one answer of each row.
#[derive(Debug)]
pub struct Column<'a> {
    /// Takes a double a row, +0.0 where the answer is missing.
    pub values: &'a mut [f64],
    /// Takes 1 for an answer that is present, and 0 for one that is missing.
    pub present: &'a mut [u8],
}
impl<'a> Column<'a> {
    /// The column of these lists.
    pub fn new(values: &'a mut [f64], present: &'a mut [u8]) -> Self {
        Column { values, present }
    }
    /// As an entry takes it: values and present bytes, each with its length.
    fn parts(&mut self) -> (*mut f64, usize, *mut u8, usize) {
        (self.values.as_mut_ptr(), self.values.len(), self.present.as_mut_ptr(), self.present.len())
    }
    fn lengths(&self) -> [usize; 2] {
        [self.values.len(), self.present.len()]
    }
}

/// What a caller lends to a call that answers variance, lowest and highest of each row. Each list keeps what it holds where those of
/// [`Lists`] do.
#[derive(Debug)]
pub struct VarLists<'a> {
    /// [`Setting::work`] doubles, for the call's own use.
    pub work: &'a mut [f64],
    /// Takes the variances.
    pub variance: Column<'a>,
    /// Takes the lowest readings.
    pub lowest: Column<'a>,
    /// Takes the highest readings.
    pub highest: Column<'a>,
}
impl VarLists<'_> {
    /// What a refusal can say of them where so many rows are asked for.
    fn given(&self, rows: usize) -> Given<'static> {
        let ([figures, present], work) = (self.variance.lengths(), self.work.len());
        let extremes = Some([self.lowest.lengths(), self.highest.lengths()]);
        Given { rows, work, figures, present, extremes, ..Given::default() }
    }
}

/// What [`plan_var`] and [`rolling_var`] give for a row. Lowest and highest are over the valid places of the window whose reading is
/// finite, and a zero of either sign is +0.0; both are missing where there is no such place.
///
/// They are given also where the variance is missing: where the count is at most ddof, and with a map where it is below the minimum. But
/// without a map a row that is shorter than the minimum has none of the three. A reading that is not finite makes the variance NaN and
/// leaves lowest and highest to the others.
///
/// ```
/// use moments::{rolling_var, Answer, Setting, Window};
/// let trace = [-18.0, f64::NAN, -16.0];
/// let answers = rolling_var(&trace, None, Window::trailing(2), Setting::var(1))?;
/// assert_eq!(answers[0], Answer { variance: None, lowest: Some(-18.0), highest: Some(-18.0) });
/// assert!(answers[1].variance.unwrap().is_nan());
/// assert_eq!((answers[2].lowest, answers[2].highest), (Some(-16.0), Some(-16.0)));
/// let answers = rolling_var(&trace, None, Window::trailing(2), Setting::var(1).min_periods(2))?;
/// assert_eq!(answers[0], Answer::default());                      // one place where two are the minimum
/// # Ok::<(), moments::Refusal>(())
/// ```
#[derive(Clone, Copy, Debug, Default, PartialEq)]
pub struct Answer {
    /// The variance.
    pub variance: Option<f64>,
    /// The lowest finite reading of the window.
    pub lowest: Option<f64>,
    /// The highest finite reading of the window.
    pub highest: Option<f64>,
}

/// A trace that is given as bytes, eight a reading, little-endian, at any address, and the list into which an accepted call decodes
/// them, bits unchanged but for a NaN's, which are then 7FF8000000000000.
#[derive(Debug)]
pub struct Encoded<'a> {
    /// The trace.
    pub bytes: &'a [u8],
    /// Takes a double a reading; past them, and everywhere if the call is refused, it keeps what it holds.
    pub readings: &'a mut [f64],
    /// Which places are valid; none where all are.
    pub map: Option<&'a [u8]>,
}
impl Encoded<'_> {
    /// As an entry takes it: bytes and their length, readings and theirs, whether there is a map, the map and its length.
    fn parts(&mut self) -> (*const u8, usize, *mut f64, usize, bool, *const u8, usize) {
        let (has_map, m, mn) = map_parts(self.map);
        (self.bytes.as_ptr(), self.bytes.len(), self.readings.as_mut_ptr(), self.readings.len(), has_map, m, mn)
    }
    fn given(&self) -> GivenTrace {
        let (bytes, map, decoded) = (self.bytes.len(), self.map.map(<[u8]>::len), Some(self.readings.len()));
        GivenTrace { bytes, readings: bytes / 8, map, decoded }
    }
}

/// The lists of a column, as long as a call needs them.
struct Rows {
    values: Vec<f64>,
    present: Vec<u8>,
}
impl Rows {
    fn new(rows: usize) -> Self {
        Rows { values: vec![0.0; rows], present: vec![0; rows] }
    }
    fn lend(&mut self) -> Column<'_> {
        Column::new(&mut self.values, &mut self.present)
    }
    fn answers(self) -> impl Iterator<Item = Option<f64>> {
        self.values.into_iter().zip(self.present).map(|(value, present)| (present == 1).then_some(value))
    }
}

/// The lists of a call that answers so many columns, as long as it needs them.
struct Room<const COLUMNS: usize> {
    /// Of a call that decodes, a list for each trace.
    readings: [Vec<f64>; 2],
    work: Vec<f64>,
    columns: [Rows; COLUMNS],
}
impl<const COLUMNS: usize> Room<COLUMNS> {
    /// What is too long is refused whatever is lent, so nothing is allocated for it.
    fn new(readings: usize, rows: usize, decoded: [usize; 2], work: usize) -> Self {
        let [first, second] = decoded;
        let [first, second, work, rows] = if readings.max(rows) > MOST { [0; 4] } else { [first, second, work, rows] };
        let readings = [vec![0.0; first], vec![0.0; second]];
        Room { readings, work: vec![0.0; work], columns: std::array::from_fn(|_| Rows::new(rows)) }
    }
    /// The columns alone: the answers can have the memory of the rest.
    fn columns(self) -> [Rows; COLUMNS] {
        self.columns
    }
}
impl Room<1> {
    fn lend(&mut self) -> ([&mut [f64]; 2], Lists<'_>) {
        let Room { readings: [first, second], work, columns: [Rows { values, present }] } = self;
        ([first, second], Lists { work, figures: values, present })
    }
    fn answers(self) -> Vec<Option<f64>> {
        let [figures] = self.columns();
        figures.answers().collect()
    }
}
impl Room<3> {
    /// The second list of readings is that of a second trace, which the variance has not.
    fn lend(&mut self) -> (&mut [f64], VarLists<'_>) {
        let Room { readings: [readings, _], work, columns } = self;
        let [variance, lowest, highest] = columns.each_mut().map(Rows::lend);
        (readings, VarLists { work, variance, lowest, highest })
    }
    fn variances(self) -> Vec<Option<f64>> {
        let [variance, ..] = self.columns();
        variance.answers().collect()
    }
    fn answers(self) -> Vec<Answer> {
        let [variance, lowest, highest] = self.columns().map(Rows::answers);
        let rows = variance.zip(lowest).zip(highest);
        rows.map(|((variance, lowest), highest)| Answer { variance, lowest, highest }).collect()
    }
}

/// The bytes of a trace, as a host call takes them: little-endian, as x86-64 has them in memory.
fn bytes_of(trace: &[f64]) -> &[u8] {
    // SAFETY: the bytes are those of the slice, any byte is a u8, and a u8 needs no alignment.
    unsafe { std::slice::from_raw_parts(trace.as_ptr().cast(), size_of_val(trace)) }
}

/// A figure of each of a plan's windows: none where it is missing. Of the variance it is that alone; [`plan_var`] gives all.
///
/// ```
/// use moments::{plan, Plan, Setting};
/// let rows = Plan::new(&[0, 1, 3], &[2, 3, 4]);
/// assert_eq!(plan(&[2.0, 4.0, 6.0, 8.0], None, rows, Setting::var(1))?, [Some(2.0), Some(2.0), None]);
/// # Ok::<(), moments::Refusal>(())
/// ```
pub fn plan(trace: &[f64], map: Option<&[u8]>, plan: Plan<'_>, setting: impl Into<Setting>) -> Result<Vec<Option<f64>>, Refusal> {
    let Setting { figure, min_periods } = setting.into();
    match figure {
        Figure::Var(figure) => Ok(planned(trace, map, plan, Setting { figure, min_periods })?.variances()),
        Figure::Shape(figure) => {
            let (n, setting) = (trace.len(), Setting { figure, min_periods });
            let mut room = Room::<1>::new(n, plan.starts.len(), [n, 0], setting.work(plan.widest().min(n)));
            let ([readings, _], lists) = room.lend();
            plan_into(bytes_of(trace), readings, map, plan, setting, lists)?;
            Ok(room.answers())
        }
    }
}

/// The variance of each of a plan's windows, and their lowest and highest finite readings.
///
/// ```
/// use moments::{plan_var, Answer, Plan, Setting};
/// let rows = Plan::new(&[0, 1, 3], &[2, 3, 4]);
/// let answers = plan_var(&[2.0, 4.0, 6.0, 8.0], None, rows, Setting::var(1))?;
/// assert_eq!(answers[1], Answer { variance: Some(2.0), lowest: Some(4.0), highest: Some(6.0) });
/// assert_eq!(answers[2], Answer { variance: None, lowest: Some(8.0), highest: Some(8.0) });
/// # Ok::<(), moments::Refusal>(())
/// ```
pub fn plan_var(trace: &[f64], map: Option<&[u8]>, plan: Plan<'_>, setting: Setting<Var>) -> Result<Vec<Answer>, Refusal> {
    Ok(planned(trace, map, plan, setting)?.answers())
}
fn planned(trace: &[f64], map: Option<&[u8]>, plan: Plan<'_>, setting: Setting<Var>) -> Result<Room<3>, Refusal> {
    let n = trace.len();
    let mut room = Room::<3>::new(n, plan.starts.len(), [n, 0], setting.work(plan.widest().min(n)));
    let (readings, lists) = room.lend();
    plan_var_into(bytes_of(trace), readings, map, plan, setting, lists)?;
    Ok(room)
}

/// [`plan`] of skewness or kurtosis into lists that the caller lends, of a trace that is given as bytes and decoded into `readings`: see
/// [`Encoded`]. The variance has [`plan_var_into`].
///
/// ```
/// use moments::{plan_into, Lists, Plan, Setting};
/// let trace: Vec<u8> = [2.0f64, 4.0, 6.0].iter().flat_map(|x| x.to_le_bytes()).collect();
/// let (rows, setting) = (Plan::new(&[0, 1], &[2, 3]), Setting::skew(true));
/// let (mut readings, mut work) = ([0.0; 3], vec![0.0; setting.work(rows.widest())]);
/// let (mut figures, mut present) = ([9.0; 2], [9; 2]);
/// let lists = Lists { work: &mut work, figures: &mut figures, present: &mut present };
/// plan_into(&trace, &mut readings, None, rows, setting, lists)?;
/// assert_eq!((readings, figures, present), ([2.0, 4.0, 6.0], [0.0, 0.0], [1, 1]));
/// # Ok::<(), moments::Refusal>(())
/// ```
pub fn plan_into(
    trace: &[u8],
    readings: &mut [f64],
    map: Option<&[u8]>,
    plan: Plan<'_>,
    setting: Setting<Shape>,
    lists: Lists<'_>,
) -> Result<(), Refusal> {
    let (mut trace, mut lists) = (Encoded { bytes: trace, readings, map }, lists);
    let given = Given { trace: trace.given(), plan, ..lists.given(plan.starts.len()) };
    let (t, tn, r, rn, has_map, m, mn) = trace.parts();
    let (min, (s, sn, e, en), (w, wn, f, fl, p, pn)) = (setting.min_periods, plan.parts(), lists.parts());
    // SAFETY: each pointer and length is a slice's, and the lists that are written to are lent to this call alone.
    let number = unsafe {
        match setting.figure {
            Shape::Skew { bias } => {
                abi::moments_plan_skew(t, tn, r, rn, has_map, m, mn, s, sn, e, en, min, bias, w, wn, f, fl, p, pn)
            }
            Shape::Kurtosis { fisher, bias } => {
                abi::moments_plan_kurtosis(t, tn, r, rn, has_map, m, mn, s, sn, e, en, min, fisher, bias, w, wn, f, fl, p, pn)
            }
        }
    };
    given.result_of_work(number, || setting.work(plan.widest()))
}

/// [`plan_var`] into lists that the caller lends, of a trace that is given as bytes and decoded into `readings`: see [`Encoded`].
///
/// ```
/// use moments::{plan_var_into, Column, Plan, Setting, VarLists};
/// let trace: Vec<u8> = [2.0f64, 4.0, -0.0].iter().flat_map(|x| x.to_le_bytes()).collect();
/// let (rows, setting) = (Plan::new(&[0, 1], &[2, 3]), Setting::var(0));
/// let (mut readings, mut work) = ([9.0; 3], vec![0.0; setting.work(rows.widest())]);
/// let ([mut variances, mut lowest, mut highest], mut present) = ([[9.0; 2]; 3], [[9; 2]; 3]);
/// let [in_variances, in_lowest, in_highest] = &mut present;
/// let lists = VarLists {
///     work: &mut work,
///     variance: Column::new(&mut variances, in_variances),
///     lowest: Column::new(&mut lowest, in_lowest),
///     highest: Column::new(&mut highest, in_highest),
/// };
/// plan_var_into(&trace, &mut readings, None, rows, setting, lists)?;
/// assert_eq!((readings, variances, present), ([2.0, 4.0, -0.0], [1.0, 4.0], [[1; 2]; 3]));
/// assert_eq!((lowest, highest), ([2.0, 0.0], [4.0, 4.0]));
/// # Ok::<(), moments::Refusal>(())
/// ```
pub fn plan_var_into(
    trace: &[u8],
    readings: &mut [f64],
    map: Option<&[u8]>,
    plan: Plan<'_>,
    setting: Setting<Var>,
    mut lists: VarLists<'_>,
) -> Result<(), Refusal> {
    let mut trace = Encoded { bytes: trace, readings, map };
    let given = Given { trace: trace.given(), plan, ..lists.given(plan.starts.len()) };
    let (t, tn, r, rn, has_map, m, mn) = trace.parts();
    let (Setting { figure: Var { ddof }, min_periods: min }, (s, sn, e, en)) = (setting, plan.parts());
    let (w, wn, (f, fl, p, pn)) = (lists.work.as_mut_ptr(), lists.work.len(), lists.variance.parts());
    let ((l, ln, lp, lpn), (h, hn, hp, hpn)) = (lists.lowest.parts(), lists.highest.parts());
    // SAFETY: each pointer and length is a slice's, and the lists that are written to are lent to this call alone.
    #[rustfmt::skip]
    let number = unsafe {
        abi::moments_plan_var(
            t, tn, r, rn, has_map, m, mn, s, sn, e, en, min, ddof, w, wn, f, fl, p, pn, l, ln, lp, lpn, h, hn, hp, hpn,
        )
    };
    given.result_of_work(number, || setting.work(plan.widest()))
}

/// A figure of each of a plan's windows over two traces of one length: none where it is missing.
///
/// ```
/// use moments::{plan_pair, Plan, Setting};
/// let (floor, shelf) = ([1.0, 2.0, 3.0, 4.0], [2.0, 4.0, 6.0, 5.0]);
/// let rows = Plan::new(&[0, 1, 3], &[2, 3, 4]);
/// assert_eq!(plan_pair(&floor, None, &shelf, None, rows, Setting::cov(1))?, [Some(1.0), Some(1.0), None]);
/// let answers = plan_pair(&floor, None, &shelf, Some(&[0b1011]), Plan::new(&[0, 1], &[2, 4]), Setting::pearson_corr())?;
/// assert_eq!(answers, [Some(1.0), Some(1.0)]);                    // place 2 is missing in one trace, so in both
/// let refusal = plan_pair(&floor, None, &shelf[1..], None, rows, Setting::cov(1)).unwrap_err();
/// assert_eq!(refusal.to_string(), "the second trace has 3 readings, the first 4, but two traces must be of one length");
/// # Ok::<(), moments::Refusal>(())
/// ```
pub fn plan_pair(
    x: &[f64],
    x_map: Option<&[u8]>,
    y: &[f64],
    y_map: Option<&[u8]>,
    plan: Plan<'_>,
    setting: Setting<PairFigure>,
) -> Result<Vec<Option<f64>>, Refusal> {
    let [n, m] = [x.len(), y.len()];
    let mut room = Room::<1>::new(n.max(m), plan.starts.len(), [n, m], setting.work(plan.widest().min(n)));
    let ([x_readings, y_readings], lists) = room.lend();
    let x = Encoded { bytes: bytes_of(x), readings: x_readings, map: x_map };
    let y = Encoded { bytes: bytes_of(y), readings: y_readings, map: y_map };
    plan_pair_into(x, y, plan, setting, lists)?;
    Ok(room.answers())
}

/// [`plan_pair`] into lists that the caller lends, of traces that are given as bytes.
///
/// ```
/// use moments::{plan_pair_into, Encoded, Lists, Plan, Setting};
/// let [x, y] = [[2.0f64, 4.0, 6.0], [1.0, 2.0, 5.0]].map(|trace| trace.map(f64::to_le_bytes).concat());
/// let (rows, setting) = (Plan::new(&[0, 1], &[2, 3]), Setting::cov(1));
/// let (mut x_readings, mut y_readings) = ([0.0; 3], [0.0; 3]);
/// let (mut work, mut figures, mut present) = (vec![0.0; setting.work(rows.widest())], [0.0; 2], [0; 2]);
/// let x = Encoded { bytes: &x, readings: &mut x_readings, map: None };
/// let y = Encoded { bytes: &y, readings: &mut y_readings, map: None };
/// let lists = Lists { work: &mut work, figures: &mut figures, present: &mut present };
/// plan_pair_into(x, y, rows, setting, lists)?;
/// assert_eq!((x_readings, y_readings), ([2.0, 4.0, 6.0], [1.0, 2.0, 5.0]));
/// assert_eq!((figures, present), ([1.0, 3.0], [1, 1]));
/// # Ok::<(), moments::Refusal>(())
/// ```
pub fn plan_pair_into(
    mut x: Encoded<'_>,
    mut y: Encoded<'_>,
    plan: Plan<'_>,
    setting: Setting<PairFigure>,
    mut lists: Lists<'_>,
) -> Result<(), Refusal> {
    let given = Given { trace: x.given(), pair: Some(y.given()), plan, ..lists.given(plan.starts.len()) };
    let (a, an, ar, arn, a_has, am, amn) = x.parts();
    let (b, bn, br, brn, b_has, bm, bmn) = y.parts();
    let (min, (s, sn, e, en), (w, wn, f, fl, p, pn)) = (setting.min_periods, plan.parts(), lists.parts());
    // SAFETY: each pointer and length is a slice's, and the lists that are written to are lent to this call alone.
    #[rustfmt::skip]
    let number = unsafe {
        match setting.figure {
            PairFigure::Cov { ddof } => abi::moments_plan_cov(
                a, an, ar, arn, a_has, am, amn, b, bn, br, brn, b_has, bm, bmn, s, sn, e, en, min, ddof, w, wn, f, fl, p, pn,
            ),
            PairFigure::PearsonCorr => abi::moments_plan_pearson_corr(
                a, an, ar, arn, a_has, am, amn, b, bn, br, brn, b_has, bm, bmn, s, sn, e, en, min, w, wn, f, fl, p, pn,
            ),
        }
    };
    given.result_of_work(number, || setting.work(plan.widest()))
}

/// A figure of each of a trace's windows of one size: none where it is missing. Of the variance it is that alone; [`rolling_var`] gives
/// all.
///
/// ```
/// use moments::{rolling, Setting, Window};
/// let answers = rolling(&[1.0, 2.0, 4.0, 8.0], None, Window::centered(3), Setting::var(0).min_periods(3))?;
/// assert_eq!(answers[0], None);
/// assert_eq!(answers[3], None);
/// assert!(answers[2] > answers[1]);
/// # Ok::<(), moments::Refusal>(())
/// ```
pub fn rolling(
    trace: &[f64],
    map: Option<&[u8]>,
    window: Window,
    setting: impl Into<Setting>,
) -> Result<Vec<Option<f64>>, Refusal> {
    let Setting { figure, min_periods } = setting.into();
    match figure {
        Figure::Var(figure) => Ok(rolled(trace, map, window, Setting { figure, min_periods })?.variances()),
        Figure::Shape(figure) => {
            let (n, setting) = (trace.len(), Setting { figure, min_periods });
            let mut room = Room::<1>::new(n, n, [0; 2], setting.work(window.size.min(n)));
            rolling_into(trace, map, window, setting, room.lend().1)?;
            Ok(room.answers())
        }
    }
}

/// The variance of each of a trace's windows of one size, and their lowest and highest finite readings.
///
/// ```
/// use moments::{rolling_var, Answer, Setting, Window};
/// let answers = rolling_var(&[1.0, 3.0, 2.0], Some(&[0b101]), Window::centered(3), Setting::var(0).min_periods(2))?;
/// // with a map, lowest and highest are given below the minimum too
/// assert_eq!(answers[0], Answer { variance: None, lowest: Some(1.0), highest: Some(1.0) });
/// assert_eq!(answers[1], Answer { variance: Some(0.25), lowest: Some(1.0), highest: Some(2.0) });
/// # Ok::<(), moments::Refusal>(())
/// ```
pub fn rolling_var(trace: &[f64], map: Option<&[u8]>, window: Window, setting: Setting<Var>) -> Result<Vec<Answer>, Refusal> {
    Ok(rolled(trace, map, window, setting)?.answers())
}
fn rolled(trace: &[f64], map: Option<&[u8]>, window: Window, setting: Setting<Var>) -> Result<Room<3>, Refusal> {
    let n = trace.len();
    let mut room = Room::<3>::new(n, n, [0; 2], setting.work(window.size.min(n)));
    rolling_var_into(trace, map, window, setting, room.lend().1)?;
    Ok(room)
}

/// [`rolling`] of skewness or kurtosis into lists that the caller lends. The variance has [`rolling_var_into`].
///
/// ```
/// use moments::{rolling_into, Lists, Setting, Window};
/// let (setting, mut figures, mut present) = (Setting::kurtosis(true, true), [9.0; 4], [9; 4]);
/// let mut work = vec![0.0; setting.work(2)];
/// let lists = Lists { work: &mut work, figures: &mut figures, present: &mut present };
/// rolling_into(&[2.0, 4.0, 8.0], None, Window::trailing(2), setting.min_periods(2), lists)?;
/// assert_eq!((figures, present), ([0.0, -2.0, -2.0, 9.0], [0, 1, 1, 9]));
/// # Ok::<(), moments::Refusal>(())
/// ```
pub fn rolling_into(
    trace: &[f64],
    map: Option<&[u8]>,
    window: Window,
    setting: Setting<Shape>,
    lists: Lists<'_>,
) -> Result<(), Refusal> {
    let (t, n, (has_map, m, mn), mut lists) = (trace.as_ptr(), trace.len(), map_parts(map), lists);
    let given = Given { trace: GivenTrace::new(trace, map), ..lists.given(n) };
    let (Window { size, center }, min, (w, wn, f, fl, p, pn)) = (window, setting.min_periods, lists.parts());
    // SAFETY: each pointer and length is a slice's, and the lists that are written to are lent to this call alone.
    let number = unsafe {
        match setting.figure {
            Shape::Skew { bias } => abi::moments_rolling_skew(t, n, has_map, m, mn, size, min, center, bias, w, wn, f, fl, p, pn),
            Shape::Kurtosis { fisher, bias } => {
                abi::moments_rolling_kurtosis(t, n, has_map, m, mn, size, min, center, fisher, bias, w, wn, f, fl, p, pn)
            }
        }
    };
    given.result_of_work(number, || setting.work(size.min(n)))
}

/// [`rolling_var`] into lists that the caller lends.
///
/// ```
/// use moments::{rolling_var_into, Column, Setting, VarLists, Window};
/// let (setting, mut work) = (Setting::var(1), [0.0; 12]);
/// let ([mut variances, mut lowest, mut highest], mut present) = ([[9.0; 4]; 3], [[9; 4]; 3]);
/// let [in_variances, in_lowest, in_highest] = &mut present;
/// let lists = VarLists {
///     work: &mut work,
///     variance: Column::new(&mut variances, in_variances),
///     lowest: Column::new(&mut lowest, in_lowest),
///     highest: Column::new(&mut highest, in_highest),
/// };
/// rolling_var_into(&[2.0, 4.0, 8.0], None, Window::trailing(2), setting, lists)?;
/// assert_eq!((variances, lowest, highest), ([0.0, 2.0, 8.0, 9.0], [2.0, 2.0, 4.0, 9.0], [2.0, 4.0, 8.0, 9.0]));
/// assert_eq!(present, [[0, 1, 1, 9], [1, 1, 1, 9], [1, 1, 1, 9]]);
/// # Ok::<(), moments::Refusal>(())
/// ```
pub fn rolling_var_into(
    trace: &[f64],
    map: Option<&[u8]>,
    window: Window,
    setting: Setting<Var>,
    mut lists: VarLists<'_>,
) -> Result<(), Refusal> {
    let (t, n, (has_map, m, mn)) = (trace.as_ptr(), trace.len(), map_parts(map));
    let given = Given { trace: GivenTrace::new(trace, map), ..lists.given(n) };
    let (Setting { figure: Var { ddof }, min_periods: min }, Window { size, center }) = (setting, window);
    let (w, wn, (f, fl, p, pn)) = (lists.work.as_mut_ptr(), lists.work.len(), lists.variance.parts());
    let ((l, ln, lp, lpn), (h, hn, hp, hpn)) = (lists.lowest.parts(), lists.highest.parts());
    // SAFETY: each pointer and length is a slice's, and the lists that are written to are lent to this call alone.
    #[rustfmt::skip]
    let number = unsafe {
        abi::moments_rolling_var(
            t, n, has_map, m, mn, size, min, center, ddof, w, wn, f, fl, p, pn, l, ln, lp, lpn, h, hn, hp, hpn,
        )
    };
    given.result_of_work(number, || setting.work(size.min(n)))
}

/// A figure of each window of one size over two traces of one length: none where it is missing.
///
/// ```
/// use moments::{rolling_pair, Setting, Window};
/// let (floor, shelf) = ([1.0, 2.0, 3.0, 4.0], [2.0, 4.0, 6.0, 5.0]);
/// let answers = rolling_pair(&floor, None, &shelf, None, Window::trailing(2), Setting::pearson_corr().min_periods(2))?;
/// assert_eq!(answers, [None, Some(1.0), Some(1.0), Some(-1.0)]);
/// let answers = rolling_pair(&floor, None, &shelf, None, Window::trailing(2), Setting::pearson_corr())?;
/// assert!(answers[0].unwrap().is_nan());                          // one pair has no correlation
/// # Ok::<(), moments::Refusal>(())
/// ```
pub fn rolling_pair(
    x: &[f64],
    x_map: Option<&[u8]>,
    y: &[f64],
    y_map: Option<&[u8]>,
    window: Window,
    setting: Setting<PairFigure>,
) -> Result<Vec<Option<f64>>, Refusal> {
    let n = x.len();
    let mut room = Room::<1>::new(n.max(y.len()), n, [0; 2], setting.work(window.size.min(n)));
    rolling_pair_into(x, x_map, y, y_map, window, setting, room.lend().1)?;
    Ok(room.answers())
}

/// [`rolling_pair`] into lists that the caller lends.
///
/// ```
/// use moments::{rolling_pair_into, Lists, Setting, Window};
/// let (setting, mut figures, mut present) = (Setting::cov(1), [9.0; 4], [9; 4]);
/// let mut work = vec![0.0; setting.work(2)];
/// let lists = Lists { work: &mut work, figures: &mut figures, present: &mut present };
/// rolling_pair_into(&[2.0, 4.0, 8.0], None, &[1.0, 3.0, 2.0], None, Window::trailing(2), setting, lists)?;
/// assert_eq!((figures, present), ([0.0, 2.0, -2.0, 9.0], [0, 1, 1, 9]));
/// # Ok::<(), moments::Refusal>(())
/// ```
pub fn rolling_pair_into(
    x: &[f64],
    x_map: Option<&[u8]>,
    y: &[f64],
    y_map: Option<&[u8]>,
    window: Window,
    setting: Setting<PairFigure>,
    mut lists: Lists<'_>,
) -> Result<(), Refusal> {
    let (a, n, (a_has, am, amn)) = (x.as_ptr(), x.len(), map_parts(x_map));
    let (b, bn, (b_has, bm, bmn)) = (y.as_ptr(), y.len(), map_parts(y_map));
    let given = Given { trace: GivenTrace::new(x, x_map), pair: Some(GivenTrace::new(y, y_map)), ..lists.given(n) };
    let (Window { size, center }, min, (w, wn, f, fl, p, pn)) = (window, setting.min_periods, lists.parts());
    // SAFETY: each pointer and length is a slice's, and the lists that are written to are lent to this call alone.
    #[rustfmt::skip]
    let number = unsafe {
        match setting.figure {
            PairFigure::Cov { ddof } => abi::moments_rolling_cov(
                a, n, a_has, am, amn, b, bn, b_has, bm, bmn, size, min, center, ddof, w, wn, f, fl, p, pn,
            ),
            PairFigure::PearsonCorr => abi::moments_rolling_pearson_corr(
                a, n, a_has, am, amn, b, bn, b_has, bm, bmn, size, min, center, w, wn, f, fl, p, pn,
            ),
        }
    };
    given.result_of_work(number, || setting.work(size.min(n)))
}

/// The weighted variance of each of a trace's windows of one size, a weight for each place: none where it is missing. A map
/// is refused.
///
/// ```
/// use moments::{rolling_var_weights, Window};
/// let answers = rolling_var_weights(&[1.0, 3.0], None, Window::trailing(2), 1, &[1.0, 1.0])?;
/// assert_eq!(answers, [Some(0.0), Some(1.0)]);
/// # Ok::<(), moments::Refusal>(())
/// ```
pub fn rolling_var_weights(
    trace: &[f64],
    map: Option<&[u8]>,
    window: Window,
    min_periods: usize,
    weights: &[f64],
) -> Result<Vec<Option<f64>>, Refusal> {
    let mut room = Room::<1>::new(trace.len(), trace.len(), [0; 2], 0);
    let (_, Lists { figures, present, .. }) = room.lend();
    rolling_var_weights_into(trace, map, window, min_periods, weights, figures, present)?;
    Ok(room.answers())
}

/// [`rolling_var_weights`] into lists that the caller lends.
///
/// ```
/// use moments::{rolling_var_weights_into, Refusal, Window};
/// let (mut figures, mut present) = ([0.0; 2], [0; 2]);
/// let mut ask = |weights: &[f64]| {
///     rolling_var_weights_into(&[1.0, 3.0], None, Window::trailing(2), 1, weights, &mut figures, &mut present)
/// };
/// assert_eq!(ask(&[1.0, -1.0]), Err(Refusal::WeightsSumToZero));
/// assert_eq!(ask(&[1.0, 1.0]), Ok(()));
/// assert_eq!((figures, present), ([0.0, 1.0], [1, 1]));
/// ```
pub fn rolling_var_weights_into(
    trace: &[f64],
    map: Option<&[u8]>,
    window: Window,
    min_periods: usize,
    weights: &[f64],
    figures: &mut [f64],
    present: &mut [u8],
) -> Result<(), Refusal> {
    let (t, n, (has_map, m, mn)) = (trace.as_ptr(), trace.len(), map_parts(map));
    let Window { size, center } = window;
    let (w, wn) = (weights.as_ptr(), weights.len());
    let (f, fl, p, pn) = (figures.as_mut_ptr(), figures.len(), present.as_mut_ptr(), present.len());
    // SAFETY: each pointer and length is a slice's, and the lists that are written to are lent to this call alone.
    let number =
        unsafe { abi::moments_rolling_var_weights(t, n, has_map, m, mn, size, min_periods, center, w, wn, f, fl, p, pn) };
    let given = Given { rows: n, figures: fl, present: pn, weights: wn, window_size: size, ..Given::trace(trace, map) };
    given.result(number)
}

#[cfg(test)]
mod tests {
    use super::*;

    fn lengths<const COLUMNS: usize>(room: Room<COLUMNS>) -> Vec<usize> {
        let [first, second] = room.readings.map(|list| list.len());
        let rows = room.columns.iter().flat_map(|column| [column.values.len(), column.present.len()]);
        [first, second, room.work.len()].into_iter().chain(rows).collect()
    }

    #[test]
    fn nothing_is_allocated_for_what_is_too_long() {
        assert_eq!(lengths(Room::<1>::new(9, 3, [9, 8], 24)), [9, 8, 24, 3, 3]);
        assert_eq!(lengths(Room::<3>::new(9, 3, [9, 0], 24)), [9, 0, 24, 3, 3, 3, 3, 3, 3]);
        for (readings, rows) in [(MOST + 1, 3), (9, MOST + 1)] {
            assert_eq!(lengths(Room::<1>::new(readings, rows, [9, 8], 24)), [0; 5]);
            assert_eq!(lengths(Room::<3>::new(readings, rows, [9, 0], 24)), [0; 9]);
        }
    }
}

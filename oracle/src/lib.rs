//! Oracle: unchanged polars-compute 0.55.2 sources (see build.rs) for f64, behind safe functions.
#[allow(dead_code)]
#[path = "../gen/src/moment.rs"]
pub mod moment;
#[allow(dead_code, unused_imports, deprecated)]
#[path = "../gen/src/rolling/mod.rs"]
pub mod rolling;

pub mod account;
pub mod cases;
pub mod extremes;
pub mod host;
pub mod maps;
pub mod model;
pub mod pair_cases;
pub mod pairs;
pub mod record;
pub mod refusal;
pub mod rng;
pub mod second;
pub mod windows;

use arrow::array::{ArrayRef, PrimitiveArray};
use arrow::bitmap::Bitmap;
use arrow::datatypes::ArrowDataType;
pub use moment::{CovState, KurtosisState, PearsonState, SkewState, VarState};
pub use moment::oracle_access as states;
use rolling::no_nulls::{
    self, KurtosisMoment, MomentWindow, RollingAggWindowNoNulls, RollingMomentAlgo, SkewMoment,
    VarianceMoment,
};
use rolling::nulls::{self, RollingAggWindowNulls};
use rolling::{RollingFnParams, RollingVarParams};

/// Which figure is asked, with what its `finalize` takes.
#[derive(Clone, Copy, Debug, PartialEq)]
pub enum Figure {
    Var { ddof: u8 },
    Skew { bias: bool },
    Kurt { fisher: bool, bias: bool },
}
impl Figure {
    pub fn params(self) -> Option<RollingFnParams> {
        Some(match self {
            Figure::Var { ddof } => RollingFnParams::Var(RollingVarParams { ddof }),
            Figure::Skew { bias } => RollingFnParams::Skew { bias },
            Figure::Kurt { fisher, bias } => RollingFnParams::Kurtosis { fisher, bias },
        })
    }
    /// Doubles of work a window place (document 01; of variance document 02, request 4).
    pub fn entry(self) -> usize {
        match self {
            Figure::Var { .. } => 6,
            Figure::Skew { .. } => 5,
            Figure::Kurt { .. } => 6,
        }
    }
    /// Whether the call also gives the lowest and the highest reading.
    pub fn has_extremes(self) -> bool {
        matches!(self, Figure::Var { .. })
    }
    /// Doubles of work a place by which random calls are drawn: as it was before request 4, so that the calls that are stored stay the
    /// same.
    pub(crate) fn drawn_entry(self) -> usize {
        match self {
            Figure::Var { .. } => 4,
            _ => self.entry(),
        }
    }
}

/// Which figure of pairs is asked, with what its `finalize` takes.
#[derive(Clone, Copy, Debug, PartialEq)]
pub enum PairFigure {
    Cov { ddof: u8 },
    Pearson,
}
impl PairFigure {
    /// Doubles of work a window place (document 02, request 2).
    pub fn entry(self) -> usize {
        match self {
            PairFigure::Cov { .. } => 6,
            PairFigure::Pearson => 8,
        }
    }
}

/// Document 01's NaN figure; in comparisons all NaNs count equal.
pub const NAN_BITS: u64 = 0x7FF8_0000_0000_0000;
/// On the bits, behind a black box: with `if x.is_nan() { NAN_BITS } else { x.to_bits() }` the
/// release build of `gen` printed FFF8000000000000 for roots of negative numbers while the debug
/// build printed 7FF8000000000000. The cause was not traced (a ten-line program did not show it).
#[inline(never)]
pub fn canon(x: f64) -> u64 {
    let b = std::hint::black_box(x.to_bits());
    if b & 0x7FFF_FFFF_FFFF_FFFF > 0x7FF0_0000_0000_0000 {
        NAN_BITS
    } else {
        b
    }
}
pub fn same(a: f64, b: f64) -> bool {
    canon(a) == canon(b)
}
pub fn same_row(a: Option<f64>, b: Option<f64>) -> bool {
    match (a, b) {
        (None, None) => true,
        (Some(a), Some(b)) => same(a, b),
        _ => false,
    }
}

pub fn bitmap(bytes: &[u8], n: usize) -> Bitmap {
    Bitmap::from_bytes(bytes.to_vec(), n)
}
pub fn array(x: &[f64], map: Option<&[u8]>) -> PrimitiveArray<f64> {
    PrimitiveArray::new(ArrowDataType::Float64, x.to_vec().into(), map.map(|m| bitmap(m, x.len())))
}
pub fn rows_of(a: &ArrayRef) -> Vec<Option<f64>> {
    let a = a.as_any().downcast_ref::<PrimitiveArray<f64>>().unwrap();
    a.iter().map(|x| x.copied()).collect()
}

// ---- whole arrays and ranges ----
pub fn whole_var(x: &[f64], map: Option<&[u8]>) -> VarState {
    moment::var(&array(x, map))
}
pub fn whole_skew(x: &[f64], map: Option<&[u8]>) -> SkewState {
    moment::skew(&array(x, map))
}
pub fn whole_kurtosis(x: &[f64], map: Option<&[u8]>) -> KurtosisState {
    moment::kurtosis(&array(x, map))
}
pub fn whole_cov(x: &[f64], xm: Option<&[u8]>, y: &[f64], ym: Option<&[u8]>) -> CovState {
    moment::cov(&array(x, xm), &array(y, ym))
}
pub fn whole_pearson(x: &[f64], xm: Option<&[u8]>, y: &[f64], ym: Option<&[u8]>) -> PearsonState {
    moment::pearson_corr(&array(x, xm), &array(y, ym))
}
pub fn range_skew(x: &[f64], map: Option<&[u8]>, start: usize, len: usize) -> SkewState {
    SkewState::from_array(&array(x, map), start, len)
}
pub fn range_kurtosis(x: &[f64], map: Option<&[u8]>, start: usize, len: usize) -> KurtosisState {
    KurtosisState::from_array(&array(x, map), start, len)
}

// ---- fixed windows ----
pub fn fixed_raw(a: &PrimitiveArray<f64>, size: usize, min: usize, center: bool, fig: Figure) -> ArrayRef {
    let p = fig.params();
    if a.validity().is_some() {
        match fig {
            Figure::Var { .. } => nulls::rolling_var(a, size, min, center, None, p),
            Figure::Skew { .. } => nulls::rolling_skew(a, size, min, center, p),
            Figure::Kurt { .. } => nulls::rolling_kurtosis(a, size, min, center, p),
        }
    } else {
        let x = a.values().as_slice();
        match fig {
            Figure::Var { .. } => no_nulls::rolling_var(x, size, min, center, None, p),
            Figure::Skew { .. } => no_nulls::rolling_skew(x, size, min, center, p),
            Figure::Kurt { .. } => no_nulls::rolling_kurtosis(x, size, min, center, p),
        }
        .unwrap()
    }
}
pub fn fixed(x: &[f64], map: Option<&[u8]>, size: usize, min: usize, center: bool, fig: Figure) -> Vec<Option<f64>> {
    rows_of(&fixed_raw(&array(x, map), size, min, center, fig))
}
/// Err where the crate returns an error; panics where the crate panics (count other than size).
pub fn weighted(x: &[f64], size: usize, min: usize, center: bool, w: &[f64]) -> Result<Vec<Option<f64>>, String> {
    // The ddof in the parameters does not enter the weighted figure.
    no_nulls::rolling_var(x, size, min, center, Some(w), Figure::Var { ddof: 1 }.params())
        .map(|a| rows_of(&a))
        .map_err(|e| format!("{e:?}"))
}
pub fn offsets(i: usize, size: usize, n: usize, center: bool) -> (usize, usize) {
    if center {
        no_nulls::oracle_access::offsets_center(i, size, n)
    } else {
        no_nulls::oracle_access::offsets(i, size, n)
    }
}

// ---- plan windows: the Rust window driven by arbitrary rows ----
#[derive(Default, Debug, Clone, PartialEq)]
pub struct Stacks {
    /// (front, back) lengths of the Rust window after every row.
    pub after: Vec<(usize, usize)>,
}
fn drive<M: RollingMomentAlgo, const TRACE: bool>(
    x: &[f64],
    map: Option<&Bitmap>,
    rows: impl Iterator<Item = (usize, usize)> + Clone,
    fig: Figure,
    min: usize,
    mut put: impl FnMut(usize, Option<f64>),
    st: &mut Stacks,
) {
    let Some((s0, e0)) = rows.clone().next() else { return };
    let p = fig.params();
    match map {
        None => {
            let mut w = <MomentWindow<f64, M> as RollingAggWindowNoNulls<f64>>::new(x, s0, e0, p, None);
            for (i, (s, e)) in rows.enumerate() {
                let r = if e - s < min {
                    None
                } else {
                    unsafe { RollingAggWindowNoNulls::update(&mut w, s, e) };
                    RollingAggWindowNoNulls::get_agg(&w, i)
                };
                put(i, r);
                if TRACE {
                    st.after.push((w.front_len(), w.back_len()));
                }
            }
        }
        Some(b) => {
            let mut w = <MomentWindow<f64, M> as RollingAggWindowNulls<f64>>::new(x, b, s0, e0, p, None);
            for (i, (s, e)) in rows.enumerate() {
                unsafe { RollingAggWindowNulls::update(&mut w, s, e) };
                let r = match RollingAggWindowNulls::get_agg(&w, i) {
                    Some(v) if w.is_valid(min) => Some(v),
                    _ => None,
                };
                put(i, r);
                if TRACE {
                    st.after.push((w.front_len(), w.back_len()));
                }
            }
        }
    }
}
/// The Rust's own `rolling_apply_agg_window` on a plan of as many rows as readings, which must be accepted.
pub fn plan_raw(x: &[f64], map: Option<&Bitmap>, starts: &[u32], ends: &[u32], fig: Figure, min: usize) -> ArrayRef {
    assert!(starts.len() == x.len() && ends.len() == x.len());
    let bounds = |i: usize| (starts[i] as usize, ends[i] as usize);
    match fig {
        Figure::Var { .. } => no_nulls::oracle_access::driven::<VarianceMoment>(x, map, min, bounds, fig.params()),
        Figure::Skew { .. } => no_nulls::oracle_access::driven::<SkewMoment>(x, map, min, bounds, fig.params()),
        Figure::Kurt { .. } => no_nulls::oracle_access::driven::<KurtosisMoment>(x, map, min, bounds, fig.params()),
    }
}
/// The plan must be accepted (rows in bounds, start <= end, starts and ends not falling).
pub fn plan_with(
    x: &[f64],
    map: Option<&Bitmap>,
    rows: impl Iterator<Item = (usize, usize)> + Clone,
    fig: Figure,
    min: usize,
    put: impl FnMut(usize, Option<f64>),
) {
    let (mut ps, mut pe) = (0, 0);
    for (s, e) in rows.clone() {
        assert!(s <= e && e <= x.len() && ps <= s && pe <= e, "plan not accepted");
        (ps, pe) = (s, e);
    }
    let st = &mut Stacks::default();
    match fig {
        Figure::Var { .. } => drive::<VarianceMoment, false>(x, map, rows, fig, min, put, st),
        Figure::Skew { .. } => drive::<SkewMoment, false>(x, map, rows, fig, min, put, st),
        Figure::Kurt { .. } => drive::<KurtosisMoment, false>(x, map, rows, fig, min, put, st),
    }
}
pub fn plan(x: &[f64], map: Option<&[u8]>, rows: &[(usize, usize)], fig: Figure, min: usize) -> Vec<Option<f64>> {
    plan_stacks(x, map, rows, fig, min).0
}
pub fn plan_stacks(
    x: &[f64],
    map: Option<&[u8]>,
    rows: &[(usize, usize)],
    fig: Figure,
    min: usize,
) -> (Vec<Option<f64>>, Stacks) {
    assert!(refusal::rows(rows.iter().copied(), x.len()) == 0, "plan not accepted");
    let b = map.map(|m| bitmap(m, x.len()));
    let b = b.as_ref();
    let mut out = Vec::with_capacity(rows.len());
    let mut st = Stacks::default();
    let it = rows.iter().copied();
    let put = |_: usize, r: Option<f64>| out.push(r);
    match fig {
        Figure::Var { .. } => drive::<VarianceMoment, true>(x, b, it, fig, min, put, &mut st),
        Figure::Skew { .. } => drive::<SkewMoment, true>(x, b, it, fig, min, put, &mut st),
        Figure::Kurt { .. } => drive::<KurtosisMoment, true>(x, b, it, fig, min, put, &mut st),
    }
    (out, st)
}

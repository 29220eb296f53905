//! The lowest and the highest finite valid reading of a window (document 02, request 4), by going over the whole window in every row.
use crate::account::valid;
use crate::rng::Rng;
use std::fmt;

/// The lowest and the highest of a window, none where it is missing.
pub type Extremes = [Option<f64>; 2];

/// A zero of either sign goes out as +0.0.
pub fn without_sign(x: f64) -> f64 {
    if x == 0.0 {
        0.0
    } else {
        x
    }
}
pub fn of_window(x: &[f64], map: Option<&[u8]>, (start, end): (usize, usize)) -> Extremes {
    let readings = || (start..end).filter(|i| valid(map, *i) && x[*i].is_finite()).map(|i| without_sign(x[i]));
    [readings().reduce(|a, b| if b < a { b } else { a }), readings().reduce(|a, b| if b > a { b } else { a })]
}
/// Of each row: both are missing in a row without a map that is shorter than the minimum, row 0 too.
pub fn of_rows(x: &[f64], map: Option<&[u8]>, rows: impl Iterator<Item = (usize, usize)>, min: usize) -> Vec<Extremes> {
    rows.map(|(s, e)| if map.is_none() && e - s < min { [None; 2] } else { of_window(x, map, (s, e)) }).collect()
}
/// By their bits: what goes out is never a NaN.
pub fn alike(a: &[Extremes], b: &[Extremes]) -> bool {
    let bits = |row: &Extremes| row.map(|x| x.map(f64::to_bits));
    a.len() == b.len() && a.iter().zip(b).all(|(a, b)| bits(a) == bits(b))
}

/// Readings at which a lowest or a highest may go wrong.
const ROUGH: [f64; 16] = [
    0.0,
    -0.0,
    -0.0,
    f64::NAN,
    f64::INFINITY,
    f64::NEG_INFINITY,
    5e-324,
    -5e-324,
    2.2e-308,
    -1e-310,
    1.7e308,
    -1.7e308,
    f64::MAX,
    f64::MIN,
    1.0,
    -1.0,
];
/// Puts such readings in, in some traces many, in others few; now and then all others are above zero, or all below, so that the 0.0 that
/// enters for a bad one would be the lowest, or the highest.
pub fn roughen(r: &mut Rng, x: &mut [f64]) {
    let (sort, rate) = (r.below(4), 1 + r.below(6));
    for v in x.iter_mut() {
        match sort {
            0 => *v = v.abs().max(f64::from_bits(1)),
            1 => *v = -v.abs().max(f64::from_bits(1)),
            _ => {}
        }
        if r.chance(1, rate) {
            *v = match sort {
                0 | 1 => [f64::NAN, f64::INFINITY, f64::NEG_INFINITY][r.below(3)],
                _ => ROUGH[r.below(ROUGH.len())],
            };
        }
    }
}

/// How many rows of accepted calls have what a wrong program would trip over.
#[derive(Default)]
pub struct Tally {
    given: u64,
    variance_missing: u64,
    short: u64,
    none_finite: u64,
    bad_would_show: u64,
    minus_zero: u64,
    left: u64,
}
impl Tally {
    /// A call's trace, map and rows, with the figures and what this request wants of them.
    pub fn count(&mut self, x: &[f64], map: Option<&[u8]>, rows: &[(usize, usize)], figures: &[Option<f64>], wanted: &[Extremes]) {
        for (k, row) in wanted.iter().enumerate() {
            let (s, e) = rows[k];
            let [Some(low), Some(high)] = row else {
                let none = of_window(x, map, rows[k]) == [None; 2];
                self.none_finite += none as u64;
                self.short += !none as u64;
                continue;
            };
            let any = |test: fn(f64) -> bool| (s..e).any(|i| valid(map, i) && test(x[i]));
            self.given += 1;
            self.variance_missing += figures[k].is_none() as u64;
            self.bad_would_show += ((*low > 0.0 || *high < 0.0) && any(|x| !x.is_finite())) as u64;
            self.minus_zero += ((*low == 0.0 || *high == 0.0) && any(|x| x.to_bits() == 1 << 63)) as u64;
            // the row before had a lower lowest or a higher highest
            let before = k.checked_sub(1).map(|k| wanted[k]);
            self.left += matches!(before, Some([Some(a), Some(b)]) if a < *low || b > *high) as u64;
        }
    }
}
impl fmt::Display for Tally {
    fn fmt(&self, f: &mut fmt::Formatter<'_>) -> fmt::Result {
        let Tally { given, variance_missing, short, none_finite, bad_would_show, minus_zero, left } = self;
        write!(f, "rows with lowest and highest: {given}, of them with the variance missing {variance_missing}, ")?;
        write!(f, "with a bad reading whose 0.0 would show {bad_would_show}, with a -0.0 that goes out as +0.0 {minus_zero}, ")?;
        write!(f, "with a lower or higher one that left {left}; ")?;
        write!(f, "rows without them: {short} short, {none_finite} with no finite reading")
    }
}

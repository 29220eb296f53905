//! The five states by name, as lists of their fields in the source's order, and random ones.
use crate::rng::Rng;
use crate::*;

pub const STATES: [&str; 5] = ["var", "cov", "pearson", "skew", "kurt"];
pub fn width(s: &str) -> usize {
    match s {
        "var" => 3,
        "cov" | "skew" => 4,
        "kurt" => 5,
        _ => 6,
    }
}
pub fn any_state(r: &mut Rng, s: &str) -> Vec<f64> {
    let n = width(s);
    if r.chance(1, 2) {
        // a state that readings make
        let k = r.below(9);
        let (x, y) = (r.trace(k), r.trace(k));
        return make(s, &x, &y).iter().map(|v| f64::from_bits(canon(*v))).collect();
    }
    let mut v: Vec<f64> = (0..n)
        .map(|_| {
            let st = r.below(8);
            if r.chance(1, 8) { r.bad() } else { r.reading(st) }
        })
        .collect();
    match r.below(6) {
        0 => v[0] = 0.0,
        1 => v[0] = -0.0,
        2 => v[0] = -1.0,
        3 => v[0] = r.below(300) as f64,
        4 => v[0] = r.below(6) as f64,
        _ => {}
    }
    v
}
pub fn make(s: &str, x: &[f64], y: &[f64]) -> Vec<f64> {
    match s {
        "var" => states::var_new(x).fields(),
        "cov" => states::cov_new(x, y).fields(),
        "pearson" => states::pearson_new(x, y).fields(),
        "skew" => states::skew_new(x).fields(),
        _ => states::kurtosis_new(x).fields(),
    }
}
pub fn insert(s: &str, v: &[f64], x: f64, y: f64) -> Vec<f64> {
    macro_rules! one { ($T:ident $(, $y:expr)?) => {{ let mut a = $T::of_fields(v); a.insert_one(x $(, $y)?); a.fields() }}; }
    match s {
        "var" => one!(VarState),
        "cov" => one!(CovState, y),
        "pearson" => one!(PearsonState, y),
        "skew" => one!(SkewState),
        _ => one!(KurtosisState),
    }
}
pub fn combine(s: &str, v: &[f64], w: &[f64]) -> Vec<f64> {
    macro_rules! two { ($T:ident) => {{ let mut a = $T::of_fields(v); a.combine(&$T::of_fields(w)); a.fields() }}; }
    match s {
        "var" => two!(VarState),
        "cov" => two!(CovState),
        "pearson" => two!(PearsonState),
        "skew" => two!(SkewState),
        _ => two!(KurtosisState),
    }
}
pub fn finalize(s: &str, v: &[f64], ddof: u8, biased: bool, fisher: bool) -> Option<f64> {
    match s {
        "var" => VarState::of_fields(v).finalize(ddof),
        "cov" => CovState::of_fields(v).finalize(ddof),
        "pearson" => Some(PearsonState::of_fields(v).finalize()),
        "skew" => SkewState::of_fields(v).finalize(biased),
        _ => KurtosisState::of_fields(v).finalize(fisher, biased),
    }
}
/// A map, now and then a byte longer or shorter than is needed.
pub fn maybe_map(r: &mut Rng, n: usize) -> Option<Vec<u8>> {
    if r.chance(1, 2) {
        return None;
    }
    let mut m = r.map(n);
    if r.chance(1, 20) {
        if r.chance(1, 2) || m.is_empty() { m.push(0xFF) } else { m.pop(); }
    }
    Some(m)
}
/// The same as a caller may lend it.
pub fn lent_map(r: &mut Rng, n: usize) -> Option<Vec<u8>> {
    maybe_map(r, n).map(|map| maps::lent(r, map, n))
}
/// The driver's state, in chunks of 128.
pub fn whole(s: &str, x: &[f64], xm: Option<&[u8]>, y: &[f64], ym: Option<&[u8]>) -> Vec<f64> {
    match s {
        "var" => whole_var(x, xm).fields(),
        "cov" => whole_cov(x, xm, y, ym).fields(),
        "pearson" => whole_pearson(x, xm, y, ym).fields(),
        "skew" => whole_skew(x, xm).fields(),
        _ => whole_kurtosis(x, xm).fields(),
    }
}
/// `from_array`, of skew or kurt.
pub fn range(s: &str, x: &[f64], map: Option<&[u8]>, start: usize, len: usize) -> Vec<f64> {
    if s == "skew" {
        range_skew(x, map, start, len).fields()
    } else {
        range_kurtosis(x, map, start, len).fields()
    }
}
/// Whether a state takes pairs.
pub fn pairs(s: &str) -> bool {
    s == "cov" || s == "pearson"
}
/// A state and what is inserted.
pub fn insert_case(r: &mut Rng, s: &str) -> (Vec<f64>, f64, f64) {
    let st = any_state(r, s);
    let v = r.trace(2);
    (st, v[0], v[1])
}
/// Two states, the first now and then empty or of the opposite weight.
pub fn combine_case(r: &mut Rng, s: &str) -> (Vec<f64>, Vec<f64>) {
    let (mut a, b) = (any_state(r, s), any_state(r, s));
    if r.chance(1, 20) {
        a = vec![0.0; a.len()];
    }
    if r.chance(1, 20) {
        a[0] = -b[0];
    }
    (a, b)
}
/// A state, ddof, biased, fisher.
pub fn finalize_case(r: &mut Rng, s: &str) -> (Vec<f64>, u8, bool, bool) {
    let mut st = any_state(r, s);
    if (s == "skew" || s == "kurt") && r.chance(1, 4) {
        // at the edge of `is_zero`: m2 / weight against (2^-52 mean)^2, one ulp about it
        st[0] = (1u64 << r.below(6)) as f64;
        let e = *[2f64.powi(r.below(200) as i32 - 100), 3.0, 0.0, -7.5, 1e-200, 1e300].get(r.below(6)).unwrap();
        st[1] = e;
        let q = (f64::EPSILON * e) * (f64::EPSILON * e);
        let q = if q > 0.0 { f64::from_bits((q.to_bits() as i64 + r.below(3) as i64 - 1) as u64) } else { q };
        st[2] = q * st[0];
        for v in &mut st[3..] {
            *v = *[1.0, -2.5, 1e-300, 0.0].get(r.below(4)).unwrap();
        }
    }
    let ddof = if r.chance(1, 4) { r.below(256) } else { r.below(4) } as u8;
    (st, ddof, r.chance(1, 2), r.chance(1, 2))
}
/// Start and length of a range over n places, now and then past the end or past 2^64.
pub fn range_case(r: &mut Rng, n: usize) -> (usize, usize) {
    let mut start = r.below(n + 1);
    let mut len = r.below(n - start + 1);
    match r.below(20) {
        0 => len = n - start + 1,
        1 => len = usize::MAX,
        2 => start = usize::MAX - r.below(2),
        3 => len = n - start,
        _ => {}
    }
    (start, len)
}
/// The number a whole-array call answers.
pub fn whole_refusal(s: &str, n: usize, xm: Option<&[u8]>, m: usize, ym: Option<&[u8]>) -> u32 {
    if pairs(s) {
        refusal::pair(n, xm.map(|v| v.len()), m, ym.map(|v| v.len()))
    } else {
        refusal::trace(n, xm.map(|v| v.len()))
    }
}

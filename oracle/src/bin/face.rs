//! Random calls of libmoments.a against the Rust: every entry on states, whole arrays and ranges, and the root. Compared: the
//! number; states, all NaNs alike; figures by their bits, a NaN being 7FF8000000000000; the present byte and the +0.0 of a missing
//! figure; and that nothing else is written. An entry that is lent something to write to is called twice: by ../host's declaration,
//! which shows what was written, and by its safe function. usage: face CALLS SEED
use moments::abi::{self, OfPair, OfRange, OfTrace};
use moments::{CovState, KurtosisState, PearsonState, Refusal, SkewState, VarState};
use oracle::record::*;
use oracle::refusal::LIMIT;
use oracle::rng::Rng;
use oracle::{canon, maps, refusal};
use std::collections::BTreeMap;

/// A map as it is lent. Without one, pointer and length may be anything that a slice may be, null too where it is empty.
struct Lent<'a> {
    has: bool,
    at: *const u8,
    bytes: usize,
    map: Option<&'a [u8]>,
}
impl<'a> Lent<'a> {
    fn new(map: Option<&'a [u8]>, junk: &'a [u8], r: &mut Rng) -> Self {
        let (at, bytes) = match (map, r.below(3)) {
            (Some(m), _) => (m.as_ptr(), m.len()),
            (None, 0) => (std::ptr::null(), 0),
            (None, 1) => (std::ptr::dangling(), 0),
            _ => (junk.as_ptr(), r.below(junk.len() + 1)),
        };
        Lent { has: map.is_some(), at, bytes, map }
    }
}
/// A trace's pointer: of no readings, any that is aligned.
fn at(x: &[f64]) -> *const f64 {
    if x.is_empty() { std::ptr::dangling() } else { x.as_ptr() }
}
/// A lent list of doubles between words that nobody may touch.
#[repr(C)]
#[derive(Clone, Copy)]
struct Guarded<const N: usize> {
    low: [u64; 2],
    held: [f64; N],
    high: [u64; 2],
}
impl<const N: usize> Guarded<N> {
    fn new(r: &mut Rng) -> Self {
        Guarded { low: [r.u64(), r.u64()], held: std::array::from_fn(|_| f64::from_bits(r.u64())), high: [r.u64(), r.u64()] }
    }
    /// Lends the list to a call, and gives the call's answer and what all of it holds then. The black box keeps the
    /// compiler from taking for granted that the words beside the list are as they were.
    fn lent<T>(mut self, call: impl FnOnce(&mut [f64; N]) -> T) -> (T, Self) {
        let all: *mut Self = std::hint::black_box(&raw mut self);
        let answer = call(unsafe { &mut (*all).held });
        (answer, unsafe { *all })
    }
    /// Whether only what was lent changed, and that only where the call was accepted.
    fn kept(&self, after: &Self, code: u32) -> bool {
        let bits = |g: &Self| g.held.map(f64::to_bits);
        self.low == after.low && self.high == after.high && (code == 0 || bits(self) == bits(after))
    }
}

/// A call's entry, the number and the state that it is to answer, and what it was given.
struct Asked<A, G> {
    name: &'static str,
    want: u32,
    answer: A,
    given: G,
}
/// What the calls on whole arrays and ranges are given; one that has no second trace or no range does not look at it.
struct Given<'a> {
    x: &'a [f64],
    xm: &'a Lent<'a>,
    y: &'a [f64],
    ym: &'a Lent<'a>,
    start: usize,
    length: usize,
}

#[derive(Default)]
struct Seen {
    /// Calls and how many of them differ, by entry.
    calls: BTreeMap<&'static str, (u64, u64)>,
    numbers: BTreeMap<u32, u64>,
    maps: maps::Lengths,
    nans: u64,
    missing: u64,
    differing: u64,
}
impl Seen {
    fn tell(&mut self, name: &'static str, what: Option<String>) {
        let entry = self.calls.entry(name).or_default();
        entry.0 += 1;
        if let Some(what) = what {
            entry.1 += 1;
            self.differing += 1;
            if self.differing <= 10 {
                println!("DIFFERS {name}: {what}");
            }
        }
    }
    /// A call that answers a number and writes a state, and the same by its safe function.
    fn array<const N: usize, S: Into<[f64; N]>>(
        &mut self,
        r: &mut Rng,
        asked: Asked<impl FnOnce() -> Vec<f64>, impl FnOnce() -> String>,
        call: impl FnOnce(&mut [f64; N]) -> u32,
        safe: impl FnOnce() -> Result<S, Refusal>,
    ) {
        let Asked { name, want, answer, given } = asked;
        let before = Guarded::<N>::new(r);
        let (code, after) = before.lent(call);
        *self.numbers.entry(want).or_default() += 1;
        let what = match (code, safe().map(Into::into)) {
            _ if code != want => Some(format!("number {code}, wanted {want}")),
            _ if !before.kept(&after, code) => Some("wrote what it may not".into()),
            (0, Ok(state)) => {
                let answer = answer();
                unlike(&after.held, &answer).or_else(|| unlike(&state, &answer).map(|w| format!("by its safe function {w}")))
            }
            (_, Err(refusal)) if refusal.number() == want => None,
            (_, safe) => Some(format!("by its safe function {safe:?}, wanted {want}")),
        };
        self.tell(name, what.map(|w| format!("{w}; {}", given())));
    }
    fn state(&mut self, name: &'static str, got: &[f64], want: &[f64], given: impl FnOnce() -> String) {
        self.tell(name, unlike(got, want).map(|w| format!("{w}; {}", given())));
    }
    fn figure(&mut self, name: &'static str, got: f64, want: f64, given: impl FnOnce() -> String) {
        self.nans += want.is_nan() as u64;
        let what = (got.to_bits() != canon(want)).then(|| format!("{:016X}, wanted {:016X}; {}", got.to_bits(), canon(want), given()));
        self.tell(name, what);
    }
    /// A `finalize` that writes its figure, and the same by its safe function.
    fn finalized(
        &mut self,
        r: &mut Rng,
        name: &'static str,
        want: Option<f64>,
        given: impl FnOnce() -> String,
        call: impl FnOnce(&mut f64) -> u8,
        safe: Option<f64>,
    ) {
        let before = Guarded::<1>::new(r);
        let (present, after) = before.lent(|held| call(&mut held[0]));
        let got = after.held[0].to_bits();
        let bits = want.map_or(0, canon);
        self.nans += want.is_some_and(f64::is_nan) as u64;
        self.missing += want.is_none() as u64;
        let what = if present != want.is_some() as u8 || got != bits {
            Some(format!("{got:016X} {present}, wanted {bits:016X} {}; {}", want.is_some() as u8, given()))
        } else if !before.kept(&after, 0) {
            Some("wrote what it may not".into())
        } else if safe.map(f64::to_bits) != want.map(canon) {
            Some(format!("by its safe function {safe:?}, wanted {want:?}; {}", given()))
        } else {
            None
        };
        self.tell(name, what);
    }
}
fn hex(v: &[f64]) -> String {
    v.iter().map(|x| format!("{:016X}", x.to_bits())).collect::<Vec<_>>().join(" ")
}
fn unlike(got: &[f64], want: &[f64]) -> Option<String> {
    let differ = got.len() != want.len() || got.iter().zip(want).any(|(a, b)| canon(*a) != canon(*b));
    differ.then(|| format!("state {}, wanted {}", hex(got), hex(want)))
}
/// The start of a long list is enough to see what was given.
fn shown(x: &[f64], map: &Lent) -> String {
    let map = map.map.map(|m| (m.len(), &m[..m.len().min(200)]));
    format!("{} readings {} map {map:02X?}", x.len(), hex(&x[..x.len().min(40)]))
}

fn one<const N: usize, S: Into<[f64; N]>>(
    (seen, r): (&mut Seen, &mut Rng),
    (name, s): (&'static str, &str),
    f: OfTrace<N>,
    safe: impl FnOnce(&[f64], Option<&[u8]>) -> Result<S, Refusal>,
    &Given { x, xm: m, .. }: &Given,
) {
    let want = refusal::trace(x.len(), m.map.map(<[u8]>::len));
    seen.maps.count(&[(x.len(), m.map)], want);
    let answer = || whole(s, x, m.map, &[], None);
    let given = || shown(x, m);
    let call = |state: &mut [f64; N]| unsafe { f(at(x), x.len(), m.has, m.at, m.bytes, state) };
    seen.array(r, Asked { name, want, answer, given }, call, || safe(x, m.map));
}
fn two<const N: usize, S: Into<[f64; N]>>(
    (seen, r): (&mut Seen, &mut Rng),
    (name, s): (&'static str, &str),
    f: OfPair<N>,
    safe: impl FnOnce(&[f64], Option<&[u8]>, &[f64], Option<&[u8]>) -> Result<S, Refusal>,
    &Given { x, xm, y, ym, .. }: &Given,
) {
    let want = refusal::pair(x.len(), xm.map.map(<[u8]>::len), y.len(), ym.map.map(<[u8]>::len));
    seen.maps.count(&[(x.len(), xm.map), (y.len(), ym.map)], want);
    let answer = || whole(s, x, xm.map, y, ym.map);
    let given = || format!("{} {}", shown(x, xm), shown(y, ym));
    let call = |state: &mut [f64; N]| unsafe {
        f(at(x), x.len(), xm.has, xm.at, xm.bytes, at(y), y.len(), ym.has, ym.at, ym.bytes, state)
    };
    seen.array(r, Asked { name, want, answer, given }, call, || safe(x, xm.map, y, ym.map));
}
fn part<const N: usize, S: Into<[f64; N]>>(
    (seen, r): (&mut Seen, &mut Rng),
    (name, s): (&'static str, &str),
    f: OfRange<N>,
    safe: impl FnOnce(&[f64], Option<&[u8]>, usize, usize) -> Result<S, Refusal>,
    &Given { x, xm: m, start, length, .. }: &Given,
) {
    let want = refusal::range(x.len(), m.map.map(<[u8]>::len), start, length);
    seen.maps.count(&[(x.len(), m.map)], want);
    let answer = || range(s, x, m.map, start, length);
    let given = || format!("{} start {start} length {length}", shown(x, m));
    let call = |state: &mut [f64; N]| unsafe { f(at(x), x.len(), m.has, m.at, m.bytes, start, length, state) };
    seen.array(r, Asked { name, want, answer, given }, call, || safe(x, m.map, start, length));
}
fn arrays(seen: &mut Seen, r: &mut Rng, given: &Given, which: usize) {
    let to = (seen, r);
    match which {
        0 => one(to, ("moments_var", "var"), abi::moments_var, moments::var, given),
        1 => one(to, ("moments_skew", "skew"), abi::moments_skew, moments::skew, given),
        2 => one(to, ("moments_kurtosis", "kurt"), abi::moments_kurtosis, moments::kurtosis, given),
        3 => two(to, ("moments_cov", "cov"), abi::moments_cov, moments::cov, given),
        4 => two(to, ("moments_pearson_corr", "pearson"), abi::moments_pearson_corr, moments::pearson_corr, given),
        5 => part(to, ("moments_skew_range", "skew"), abi::moments_skew_range, moments::skew_range, given),
        _ => part(to, ("moments_kurtosis_range", "kurt"), abi::moments_kurtosis_range, moments::kurtosis_range, given),
    }
}
fn of<const N: usize, S: From<[f64; N]>>(fields: &[f64]) -> S {
    S::from(fields.try_into().unwrap())
}
fn states(seen: &mut Seen, r: &mut Rng, s: &str) {
    macro_rules! each {
        ($T:ident, $insert:literal ($($y:ident)?), $combine:literal) => {{
            let (st, x, y) = insert_case(r, s);
            let got: [f64; _] = of::<_, $T>(&st).insert_one(x $(, { let $y = y; $y })?).into();
            seen.state($insert, &got, &insert(s, &st, x, y), || format!("{} and {}", hex(&st), hex(&[x, y])));
            let (a, b) = combine_case(r, s);
            let got: [f64; _] = of::<_, $T>(&a).combine(of(&b)).into();
            seen.state($combine, &got, &combine(s, &a, &b), || format!("{} and {}", hex(&a), hex(&b)));
        }};
    }
    let (st, ddof, bias, fisher) = finalize_case(r, s);
    let want = finalize(s, &st, ddof, bias, fisher);
    let given = || format!("{} ddof {ddof} bias {bias} fisher {fisher}", hex(&st));
    match s {
        "var" => {
            each!(VarState, "moments_var_insert_one"(), "moments_var_combine");
            let state: VarState = of(&st);
            let call = |f: &mut f64| abi::moments_var_finalize(state, ddof, f);
            seen.finalized(r, "moments_var_finalize", want, given, call, state.finalize(ddof));
        }
        "cov" => {
            each!(CovState, "moments_cov_insert_one"(y), "moments_cov_combine");
            let state: CovState = of(&st);
            let call = |f: &mut f64| abi::moments_cov_finalize(state, ddof, f);
            seen.finalized(r, "moments_cov_finalize", want, given, call, state.finalize(ddof));
        }
        "pearson" => {
            each!(PearsonState, "moments_pearson_insert_one"(y), "moments_pearson_combine");
            seen.figure("moments_pearson_finalize", of::<_, PearsonState>(&st).finalize(), want.unwrap(), given);
        }
        "skew" => {
            each!(SkewState, "moments_skew_insert_one"(), "moments_skew_combine");
            let state: SkewState = of(&st);
            let call = |f: &mut f64| abi::moments_skew_finalize(state, bias, f);
            seen.finalized(r, "moments_skew_finalize", want, given, call, state.finalize(bias));
        }
        _ => {
            each!(KurtosisState, "moments_kurtosis_insert_one"(), "moments_kurtosis_combine");
            let state: KurtosisState = of(&st);
            let call = |f: &mut f64| abi::moments_kurtosis_finalize(state, fisher, bias, f);
            seen.finalized(r, "moments_kurtosis_finalize", want, given, call, state.finalize(fisher, bias));
        }
    }
}
/// 16,777,216 readings pass, one more is 1, also where the map is too short.
fn limits(seen: &mut Seen, r: &mut Rng) {
    let x: Vec<f64> = (0..LIMIT + 1).map(|i| (i % 1000) as f64 - 400.0).collect();
    let ones = vec![0xFF; LIMIT / 8 + 64];
    for (n, map) in [(LIMIT, None), (LIMIT, Some(&ones[..])), (LIMIT + 1, None), (LIMIT + 1, Some(&ones[..LIMIT / 8]))] {
        let m = Lent::new(map, &ones, r);
        for which in 0..7 {
            arrays(seen, r, &Given { x: &x[..n], xm: &m, y: &x[..n], ym: &m, start: 1, length: LIMIT - 1 }, which);
        }
    }
    // a trace too long beside a short one is 1 and not 2
    let m = Lent::new(None, &ones, r);
    for (x, y) in [(&x[..], &x[..3]), (&x[..3], &x[..]), (&x[..LIMIT], &x[..3])] {
        arrays(seen, r, &Given { x, xm: &m, y, ym: &m, start: 0, length: 0 }, 3);
        arrays(seen, r, &Given { x, xm: &m, y, ym: &m, start: 0, length: 0 }, 4);
    }
}

fn main() {
    let nums: Vec<u64> = std::env::args().skip(1).filter_map(|a| a.parse().ok()).collect();
    let [calls, seed] = nums[..] else {
        eprintln!("usage: face CALLS SEED");
        std::process::exit(1);
    };
    let mut r = Rng(seed);
    let mut seen = Seen::default();
    limits(&mut seen, &mut r);
    let junk: Vec<u8> = (0..64).map(|_| r.u64() as u8).collect();
    for _ in 0..calls {
        match r.below(23) {
            which @ 0..7 => {
                let n = match r.below(12) {
                    0 => r.below(3),
                    1 => 120 + r.below(20),
                    2 => 250 + r.below(20),
                    3 => r.below(1500),
                    _ => r.below(30),
                };
                let m = if r.chance(1, 25) { r.below(30) } else { n };
                let (x, y) = (r.trace(n), r.trace(m));
                let (xm, ym) = (lent_map(&mut r, n), lent_map(&mut r, m));
                let (xm, ym) = (Lent::new(xm.as_deref(), &junk, &mut r), Lent::new(ym.as_deref(), &junk, &mut r));
                let (mut start, mut length) = range_case(&mut r, n);
                if r.chance(1, 12) {
                    // a sum that wraps to one within the trace
                    start = usize::MAX - r.below(40);
                    length = (usize::MAX - start).wrapping_add(1 + r.below(n + 1));
                    if r.chance(1, 2) {
                        (start, length) = (length, start);
                    }
                }
                arrays(&mut seen, &mut r, &Given { x: &x, xm: &xm, y: &y, ym: &ym, start, length }, which);
            }
            7..22 => {
                let s = STATES[r.below(5)];
                states(&mut seen, &mut r, s);
            }
            _ => {
                let x = match r.below(5) {
                    0 => f64::from_bits(r.u64() >> (12 + r.below(52))),
                    1 => {
                        let a = f64::from_bits(r.u64() >> 1);
                        f64::from_bits((a * a).to_bits().wrapping_add(r.below(5) as u64).wrapping_sub(2))
                    }
                    2 => f64::from_bits(((r.below(4096) as u64) << 52).wrapping_add(r.below(5) as u64).wrapping_sub(2)),
                    3 => f64::from_bits(((0x3FF + r.below(2) as u64) << 52) + (r.u64() >> 12)),
                    _ => f64::from_bits(r.u64()),
                };
                seen.figure("moments_root", moments::root(x), x.sqrt(), || hex(&[x]));
            }
        }
    }
    println!("{:<28}{:>10}{:>10}", "entry", "calls", "differing");
    for (name, (calls, differing)) in &seen.calls {
        println!("{name:<28}{calls:>10}{differing:>10}");
    }
    println!("{}", seen.maps);
    println!("by number {:?}; NaN figures {}, missing {}", seen.numbers, seen.nans, seen.missing);
    println!("differing {}", seen.differing);
    std::process::exit((seen.differing > 0) as i32);
}

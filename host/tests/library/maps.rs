//! Maps of every length in every entry that is lent one. A map that is longer than its trace needs is taken, and what stands behind the
//! last reading's bit does not matter; with weights it is refused as any map is. A shorter one is refused, and nothing is written.
use crate::lists::{accepted, bits, bytes_of, raw, state_of, Guarded, Lengths, Needed, Rng};
use moments::abi::{self, OfPair, OfRange, OfTrace};
use moments::*;

/// Bytes behind a map, at most: Arrow pads its buffers to a multiple of 64.
const MOST_BEHIND: usize = 64;
const READINGS: [usize; 9] = [0, 1, 7, 8, 9, 63, 64, 65, 130];
const SHAPES: [Shape; 2] = [Shape::Skew { bias: true }, Shape::Kurtosis { fisher: true, bias: true }];
const PAIR_FIGURES: [PairFigure; 2] = [PairFigure::Cov { ddof: 0 }, PairFigure::PearsonCorr];
/// What spare bits and the bytes behind may be: zeros, ones, noise.
const FILLS: [fn(&mut Rng) -> u8; 3] = [|_| 0, |_| 0xFF, |rng| rng.word() as u8];

/// What a call writes, or why it is refused.
type Answer<E> = Result<Vec<u64>, E>;
type Call<E> = Box<dyn Fn(&[f64], &[u8]) -> Answer<E>>;
/// An entry on a trace and the map that is tried, by its declaration and by its safe function.
struct Entry {
    name: String,
    /// Whose map it is, of both the first's.
    whose: Which,
    declared: Call<u32>,
    safe: Call<Refusal>,
}
impl Entry {
    /// Both calls answer alike, and the map and the places beside it are kept.
    fn ask(&self, rng: &mut Rng, trace: &[f64], map: &[u8]) -> Answer<Refusal> {
        let mut lent = Guarded::<u8>::holding(rng, &bits(map));
        let declared = (self.declared)(trace, lent.lend());
        let safe = (self.safe)(trace, lent.lend());
        lent.check("map", 0);
        assert_eq!(declared, safe.clone().map_err(|refusal| refusal.number()), "{}", self.name);
        safe
    }
}
fn words<const N: usize>(state: impl Into<[f64; N]>) -> Vec<u64> {
    bits::<f64>(&state.into())
}

// ---- whole arrays and ranges ----
type SafeTrace<S> = fn(&[f64], Option<&[u8]>) -> Result<S, Refusal>;
type SafeRange<S> = fn(&[f64], Option<&[u8]>, usize, usize) -> Result<S, Refusal>;
type SafePair<S> = fn(&[f64], Option<&[u8]>, &[f64], Option<&[u8]>) -> Result<S, Refusal>;
fn of_trace<const N: usize, S: Into<[f64; N]> + 'static>(name: &str, entry: OfTrace<N>, safe: SafeTrace<S>) -> Entry {
    let declared = move |trace: &[f64], map: &[u8]| {
        let (t, n, has_map, m, mn) = raw(trace, true, map);
        // SAFETY: pointers and lengths are the slices'.
        state_of(|s| unsafe { entry(t, n, has_map, m, mn, s) })
    };
    let safe = move |trace: &[f64], map: &[u8]| safe(trace, Some(map)).map(words);
    Entry { name: name.into(), whose: Which::Only, declared: Box::new(declared), safe: Box::new(safe) }
}
fn of_range<const N: usize, S: Into<[f64; N]> + 'static>(name: &str, entry: OfRange<N>, safe: SafeRange<S>) -> Entry {
    // the last place is in it
    let range = |n: usize| (n / 3, n - n / 3);
    let declared = move |trace: &[f64], map: &[u8]| {
        let ((t, n, has_map, m, mn), (start, length)) = (raw(trace, true, map), range(trace.len()));
        // SAFETY: pointers and lengths are the slices'.
        state_of(|s| unsafe { entry(t, n, has_map, m, mn, start, length, s) })
    };
    let safe = move |trace: &[f64], map: &[u8]| {
        let (start, length) = range(trace.len());
        safe(trace, Some(map), start, length).map(words)
    };
    Entry { name: name.into(), whose: Which::Only, declared: Box::new(declared), safe: Box::new(safe) }
}

// ---- pairs ----
/// Which map of two is tried; the other one is longer than is needed.
#[derive(Clone, Copy, Debug)]
enum Tried {
    FirstMap,
    SecondMap,
    BothMaps,
}
const TRIED: [Tried; 3] = [Tried::FirstMap, Tried::SecondMap, Tried::BothMaps];
impl Tried {
    fn whose(self) -> Which {
        match self {
            Tried::FirstMap | Tried::BothMaps => Which::First,
            Tried::SecondMap => Which::Second,
        }
    }
    /// Gives the call the first trace and its map, and the second and its map.
    fn with<T>(self, trace: &[f64], map: &[u8], call: impl FnOnce(&[f64], &[u8], &[f64], &[u8]) -> T) -> T {
        let n = trace.len();
        let second: Vec<f64> = (0..n).map(|i| 2.0 - (i * i % 17) as f64).collect();
        // of more readings than one, the first is missing
        let longer = [vec![0xFF - u8::from(n > 1)], vec![0xFF; n.div_ceil(8) + 3]].concat();
        let [x_map, y_map] = match self {
            Tried::FirstMap => [map, &longer],
            Tried::SecondMap => [&longer, map],
            Tried::BothMaps => [map, map],
        };
        call(trace, x_map, &second, y_map)
    }
}
/// A call on two traces with their maps.
type PairCall<E> = Box<dyn Fn(&[f64], &[u8], &[f64], &[u8]) -> Answer<E>>;
fn of_two(name: &str, tried: Tried, declared: PairCall<u32>, safe: PairCall<Refusal>) -> Entry {
    Entry {
        name: format!("{name}, {tried:?}"),
        whose: tried.whose(),
        declared: Box::new(move |trace: &[f64], map: &[u8]| tried.with(trace, map, &declared)),
        safe: Box::new(move |trace: &[f64], map: &[u8]| tried.with(trace, map, &safe)),
    }
}
fn of_pair<const N: usize, S: Into<[f64; N]> + 'static>(name: &str, entry: OfPair<N>, safe: SafePair<S>, tried: Tried) -> Entry {
    let declared = move |x: &[f64], x_map: &[u8], y: &[f64], y_map: &[u8]| {
        let ((x, n, _, xm, xn), (y, _, _, ym, yn)) = (raw(x, true, x_map), raw(y, true, y_map));
        // SAFETY: pointers and lengths are the slices'.
        state_of(|s| unsafe { entry(x, n, true, xm, xn, y, n, true, ym, yn, s) })
    };
    let safe = move |x: &[f64], x_map: &[u8], y: &[f64], y_map: &[u8]| safe(x, Some(x_map), y, Some(y_map)).map(words);
    of_two(name, tried, Box::new(declared), Box::new(safe))
}

// ---- windows ----
/// Runs the call on lists that are two places longer than is needed.
fn with_lists<E>(needed: Needed, call: impl FnOnce([&mut [f64]; 2], Lists) -> Result<(), E>) -> Answer<E> {
    Lengths::longer(needed, 2).run(needed, call)
}
fn with_var_lists<E>(needed: Needed, call: impl FnOnce(&mut [f64], VarLists) -> Result<(), E>) -> Answer<E> {
    Lengths::longer(needed, 2).run_var(needed, call)
}
/// A column as an entry takes it.
fn column(Column { values, present }: Column) -> (*mut f64, usize, *mut u8, usize) {
    (values.as_mut_ptr(), values.len(), present.as_mut_ptr(), present.len())
}
/// Four rows, in three of which the last place is.
fn rows(n: usize) -> [[u32; 4]; 2] {
    [[0, n / 4, n / 2, n], [n / 2, n, n, n]].map(|bounds| bounds.map(|place| place as u32))
}
/// A trace's bytes, the rows and what a call of them writes to.
fn plan_of<F: Kind>(trace: &[f64], setting: Setting<F>) -> (Vec<u8>, [[u32; 4]; 2], Needed) {
    let rows = rows(trace.len());
    (bytes_of(trace), rows, ([trace.len(), 0], setting.work(Plan::new(&rows[0], &rows[1]).widest()), rows[0].len()))
}
const VAR: Setting<Var> = Setting { figure: Var { ddof: 0 }, min_periods: 1 };
fn of_var_plan() -> Entry {
    let declared = |trace: &[f64], map: &[u8]| {
        let (bytes, [starts, ends], needed) = plan_of(trace, VAR);
        with_var_lists(needed, |readings, VarLists { work, variance, lowest, highest }| {
            let (t, tn, r, rn) = (bytes.as_ptr(), bytes.len(), readings.as_mut_ptr(), readings.len());
            let (m, mn, s, e) = (map.as_ptr(), map.len(), starts.as_ptr(), ends.as_ptr());
            let (w, wn, (f, fl, p, pn)) = (work.as_mut_ptr(), work.len(), column(variance));
            let ((l, ln, lp, lpn), (h, hn, hp, hpn)) = (column(lowest), column(highest));
            // SAFETY: pointers and lengths are the slices' and the arrays'.
            #[rustfmt::skip]
            let number = unsafe {
                abi::moments_plan_var(
                    t, tn, r, rn, true, m, mn, s, 4, e, 4, 1, 0, w, wn, f, fl, p, pn, l, ln, lp, lpn, h, hn, hp, hpn,
                )
            };
            accepted(number)
        })
    };
    let safe = |trace: &[f64], map: &[u8]| {
        let (bytes, [starts, ends], needed) = plan_of(trace, VAR);
        let plan = Plan::new(&starts, &ends);
        with_var_lists(needed, |readings, lists| plan_var_into(&bytes, readings, Some(map), plan, VAR, lists))
    };
    Entry { name: "plan var".into(), whose: Which::Only, declared: Box::new(declared), safe: Box::new(safe) }
}
fn of_var_fixed(window: Window) -> Entry {
    let needed = move |n: usize| ([0; 2], VAR.work(window.size.min(n)), n);
    let declared = move |trace: &[f64], map: &[u8]| {
        let ((t, n, has_map, m, mn), Window { size, center }) = (raw(trace, true, map), window);
        with_var_lists(needed(n), |_, VarLists { work, variance, lowest, highest }| {
            let (w, wn, (f, fl, p, pn)) = (work.as_mut_ptr(), work.len(), column(variance));
            let ((l, ln, lp, lpn), (h, hn, hp, hpn)) = (column(lowest), column(highest));
            // SAFETY: pointers and lengths are the slices'.
            #[rustfmt::skip]
            let number = unsafe {
                abi::moments_rolling_var(
                    t, n, has_map, m, mn, size, 1, center, 0, w, wn, f, fl, p, pn, l, ln, lp, lpn, h, hn, hp, hpn,
                )
            };
            accepted(number)
        })
    };
    let safe = move |trace: &[f64], map: &[u8]| {
        with_var_lists(needed(trace.len()), |_, lists| rolling_var_into(trace, Some(map), window, VAR, lists))
    };
    Entry { name: format!("{window:?} var"), whose: Which::Only, declared: Box::new(declared), safe: Box::new(safe) }
}
fn of_plan(figure: Shape) -> Entry {
    let setting = Setting { figure, min_periods: 1 };
    let declared = move |trace: &[f64], map: &[u8]| {
        let (bytes, [starts, ends], needed) = plan_of(trace, setting);
        with_lists(needed, |[readings, _], Lists { work, figures, present }| {
            let (t, tn, r, rn) = (bytes.as_ptr(), bytes.len(), readings.as_mut_ptr(), readings.len());
            let (m, mn, s, e) = (map.as_ptr(), map.len(), starts.as_ptr(), ends.as_ptr());
            let (w, wn, f, fl) = (work.as_mut_ptr(), work.len(), figures.as_mut_ptr(), figures.len());
            let (p, pn) = (present.as_mut_ptr(), present.len());
            // SAFETY: pointers and lengths are the slices' and the arrays'.
            accepted(unsafe {
                match figure {
                    Shape::Skew { bias } => {
                        abi::moments_plan_skew(t, tn, r, rn, true, m, mn, s, 4, e, 4, 1, bias, w, wn, f, fl, p, pn)
                    }
                    Shape::Kurtosis { fisher, bias } => {
                        abi::moments_plan_kurtosis(t, tn, r, rn, true, m, mn, s, 4, e, 4, 1, fisher, bias, w, wn, f, fl, p, pn)
                    }
                }
            })
        })
    };
    let safe = move |trace: &[f64], map: &[u8]| {
        let (bytes, [starts, ends], needed) = plan_of(trace, setting);
        let plan = Plan::new(&starts, &ends);
        with_lists(needed, |[readings, _], lists| plan_into(&bytes, readings, Some(map), plan, setting, lists))
    };
    Entry { name: format!("plan {figure:?}"), whose: Which::Only, declared: Box::new(declared), safe: Box::new(safe) }
}
fn of_pair_plan(figure: PairFigure, tried: Tried) -> Entry {
    let setting = Setting { figure, min_periods: 1 };
    let needed = move |n: usize, [starts, ends]: [[u32; 4]; 2]| ([n; 2], setting.work(Plan::new(&starts, &ends).widest()), 4);
    let declared = move |x: &[f64], x_map: &[u8], y: &[f64], y_map: &[u8]| {
        let (n, x, y, bounds) = (x.len(), bytes_of(x), bytes_of(y), rows(x.len()));
        with_lists(needed(n, bounds), |[x_readings, y_readings], Lists { work, figures, present }| {
            let (a, an, ar, arn) = (x.as_ptr(), x.len(), x_readings.as_mut_ptr(), x_readings.len());
            let (b, bn, br, brn) = (y.as_ptr(), y.len(), y_readings.as_mut_ptr(), y_readings.len());
            let (am, amn, bm, bmn) = (x_map.as_ptr(), x_map.len(), y_map.as_ptr(), y_map.len());
            let (s, e) = (bounds[0].as_ptr(), bounds[1].as_ptr());
            let (w, wn, f, fl) = (work.as_mut_ptr(), work.len(), figures.as_mut_ptr(), figures.len());
            let (p, pn) = (present.as_mut_ptr(), present.len());
            // SAFETY: pointers and lengths are the slices' and the arrays'.
            #[rustfmt::skip]
            let number = unsafe {
                match figure {
                    PairFigure::Cov { ddof } => abi::moments_plan_cov(
                        a, an, ar, arn, true, am, amn, b, bn, br, brn, true, bm, bmn, s, 4, e, 4, 1, ddof, w, wn, f, fl, p, pn,
                    ),
                    PairFigure::PearsonCorr => abi::moments_plan_pearson_corr(
                        a, an, ar, arn, true, am, amn, b, bn, br, brn, true, bm, bmn, s, 4, e, 4, 1, w, wn, f, fl, p, pn,
                    ),
                }
            };
            accepted(number)
        })
    };
    let safe = move |x: &[f64], x_map: &[u8], y: &[f64], y_map: &[u8]| {
        let (n, x, y, bounds) = (x.len(), bytes_of(x), bytes_of(y), rows(x.len()));
        with_lists(needed(n, bounds), |[x_readings, y_readings], lists| {
            let x = Encoded { bytes: &x, readings: x_readings, map: Some(x_map) };
            let y = Encoded { bytes: &y, readings: y_readings, map: Some(y_map) };
            plan_pair_into(x, y, Plan::new(&bounds[0], &bounds[1]), setting, lists)
        })
    };
    of_two(&format!("plan {figure:?}"), tried, Box::new(declared), Box::new(safe))
}
fn of_fixed(figure: Shape, window: Window) -> Entry {
    let setting = Setting { figure, min_periods: 1 };
    let needed = move |n: usize| ([0; 2], setting.work(window.size.min(n)), n);
    let declared = move |trace: &[f64], map: &[u8]| {
        let ((t, n, has_map, m, mn), Window { size, center }) = (raw(trace, true, map), window);
        with_lists(needed(n), |_, Lists { work, figures, present }| {
            let (w, wn, f, fl) = (work.as_mut_ptr(), work.len(), figures.as_mut_ptr(), figures.len());
            let (p, pn) = (present.as_mut_ptr(), present.len());
            // SAFETY: pointers and lengths are the slices'.
            accepted(unsafe {
                match figure {
                    Shape::Skew { bias } => {
                        abi::moments_rolling_skew(t, n, has_map, m, mn, size, 1, center, bias, w, wn, f, fl, p, pn)
                    }
                    Shape::Kurtosis { fisher, bias } => {
                        abi::moments_rolling_kurtosis(t, n, has_map, m, mn, size, 1, center, fisher, bias, w, wn, f, fl, p, pn)
                    }
                }
            })
        })
    };
    let safe = move |trace: &[f64], map: &[u8]| {
        with_lists(needed(trace.len()), |_, lists| rolling_into(trace, Some(map), window, setting, lists))
    };
    Entry { name: format!("{window:?} {figure:?}"), whose: Which::Only, declared: Box::new(declared), safe: Box::new(safe) }
}
fn of_pair_fixed(figure: PairFigure, window: Window, tried: Tried) -> Entry {
    let setting = Setting { figure, min_periods: 1 };
    let needed = move |n: usize| ([0; 2], setting.work(window.size.min(n)), n);
    let declared = move |x: &[f64], x_map: &[u8], y: &[f64], y_map: &[u8]| {
        let ((a, n, _, am, amn), (b, bn, _, bm, bmn)) = (raw(x, true, x_map), raw(y, true, y_map));
        let Window { size, center } = window;
        with_lists(needed(n), |_, Lists { work, figures, present }| {
            let (w, wn, f, fl) = (work.as_mut_ptr(), work.len(), figures.as_mut_ptr(), figures.len());
            let (p, pn) = (present.as_mut_ptr(), present.len());
            // SAFETY: pointers and lengths are the slices'.
            #[rustfmt::skip]
            let number = unsafe {
                match figure {
                    PairFigure::Cov { ddof } => abi::moments_rolling_cov(
                        a, n, true, am, amn, b, bn, true, bm, bmn, size, 1, center, ddof, w, wn, f, fl, p, pn,
                    ),
                    PairFigure::PearsonCorr => abi::moments_rolling_pearson_corr(
                        a, n, true, am, amn, b, bn, true, bm, bmn, size, 1, center, w, wn, f, fl, p, pn,
                    ),
                }
            };
            accepted(number)
        })
    };
    let safe = move |x: &[f64], x_map: &[u8], y: &[f64], y_map: &[u8]| {
        let lent = needed(x.len());
        with_lists(lent, |_, lists| rolling_pair_into(x, Some(x_map), y, Some(y_map), window, setting, lists))
    };
    of_two(&format!("{window:?} {figure:?}"), tried, Box::new(declared), Box::new(safe))
}
const WEIGHTS: [f64; 3] = [1.0, 2.0, 0.5];
fn of_weights() -> Entry {
    let declared = |trace: &[f64], map: &[u8]| {
        let ((t, n, has_map, m, mn), (w, wn)) = (raw(trace, true, map), (WEIGHTS.as_ptr(), WEIGHTS.len()));
        with_lists(([0; 2], 0, n), |_, Lists { figures, present, .. }| {
            let (f, fl, p, pn) = (figures.as_mut_ptr(), figures.len(), present.as_mut_ptr(), present.len());
            // SAFETY: pointers and lengths are the slices'.
            accepted(unsafe { abi::moments_rolling_var_weights(t, n, has_map, m, mn, wn, 1, false, w, wn, f, fl, p, pn) })
        })
    };
    let safe = |trace: &[f64], map: &[u8]| {
        with_lists(([0; 2], 0, trace.len()), |_, Lists { figures, present, .. }| {
            rolling_var_weights_into(trace, Some(map), Window::trailing(WEIGHTS.len()), 1, &WEIGHTS, figures, present)
        })
    };
    Entry { name: "weights".into(), whose: Which::Only, declared: Box::new(declared), safe: Box::new(safe) }
}

/// Every entry that answers where there is a map.
fn entries() -> Vec<Entry> {
    let mut entries = vec![
        of_trace("var", abi::moments_var, var),
        of_trace("skew", abi::moments_skew, skew),
        of_trace("kurtosis", abi::moments_kurtosis, kurtosis),
        of_range("skew_range", abi::moments_skew_range, skew_range),
        of_range("kurtosis_range", abi::moments_kurtosis_range, kurtosis_range),
    ];
    for tried in TRIED {
        entries.push(of_pair("cov", abi::moments_cov, cov, tried));
        entries.push(of_pair("pearson_corr", abi::moments_pearson_corr, pearson_corr, tried));
        for (figure, window) in PAIR_FIGURES.into_iter().zip([Window::trailing(5), Window::centered(4)]) {
            entries.extend([of_pair_plan(figure, tried), of_pair_fixed(figure, window, tried)]);
        }
    }
    for (figure, window) in SHAPES.into_iter().zip([Window::centered(4), Window::trailing(3)]) {
        entries.extend([of_plan(figure), of_fixed(figure, window)]);
    }
    entries.extend([of_var_plan(), of_var_fixed(Window::trailing(5))]);
    entries
}
/// A trace and its map of just the bytes that it needs, spare bits 0. The last place is valid, and a place that is not holds what would
/// show in any figure.
fn any_trace(rng: &mut Rng, n: usize) -> (Vec<f64>, Vec<u8>) {
    let mut map = vec![0; n.div_ceil(8)];
    let trace = (0..n).map(|i| {
        if i + 1 < n && rng.word() % 3 == 0 {
            return [f64::NAN, f64::INFINITY, 1e150][i % 3];
        }
        map[i / 8] |= 1 << (i % 8);
        (rng.word() % 4096) as f64 / 8.0
    });
    (trace.collect(), map)
}
/// The map with these spare bits, and so many bytes behind it.
fn padded(
    rng: &mut Rng,
    (map, n): (&[u8], usize),
    spare: fn(&mut Rng) -> u8,
    behind: usize,
    fill: fn(&mut Rng) -> u8,
) -> Vec<u8> {
    let mut bytes = map.to_vec();
    if let (Some(last), true) = (bytes.last_mut(), n % 8 != 0) {
        *last |= spare(rng) & 0xFF << (n % 8);
    }
    bytes.extend((0..behind).map(|_| fill(rng)));
    bytes
}
/// Asks of a trace with every map that may stand for its own.
fn with_every_padding(n: usize, mut ask: impl FnMut(&mut Rng, &[f64], &[u8], &[u8])) {
    let mut rng = Rng(n as u64);
    let (trace, exact) = any_trace(&mut rng, n);
    let before = bits(&trace);
    for (k, behind) in (0..=MOST_BEHIND).flat_map(|behind| (0..FILLS.len() * FILLS.len()).map(move |k| (k, behind))) {
        let (spare, fill) = (FILLS[k % FILLS.len()], FILLS[k / FILLS.len()]);
        let map = padded(&mut rng, (&exact, n), spare, behind, fill);
        ask(&mut rng, &trace, &exact, &map);
    }
    assert_eq!(bits(&trace), before);
}

#[test]
fn every_entry_that_is_lent_a_map_is_tried() {
    let declarations = include_str!("../../src/abi.rs").split("pub fn ").skip(1).filter_map(|text| text.split_once('('));
    let lent_a_map = declarations.filter(|(_, rest)| rest.split(';').next().is_some_and(|head| head.contains("map_len: usize")));
    let names: Vec<&str> = lent_a_map.map(|(name, _)| name).collect();
    assert_eq!(names.len(), 18);
    for name in names {
        let called = ["(", ","].map(|after| include_str!("maps.rs").contains(&format!("abi::{name}{after}")));
        assert!(called.contains(&true), "{name}");
    }
}

#[test]
fn a_longer_map_answers_as_the_exact_one() {
    for n in READINGS {
        for entry in entries() {
            let mut wanted = None;
            with_every_padding(n, |rng, trace, exact, map| {
                let wanted = wanted.get_or_insert_with(|| entry.ask(rng, trace, exact).expect("an exact map"));
                let answer = entry.ask(rng, trace, map);
                assert_eq!(answer.as_ref(), Ok(&*wanted), "{} of {n} readings, map {map:02X?}", entry.name);
            });
        }
    }
}

/// What the tests here compare depends on the bits that count, on the last one too.
#[test]
fn another_bit_gives_another_answer() {
    for n in READINGS.into_iter().skip(1) {
        let mut rng = Rng(n as u64);
        let (trace, exact) = any_trace(&mut rng, n);
        let mut other = exact.clone();
        other[(n - 1) / 8] ^= 1 << ((n - 1) % 8);
        for entry in entries() {
            assert_ne!(entry.ask(&mut rng, &trace, &exact), entry.ask(&mut rng, &trace, &other), "{} of {n}", entry.name);
        }
    }
}

#[test]
fn with_weights_every_map_is_refused() {
    for n in READINGS {
        with_every_padding(n, |rng, trace, _, map| {
            assert_eq!(of_weights().ask(rng, trace, map), Err(Refusal::WeightsWithMap), "{n} readings, map {map:02X?}");
        });
    }
}

#[test]
fn a_shorter_map_is_refused_and_all_is_kept() {
    for n in READINGS {
        let mut rng = Rng(n as u64);
        let (trace, exact) = any_trace(&mut rng, n);
        let before = bits(&trace);
        for entry in entries().into_iter().chain([of_weights()]) {
            for bytes in 0..exact.len() {
                let refusal = Refusal::MapLength { trace: entry.whose, bytes, readings: n };
                assert_eq!(entry.ask(&mut rng, &trace, &exact[..bytes]), Err(refusal), "{}", entry.name);
            }
        }
        assert_eq!(bits(&trace), before);
    }
}

#[test]
fn a_map_may_have_any_bytes_behind() {
    for n in [0, 9] {
        let mut rng = Rng(n as u64);
        let (trace, exact) = any_trace(&mut rng, n);
        for entry in entries() {
            let wanted = entry.ask(&mut rng, &trace, &exact);
            for behind in [65, 4096, 100_000] {
                let map = padded(&mut rng, (&exact, n), FILLS[2], behind, FILLS[2]);
                assert_eq!(entry.ask(&mut rng, &trace, &map), wanted, "{} of {n} readings, {behind} bytes behind", entry.name);
            }
        }
    }
}

/// The safe functions that allocate what they answer.
#[test]
fn answers_are_those_of_the_exact_map() {
    let words =
        |answers: Result<Vec<Option<f64>>, Refusal>| answers.map(|rows| rows.iter().map(|x| x.map(f64::to_bits)).collect());
    for n in READINGS {
        with_every_padding(n, |_, trace, exact, map| {
            let [starts, ends] = rows(n);
            let answers = |map: &[u8]| {
                let answers = plan_var(trace, Some(map), Plan::new(&starts, &ends), VAR.min_periods(2)).expect("accepted");
                let rows = answers.into_iter().chain(rolling_var(trace, Some(map), Window::trailing(5), VAR).expect("accepted"));
                rows.map(|row| [row.variance, row.lowest, row.highest].map(|x| x.map(f64::to_bits))).collect::<Vec<_>>()
            };
            assert_eq!(answers(map), answers(exact));
            let figures = SHAPES.map(Figure::Shape).into_iter().chain([Figure::Var(VAR.figure)]);
            for setting in figures.map(|figure| Setting { figure, min_periods: 2 }) {
                let ask = |map: &[u8]| -> [Result<Vec<_>, Refusal>; 2] {
                    let by_plan = plan(trace, Some(map), Plan::new(&starts, &ends), setting);
                    [by_plan, rolling(trace, Some(map), Window::trailing(5), setting)].map(words)
                };
                let answers = ask(map);
                assert!(answers.iter().all(Result::is_ok));
                assert_eq!(answers, ask(exact));
            }
            for setting in PAIR_FIGURES.map(|figure| Setting { figure, min_periods: 2 }) {
                let ask = |map: &[u8], other: Option<&[u8]>| -> [Result<Vec<_>, Refusal>; 2] {
                    let by_plan = plan_pair(trace, Some(map), trace, other, Plan::new(&starts, &ends), setting);
                    [by_plan, rolling_pair(trace, other, trace, Some(map), Window::trailing(5), setting)].map(words)
                };
                let answers = ask(map, None);
                assert!(answers.iter().all(Result::is_ok));
                assert_eq!(answers, ask(exact, Some(map)));
            }
            let weighted = rolling_var_weights(trace, Some(map), Window::trailing(3), 1, &WEIGHTS);
            assert_eq!(weighted, Err(Refusal::WeightsWithMap));
        });
    }
}

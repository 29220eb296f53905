//! The calls on two traces that `words` stores, over plans and over fixed windows: those by hand, then those to which several numbers
//! apply, then maps of other lengths, then random ones of every number.
use crate::account::{self, afresh};
use crate::pairs::{Case, Trace, Windows};
use crate::rng::Rng;
use crate::{maps, same_row, PairFigure};

const COV: PairFigure = PairFigure::Cov { ddof: 1 };
const BOTH: [PairFigure; 2] = [COV, PairFigure::Pearson];
const INF: f64 = f64::INFINITY;
const NAN: f64 = f64::NAN;

type Answers = Vec<Option<f64>>;
fn without(x: &[f64]) -> Trace {
    Trace::new(x, None)
}
fn with(x: &[f64], map: &[u8]) -> Trace {
    Trace::new(x, Some(map))
}
fn any(r: &mut Rng, n: usize) -> Vec<f64> {
    (0..n).map(|_| r.reading(1)).collect()
}
/// Two traces of nine readings over which two ways of working the case that is made of them differ in some row.
fn telling(r: &mut Rng, make: impl Fn(&[f64], &[f64]) -> Case, other: impl Fn(&Case) -> Answers) -> Case {
    loop {
        let case = make(&any(r, 9), &any(r, 9));
        if case.answers().iter().zip(other(&case)).any(|(a, b)| !same_row(*a, b)) {
            return case;
        }
    }
}
/// Every window worked afresh in rising order, which is wrong.
fn afresh_of(case: &Case) -> Answers {
    let (x, y) = (case.x.readings(), case.y.readings());
    let given = account::Pairs { x: &x, x_map: case.x.map(), y: &y, y_map: case.y.map(), figure: case.figure };
    afresh(&given, &case.rows(), case.min)
}

/// What tells two readings of request 2 apart, in traces short enough to work by hand.
fn by_hand(r: &mut Rng) -> Vec<Case> {
    let mut v = Vec::new();
    let h = 1.7e308;
    // an overflow, and pairs with a bad member, left behind by a gap
    let huge = [h, -h, h, 1.0, 2.0, 4.0, 9.0, NAN, 1.0, 3.0, 5.0, 8.0];
    let other = [1.0, h, -h, 2.0, 7.0, 3.0, INF, 1.0, -INF, 3.0, 1.0, 4.0];
    let gaps = [(0, 3), (1, 3), (3, 6), (4, 9), (9, 11), (9, 12)];
    let (x, y) = (any(r, 9), any(r, 9));
    for f in BOTH {
        let plan = |min: usize, x: Trace, y: Trace, rows: &[(usize, usize)]| Case::plan(f, min, x, y, rows);
        // a first pair with -0.0, alone, before others, and as a first pair of the back part
        for zero in [[-0.0, 3.0], [3.0, -0.0], [-0.0, -0.0]] {
            let (x, y) = ([zero[0], 1.0, zero[0], 2.0], [zero[1], 2.0, zero[1], 5.0]);
            v.push(plan(1, without(&x), without(&y), &[(0, 1), (0, 2), (0, 3), (1, 3), (2, 4)]));
        }
        // one bad member, the first or the second, enters as (0.0, 0.0) and is forgotten when it leaves
        for (x, y) in [([NAN, 4.0, 6.0, 7.0], [5.0, 1.0, 2.0, 4.0]), ([3.0, 4.0, 6.0, 7.0], [INF, 1.0, 2.0, 4.0])] {
            v.push(plan(1, without(&x), without(&y), &[(0, 1), (0, 2), (0, 3), (1, 3), (1, 4)]));
            // the bad pair is missing by the other trace's map, and not seen
            v.push(plan(1, without(&x), with(&y, &[0xFE]), &[(0, 2), (0, 3), (1, 4)]));
            v.push(plan(1, with(&x, &[0xFE]), without(&y), &[(0, 2), (0, 3), (1, 4)]));
        }
        // a pair counts with a bad member: at ddof 1 the second row has two pairs, and is NaN
        v.push(plan(2, with(&[NAN, 4.0], &[3]), without(&[5.0, -INF]), &[(0, 1), (0, 2), (1, 2)]));
        // one trace falls as the other rises: neither figure is clamped
        v.push(plan(1, without(&[1.0, 2.0, 3.0, 4.0]), without(&[8.0, 6.0, 4.0, 2.0]), &[(0, 2), (0, 4), (2, 4)]));
        // no spread in one trace: correlation is present and NaN
        v.push(plan(1, without(&[2.0; 4]), without(&x[..4]), &[(0, 2), (0, 4), (3, 4)]));
        v.push(plan(1, without(&huge), without(&other), &gaps));
        v.push(plan(1, with(&huge, &[0x7F, 0x0F]), without(&other), &gaps));
        v.push(plan(1, without(&huge), with(&other, &[0xBF, 0x0E]), &gaps));
        v.push(plan(1, with(&huge, &[0x7F, 0x0F]), with(&other, &[0xBF, 0x0E]), &gaps));
        // a place is valid where both have it: no place has both, or some
        v.push(plan(1, with(&x, &[0x55, 1]), with(&y, &[0xAA, 0]), &[(0, 4), (2, 9)]));
        v.push(plan(1, with(&x, &[0x5F, 1]), with(&y, &[0xFA, 1]), &[(0, 4), (2, 9), (3, 9)]));
        // empty rows, also at the traces' end, with a minimum of 0: both figures are missing
        let empty = [(0, 0), (0, 2), (2, 2), (4, 7), (9, 9)];
        v.push(plan(0, without(&x), without(&y), &empty));
        v.push(plan(0, without(&x), with(&y, &[0x5E, 1]), &empty));
        // no rows; traces of no readings
        v.push(plan(1, without(&x[..3]), without(&y[..3]), &[]));
        v.push(plan(0, with(&[], &[]), without(&[]), &[(0, 0), (0, 0)]));
        // a minimum above the valid count, but not above the places; of all ones
        for min in [2, 3] {
            v.push(plan(min, without(&x[..3]), with(&y[..3], &[5]), &[(0, 3)]));
        }
        v.push(plan(usize::MAX, without(&x), without(&y), &[(0, 8), (5, 9)]));
        v.push(plan(usize::MAX, without(&x), with(&y, &[0xFF, 1]), &[(0, 8), (5, 9)]));
        // row 0 is shorter than the minimum and moves the window all the same; a later short row does not
        let short = [(0, 2), (1, 5), (2, 5), (4, 8), (5, 9)];
        let first = |case: &Case| {
            let later = Case::plan(f, 4, case.x.clone(), case.y.clone(), &short[1..]);
            [vec![None], later.answers()].concat()
        };
        v.push(telling(r, |x, y| plan(4, without(x), without(y), &short), first));
        // with a map of ones, of either trace, every row moves the window, without one a short row does not
        let (rows, ones) = ([(0, 4), (3, 6), (5, 9)], [0xFF, 0xFF]);
        let mapped = |case: &Case| plan(4, with(&case.x.readings(), &ones), case.y.clone(), &rows).answers();
        let case = telling(r, |x, y| plan(4, without(x), without(y), &rows), mapped);
        let (x, y) = (case.x.readings(), case.y.readings());
        v.push(case);
        v.push(plan(4, with(&x, &ones), without(&y), &rows));
        v.push(plan(4, without(&x), with(&y, &ones), &rows));
        v.push(plan(4, with(&x, &ones), with(&y, &ones), &rows));
        // a window worked afresh in rising order gives other bits in some row
        let slide = [(0, 5), (1, 6), (2, 8), (5, 9)];
        v.push(telling(r, |x, y| plan(1, without(x), without(y), &slide), afresh_of));
        v.push(telling(r, |x, y| plan(1, without(x), with(y, &[0xF7, 1]), &slide), afresh_of));
    }
    // ddof at the count, beside it and far from it
    for ddof in [0, 2, 3, 4, 255] {
        v.push(Case::plan(PairFigure::Cov { ddof }, 0, without(&x), without(&y), &[(0, 1), (0, 3), (2, 6)]));
        v.push(Case::plan(PairFigure::Cov { ddof }, 0, without(&x), with(&y, &[0xF7, 1]), &[(0, 1), (0, 3), (2, 6)]));
    }
    // a covariance that is rounded to -0.0, and a correlation that is rounded past 1: neither is clipped
    let small = 1.5 * 2f64.powi(-537);
    let case = Case::plan(PairFigure::Cov { ddof: 0 }, 0, without(&[small, 0.0, 0.0]), without(&[-small, 0.0, 0.0]), &[(0, 2), (0, 3)]);
    assert!(case.answers().iter().all(|figure| figure.map(f64::to_bits) == Some(1 << 63)));
    v.push(case);
    let clipped = |case: &Case| case.answers().into_iter().map(|figure| figure.map(|figure| figure.clamp(-1.0, 1.0))).collect();
    for sign in [3.0, -3.0] {
        let step = |x: &[f64]| x.iter().map(|x| sign * x - 1.0).collect::<Vec<f64>>();
        v.push(telling(r, |x, _| Case::plan(PairFigure::Pearson, 1, without(x), without(&step(x)), &[(0, 3), (2, 7)]), clipped));
    }
    v
}
/// Every size and minimum at which something begins, ends or wraps, with a map of either trace, of both and of none.
fn fixed_by_hand(r: &mut Rng) -> Vec<Case> {
    let mut v = Vec::new();
    let (x, y) = (any(r, 5), any(r, 5));
    let mut turn = 0;
    for f in BOTH {
        for centre in [false, true] {
            for maps in 0..4 {
                let (x, y) = (Trace::new(&x, (maps & 1 == 1).then_some(&[0xFB][..])), Trace::new(&y, (maps > 1).then_some(&[0xFE][..])));
                for (k, size) in [0, 1, 2, 3, 5, 6, usize::MAX].into_iter().enumerate().filter(|(k, _)| (k + maps) % 2 == 0) {
                    let min = [1, 0, 2, size, usize::MAX][(k + turn) % 5];
                    v.push(Case::fixed(f, min, x.clone(), y.clone(), size, centre));
                }
                turn += 1;
            }
            let bad = [[1.0, 2.0, NAN, 9.0, 4.0, 3.0, 5.0], [2.0, 3.0, 5.0, 4.0, INF, -0.0, 8.0]];
            v.push(Case::fixed(f, 2, without(&bad[0]), without(&bad[1]), 3, centre));
            v.push(Case::fixed(f, 2, with(&bad[0], &[0x7B]), without(&bad[1]), 3, centre));
            v.push(Case::fixed(f, 2, without(&bad[0]), with(&bad[1], &[0x6F]), 3, centre));
            v.push(telling(r, |x, y| Case::fixed(f, 3, without(x), without(y), 5, centre), afresh_of));
            v.push(telling(r, |x, y| Case::fixed(f, 3, with(x, &[0xFF, 0xFF]), without(y), 5, centre), afresh_of));
        }
        // no readings; one pair; no place valid, where spare bits are not looked at
        for (size, centre) in [(0, false), (1, false), (usize::MAX, true)] {
            v.push(Case::fixed(f, 0, without(&[]), without(&[]), size, centre));
        }
        v.push(Case::fixed(f, 1, without(&x[..1]), without(&y[..1]), 1, true));
        v.push(Case::fixed(f, 0, with(&x, &[0x15]), with(&y, &[0xEA]), 2, false));
    }
    // rows past a block of 32 and not a multiple of it
    let (x, y) = (any(r, 37), any(r, 37));
    v.push(Case::fixed(COV, 3, without(&x), without(&y), 4, false));
    v.push(Case::fixed(PairFigure::Pearson, 2, without(&x), with(&y, &[0xFF; 5]), 5, true));
    v
}

/// The traces' own numbers, alone and several at once, each with the one that is answered: 2 before 3, whichever trace has it. The rest
/// of the call is the case's.
fn of_traces(good: &Case) -> Vec<(u32, Case)> {
    let (x, y) = (good.x.readings(), good.y.readings());
    let least = x.len().div_ceil(8);
    let longer: Vec<f64> = y.iter().copied().chain([1.0]).collect();
    let case = |x: Trace, y: Trace| Case { x, y, ..good.clone() };
    let (short, ones) = (vec![0xFF; least - 1], vec![0xFF; least]);
    vec![
        (2, case(without(&x), without(&y[1..]))),
        (2, case(without(&x), without(&longer))),
        (2, case(without(&x), without(&[]))),
        (2, case(without(&[]), without(&y))),
        (3, case(with(&x, &short), without(&y))),
        (3, case(without(&x), with(&y, &short))),
        (3, case(with(&x, &[]), with(&y, &ones))),
        (3, case(with(&x, &ones), with(&y, &[]))),
        (3, case(with(&x, &short), with(&y, &short))),
        (2, case(with(&x, &short), without(&y[1..]))),
        (2, case(without(&x), with(&longer, &[]))),
        (2, case(with(&x, &short), with(&longer, &short))),
        // one map is longer and the other too short
        (3, case(with(&x, &[0xFF; 9]), with(&y, &short))),
        (3, case(with(&x, &short), with(&y, &[0xFF; 9]))),
    ]
}
/// Calls over a plan to which several numbers apply, each with the number that is answered: the first in order, 14 before all.
fn in_order(r: &mut Rng) -> Vec<(u32, Case)> {
    let (x, y) = (any(r, 9), any(r, 9));
    let mut v = Vec::new();
    for f in BOTH {
        let good = Case::plan(f, 1, with(&x, &[0xFF, 1]), without(&y), &[(0, 3), (1, 4)]);
        let none = |case: Case| {
            let mut case = Case { work: 0, figures: 0, present: 0, ..case };
            (case.x.decoded, case.y.decoded) = (0, 0);
            case
        };
        v.extend(of_traces(&good));
        // the same where everything behind is wrong too
        let rows = Windows::Plan { starts: vec![5, 5, 0], ends: vec![4, 99] };
        let behind = none(Case { windows: rows, ..good.clone() });
        v.extend(of_traces(&behind).into_iter().step_by(3));
        v.push((4, behind.clone()));
        // 14 of either trace, before 2 and 3
        for (first, odd) in [(true, 1), (false, 7), (true, 4), (false, 8 * 9 - 1)] {
            for case in [&good, &behind] {
                let mut case = case.clone();
                let trace = if first { &mut case.x } else { &mut case.y };
                let left = trace.bytes().len() - odd;
                trace.edit().truncate(left);
                (case.y.has_map, case.y.map) = (odd != 4, vec![1]);
                v.push((14, case));
            }
        }
        let rows = |starts: &[u32], ends: &[u32]| {
            none(Case { windows: Windows::Plan { starts: starts.to_vec(), ends: ends.to_vec() }, ..good.clone() })
        };
        v.extend([
            (4, rows(&[0, 1], &[3])),
            (5, rows(&[10, 4], &[9, 3])),
            (6, rows(&[0, 5], &[10, 4])),
            (7, rows(&[2, 1, 5], &[3, 4, 4])),
            (7, rows(&[2, 2], &[9, 8])),
            (6, rows(&[u32::MAX], &[u32::MAX])),
            (12, rows(&[0], &[9])),
        ]);
        // lists at their least lengths, and each a place shorter
        let edge = Case::plan(f, 1, without(&x), without(&y), &[(0, 9), (9, 9)]);
        v.push((0, edge.clone()));
        let lent = |number: u32, edit: fn(&mut Case)| {
            let mut case = edge.clone();
            edit(&mut case);
            (number, case)
        };
        v.extend([
            lent(12, |c| c.x.decoded = 8),
            lent(12, |c| c.y.decoded = 8),
            lent(12, |c| (c.y.decoded, c.work) = (0, 0)),
            lent(12, |c| (c.figures, c.work) = (1, 0)),
            lent(12, |c| c.present = 1),
            lent(13, |c| c.work -= 1),
            lent(13, |c| c.work = 0),
            lent(0, |c| (c.x.decoded, c.y.decoded, c.work, c.figures, c.present) = (10, 11, c.work + 3, 3, 4)),
            // without a map nothing is asked of what stands there
            lent(0, |c| (c.x.map, c.y.map) = (vec![1], vec![2, 3, 4])),
        ]);
    }
    v
}
/// The same over fixed windows: 2, 3, 12 and 13.
fn fixed_in_order(r: &mut Rng) -> Vec<(u32, Case)> {
    let (x, y) = (any(r, 9), any(r, 9));
    let mut v = Vec::new();
    for (k, f) in BOTH.into_iter().enumerate() {
        let good = Case::fixed(f, 1, without(&x), with(&y, &[0xFF, 1]), 3, k == 1);
        let none = Case { work: 0, figures: 0, present: 0, ..good.clone() };
        v.extend(of_traces(if k == 0 { &good } else { &none }));
        for (number, work, figures, present) in [
            (12, 0, 0, 0),
            (12, 0, 8, 9),
            (12, good.work, 9, 8),
            (13, 0, 9, 9),
            (13, good.work - 1, 11, 9),
            (0, good.work + 3, 10, 12),
        ] {
            v.push((number, Case { work, figures, present, ..good.clone() }));
        }
        // the widest window is the traces where the size is more: as much work is needed, and one double less is 13
        for (number, work) in [(0, f.entry() * 9), (13, f.entry() * 9 - 1)] {
            v.push((number, Case { windows: Windows::Fixed { size: usize::MAX - k, centre: false }, work, ..good.clone() }));
        }
    }
    v
}
/// Maps with bytes behind them, from 1 to 64, of the first trace, of the second and of both.
fn other_maps(r: &mut Rng, make: impl Fn(PairFigure, Trace, Trace) -> Case) -> Vec<Case> {
    let mut v = Vec::new();
    for (k, behind) in [1, 7, 8, 55, 63, 64].into_iter().enumerate() {
        let n = [5, 9, 8, 3, 1, 9][k];
        let [(x, x_map), (y, y_map)] = [maps::example(r, n, Some(behind), k), maps::example(r, n, Some(65 - behind), k + 1)];
        let maps = [(true, false), (false, true), (true, true)][k % 3];
        // a reading that is missing is bad: without its map it is seen
        let (x, y) = (Trace::new(&x, maps.0.then_some(&x_map)), Trace::new(&y, maps.1.then_some(&y_map)));
        v.push(make(BOTH[k / 3], x, y));
    }
    v
}
/// Random calls, small, of either figure in turn; two thirds are accepted, most of those with a number among the answers.
fn random(r: &mut Rng, count: usize, numbers: &[u32], any: impl Fn(&mut Rng, usize) -> Case) -> Vec<Case> {
    let tells = |case: &Case| case.answers().iter().flatten().any(|x| !x.is_nan() && *x != 0.0);
    (0..count)
        .map(|i| {
            let number = if i % 3 == 2 { numbers[i / 6 % numbers.len()] } else { 0 };
            loop {
                let case = any(r, if number == 0 { 8 } else { 4 });
                let figure = (case.figure == PairFigure::Pearson) == (i / 3 % 2 == 1);
                if figure && case.refusal() == number && (number != 0 || i % 4 == 3 || tells(&case)) {
                    return case;
                }
            }
        })
        .collect()
}

fn numbered(list: Vec<(u32, Case)>) -> impl Iterator<Item = Case> {
    list.into_iter().map(|(number, case)| {
        assert_eq!(case.refusal(), number, "{case:?}");
        case
    })
}
pub fn plans(r: &mut Rng) -> Vec<Case> {
    let mut v = by_hand(r);
    v.extend(numbered(in_order(r)));
    v.extend(other_maps(r, |f, x, y| {
        let n = x.len();
        Case::plan(f, 0, x, y, &[(0, n)])
    }));
    v.extend(random(r, 48, &[2, 3, 4, 5, 6, 7, 12, 13, 14], |r, most| Case::any_plan(r, most, 5)));
    v
}
pub fn fixed(r: &mut Rng) -> Vec<Case> {
    let mut v = fixed_by_hand(r);
    v.extend(numbered(fixed_in_order(r)));
    v.extend(other_maps(r, |f, x, y| Case::fixed(f, 1, x, y, 3, false)));
    v.extend(random(r, 36, &[2, 3, 12, 13], Case::any_fixed));
    v
}

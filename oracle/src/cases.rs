//! The calls on windows that `words` stores: those by hand, then random ones of every number and figure, then maps of other lengths, then
//! what tells readings of document 02's request 4 apart, lowest and highest.
use crate::account::{afresh, Readings};
use crate::extremes::roughen;
use crate::host::{Case, Room, EASY};
use crate::rng::Rng;
use crate::{fixed, maps, offsets, plan, same_row, windows, Figure};

const VAR: Figure = EASY[0];
const INF: f64 = f64::INFINITY;
const NAN: f64 = f64::NAN;

type Answers = Vec<Option<f64>>;
/// Nine readings over which two ways of working a plan differ in some row.
fn telling(r: &mut Rng, one: impl Fn(&[f64]) -> Answers, two: impl Fn(&[f64]) -> Answers) -> Vec<f64> {
    loop {
        let x: Vec<f64> = (0..9).map(|_| r.reading(1)).collect();
        if one(&x).iter().zip(two(&x)).any(|(a, b)| !same_row(*a, b)) {
            return x;
        }
    }
}
/// Document 01's cases and lures.
fn by_hand(r: &mut Rng) -> Vec<Case> {
    let mut v = Vec::new();
    // P7, P8, P9
    v.push(Case::new(VAR, 1, &[2.0, 4.0, 6.0, 8.0], None, &[(0, 2), (1, 3), (3, 4)]));
    v.push(Case::new(VAR, 1, &[NAN, 4.0, 6.0], None, &[(0, 2), (1, 3)]));
    for min in [2, 3] {
        v.push(Case::new(VAR, min, &[2.0, 7.0, 4.0], Some(&[5]), &[(0, 3)]));
    }
    let h = 1.7e308;
    // an overflow, and readings that are not finite, left behind by a gap
    let far = [h, -h, h, 1.0, 2.0, 4.0, 9.0, NAN, INF, 3.0, 5.0, 8.0];
    let gaps = [(0, 3), (1, 3), (3, 6), (4, 9), (9, 11), (9, 12)];
    let x: Vec<f64> = (0..9).map(|_| r.reading(1)).collect();
    for f in EASY {
        // a copy of the front state into an empty back state would give 0 as variance in row 1
        v.push(Case::new(f, 1, &[1.0, -h, h], None, &[(0, 3), (1, 3)]));
        v.push(Case::new(f, 1, &far, None, &gaps));
        v.push(Case::new(f, 1, &far, Some(&[0x7F, 0x0F]), &gaps));
        // empty rows, also at the trace's end
        let empty = [(0, 0), (0, 2), (2, 2), (2, 2), (4, 4), (4, 7), (9, 9)];
        v.push(Case::new(f, 0, &x, None, &empty));
        v.push(Case::new(f, 0, &x, Some(&[0x5E, 1]), &empty));
        // no rows; a trace of no readings; no place valid
        v.push(Case::new(f, 1, &x[..3], None, &[]));
        v.push(Case::new(f, 0, &[], Some(&[]), &[(0, 0), (0, 0)]));
        v.push(Case::new(f, 0, &x, Some(&[0, 0xFE]), &[(0, 4), (2, 9)]));
        // row 0 is shorter than the minimum and moves the window all the same; a later short row does not
        let short = [(0, 2), (1, 5), (2, 5), (4, 8), (5, 9)];
        let y = telling(r, |x| plan(x, None, &short, f, 4)[1..].to_vec(), |x| plan(x, None, &short[1..], f, 4));
        v.push(Case::new(f, 4, &y, None, &short));
        // with a map of ones every row moves the window, without one a short row does not
        let (rows, ones) = ([(0, 4), (3, 6), (5, 9)], [0xFF, 0xFF]);
        let y = telling(r, |x| plan(x, None, &rows, f, 4), |x| plan(x, Some(&ones), &rows, f, 4));
        v.push(Case::new(f, 4, &y, None, &rows));
        v.push(Case::new(f, 4, &y, Some(&ones), &rows));
        // steps that take many places out, a minimum of all ones
        v.push(Case::new(f, 2, &x, None, &[(0, 8), (5, 9), (7, 9), (8, 9)]));
        v.push(Case::new(f, usize::MAX, &x, None, &[(0, 8), (5, 9)]));
    }
    v.push(Case::new(Figure::Var { ddof: 255 }, 0, &x, None, &[(0, 4), (2, 9)]));
    v.push(Case::new(Figure::Var { ddof: 255 }, 0, &x, Some(&[0xFF, 1]), &[(0, 4), (2, 9)]));
    // -0.0, the least double, a NaN that signals
    let odd = [-0.0, f64::from_bits(1), -f64::from_bits(1), f64::from_bits(0x7FF0_0000_0000_0001), -0.0, 0.0];
    v.push(Case::new(VAR, 1, &odd, None, &[(0, 2), (1, 3), (2, 5), (4, 6)]));
    v.push(Case::new(VAR, 1, &odd, Some(&[0x37]), &[(0, 2), (1, 3), (2, 5), (4, 6)]));
    v
}
/// Calls to which several numbers apply, each with the number that is answered: the first in order, 14 before all.
fn in_order(r: &mut Rng) -> Vec<(u32, Case)> {
    let x: Vec<f64> = (0..9).map(|_| r.reading(1)).collect();
    let good = Case::new(VAR, 1, &x, Some(&[0xFF, 1]), &[(0, 3), (1, 4)]);
    let none = Room::default();
    let (starts, ends) = (vec![5, 5, 0], vec![4, 99]);
    let all = Case { trace: good.trace[..71].to_vec(), map: vec![1], starts, ends, room: none, ..good.clone() };
    let rows = |starts: &[u32], ends: &[u32]| Case { starts: starts.to_vec(), ends: ends.to_vec(), room: none, ..good.clone() };
    let mut v = vec![
        (3, Case { trace: good.trace.clone(), ..all.clone() }),
        (4, Case { trace: good.trace.clone(), map: good.map.clone(), ..all.clone() }),
        (14, all),
        (4, rows(&[0, 1], &[3])),
        // the rows from row 0, each for 5, 6, 7
        (5, rows(&[10, 4], &[9, 3])),
        (6, rows(&[0, 5], &[10, 4])),
        (7, rows(&[2, 1, 5], &[3, 4, 4])),
        (7, rows(&[2, 2], &[9, 8])),
        (5, rows(&[2, 1], &[3, 0])),
        (6, rows(&[2, 1], &[3, 10])),
        (6, rows(&[u32::MAX], &[u32::MAX])),
        (5, rows(&[u32::MAX], &[0])),
        (6, rows(&[0], &[u32::MAX])),
        (12, rows(&[0], &[9])),
    ];
    // end = n passes, with each list just long enough
    let mut edge = Case::new(VAR, 1, &x, None, &[(0, 9), (9, 9)]);
    v.push((0, edge.clone()));
    for (number, room) in [
        (12, Room { readings: 8, work: 0, ..edge.room }),
        (12, Room { figures: 1, work: 0, ..edge.room }),
        (12, Room { present: 1, work: 0, ..edge.room }),
        (13, Room { work: 53, ..edge.room }),
    ] {
        edge.room = room;
        v.push((number, edge.clone()));
    }
    // without a map nothing is asked of what stands there
    edge.room = Room { readings: 9, work: 54, figures: 2, present: 2, extremes: [2; 4] };
    edge.map = vec![1, 2, 3];
    v.push((0, edge));
    v
}
/// The number for which a random call is picked: its own, but 3 where the map has another length than is needed, as it was when longer maps
/// were refused: so the calls that are stored stay the same.
fn picked_for(number: u32, map: Option<&[u8]>, n: usize) -> u32 {
    match map {
        Some(bytes) if number != 14 && bytes.len() != n.div_ceil(8) => 3,
        _ => number,
    }
}
/// Random calls, small, in equal parts of each figure; two thirds are accepted, most of those with a number among the answers.
fn random(r: &mut Rng, count: usize) -> Vec<Case> {
    let numbers = [3, 4, 5, 6, 7, 12, 13, 14];
    let kind = std::mem::discriminant::<Figure>;
    (0..count)
        .map(|i| {
            let number = if i % 3 == 2 { numbers[i / 9 % 8] } else { 0 };
            let figure = kind(&EASY[i / 3 % 3]);
            let tells = |case: &Case| i % 4 == 3 || case.call().answers().iter().flatten().any(|x| !x.is_nan() && *x != 0.0);
            loop {
                let case = if number == 0 { Case::any(r, 10, 6) } else { Case::any(r, 5, 3) };
                let call = case.call();
                let picked = picked_for(call.refusal(case.room), call.map(), call.trace.len() / 8);
                if kind(&case.figure) == figure && picked == number && (number != 0 || tells(&case)) {
                    return case;
                }
            }
        })
        .collect()
}
pub fn cases(r: &mut Rng) -> Vec<Case> {
    let mut v = by_hand(r);
    for (number, case) in in_order(r) {
        assert_eq!(case.call().refusal(case.room), number, "{case:?}");
        v.push(case);
    }
    v.extend(random(r, 400));
    v
}

// ---- fixed windows ----
/// Document 01's cases of fixed windows, and each size and minimum at which something begins, ends or wraps.
fn fixed_by_hand(r: &mut Rng) -> Vec<windows::Case> {
    use windows::Case;
    let mut v = Vec::new();
    let x: Vec<f64> = (0..5).map(|_| r.reading(1)).collect();
    let settings = |f: Figure, k: usize| match f {
        Figure::Var { .. } => Figure::Var { ddof: [1, 0, 2][k % 3] },
        Figure::Skew { .. } => Figure::Skew { bias: k % 3 != 2 },
        Figure::Kurt { .. } => Figure::Kurt { fisher: k % 2 == 0, bias: k % 3 != 2 },
    };
    let mut turn = 0;
    for f in EASY {
        for centre in [false, true] {
            for map in [None, Some(&[0xFB][..])] {
                // every size and every minimum with each figure, either alignment, with a map and without
                for (k, size) in [0, 1, 2, 5, 6, 1 << 63, usize::MAX].into_iter().enumerate() {
                    let min = [0, 1, size, size.saturating_add(1), usize::MAX][(k + turn) % 5];
                    v.push(Case::new(settings(f, k), &x, map, size, min, centre));
                }
                turn += 1;
            }
            // even and odd, with a figure in most rows: document 01's centred window 4 of 5 places is among them
            for size in [3, 4] {
                v.push(Case::new(f, &x, None, size, 2, centre));
            }
            // readings that are not finite, and an overflow, come and go; with a map some are missing
            let h = 1.7e308;
            let far = [h, -h, h, 1.0, 2.0, NAN, 9.0, INF, 3.0, 5.0, 8.0];
            v.push(Case::new(f, &far, None, 3, 2, centre));
            v.push(Case::new(f, &far, Some(&[0x5F, 0x07]), 3, 2, centre));
            // a window worked afresh in rising order gives other bits in some row
            let rows: Vec<(usize, usize)> = (0..9).map(|i| offsets(i, 5, 9, centre)).collect();
            let y = telling(r, |x| fixed(x, None, 5, 3, centre, f), |x| afresh(&Readings { x, map: None, figure: f }, &rows, 3));
            v.push(Case::new(f, &y, None, 5, 3, centre));
            v.push(Case::new(f, &y, Some(&[0xFF, 0xFF]), 5, 3, centre));
        }
        // no readings: no rows, also where the Rust panics
        for (size, centre, map) in [(0, false, None), (1, false, None), (3, false, Some(&[][..])), (usize::MAX, true, None)] {
            v.push(Case::new(f, &[], map, size, 0, centre));
        }
        // one reading; no place valid; spare bits of the map are not looked at
        v.push(Case::new(f, &x[..1], None, 1, 1, true));
        v.push(Case::new(f, &x, Some(&[0xE0]), 2, 0, false));
    }
    // rows past a block of 32 and not a multiple of it
    let long: Vec<f64> = (0..67).map(|_| r.reading(1)).collect();
    v.push(Case::new(EASY[1], &long, None, 4, 3, false));
    v.push(Case::new(EASY[1], &long[..33], Some(&[0xFF; 5]), 5, 2, true));
    v
}
/// Calls to which several numbers apply, each with the one that is answered, the least; and lists at their least lengths.
fn fixed_in_order(r: &mut Rng) -> Vec<(u32, windows::Case)> {
    use windows::Case;
    let x: Vec<f64> = (0..9).map(|_| r.reading(1)).collect();
    let mut v = Vec::new();
    for (k, f) in EASY.into_iter().enumerate() {
        let good = Case::new(f, &x, Some(&[0xFF, 1]), 3, 1, k == 1);
        let none = Room::default();
        let need = good.room.work;
        // n = 9 needs a map of 2 bytes or more
        for (number, map) in [(3, vec![]), (3, vec![0xFF]), (12, vec![0xFF; 3])] {
            v.push((number, Case { map, room: none, ..good.clone() }));
        }
        for (number, room) in [
            (12, none),
            (12, Room { figures: 8, work: 0, ..good.room }),
            (12, Room { present: 8, work: 0, ..good.room }),
            (12, Room { figures: 8, ..good.room }),
            (13, Room { work: 0, ..good.room }),
            (13, Room { work: need - 1, figures: 11, ..good.room }),
            (0, Room { work: need + 3, figures: 10, present: 12, ..good.room }),
        ] {
            v.push((number, Case { room, ..good.clone() }));
        }
        // the widest window is the trace where the size is more: as much work is needed, and one double less is 13
        for (number, work) in [(0, f.entry() * 9), (13, f.entry() * 9 - 1)] {
            v.push((number, Case { size: usize::MAX - k, room: Room { work, ..good.room }, ..good.clone() }));
        }
        // a size of 0 needs no work, and without a map nothing is asked of what stands there
        let without = Case { has_map: false, map: vec![1, 2, 3], ..good.clone() };
        v.push((0, Case { size: 0, min: 0, room: Room { work: 0, ..good.room }, ..without.clone() }));
        v.push((0, without));
    }
    v
}

// ---- weights ----
/// Document 01's cases of weights and what it says of them.
fn weighted_by_hand(r: &mut Rng) -> Vec<windows::Case> {
    use windows::Case;
    let mut v = Vec::new();
    v.push(Case::weighted(&[1.0, 1.0], &[1.0, 3.0], 1, false));
    v.push(Case::weighted(&[1.0, 0.0], &[1.0, 3.0], 1, false));
    let x: Vec<f64> = (0..7).map(|_| r.reading(1)).collect();
    let h = 1.7e308;
    let odd = [1.0, NAN, 2.0, INF, 3.0, -INF, 4.0, h, -h, 5.0];
    for centre in [false, true] {
        // every alignment: windows of one place, even, odd, as long as the trace, and longer
        for count in [1, 2, 3, 4, 5, 7, 8, 13, 14, 15, 20] {
            let w: Vec<f64> = (0..count).map(|j| 1.0 + (j * j) as f64).collect();
            v.push(Case::weighted(&w, &x, 1, centre));
        }
        // minimums about the shortest and the longest window
        for count in [3, 4] {
            for min in [0, 2, 3, 4, 5, usize::MAX] {
                let w: Vec<f64> = (0..count).map(|j| 1.5 - j as f64 / 4.0).collect();
                v.push(Case::weighted(&w, &x, min, centre));
            }
        }
        // a total of zero in some rows: weights of zero, of both signs, and opposite ones
        for w in [&[2.0, 0.0, 0.0][..], &[0.0, 0.0, 2.0], &[-0.0, 3.0, 0.0], &[5.0, 1.0, -1.0], &[1.0, -1.0, 4.0], &[-1.0, 2.0, 1.0, -1.0]] {
            v.push(Case::weighted(w, &x, 1, centre));
        }
        // negative weights and figures below zero; readings whose variance is rounded below zero
        v.push(Case::weighted(&[-1.0, 3.0], &x, 1, centre));
        v.push(Case::weighted(&[-1.0, -3.0, -0.5], &x, 2, centre));
        v.push(Case::weighted(&[0.1, 0.2, 0.7], &[0.1; 6], 1, centre));
        // readings that are not finite stand in the sums as they are
        v.push(Case::weighted(&[0.5, 1.0, 2.0], &odd, 1, centre));
        v.push(Case::weighted(&[1.0, 0.0, 0.0], &odd, 2, centre));
        // weights that are not finite or whose sum is not; sums that are very small
        for w in [&[1.0, NAN][..], &[INF, 1.0], &[-INF, 1.0], &[INF, -INF], &[h, h, 1.0], &[h, -h, 1.0], &[5e-324, 0.0, 5e-324], &[1e-310, 1e300]] {
            v.push(Case::weighted(w, &x[..4], 1, centre));
        }
        // no readings, one reading
        v.push(Case::weighted(&[1.0, 2.0], &[], 1, centre));
        v.push(Case::weighted(&[1.0, 2.0], &x[..1], 1, centre));
    }
    // rows past a block of 32 and not a multiple of it
    let long: Vec<f64> = (0..131).map(|_| r.reading(1)).collect();
    let w: Vec<f64> = (0..70).map(|j| ((j * 7) % 11) as f64 - 2.0).collect();
    v.push(Case::weighted(&[1.0, 2.0, 4.0], &long, 3, false));
    v.push(Case::weighted(&w, &long[..66], 30, true));
    v.push(Case::weighted(&w, &long[..65], 1, false));
    v
}
/// Calls to which several numbers apply, each with the one that is answered, the least.
fn weighted_in_order(r: &mut Rng) -> Vec<(u32, windows::Case)> {
    use windows::Case;
    let x: Vec<f64> = (0..9).map(|_| r.reading(1)).collect();
    let good = Case::weighted(&[1.0, 2.0, 1.0], &x, 1, false);
    let none = Room::default();
    let zero = Some(vec![1.0, -1.0]);
    let with = |map: &[u8]| Case { has_map: true, map: map.to_vec(), ..good.clone() };
    let weights = |w: &[f64]| Case { weights: Some(w.to_vec()), ..good.clone() };
    let mut v = vec![
        // 3 before 8, 9, 10 and 12
        (3, Case { weights: zero.clone(), room: none, ..with(&[0xFF]) }),
        (3, with(&[])),
        // 8 with any map of the right length, ones too
        (8, with(&[0xFF, 1])),
        (8, with(&[0, 0])),
        (8, Case { weights: zero.clone(), room: none, ..with(&[0xFF, 0xFF]) }),
        (8, Case { weights: Some(vec![1.0]), ..with(&[0xFF, 1]) }),
        (8, Case { room: none, ..with(&[0xFF, 1]) }),
        // 9 before 10 and 12: opposite weights, zeros of either sign, a sum that rounds to zero, no weights
        (9, Case { room: none, ..weights(&[1.0, -1.0]) }),
        (9, weights(&[0.0, 0.0, 0.0])),
        (9, weights(&[-0.0, -0.0, -0.0])),
        (9, weights(&[-0.0])),
        (9, weights(&[1e16, 1.0, -1e16])),
        (9, weights(&[1e-320, 0.0, -1e-320])),
        (9, weights(&[])),
        (9, Case { size: 0, ..weights(&[]) }),
        (9, Case { size: 0, ..weights(&[0.0]) }),
        (9, Case { size: usize::MAX, ..weights(&[-0.0, 0.0]) }),
        (9, Case { x: vec![], size: 2, ..weights(&[2.0, -2.0]) }),
        (9, Case { room: Room { figures: 8, ..good.room }, ..weights(&[0.0, 0.0, 0.0]) }),
        // 10 before 12: one weight too few, one too many, and far from the size
        (10, Case { room: none, ..weights(&[1.0, 2.0]) }),
        (10, weights(&[1.0, 2.0, 3.0, 4.0])),
        (10, Case { size: 0, ..good.clone() }),
        (10, Case { size: 1 << 63, ..good.clone() }),
        (10, Case { size: usize::MAX, room: none, ..good.clone() }),
        (10, Case { x: vec![], room: none, ..weights(&[1.0]) }),
        (10, weights(&[NAN])),
        (12, Case { room: none, ..good.clone() }),
        (12, Case { room: Room { figures: 8, ..good.room }, ..good.clone() }),
        (12, Case { room: Room { present: 8, ..good.room }, ..good.clone() }),
        (12, Case { room: Room { figures: 8, ..good.room }, ..weights(&[NAN, 1.0, 1.0]) }),
        (0, Case { room: Room { figures: 10, present: 12, ..good.room }, ..good.clone() }),
    ];
    // without a map nothing is asked of what stands there; no rows need no room
    v.push((0, Case { map: vec![1, 2, 3], ..good.clone() }));
    v.push((0, Case { x: vec![], room: none, ..good }));
    v
}

/// Random calls, small; two thirds are accepted, most of those with a number among the answers.
fn random_windows(r: &mut Rng, count: usize, numbers: &[u32], any: fn(&mut Rng, usize) -> windows::Case) -> Vec<windows::Case> {
    let kind = std::mem::discriminant::<Figure>;
    (0..count)
        .map(|i| {
            let number = if i % 3 == 2 { numbers[i / 9 % numbers.len()] } else { 0 };
            let figure = kind(&EASY[i / 3 % 3]);
            let tells = |case: &windows::Case| i % 4 == 3 || case.call().answers().iter().flatten().any(|x| !x.is_nan() && *x != 0.0);
            loop {
                let case = any(r, if number == 0 { 9 } else { 4 });
                let asked = case.weights.is_some() || kind(&case.figure) == figure;
                let call = case.call();
                let picked = picked_for(call.refusal(case.room), call.map(), call.x.len());
                if asked && picked == number && (number != 0 || tells(&case)) {
                    return case;
                }
            }
        })
        .collect()
}
fn numbered(list: Vec<(u32, windows::Case)>) -> impl Iterator<Item = windows::Case> {
    list.into_iter().map(|(number, case)| {
        assert_eq!(case.call().refusal(case.room), number, "{case:?}");
        case
    })
}
pub fn fixed_cases(r: &mut Rng) -> Vec<windows::Case> {
    let mut v = fixed_by_hand(r);
    v.extend(numbered(fixed_in_order(r)));
    v.extend(random_windows(r, 72, &[3, 12, 13], windows::Case::any));
    v
}
pub fn weighted_cases(r: &mut Rng) -> Vec<windows::Case> {
    let mut v = weighted_by_hand(r);
    v.extend(numbered(weighted_in_order(r)));
    v.extend(random_windows(r, 72, &[3, 8, 9, 10, 12], windows::Case::any_weighted));
    v
}

// ---- maps of other lengths ----
/// Of each figure three calls with a longer map, from 1 byte to 64, and one whose map is a byte too short; small, as the list has little
/// room left.
pub fn other_plan_maps(r: &mut Rng) -> Vec<Case> {
    let mut v = Vec::new();
    for (k, figure) in EASY.into_iter().enumerate() {
        for (i, behind) in [1 + k, 8 * (k + 1), 62 + k].into_iter().enumerate() {
            let (x, map) = maps::example(r, 3, Some(behind), i + k);
            v.push(Case::new(figure, 0, &x, Some(&map), &[(0, 3)]));
        }
        let (x, map) = maps::example(r, 9, None, 0);
        v.push(Case::new(figure, 0, &x, Some(&map), &[(5, 9)]));
    }
    v
}
/// Maps with 0 to 64 bytes behind them, the figures in turn, and of each figure one that is a byte too short.
pub fn other_fixed_maps(r: &mut Rng) -> Vec<windows::Case> {
    let behind = (0..=64).map(Some).chain([None; 3]);
    behind.enumerate().map(|(k, behind)| {
        let n = if behind.is_none() { 9 } else { [9, 1, 8, 5, 0, 7, 3][k % 7] };
        let (x, map) = maps::example(r, n, behind, k / 3);
        windows::Case::new(EASY[k % 3], &x, Some(&map), 3, k % 2, k % 4 < 2)
    }).collect()
}
/// The same with weights: 8 with any map, but 3 with one that is too short.
pub fn other_weighted_maps(r: &mut Rng) -> Vec<windows::Case> {
    let behind = (0..=64).step_by(4).map(Some).chain([None; 2]);
    behind.enumerate().map(|(k, behind)| {
        let n = if behind.is_none() { 9 - k % 2 } else { [9, 1, 8, 0][k % 4] };
        let (x, map) = maps::example(r, n, behind, k);
        windows::Case { has_map: true, map, ..windows::Case::weighted(&[1.0, 2.0, 0.5], &x, 1, k % 2 == 0) }
    }).collect()
}

// ---- lowest and highest ----
/// Traces with what must not show in a lowest or a highest, each with the rows that would show it.
type Shown = (Vec<f64>, Vec<(usize, usize)>);
fn showing() -> Vec<Shown> {
    let h = 1.7e308;
    let least = f64::from_bits(1);
    let slide = |n: usize, wide: usize| (0..n).map(|i| ((i + 1).saturating_sub(wide), i + 1)).collect::<Vec<_>>();
    vec![
        // zeros of both signs, alone, in either order, beside numbers that are above or below
        (vec![-0.0, 0.0, -0.0, 3.0, -0.0, -3.0, -0.0], vec![(0, 1), (0, 2), (1, 3), (2, 3), (2, 4), (3, 5), (4, 6), (5, 7), (6, 7)]),
        // the 0.0 that enters for a bad reading is below all others, or above; windows of bad readings alone
        (vec![5.0, NAN, 7.0, INF, -INF, 9.0, 6.0], vec![(0, 1), (0, 2), (1, 2), (1, 3), (1, 4), (3, 5), (3, 6), (5, 7)]),
        (vec![-5.0, INF, -7.0, NAN, NAN, -9.0, -6.0], vec![(0, 1), (0, 2), (1, 2), (1, 3), (1, 4), (3, 5), (3, 6), (5, 7)]),
        // the lowest and the highest leave from the front part, and by a gap
        (vec![90.0, -80.0, 1.0, 2.0, 70.0, 3.0, -60.0, 4.0, 5.0], slide(9, 3)),
        (vec![-9.0, 9.0, 1.0, 2.0, 3.0, 2.5, 1.5, 2.0], vec![(0, 4), (1, 5), (2, 5), (2, 8), (5, 8), (8, 8)]),
        (vec![1.0, 2.0, 50.0, -50.0, 3.0, 4.0, 5.0, 6.0], vec![(0, 4), (4, 6), (5, 6), (5, 8), (7, 8)]),
        // rising and falling throughout: each row's lowest, or highest, is the one that leaves next
        (vec![1.0, 2.0, 3.0, 4.0, 5.0, 6.0], slide(6, 4)),
        (vec![6.0, 5.0, 4.0, 3.0, 2.0, 1.0], slide(6, 4)),
        // subnormals, and numbers whose differences overflow, as they are
        (vec![least, -least, 1e-310, -0.0, 2.0, -1e-310, least], slide(7, 2)),
        (vec![h, -h, 1.0, f64::MAX, f64::MIN, -1.0, h], slide(7, 3)),
        // equal readings, of which one leaves
        (vec![4.0, 4.0, 2.0, 4.0, 2.0, 2.0, 4.0], slide(7, 3)),
        // empty rows between others
        (vec![3.0, -1.0, 8.0, 2.0], vec![(0, 0), (0, 2), (2, 2), (2, 4), (4, 4)]),
    ]
}
/// Of these traces, and of random ones, plans without a map and with one that hides every third place; rows below the minimum; lists that
/// are too short by one, each of the four; and work at and about 4, 5 and 6 doubles a place.
pub fn extreme_cases(r: &mut Rng) -> Vec<Case> {
    let mut v = Vec::new();
    let holes = [0xDB, 0xB6];
    for (k, (x, rows)) in showing().into_iter().enumerate() {
        let ddof = [1, 0, 2][k % 3];
        v.push(Case::new(Figure::Var { ddof }, 1, &x, None, &rows));
        v.push(Case::new(Figure::Var { ddof }, 0, &x, Some(&holes[..x.len().div_ceil(8)]), &rows));
    }
    // rows shorter than the minimum, row 0 among them and not: without a map both are missing there and the window stays, with one they
    // are given; so too where the count is at most ddof
    let x = [2.0, -7.0, 4.0, 9.0, -3.0, 8.0, 1.0, 6.0];
    for rows in [&[(0, 2), (0, 3), (1, 5), (3, 5), (3, 8), (7, 8)][..], &[(0, 4), (3, 5), (4, 5), (4, 8)]] {
        for map in [None, Some(&[0xFF][..]), Some(&[0xB5])] {
            for (min, ddof) in [(3, 1), (3, 255), (0, 255), (usize::MAX, 0)] {
                v.push(Case::new(Figure::Var { ddof }, min, &x, map, rows));
            }
        }
    }
    // no place valid, or all valid ones bad
    v.push(Case::new(VAR, 0, &x, Some(&[0]), &[(0, 4), (2, 8)]));
    v.push(Case::new(VAR, 0, &[NAN, 1.0, INF, 2.0, -INF, 3.0], Some(&[0x15]), &[(0, 2), (0, 4), (2, 6)]));
    for (number, room) in short_rooms(Case::new(VAR, 1, &x, None, &[(0, 3), (2, 6)]).room, 2, 4) {
        let case = Case { room, ..Case::new(VAR, 1, &x, None, &[(0, 3), (2, 6)]) };
        assert_eq!(case.call().refusal(case.room), number, "{case:?}");
        v.push(case);
    }
    for i in 0..24 {
        v.push(loop {
            let mut case = Case::any(r, 10, 6);
            let mut x = case.call().readings();
            roughen(r, &mut x);
            case.trace = x.iter().flat_map(|x| x.to_le_bytes()).collect();
            let call = case.call();
            let accepted = call.has_map == (i % 2 == 1) && call.refusal(case.room) == 0;
            if accepted && call.extremes().is_some_and(|rows| rows.iter().flatten().flatten().count() > 3) {
                break case;
            }
        });
    }
    v
}
/// Lists of a call of so many rows whose widest window has so many places, each with the number that they make: one list after the other
/// too short by one, and several; work at and about 4, 5 and 6 doubles a place; and all longer than is needed.
fn short_rooms(good: Room, rows: usize, widest: usize) -> Vec<(u32, Room)> {
    let mut v = Vec::new();
    for k in 0..4 {
        let mut room = good;
        room.extremes[k] = rows - 1;
        v.push((12, room));
        // 12 before 13
        v.push((12, Room { work: 0, ..room }));
        room.extremes = [rows + 3; 4];
        room.extremes[k] = 0;
        v.push((12, room));
    }
    v.push((12, Room { extremes: [0; 4], ..good }));
    for (number, work) in [(13, 4 * widest), (13, 5 * widest), (13, 6 * widest - 1), (0, 6 * widest), (0, 6 * widest + 2)] {
        v.push((number, Room { work, ..good }));
    }
    v.push((0, Room { figures: rows + 1, present: rows + 2, extremes: [rows + 4, rows + 1, rows + 3, rows + 2], ..good }));
    v
}
/// The same over fixed windows, trailing and centred.
pub fn extreme_fixed_cases(r: &mut Rng) -> Vec<windows::Case> {
    use windows::Case;
    let mut v = Vec::new();
    for (k, (x, _)) in showing().into_iter().enumerate() {
        let (ddof, holes) = ([1, 0, 2][k % 3], [0x6D, 0xDB]);
        v.push(Case::new(Figure::Var { ddof }, &x, None, 3, 1, k % 2 == 0));
        v.push(Case::new(Figure::Var { ddof }, &x, Some(&holes[..x.len().div_ceil(8)]), 3, 0, k % 2 == 1));
    }
    // sizes and minimums: the first rows are short, centred the last ones too
    let x = [2.0, -7.0, 4.0, 9.0, -3.0, 8.0, 1.0, 6.0];
    for centre in [false, true] {
        for map in [None, Some(&[0xFF][..]), Some(&[0xB5])] {
            let sizes = [(3, 3, 1), (4, 2, 255), (0, 0, 0), (1, 1, 1), (8, 5, 0), (9, 9, 0), (usize::MAX, 4, 1), (5, usize::MAX, 1)];
            for (size, min, ddof) in sizes {
                v.push(Case::new(Figure::Var { ddof }, &x, map, size, min, centre));
            }
        }
    }
    for (number, room) in short_rooms(Case::new(VAR, &x, None, 3, 1, false).room, 8, 3) {
        let case = Case { room, ..Case::new(VAR, &x, None, 3, 1, false) };
        assert_eq!(case.call().refusal(case.room), number, "{case:?}");
        v.push(case);
    }
    for i in 0..16 {
        v.push(loop {
            let mut case = Case::any(r, 9);
            roughen(r, &mut case.x);
            let call = case.call();
            let accepted = call.has_map == (i % 2 == 1) && call.refusal(case.room) == 0;
            if accepted && call.extremes().is_some_and(|rows| rows.iter().flatten().flatten().count() > 3) {
                break case;
            }
        });
    }
    v
}

// ---- bounds ----
/// Size, centred or not, readings and row. Some rows lie past the last.
pub fn bounds(r: &mut Rng) -> Vec<(usize, bool, usize, usize)> {
    const MOST: usize = crate::refusal::LIMIT;
    let mut v = Vec::new();
    for n in [1, 5, 8, MOST] {
        let mut sizes = vec![0, 1, 2, 3, 4, 5, n - 1, n, n + 1, 2 * n, 1 << 63, usize::MAX];
        let mut rows = vec![0, 1, 2, n / 2, n.saturating_sub(2), n - 1];
        sizes.sort();
        sizes.dedup();
        rows.retain(|i| *i < n);
        rows.sort();
        rows.dedup();
        for centre in [false, true] {
            for size in &sizes {
                v.extend(rows.iter().map(|i| (*size, centre, n, *i)));
            }
        }
    }
    // sizes about a row's place, and about twice as far
    for k in 0..48 {
        let n = 1 + r.below(if k % 2 == 0 { 40 } else { MOST });
        let i = r.below(n);
        let size = [i, 2 * i, n - i, 2 * (n - i)][k / 4 % 4] + r.below(4);
        v.push((size, k % 4 < 2, n, i));
    }
    for n in [0, 5] {
        for i in [n, n + 1, usize::MAX] {
            for size in [0, 3, usize::MAX] {
                v.extend([(size, false, n, i), (size, true, n, i)]);
            }
        }
    }
    v
}

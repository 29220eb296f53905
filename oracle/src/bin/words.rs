//! Writes the lists that the program `vectors` replays, one file for each kind (FORMAT.md, 'Word lists').
//! usage: words SEED FOLDER
use oracle::cases::*;
use oracle::extremes::Extremes;
use oracle::host::{Case, Room};
use oracle::record::*;
use oracle::rng::Rng;
use oracle::*;
use std::path::Path;

/// A state takes six words, 0 after its members.
fn six(v: &[f64], word: fn(f64) -> u64) -> Vec<u64> {
    let mut w: Vec<u64> = v.iter().map(|x| word(*x)).collect();
    w.resize(6, 0);
    w
}
fn given(x: f64) -> u64 {
    x.to_bits()
}
fn bits(x: &[f64]) -> Vec<u64> {
    x.iter().map(|v| v.to_bits()).collect()
}
fn bytes(m: Option<&[u8]>) -> Vec<u64> {
    m.unwrap_or(&[]).iter().map(|b| *b as u64).collect()
}
/// Any readings, or finite ones of one size, whose figures are mostly numbers.
fn readings(r: &mut Rng, n: usize) -> Vec<f64> {
    if r.chance(1, 2) {
        return r.trace(n);
    }
    let style = [0, 1, 2, 6][r.below(4)];
    (0..n).map(|_| r.reading(style)).collect()
}
/// Any state, or one that such readings make.
fn state(r: &mut Rng, s: &str, any: Vec<f64>) -> Vec<f64> {
    if r.chance(1, 2) {
        return any;
    }
    let n = 1 + r.below(12);
    let (x, y) = (readings(r, n), readings(r, n));
    make(s, &x, &y).iter().map(|v| f64::from_bits(canon(*v))).collect()
}
/// A record of new, whole or range: the call on arrays, what the lent state holds before it, and what it answers.
#[derive(Default)]
struct Call<'a> {
    state: &'a str,
    x: &'a [f64],
    x_map: Option<&'a [u8]>,
    y: &'a [f64],
    y_map: Option<&'a [u8]>,
    start: usize,
    length: usize,
}
impl Call<'_> {
    fn record(&self, r: &mut Rng, code: u32, answer: impl Fn() -> Vec<f64>) -> Vec<u64> {
        let held = before(r, self.state);
        let after = if code == 0 { answer() } else { held.clone() };
        let (x_map, y_map) = (bytes(self.x_map), bytes(self.y_map));
        let counts = [
            STATES.iter().position(|t| *t == self.state).unwrap(),
            self.x.len(),
            self.x_map.is_some() as usize,
            x_map.len(),
            self.y.len(),
            self.y_map.is_some() as usize,
            y_map.len(),
            self.start,
            self.length,
        ]
        .map(|n| n as u64);
        [&counts, &six(&held, given)[..], &[code as u64], &six(&after, canon), &bits(self.x), &x_map, &bits(self.y), &y_map].concat()
    }
}
/// What a lent state array holds before the call: any numbers but NaNs, whose bits the program cannot see.
fn before(r: &mut Rng, s: &str) -> Vec<f64> {
    (0..width(s)).map(|_| r.reading(1)).collect()
}
/// What the lists that a call on windows is lent hold before it and after it.
struct Lent {
    held: Vec<u64>,
    figures: Vec<u64>,
    present: Vec<u64>,
    /// The lowest, its bytes, the highest, its bytes, where the call gives them.
    extremes: Option<[Vec<u64>; 4]>,
}
impl Lent {
    /// Every list holds before the call the first words of `held`; of a NaN the program cannot see the bits, so one there is
    /// the one it reads. What the lists are longer than they were before document 02's request 4, where the work slice had so many
    /// doubles, is drawn by a generator of its own, so that the other records stay the same.
    fn new(r: &mut Rng, room: Room, work: usize, has_extremes: bool) -> Lent {
        let any = |r: &mut Rng| match r.below(4) {
            0 => canon(r.bad()),
            1 => r.reading(2).to_bits(),
            _ => r.reading(1).to_bits(),
        };
        let longest = |work: usize| work.max(room.readings).max(room.figures).max(room.present);
        let mut held: Vec<u64> = (0..longest(work)).map(|_| any(r)).collect();
        let mut own = Rng(r.0 ^ 4);
        let all = room.extremes.into_iter().fold(longest(room.work), usize::max);
        held.resize_with(all, || any(&mut own));
        let doubles = |n: usize| held[..n].to_vec();
        let bytes = |n: usize| held[..n].iter().map(|w| w % 256).collect::<Vec<u64>>();
        let (figures, present, [a, b, c, d]) = (doubles(room.figures), bytes(room.present), room.extremes);
        let extremes = has_extremes.then(|| [doubles(a), bytes(b), doubles(c), bytes(d)]);
        Lent { held, figures, present, extremes }
    }
    fn answered(&mut self, rows: Vec<Option<f64>>) {
        for (i, row) in rows.into_iter().enumerate() {
            (self.figures[i], self.present[i]) = row.map_or((0, 0), |x| (canon(x), 1));
        }
    }
    fn answered_extremes(&mut self, rows: Option<Vec<Extremes>>) {
        let (Some([lowest, lowest_present, highest, highest_present]), Some(rows)) = (&mut self.extremes, rows) else { return };
        for (i, row) in rows.into_iter().enumerate() {
            let [low, high] = row.map(|x| x.map_or((0, 0), |x| (x.to_bits(), 1)));
            ((lowest[i], lowest_present[i]), (highest[i], highest_present[i])) = (low, high);
        }
    }
    /// The lists that take answers, as they stand in a record.
    fn outputs(self) -> Vec<Pair> {
        let extremes = self.extremes.into_iter().flatten();
        [self.figures, self.present].into_iter().chain(extremes).map(list).collect()
    }
}
/// Two words of a record on windows: where a list stands and its length, or two numbers that the call is given.
enum Pair {
    List(usize, Vec<u64>),
    Numbers(usize, usize),
}
fn list(words: Vec<u64>) -> Pair {
    Pair::List(words.len(), words)
}
/// A record of a call on windows: the figure and the setting, whether a map is lent, the number, the doubles of work that
/// are free, then the pairs, then the lists.
fn window_record(figure: [u64; 4], min: usize, has_map: bool, number: u32, free: usize, pairs: Vec<Pair>) -> Vec<u64> {
    let mut words = figure.to_vec();
    words.extend([min as u64, has_map as u64, number as u64, free as u64]);
    // a record's words are counted from its length on: nine before these pairs
    let mut at = 9 + 2 * pairs.len();
    for pair in &pairs {
        match pair {
            Pair::List(length, list) => {
                words.extend([at as u64, *length as u64]);
                at += list.len();
            }
            Pair::Numbers(a, b) => words.extend([*a as u64, *b as u64]),
        }
    }
    assert!(at <= 1024);
    for pair in pairs {
        if let Pair::List(_, list) = pair {
            words.extend(list);
        }
    }
    words
}
/// Figure, ddof, biased, fisher.
fn setting(figure: Figure) -> [u64; 4] {
    match figure {
        Figure::Var { ddof } => [0, ddof as u64, 0, 0],
        Figure::Skew { bias } => [1, 0, bias as u64, 0],
        Figure::Kurt { fisher, bias } => [2, 0, bias as u64, fisher as u64],
    }
}
/// A trace's bytes, eight a word, lowest first.
fn packed(trace: &[u8]) -> Pair {
    let eight = |b: &[u8]| b.iter().rev().fold(0, |w, b| w << 8 | *b as u64);
    Pair::List(trace.len(), trace.chunks(8).map(eight).collect())
}
fn wide(v: &[u32]) -> Vec<u64> {
    v.iter().map(|x| *x as u64).collect()
}
fn plan_record(r: &mut Rng, case: &Case) -> Vec<u64> {
    let (call, room) = (case.call(), case.room);
    let mut lent = Lent::new(r, room, case.drawn_work(), call.figure.has_extremes());
    let mut readings = lent.held[..room.readings].to_vec();
    let number = call.refusal(room);
    let mut free = 0;
    if number == 0 {
        free = call.need();
        for (to, x) in readings.iter_mut().zip(call.readings()) {
            *to = canon(x);
        }
        lent.answered(call.answers());
        lent.answered_extremes(call.extremes());
    }
    let mut pairs = vec![
        packed(call.trace),
        list(bytes(Some(call.map))),
        list(wide(call.starts)),
        list(wide(call.ends)),
        Pair::List(room.work, std::mem::take(&mut lent.held)),
        list(readings),
    ];
    pairs.extend(lent.outputs());
    window_record(setting(call.figure), call.min, call.has_map, number, free, pairs)
}
/// A record of fixed or weighted.
fn fixed_record(r: &mut Rng, case: &windows::Case) -> Vec<u64> {
    let (call, room) = (case.call(), case.room);
    let mut lent = Lent::new(r, room, case.drawn_work(), call.has_extremes());
    let number = call.refusal(room);
    let mut free = 0;
    if number == 0 {
        free = call.need();
        lent.answered(call.answers());
        lent.answered_extremes(call.extremes());
    }
    let mut pairs = vec![
        list(bits(call.x)),
        list(bytes(Some(call.map))),
        list(bits(call.weights.unwrap_or(&[]))),
        Pair::Numbers(call.size, call.centre as usize),
        Pair::List(room.work, std::mem::take(&mut lent.held)),
        Pair::Numbers(0, 0),
    ];
    pairs.extend(lent.outputs());
    let figure = if call.weights.is_some() { [3, 0, 0, 0] } else { setting(call.figure) };
    window_record(figure, call.min, call.has_map, number, free, pairs)
}
/// A record of paired or paired_fixed: as those of one trace, with the second trace, its map and its readings behind the first's lists.
fn pair_record(r: &mut Rng, case: &pairs::Case) -> Vec<u64> {
    let [first, second] = [&case.x, &case.y].map(|trace| if case.decodes() { trace.decoded } else { 0 });
    let room = Room { readings: first.max(second), work: case.work, figures: case.figures, present: case.present, ..Room::default() };
    let mut lent = Lent::new(r, room, case.work, false);
    let number = case.refusal();
    let decoded = |trace: &pairs::Trace, places: usize| {
        if !case.decodes() {
            return Pair::Numbers(0, 0);
        }
        let mut readings = lent.held[..places].to_vec();
        if number == 0 {
            readings.iter_mut().zip(trace.readings()).for_each(|(to, x)| *to = canon(x));
        }
        list(readings)
    };
    let (x_readings, y_readings) = (decoded(&case.x, first), decoded(&case.y, second));
    let mut free = 0;
    if number == 0 {
        free = case.need();
        lent.answered(case.answers());
    }
    let (starts, ends) = match &case.windows {
        pairs::Windows::Plan { starts, ends } => (list(wide(starts)), list(wide(ends))),
        pairs::Windows::Fixed { size, centre } => (Pair::Numbers(0, 0), Pair::Numbers(*size, *centre as usize)),
    };
    let trace = |trace: &pairs::Trace| if case.decodes() { packed(trace.bytes()) } else { list(bits(&trace.readings())) };
    let map = |trace: &pairs::Trace| list(bytes(Some(&trace.map)));
    let pairs = vec![
        trace(&case.x),
        map(&case.x),
        starts,
        ends,
        Pair::List(case.work, lent.held),
        x_readings,
        list(lent.figures),
        list(lent.present),
        trace(&case.y),
        map(&case.y),
        y_readings,
    ];
    let second = case.y.has_map as u64;
    let figure = match case.figure {
        PairFigure::Cov { ddof } => [0, ddof as u64, second, 0],
        PairFigure::Pearson => [1, 0, second, 0],
    };
    window_record(figure, case.min, case.x.has_map, number, free, pairs)
}

/// The roots of a square a modulo 2^54 (a is 1 modulo 8), those from 2^53 up.
fn square_roots(a: u64) -> Vec<u64> {
    let mut s: u64 = 1;
    for k in 3..54 {
        if (s.wrapping_mul(s).wrapping_sub(a)) % (1 << (k + 1)) != 0 {
            s += 1 << (k - 1);
        }
    }
    let all = 1u64 << 54;
    [s, all.wrapping_sub(s), s + (all >> 1), (all >> 1).wrapping_sub(s)]
        .iter()
        .map(|v| v % all)
        .filter(|v| *v >= all >> 1 && v.wrapping_mul(*v).wrapping_sub(a) % all == 0)
        .collect()
}
/// Numbers from 1 up to 4 whose root lies as near as possible to the midpoint of two doubles. In units of
/// 2^-52 the root of m is r + 1/2 where m * 2^52 = r * r + r + d for a small even d, so where 2 * r + 1 is a root of
/// 1 - 4 * d modulo 2^54.
fn halfway() -> Vec<f64> {
    let mut out = Vec::new();
    for half in 0..60i64 {
        for d in [2 * half, -2 * half] {
            for t in square_roots((1 - 4 * d) as u64) {
                let r = (t / 2) as i128;
                let m = (r * r + r + d as i128) >> 52;
                let fits = (1i128 << 52..1 << 53).contains(&m) || ((1i128 << 53..1 << 54).contains(&m) && m % 2 == 0);
                if fits && (r * r + r + d as i128) % (1 << 52) == 0 {
                    out.push(m as f64 / (1u64 << 52) as f64);
                }
            }
        }
    }
    out
}
/// x times 4^k, in two steps: 4^k itself may be below the least double.
fn scaled(x: f64, k: i32) -> f64 {
    x * 2f64.powi(k) * 2f64.powi(k)
}
fn root_inputs(r: &mut Rng) -> Vec<u64> {
    let mut v: Vec<u64> = vec![
        0, 1, 2, 3, 0x000F_FFFF_FFFF_FFFF, 0x0010_0000_0000_0000, 0x0010_0000_0000_0001, 0x3FF0_0000_0000_0000,
        0x4000_0000_0000_0000, 0x4010_0000_0000_0000, 0x7FEF_FFFF_FFFF_FFFF, 0x7FF0_0000_0000_0000, 0x7FF0_0000_0000_0001,
        0x7FF4_0000_0000_0000, 0x7FF7_FFFF_FFFF_FFFF, 0x7FF8_0000_0000_0000, 0x7FF8_0000_0000_0001, 0x7FFF_FFFF_FFFF_FFFF,
    ];
    // each with the other sign
    v.extend(v.clone().iter().map(|b| b | 1 << 63));
    // powers of two, all the subnormal ones, then every seventh: both parities
    v.extend((0..52).map(|k| 1u64 << k));
    v.extend((1..2047u64).step_by(7).map(|e| e << 52));
    // exact squares and the doubles beside them; even powers down to the least
    for _ in 0..256 {
        let a = 1 + r.below(94_906_265) as u64;
        let q = scaled((a * a) as f64, r.below(1000) as i32 - 537);
        v.extend([q.to_bits() - 1, q.to_bits(), q.to_bits() + 1]);
    }
    for x in halfway() {
        v.push(scaled(x, r.below(1020) as i32 - 510).to_bits());
        v.push(x.to_bits());
    }
    for _ in 0..512 {
        v.push(r.u64() >> (12 + r.below(52)));
    }
    while v.len() < 4096 {
        v.push(match r.below(4) {
            0 => r.u64(),
            1 => ((0x3FE + r.below(4) as u64) << 52) + (r.u64() >> 12),
            _ => r.u64() >> 1,
        });
    }
    v
}

/// Of each map that a whole array has four that are longer than is needed, by 1 byte to 64, and one that is a byte too short. Of a pair the
/// other map is longer too.
fn other_whole_maps(r: &mut Rng, out: &mut Vec<Vec<u64>>) {
    let maps = [("var", 0), ("skew", 0), ("kurt", 0), ("cov", 0), ("cov", 1), ("pearson", 0), ("pearson", 1)];
    for (k, (s, second)) in maps.into_iter().enumerate() {
        for (i, behind) in [Some(1 + k), Some(8 * (k + 1)), Some(63 - k), Some(64), None].into_iter().enumerate() {
            let n = [9, 1, 8, 3, 9][i];
            let tried = maps::example(r, n, behind, i + k);
            let other = if pairs(s) { maps::example(r, n, Some(2), i) } else { Default::default() };
            let [(x, xm), (y, ym)] = if second == 1 { [other, tried] } else { [tried, other] };
            let (xm, ym) = (Some(&xm[..]), Some(&ym[..]).filter(|_| pairs(s)));
            let code = whole_refusal(s, n, xm, y.len(), ym);
            let call = Call { state: s, x: &x, x_map: xm, y: &y, y_map: ym, ..Default::default() };
            out.push(call.record(r, code, || whole(s, &x, xm, &y, ym)));
        }
    }
}
/// Maps with 0 to 64 bytes behind them, of ranges of either state in turn, and of each one that is a byte too short.
fn other_range_maps(r: &mut Rng, out: &mut Vec<Vec<u64>>) {
    for (k, behind) in (0..=64).map(Some).chain([None; 2]).enumerate() {
        let s = ["skew", "kurt"][k % 2];
        let n = if behind.is_none() { 9 } else { [9, 1, 8, 5, 0, 17, 7][k % 7] };
        let (x, map) = maps::example(r, n, behind, k / 2);
        // the last place is in the range
        let (start, len) = (n / 4, n - n / 4);
        let code = refusal::range(n, Some(map.len()), start, len);
        let call = Call { state: s, x: &x, x_map: Some(&map), start, length: len, ..Default::default() };
        out.push(call.record(r, code, || range(s, &x, Some(&map), start, len)));
    }
}

/// The records of a kind, each a list of words.
fn records(r: &mut Rng, kind: &str) -> Vec<Vec<u64>> {
    let which = |i: usize| STATES[i % 5];
    let of = |s: &str| STATES.iter().position(|t| *t == s).unwrap() as u64;
    let flat = |parts: &[&[u64]]| parts.concat();
    let mut out = Vec::new();
    match kind {
        "root" => {
            for b in root_inputs(r) {
                out.push(vec![b, canon(f64::from_bits(b).sqrt())]);
            }
        }
        "new" => {
            for i in 0..250 {
                let s = which(i);
                let n = match i / 5 {
                    k @ 0..4 => k,
                    4 => 127,
                    5 => 128,
                    6 => if pairs(s) { 126 } else { 300 },
                    _ => r.below(24),
                };
                let (x, y) = (readings(r, n), if pairs(s) { readings(r, n) } else { vec![] });
                let call = Call { state: s, x: &x, y: &y, ..Default::default() };
                out.push(call.record(r, 0, || make(s, &x, &y)));
            }
        }
        "insert" => {
            for i in 0..400 {
                let s = which(i);
                let (any, x, y) = insert_case(r, s);
                let st = state(r, s, any);
                let made = insert(s, &st, x, y);
                out.push(flat(&[&[of(s)], &six(&st, given), &bits(&[x, y]), &six(&made, canon)]));
            }
        }
        "combine" => {
            for i in 0..400 {
                let s = which(i);
                let (a, b) = combine_case(r, s);
                let (mut a, mut b) = (state(r, s, a), state(r, s, b));
                match i / 5 {
                    0 => a.fill(0.0),
                    1 => b.fill(0.0),
                    2 => { a.fill(0.0); b[0] = 1.0; b[1] = f64::INFINITY; b[2] = 0.0 }
                    3 => a[0] = -b[0],
                    _ => {}
                }
                let made = combine(s, &a, &b);
                out.push(flat(&[&[of(s)], &six(&a, given), &six(&b, given), &six(&made, canon)]));
            }
        }
        "finalize" => {
            for i in 0..500 {
                let s = which(i);
                let (any, mut ddof, mut biased, mut fisher) = finalize_case(r, s);
                let mut st = state(r, s, any);
                let k = i / 5;
                if k < 40 {
                    // every setting, at weights beside those where a figure is missing
                    (biased, fisher) = (k % 2 == 0, k / 2 % 2 == 0);
                    ddof = [0, 1, 2, 255, 3][k / 4 % 5];
                    let near = if pairs(s) || s == "var" { ddof as f64 } else { [0.0, 1.0, 2.0, 3.0, 4.0][k / 4 % 5] };
                    st[0] = near + [0.0, 1.0, -1.0, 0.5][k % 4] * if k < 20 { 1.0 } else { 2f64.powi(-40) };
                }
                let f = finalize(s, &st, ddof, biased, fisher);
                let tail = [ddof as u64, biased as u64, fisher as u64, f.is_some() as u64, f.map_or(0, canon)];
                out.push(flat(&[&[of(s)], &six(&st, given), &tail]));
            }
        }
        "whole" => {
            let lengths = [0, 1, 8, 9, 127, 128, 129, 256, 257, 300];
            for i in 0..300 {
                let s = which(i);
                let k = i / 5;
                let n = if k < 20 { lengths[k % 10] } else { r.below(24) };
                let m = if k % 8 == 7 { r.below(24) } else { n };
                let x = readings(r, n);
                let y = if pairs(s) { readings(r, m) } else { vec![] };
                let (mut xm, mut ym) = (maybe_map(r, n), maybe_map(r, y.len()).filter(|_| pairs(s)));
                match k {
                    // with and without a map at every length
                    0..10 => (xm, ym) = (None, None),
                    10..20 => xm = Some(r.map(n)),
                    // another length than is needed: a byte more, one fewer, none
                    20 => { let mut w = r.map(n); w.push(0xFF); xm = Some(w) }
                    21 => { let mut w = r.map(n); if w.pop().is_none() { w.push(0) } xm = Some(w) }
                    22 => xm = Some(vec![]),
                    24 if pairs(s) => { let mut w = r.map(m); w.push(1); ym = Some(w) }
                    _ => {}
                }
                let (xm, ym) = (xm.as_deref(), ym.as_deref());
                let code = whole_refusal(s, n, xm, y.len(), ym);
                let call = Call { state: s, x: &x, x_map: xm, y: &y, y_map: ym, ..Default::default() };
                out.push(call.record(r, code, || whole(s, &x, xm, &y, ym)));
            }
            other_whole_maps(r, &mut out);
        }
        "range" => {
            for i in 0..200 {
                let s = ["skew", "kurt"][i % 2];
                let k = i / 2;
                let n = if k % 12 == 5 { 130 + r.below(150) } else { r.below(30) };
                let x = readings(r, n);
                let m = maybe_map(r, n);
                let m = m.as_deref();
                let (mut start, mut len) = range_case(r, n);
                match k {
                    0 => (start, len) = (0, n),
                    1 => (start, len) = (n, 0),
                    2 => (start, len) = (n, 1),
                    3 => (start, len) = (n + 1, 0),
                    // sums that come back below n where they wrap
                    4 => (start, len) = (usize::MAX, 1),
                    5 => (start, len) = (1, usize::MAX),
                    6 => (start, len) = (usize::MAX, usize::MAX),
                    7 => (start, len) = (1 << 63, 1 << 63),
                    8 => (start, len) = (usize::MAX - n / 2, n / 2 + 1),
                    _ => {}
                }
                let code = refusal::range(n, m.map(|v| v.len()), start, len);
                let call = Call { state: s, x: &x, x_map: m, start, length: len, ..Default::default() };
                out.push(call.record(r, code, || range(s, &x, m, start, len)));
            }
            other_range_maps(r, &mut out);
        }
        "plan" => {
            for case in cases(r) {
                out.push(plan_record(r, &case));
            }
            for case in other_plan_maps(r) {
                out.push(plan_record(r, &case));
            }
            for case in extreme_cases(r) {
                out.push(plan_record(r, &case));
            }
        }
        "fixed" => {
            for case in fixed_cases(r) {
                out.push(fixed_record(r, &case));
            }
            for case in other_fixed_maps(r) {
                out.push(fixed_record(r, &case));
            }
            for case in extreme_fixed_cases(r) {
                out.push(fixed_record(r, &case));
            }
        }
        "weighted" => {
            for case in weighted_cases(r) {
                out.push(fixed_record(r, &case));
            }
            for case in other_weighted_maps(r) {
                out.push(fixed_record(r, &case));
            }
        }
        "paired" => out.extend(pair_cases::plans(r).iter().map(|case| pair_record(r, case))),
        "paired_fixed" => out.extend(pair_cases::fixed(r).iter().map(|case| pair_record(r, case))),
        "bounds" => {
            for (size, centre, n, i) in bounds(r) {
                // past the last row the Rust is not asked: ours is empty there, at the end
                let (start, end) = if i < n { offsets(i, size, n, centre) } else { (n, n) };
                out.push([size, centre as usize, n, i, start, end].map(|w| w as u64).to_vec());
            }
        }
        _ => unreachable!(),
    }
    out
}

const KINDS: [&str; 13] = [
    "root", "new", "insert", "combine", "finalize", "whole", "range", "plan", "fixed", "weighted", "bounds", "paired", "paired_fixed",
];
fn main() {
    let mut args = std::env::args().skip(1);
    let (Some(seed), Some(folder)) = (args.next().and_then(|s| s.parse::<u64>().ok()), args.next()) else {
        eprintln!("usage: words SEED FOLDER");
        std::process::exit(1);
    };
    for (i, kind) in KINDS.into_iter().enumerate() {
        let mut r = Rng(seed.wrapping_mul(7).wrapping_add(i as u64));
        let list = records(&mut r, kind);
        let mut text = format!("{:016X}\n", list.len());
        for words in &list {
            // a record's first word is how many words it has, this one too
            text += &format!("{:016X}", words.len() + 1);
            for w in words {
                text += &format!(" {w:016X}");
            }
            text.push('\n');
        }
        // the program has no more room for a list
        assert!(text.len() <= 1_048_576, "{kind} has {} bytes", text.len());
        std::fs::write(Path::new(&folder).join(kind), &text).unwrap();
        println!("{kind}: {} records, {} bytes", list.len(), text.len());
    }
}

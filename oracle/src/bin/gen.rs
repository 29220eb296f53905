//! Prints test vectors; the format is described in FORMAT.md.
//! usage: gen [seed] [records of each kind] [kind ...]
use oracle::extremes::Extremes;
use oracle::record::*;
use oracle::rng::Rng;
use oracle::*;
use std::fmt::Write as _;
use std::io::Write as _;

fn h(x: f64) -> String {
    format!("{:016X}", x.to_bits())
}
fn hc(x: f64) -> String {
    format!("{:016X}", canon(x))
}
fn list(x: &[f64]) -> String {
    x.iter().map(|v| h(*v)).collect::<Vec<_>>().join(",")
}
fn listc(x: &[f64]) -> String {
    x.iter().map(|v| hc(*v)).collect::<Vec<_>>().join(",")
}
fn nums(x: &[usize]) -> String {
    x.iter().map(|v| v.to_string()).collect::<Vec<_>>().join(",")
}
fn map(m: Option<&[u8]>) -> String {
    match m {
        None => "none".into(),
        Some(b) => b.iter().map(|v| format!("{v:02X}")).collect(),
    }
}
fn fig(f: Option<f64>) -> String {
    f.map_or("missing".into(), hc)
}
fn setting(f: Figure) -> String {
    match f {
        Figure::Var { ddof } => format!("fig=var ddof={ddof} biased=0 fisher=0"),
        Figure::Skew { bias } => format!("fig=skew ddof=0 biased={} fisher=0", bias as u8),
        Figure::Kurt { fisher, bias } => format!("fig=kurt ddof=0 biased={} fisher={}", bias as u8, fisher as u8),
    }
}
fn pair_setting(f: PairFigure) -> String {
    match f {
        PairFigure::Cov { ddof } => format!("fig=cov ddof={ddof}"),
        PairFigure::Pearson => "fig=pearson ddof=0".into(),
    }
}
/// A call on two traces as another language may make it: whole readings, decoded already.
fn pair_record(r: &mut Rng, mut case: pairs::Case) -> String {
    for trace in [&mut case.x, &mut case.y] {
        trace.whole();
        if trace.has_map {
            trace.map = maps::lent(r, std::mem::take(&mut trace.map), trace.len());
        }
    }
    let pairs::Case { figure, x, y, windows, min, work, figures, present } = &case;
    let wide = |v: &[u32]| nums(&v.iter().map(|x| *x as usize).collect::<Vec<_>>());
    let (kind, windows, rows_given) = match windows {
        pairs::Windows::Plan { starts, ends } => ("pair-plan", String::new(), format!("starts={} ends={} ", wide(starts), wide(ends))),
        pairs::Windows::Fixed { size, centre } => ("pair-fixed", format!("size={size} centre={} ", *centre as u8), String::new()),
    };
    let traces = [("x", x), ("y", y)].map(|(k, t)| format!("{k}={} {k}map={} ", list(&t.readings()), map(t.map()))).concat();
    let answer = match case.refusal() {
        0 => rows(&case.answers()),
        number => format!("refusal={number} v= p="),
    };
    let setting = pair_setting(*figure);
    format!("{kind} {setting} min={min} {windows}{traces}{rows_given}outv={figures} outp={present} work={work} => {answer}")
}
/// A list of answers and a list of bytes.
fn column(v: impl Iterator<Item = Option<f64>> + Clone) -> (String, String) {
    let f: Vec<f64> = v.clone().map(|x| x.unwrap_or(0.0)).collect();
    (listc(&f), v.map(|x| if x.is_some() { '1' } else { '0' }).collect())
}
fn rows(v: &[Option<f64>]) -> String {
    let (v, p) = column(v.iter().copied());
    format!("refusal=0 v={v} p={p}")
}
/// What variance gives behind: the lowest and the highest, or nothing where the call is refused.
fn extremes(v: &[Extremes]) -> String {
    let ((lowest, lowp), (highest, highp)) = (column(v.iter().map(|row| row[0])), column(v.iter().map(|row| row[1])));
    format!(" low={lowest} lowp={lowp} high={highest} highp={highp}")
}
/// Half of the traces of variance get readings at which a lowest or a highest may go wrong, by a generator of its own too.
fn rough(r: &Rng, f: Figure, x: &mut [f64]) {
    let mut own = Rng(r.0 ^ 5);
    if f.has_extremes() && own.chance(1, 2) {
        oracle::extremes::roughen(&mut own, x);
    }
}
/// Lengths of the four lists that variance is lent besides, drawn by a generator of its own, so that all else stays as it was drawn before.
fn extreme_lens(r: &Rng, n: usize) -> [usize; 4] {
    let mut own = Rng(r.0 ^ 4);
    [n; 4].map(|n| out_len(&mut own, n))
}

fn size_n(r: &mut Rng) -> usize {
    match r.below(12) {
        0 => r.below(3),
        1 => 100 + r.below(200),
        2 | 3 => r.below(70),
        _ => 1 + r.below(24),
    }
}
fn out_len(r: &mut Rng, n: usize) -> usize {
    match r.below(30) {
        0 => n.saturating_sub(1),
        1 => n + r.below(5),
        _ => n,
    }
}

/// Lengths of the output lists that a call of this figure is lent, and how they are written.
fn outs(r: &Rng, f: Figure, n: usize, of: usize, op: usize) -> (Vec<usize>, String) {
    let mut given = format!("outv={of} outp={op}");
    if !f.has_extremes() {
        return (vec![of, op], given);
    }
    let [a, b, c, d] = extreme_lens(r, n);
    write!(given, " outlow={a} outlowp={b} outhigh={c} outhighp={d}").unwrap();
    (vec![of, op, a, b, c, d], given)
}
/// The number, then the answers, none where the call is refused; of variance the lowest and the highest too.
fn answer(o: &mut String, f: Figure, code: u32, figures: impl FnOnce() -> Vec<Option<f64>>, lows: impl FnOnce() -> Vec<Extremes>) {
    *o += &if code == 0 { rows(&figures()) } else { format!("refusal={code} v= p=") };
    if f.has_extremes() {
        *o += &extremes(&if code == 0 { lows() } else { vec![] });
    }
}

fn keen_figure(r: &mut Rng) -> Figure {
    match r.below(3) {
        0 => Figure::Var { ddof: r.below(3) as u8 },
        1 => Figure::Skew { bias: r.chance(2, 3) },
        _ => Figure::Kurt { fisher: r.chance(1, 2), bias: r.chance(2, 3) },
    }
}
fn record(r: &mut Rng, kind: &str) -> String {
    let mut o = String::new();
    match kind {
        "root" => {
            let x = match r.below(6) {
                0 => f64::from_bits(r.u64()),
                1 => f64::from_bits(r.u64() >> (12 + r.below(52))),
                2 => { let a = f64::from_bits(r.u64() >> 1); let q = a * a; f64::from_bits((q.to_bits() as i64 + r.below(5) as i64 - 2) as u64) }
                3 => f64::from_bits(((r.below(2047) as u64) << 52) + r.below(5) as u64),
                4 => *[0.0, -0.0, f64::INFINITY, f64::NEG_INFINITY, f64::NAN, 2.0, f64::from_bits(1), f64::MAX, f64::MIN_POSITIVE, -5e-324, 4.0].get(r.below(11)).unwrap(),
                _ => r.unit() * 100.0,
            };
            write!(o, "root x={} => r={}", h(x), hc(x.sqrt())).unwrap();
        }
        "new" => {
            let s = STATES[r.below(5)];
            let n = r.below(12);
            let (x, y) = (r.trace(n), r.trace(n));
            let two = pairs(s);
            write!(o, "new s={s} x={} y={} => st={}", list(&x), if two { list(&y) } else { String::new() }, listc(&make(s, &x, &y))).unwrap();
        }
        "insert" => {
            let s = STATES[r.below(5)];
            let (st, x, y) = insert_case(r, s);
            write!(o, "insert s={s} st={} x={} y={} => st={}", list(&st), h(x), h(y), listc(&insert(s, &st, x, y))).unwrap();
        }
        "combine" => {
            let s = STATES[r.below(5)];
            let (a, b) = combine_case(r, s);
            write!(o, "combine s={s} a={} b={} => st={}", list(&a), list(&b), listc(&combine(s, &a, &b))).unwrap();
        }
        "finalize" => {
            let s = STATES[r.below(5)];
            let (st, ddof, biased, fisher) = finalize_case(r, s);
            write!(o, "finalize s={s} st={} ddof={ddof} biased={} fisher={} => fig={}", list(&st), biased as u8, fisher as u8, fig(finalize(s, &st, ddof, biased, fisher))).unwrap();
        }
        "whole" => {
            let s = STATES[r.below(5)];
            let n = match r.below(8) { 0 => 120 + r.below(20), 1 => 250 + r.below(20), 2 => r.below(700), _ => r.below(30) };
            let x = r.trace(n);
            let two = pairs(s);
            let m = if two && r.chance(1, 25) { r.below(30) } else { n };
            let y = if two { r.trace(m) } else { vec![] };
            let xm = lent_map(r, n);
            let ym = if two { lent_map(r, m) } else { None };
            let (xm, ym) = (xm.as_deref(), ym.as_deref());
            let code = whole_refusal(s, n, xm, m, ym);
            write!(o, "whole s={s} x={} xmap={} y={} ymap={} => refusal={code} st=", list(&x), map(xm), list(&y), map(ym)).unwrap();
            if code == 0 {
                o += &listc(&whole(s, &x, xm, &y, ym));
            }
        }
        "range" => {
            let s = ["skew", "kurt"][r.below(2)];
            let n = if r.chance(1, 6) { 130 + r.below(200) } else { r.below(30) };
            let x = r.trace(n);
            let m = lent_map(r, n);
            let m = m.as_deref();
            let (start, len) = range_case(r, n);
            let code = refusal::range(n, m.map(|v| v.len()), start, len);
            write!(o, "range s={s} x={} map={} start={start} len={len} => refusal={code} st=", list(&x), map(m)).unwrap();
            if code == 0 {
                o += &listc(&range(s, &x, m, start, len));
            }
        }
        "plan" => {
            // keen: finite readings of one size, figures mostly present, minimums near the widths
            let keen = r.chance(1, 2);
            let n = if keen { 8 + r.below(30) } else { size_n(r) };
            let style = [0, 1, 2, 3, 6][r.below(5)];
            let mut x = if keen { (0..n).map(|_| r.reading(style)).collect() } else { r.trace(n) };
            let m = if keen && r.chance(1, 3) { Some(maps::lent(r, vec![0xFF; n.div_ceil(8)], n)) } else { lent_map(r, n) };
            let m = m.as_deref();
            let count = if keen { 6 + r.below(18) } else { r.below(24) };
            let rw = if keen && r.chance(2, 3) { r.slides(n, count) } else { r.rows(n, count) };
            let f = if keen { keen_figure(r) } else { r.figure() };
            let min = if keen { 1 + r.below(6) } else { r.minimum() };
            rough(r, f, &mut x);
            let mut starts: Vec<usize> = rw.iter().map(|v| v.0).collect();
            let mut ends: Vec<usize> = rw.iter().map(|v| v.1).collect();
            let mut short = 0;
            if count > 0 {
                let k = r.below(count);
                match r.below(30) {
                    0 => starts[k] = ends[k] + 1,
                    1 => { for e in &mut ends[k..] { *e = n + 1 } }
                    2 => starts[k] = starts[k].saturating_sub(1 + r.below(3)),
                    3 => ends[k] = ends[k].saturating_sub(1 + r.below(3)),
                    4 => { ends.pop(); }
                    5 => starts.push(n),
                    6 => { starts[k] = r.below(n + 3); ends[k] = r.below(n + 3); }
                    7 => short = 1 + r.below(2),
                    _ => {}
                }
            }
            let widest = starts.iter().zip(&ends).map(|(s, e)| e.saturating_sub(*s)).max().unwrap_or(0);
            let work = (f.entry() * widest + if r.chance(1, 6) { r.below(9) } else { 0 }).saturating_sub(short);
            let (of, op) = (out_len(r, starts.len()), out_len(r, starts.len()));
            let (outs, given) = outs(r, f, starts.len(), of, op);
            let code = refusal::plan(n, m.map(|v| v.len()), &starts, &ends, &outs, f.entry(), work);
            write!(o, "plan {} min={min} x={} map={} ", setting(f), list(&x), map(m)).unwrap();
            write!(o, "starts={} ends={} {given} work={work} => ", nums(&starts), nums(&ends)).unwrap();
            let rw: Vec<(usize, usize)> = starts.iter().copied().zip(ends.iter().copied()).collect();
            answer(&mut o, f, code, || plan(&x, m, &rw, f, min), || oracle::extremes::of_rows(&x, m, rw.iter().copied(), min));
        }
        "fixed" => {
            let keen = r.chance(1, 2);
            let n = size_n(r);
            let style = [0, 1, 2, 3, 6][r.below(5)];
            let mut x = if keen { (0..n).map(|_| r.reading(style)).collect() } else { r.trace(n) };
            let m = if keen && r.chance(1, 3) { Some(maps::lent(r, vec![0xFF; n.div_ceil(8)], n)) } else { lent_map(r, n) };
            let m = m.as_deref();
            let size = match r.below(14) { 0 => usize::MAX - r.below(3), 1 => 1 << 63, 2 => r.below(100), 3 => 0, _ => r.below(14) };
            let centre = r.chance(1, 2);
            let f = if keen { keen_figure(r) } else { r.figure() };
            let min = if keen { 1 + r.below(6) } else { r.minimum() };
            rough(r, f, &mut x);
            let short = if r.chance(1, 30) { 1 } else { 0 };
            let work = (f.entry() * size.min(n) + if r.chance(1, 6) { r.below(9) } else { 0 }).saturating_sub(short);
            let (of, op) = (out_len(r, n), out_len(r, n));
            let (outs, given) = outs(r, f, n, of, op);
            let code = refusal::fixed(n, m.map(|v| v.len()), size, &outs, f.entry(), work);
            write!(o, "fixed {} min={min} size={size} centre={} ", setting(f), centre as u8).unwrap();
            write!(o, "x={} map={} {given} work={work} => ", list(&x), map(m)).unwrap();
            let bounds = (0..n).map(|i| offsets(i, size, n, centre));
            // the Rust panics on an empty trace with a trailing window; document 01: no rows
            let figures = || if n == 0 { vec![] } else { fixed(&x, m, size, min, centre, f) };
            answer(&mut o, f, code, figures, || oracle::extremes::of_rows(&x, m, bounds, min));
        }
        "weighted" => {
            let n = size_n(r).min(80);
            let x = r.trace(n);
            let m = if r.chance(1, 15) { lent_map(r, n) } else { None };
            let m = m.as_deref();
            let size = r.below(10);
            let wn = if r.chance(1, 15) { r.below(10) } else { size };
            let style = r.below(5);
            let w: Vec<f64> = (0..wn).map(|_| match style { 0 => r.below(3) as f64, 1 => r.below(5) as f64 - 2.0, 2 | 3 => r.unit(), _ => { let s = r.below(8); r.reading(s) } }).collect();
            let centre = r.chance(1, 2);
            let min = r.minimum();
            let (of, op) = (out_len(r, n), out_len(r, n));
            let code = refusal::weighted(n, m.map(|v| v.len()), size, &w, &[of, op]);
            write!(o, "weighted min={min} size={size} centre={} w={} x={} map={} outv={of} outp={op} => ", centre as u8, list(&w), list(&x), map(m)).unwrap();
            if code == 0 {
                o += &rows(&weighted(&x, size, min, centre, &w).unwrap());
            } else {
                write!(o, "refusal={code} v= p=").unwrap();
            }
        }
        "bounds" => {
            let n = 1 + r.below(40);
            let i = r.below(n);
            let size = match r.below(8) { 0 => usize::MAX - r.below(3), 1 => 1 << 63, 2 => 0, _ => r.below(50) };
            let centre = r.chance(1, 2);
            let (s, e) = offsets(i, size, n, centre);
            write!(o, "bounds size={size} centre={} n={n} i={i} => start={s} end={e}", centre as u8).unwrap();
        }
        "pair-plan" => {
            let case = pairs::Case::any_plan(r, 24, 16);
            o = pair_record(r, case);
        }
        "pair-fixed" => {
            let case = pairs::Case::any_fixed(r, 24);
            o = pair_record(r, case);
        }
        _ => panic!("unknown kind {kind}"),
    }
    o
}

const KINDS: [&str; 13] = [
    "root", "new", "insert", "combine", "finalize", "whole", "range", "plan", "fixed", "weighted", "bounds", "pair-plan", "pair-fixed",
];
fn main() {
    let mut args = std::env::args().skip(1);
    let seed: u64 = args.next().map_or(1, |s| s.parse().unwrap());
    let count: usize = args.next().map_or(200, |s| s.parse().unwrap());
    let mut kinds: Vec<String> = args.collect();
    if kinds.is_empty() {
        kinds = KINDS.iter().map(|s| s.to_string()).collect();
    }
    let mut out = std::io::BufWriter::new(std::io::stdout().lock());
    for k in kinds {
        let mut r = Rng(seed ^ k.bytes().fold(0xcbf29ce484222325u64, |a, b| (a ^ b as u64).wrapping_mul(0x100000001b3)));
        for _ in 0..count {
            if writeln!(out, "{}", record(&mut r, &k)).is_err() {
                return;
            }
        }
    }
}

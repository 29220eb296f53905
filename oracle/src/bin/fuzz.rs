//! Random window calls of a second implementation (src/second.rs) against the Rust: plans by the host call, fixed windows and weights
//! (the other entries: `face`); those of two traces, which the Rust lacks, against the account over its states. Compared: the number, and
//! what the safe functions of ../host say of the first refused row of a plan; all output lists to the last place, figures by their bits,
//! a NaN being 7FF8000000000000, and of variance the lowest and the highest by theirs; the readings that an accepted call decodes; and
//! that nothing else is written: no list on a refusal, and otherwise no place past the last row, past the needed work, past the readings
//! or beside a list. Each run also makes the calls at 16,777,216 readings or rows and one more.
//! usage: fuzz [--demo] CALLS SEED [plan] [fixed] [weighted] [pair-plan] [pair-fixed]
//! (CALLS are made of the kinds that are named, in turn, or of every kind. --demo asks the model of src/model.rs in place
//! of libmoments.a; it has no weights.)
use oracle::extremes::{self, Extremes};
use oracle::host::{Call, Case, Room};
use oracle::refusal::LIMIT;
use oracle::rng::Rng;
use oracle::second::{Answer, Impl, Outputs, PairsFn, PlanFn, WindowsFn};
use oracle::*;
use std::collections::BTreeMap;
use std::fmt::Debug;
use std::hint::black_box;

/// Places beside a lent list, before and after it.
const BESIDE: usize = 4;
/// A lent list between places that nobody may touch.
#[derive(Clone)]
struct Guarded<T>(Vec<T>);
impl<T: Clone> Guarded<T> {
    /// Of a long list only the first places are random.
    fn new(len: usize, mut any: impl FnMut() -> T) -> Self {
        let mut v: Vec<T> = (0..(len + 2 * BESIDE).min(8192)).map(|_| any()).collect();
        v.resize(len + 2 * BESIDE, any());
        Guarded(v)
    }
    /// The black box keeps the compiler from taking for granted that the places beside the list are as they were.
    fn lent(&mut self) -> &mut [T] {
        let len = self.0.len();
        &mut black_box(&mut self.0)[BESIDE..len - BESIDE]
    }
    fn held(&self) -> &[T] {
        &self.0[BESIDE..self.0.len() - BESIDE]
    }
    /// The first place but those of the list's first `free` that is no longer what it was, counted from the list's start.
    fn changed<B: PartialEq>(&self, after: &Self, free: usize, bits: impl Fn(&T) -> B) -> Option<isize> {
        let kept = |i: &usize| bits(&self.0[*i]) == bits(&after.0[*i]);
        let outside = (0..BESIDE).chain(BESIDE + free..self.0.len());
        outside.into_iter().find(|i| !kept(i)).map(|i| i as isize - BESIDE as isize)
    }
}
/// All that a call may be lent; what a call does not have is empty.
#[derive(Clone)]
struct Lists {
    /// Of each trace.
    readings: [Guarded<f64>; 2],
    work: Guarded<f64>,
    figures: Guarded<f64>,
    present: Guarded<u8>,
    lowest: (Guarded<f64>, Guarded<u8>),
    highest: (Guarded<f64>, Guarded<u8>),
}
impl Lists {
    /// For a trace, or for two, of which the second's readings take so many places.
    fn new(r: &mut Rng, room: Room, second: usize) -> Self {
        let mut any = |n| Guarded::new(n, || f64::from_bits(r.u64()));
        let (readings, work, figures) = ([any(room.readings), any(second)], any(room.work), any(room.figures));
        let [a, b, c, d] = room.extremes;
        let (lowest, highest) = (any(a), any(c));
        let mut bytes = |n| Guarded::new(n, || r.u64() as u8);
        Lists { readings, work, figures, present: bytes(room.present), lowest: (lowest, bytes(b)), highest: (highest, bytes(d)) }
    }
    /// What a call on one trace is lent: the readings, the work slice and the lists that take answers.
    fn lent(&mut self) -> (&mut [f64], &mut [f64], Outputs<'_>) {
        let Lists { readings, work, figures, present, lowest, highest } = self;
        let (lowest, highest) = ((lowest.0.lent(), lowest.1.lent()), (highest.0.lent(), highest.1.lent()));
        (readings[0].lent(), work.lent(), Outputs { figures: figures.lent(), present: present.lent(), lowest, highest })
    }
}
/// Of a row what its double and its byte hold, beside what they are to hold.
fn row_differs(name: &str, i: usize, lists: (&Guarded<f64>, &Guarded<u8>), wanted: Option<f64>) -> Option<String> {
    let (x, byte) = (lists.0.held()[i].to_bits(), lists.1.held()[i]);
    let wanted = wanted.map_or((0, 0), |x| (canon(x), 1));
    ((x, byte) != wanted).then(|| format!("row {i}{name}: {x:016X} {byte}, wanted {:016X} {}", wanted.0, wanted.1))
}
/// What the Rust and document 01 say: the number, the plan's row that is refused and what is to be said of it, the decoded
/// readings of each trace, the rows' answers and the doubles of work needed.
struct Wanted {
    number: u32,
    row: Option<(usize, Vec<usize>)>,
    readings: [Vec<f64>; 2],
    rows: Vec<Option<f64>>,
    /// As many as there are rows, or none where the call does not give them.
    extremes: Vec<Extremes>,
    need: usize,
}
impl Wanted {
    fn refused(number: u32) -> Self {
        Wanted { number, row: None, readings: Default::default(), rows: vec![], extremes: vec![], need: 0 }
    }
    /// What the lists of readings hold, each beside what is wanted there: the first trace's, then the second's.
    fn decoded<'a>(&'a self, after: &'a Lists) -> impl Iterator<Item = (f64, f64)> + 'a {
        let lists = after.readings.iter().zip(&self.readings);
        lists.flat_map(|(list, wanted)| list.held().iter().copied().zip(wanted.iter().copied()))
    }
    fn differs(&self, answer: &Answer, before: &Lists, after: &Lists) -> Option<String> {
        if answer.number() != self.number {
            return Some(format!("number {}, wanted {}", answer.number(), self.number));
        }
        if let Answer::Words { row, .. } = answer {
            if *row != self.row {
                return Some(format!("row and numbers {row:?}, wanted {:?}", self.row));
            }
        }
        let readings = |k: usize| before.readings[k].changed(&after.readings[k], self.readings[k].len(), |x| x.to_bits());
        let given = self.extremes.len();
        for (name, changed) in [
            ("readings", readings(0)),
            ("readings of the second trace", readings(1)),
            ("work", before.work.changed(&after.work, self.need, |x| x.to_bits())),
            ("figures", before.figures.changed(&after.figures, self.rows.len(), |x| x.to_bits())),
            ("present", before.present.changed(&after.present, self.rows.len(), |x| *x)),
            ("lowest", before.lowest.0.changed(&after.lowest.0, given, |x| x.to_bits())),
            ("bytes of lowest", before.lowest.1.changed(&after.lowest.1, given, |x| *x)),
            ("highest", before.highest.0.changed(&after.highest.0, given, |x| x.to_bits())),
            ("bytes of highest", before.highest.1.changed(&after.highest.1, given, |x| *x)),
        ] {
            if let Some(i) = changed {
                return Some(format!("wrote {name} at {i}, where it may not"));
            }
        }
        for (i, (got, x)) in self.decoded(after).enumerate() {
            if !same(got, x) {
                return Some(format!("reading {i}: {:016X}, wanted {:016X}", got.to_bits(), x.to_bits()));
            }
        }
        let figures = self.rows.iter().enumerate().find_map(|(i, row)| row_differs("", i, (&after.figures, &after.present), *row));
        let extremes = self.extremes.iter().enumerate().find_map(|(i, [low, high])| {
            let lowest = row_differs(", lowest", i, (&after.lowest.0, &after.lowest.1), *low);
            lowest.or_else(|| row_differs(", highest", i, (&after.highest.0, &after.highest.1), *high))
        });
        figures.or(extremes)
    }
}

#[derive(Default)]
struct Seen {
    /// Calls, how many of them differ and how many have each number, by entry and figure.
    calls: BTreeMap<&'static str, (u64, u64, BTreeMap<u32, u64>)>,
    /// Window sizes at which something begins, ends or wraps, of the calls that are accepted.
    sizes: BTreeMap<&'static str, BTreeMap<&'static str, u64>>,
    /// Which of two traces have a map, of the calls that are accepted, and whether a valid pair has a member that is not finite.
    pairs: BTreeMap<&'static str, BTreeMap<&'static str, u64>>,
    present: u64,
    nans: u64,
    missing: u64,
    maps: maps::Lengths,
    extremes: extremes::Tally,
    /// NaN readings decoded, and those of them whose bits are not the trace's.
    nan_readings: (u64, u64),
    /// Refused rows of a plan, and those of them that were told in words.
    refused_rows: (u64, u64),
    differing: u64,
}
impl Seen {
    fn count_size(&mut self, name: &'static str, n: usize, size: usize, centre: bool) {
        let sizes = self.sizes.entry(name).or_default();
        let edges = [("0", 0), ("1", 1), ("n", n), ("n + 1", n + 1), ("2^63", 1 << 63), ("2^64 - 1", usize::MAX)];
        for (edge, _) in edges.iter().filter(|(_, edge)| *edge == size) {
            *sizes.entry(edge).or_default() += 1;
        }
        *sizes.entry(if centre { "centred" } else { "trailing" }).or_default() += 1;
    }
    fn tell(&mut self, name: &'static str, given: impl Debug, wanted: &Wanted, answer: &Answer, before: &Lists, after: &Lists) {
        let what = wanted.differs(answer, before, after);
        self.refused_rows.0 += wanted.row.is_some() as u64;
        self.refused_rows.1 += matches!(answer, Answer::Words { row: Some(_), .. }) as u64;
        let entry = self.calls.entry(name).or_default();
        entry.0 += 1;
        *entry.2.entry(wanted.number).or_default() += 1;
        for row in &wanted.rows {
            match row {
                None => self.missing += 1,
                Some(x) if x.is_nan() => self.nans += 1,
                Some(_) => self.present += 1,
            }
        }
        let Some(what) = what else {
            for (got, x) in wanted.decoded(after).filter(|(_, x)| x.is_nan()) {
                self.nan_readings.0 += 1;
                self.nan_readings.1 += (got.to_bits() != x.to_bits()) as u64;
            }
            return;
        };
        entry.1 += 1;
        self.differing += 1;
        if self.differing <= 5 {
            let mut given = format!("{given:X?}");
            given.truncate(4000);
            println!("DIFFERS {name}: {what}; {given}");
        }
    }
}

fn plan_name(f: Figure) -> &'static str {
    match f {
        Figure::Var { .. } => "plan var",
        Figure::Skew { .. } => "plan skew",
        Figure::Kurt { .. } => "plan kurtosis",
    }
}
/// The first row that is refused, and for 5 its bounds, for 6 its end and the readings, for 7 its bounds and those before.
fn refused_row(rows: Vec<(usize, usize)>, n: usize, number: u32) -> Option<(usize, Vec<usize>)> {
    if !(5..=7).contains(&number) {
        return None;
    }
    let refusal::FirstRow { row, bounds: (s, e), prev, .. } = refusal::first_row(rows.into_iter(), n)?;
    let said = match (number, prev) {
        (5, _) => vec![s, e],
        (6, _) => vec![e, n],
        (_, prev) => prev.map_or(vec![], |(ps, pe)| vec![s, e, ps, pe]),
    };
    Some((row, said))
}
fn plan_call(seen: &mut Seen, r: &mut Rng, f: PlanFn, call: Call, room: Room) {
    let before = Lists::new(r, room, 0);
    let mut after = before.clone();
    let (readings, work, outputs) = after.lent();
    let answer = f(&call, readings, work, outputs);
    let wanted = match call.refusal(room) {
        0 => {
            let (rows, extremes) = (call.answers(), call.extremes().unwrap_or_default());
            seen.extremes.count(&call.readings(), call.map(), &call.rows(), &rows, &extremes);
            Wanted { readings: [call.readings(), vec![]], rows, extremes, need: call.need(), ..Wanted::refused(0) }
        }
        number => Wanted { row: refused_row(call.rows(), call.trace.len() / 8, number), ..Wanted::refused(number) },
    };
    seen.maps.count(&[(call.trace.len() / 8, call.map())], wanted.number);
    seen.tell(plan_name(call.figure), call, &wanted, &answer, &before, &after);
}
fn any_plan(seen: &mut Seen, r: &mut Rng, f: PlanFn) {
    let (most, count) = match r.below(200) {
        0 => (2000, 300),
        1..=20 => (300, 24),
        _ => (24, 24),
    };
    let mut case = Case::any(r, most, count);
    if case.has_map {
        case.map = maps::lent(r, case.map, case.trace.len() / 8);
    }
    if case.figure.has_extremes() {
        if r.chance(1, 2) {
            let (mut x, whole) = (case.call().readings(), case.trace.len() / 8 * 8);
            extremes::roughen(r, &mut x);
            case.trace.splice(..whole, x.iter().flat_map(|x| x.to_le_bytes()));
        }
        if r.chance(1, 12) {
            case.room.shorten_extremes(r, case.starts.len());
        }
    }
    // the bytes of a trace may start at any address
    let shift = r.below(8);
    let bytes: Vec<u8> = (0..shift as u8).chain(case.trace.iter().copied()).collect();
    let (call, room) = (Call { trace: &bytes[shift..], ..case.call() }, case.room);
    plan_call(seen, r, f, call, room);
}
/// 16,777,216 readings pass and one more is 1, also where the map is too short; as many rows pass and one more is 4, whatever the rows.
fn limits(seen: &mut Seen, r: &mut Rng, f: PlanFn) {
    let figures = [Figure::Var { ddof: 1 }, Figure::Skew { bias: false }, Figure::Kurt { fisher: true, bias: true }];
    let x: Vec<f64> = (0..LIMIT + 1).map(|i| (i % 1000) as f64 - 400.0).collect();
    let ones = vec![0xFF; LIMIT / 8 + 64];
    let far = [(0, 3), (2, 9), (LIMIT - 70, LIMIT - 60), (LIMIT - 65, LIMIT)];
    for figure in figures {
        for (n, map) in [(LIMIT, None), (LIMIT, Some(&ones[..])), (LIMIT + 1, None), (LIMIT + 1, Some(&ones[..LIMIT / 8]))] {
            let case = Case::new(figure, 1, &x[..n], map, &far);
            plan_call(seen, r, f, case.call(), case.room);
        }
    }
    let step = LIMIT / 8;
    let mut rows: Vec<(usize, usize)> = (0..LIMIT).map(|i| (i / step, i / step + 1 + i % step / (step / 2))).collect();
    for figure in figures {
        let case = Case::new(figure, 1, &x[..9], None, &rows);
        plan_call(seen, r, f, case.call(), case.room);
    }
    rows.push((9, 3));
    for figure in figures {
        let case = Case::new(figure, 1, &x[..9], None, &rows);
        plan_call(seen, r, f, case.call(), case.room);
    }
}

fn windows_name(c: &windows::Call) -> &'static str {
    match (c.weights, c.figure) {
        (Some(_), _) => "weighted",
        (_, Figure::Var { .. }) => "fixed var",
        (_, Figure::Skew { .. }) => "fixed skew",
        (_, Figure::Kurt { .. }) => "fixed kurtosis",
    }
}
fn windows_call(seen: &mut Seen, r: &mut Rng, f: WindowsFn, call: windows::Call, room: Room) {
    let before = Lists::new(r, room, 0);
    let mut after = before.clone();
    let (_, work, outputs) = after.lent();
    let answer = f(&call, work, outputs);
    let name = windows_name(&call);
    let wanted = match call.refusal(room) {
        0 => {
            let (n, rows, extremes) = (call.x.len(), call.answers(), call.extremes().unwrap_or_default());
            let bounds: Vec<(usize, usize)> = (0..n).map(|i| offsets(i, call.size, n, call.centre)).collect();
            seen.extremes.count(call.x, call.map(), &bounds, &rows, &extremes);
            Wanted { rows, extremes, need: call.need(), ..Wanted::refused(0) }
        }
        number => Wanted::refused(number),
    };
    seen.maps.count(&[(call.x.len(), call.map())], wanted.number);
    if wanted.number == 0 {
        seen.count_size(name, call.x.len(), call.size, call.centre);
    }
    let bits = |v: &[f64]| v.iter().map(|v| v.to_bits()).collect::<Vec<u64>>();
    let (x, w) = (bits(&call.x[..call.x.len().min(400)]), call.weights.map(bits));
    let given = (call.figure, call.min, call.size, call.centre, room, x, w, call.map().map(|m| &m[..m.len().min(50)]));
    seen.tell(name, given, &wanted, &answer, &before, &after);
}
/// A random call on fixed windows or weights; one in 200 is long enough for many blocks of rows.
fn any_windows(seen: &mut Seen, r: &mut Rng, f: WindowsFn, any: fn(&mut Rng, usize) -> windows::Case) {
    let most = match r.below(200) {
        0 => 2000,
        1..=20 => 300,
        _ => 24,
    };
    let mut case = any(r, most);
    if case.has_map {
        case.map = maps::lent(r, case.map, case.x.len());
    }
    if case.call().has_extremes() {
        if r.chance(1, 2) {
            extremes::roughen(r, &mut case.x);
        }
        if r.chance(1, 12) {
            case.room.shorten_extremes(r, case.x.len());
        }
    }
    windows_call(seen, r, f, case.call(), case.room);
}
/// 16,777,216 readings pass, with the largest sizes too (13 where the work is short), and one more is 1, whatever else is
/// wrong.
fn windows_limits(seen: &mut Seen, r: &mut Rng, fixed: Option<WindowsFn>, weighted: Option<WindowsFn>) {
    use windows::Case;
    let x: Vec<f64> = (0..LIMIT + 1).map(|i| (i % 1000) as f64 - 400.0).collect();
    let (ones, w) = (vec![0xFF; LIMIT / 8 + 64], [1.0, 2.0, 0.5]);
    let none = Room::default();
    let mut make = |f: Option<WindowsFn>, case: Case, room: Room| {
        if let Some(f) = f {
            windows_call(seen, r, f, case.call(), room);
        }
    };
    for (k, figure) in [Figure::Var { ddof: 1 }, Figure::Skew { bias: false }, Figure::Kurt { fisher: true, bias: true }].into_iter().enumerate() {
        let map = [None, Some(&ones[..]), None][k];
        let case = Case::new(figure, &x[..LIMIT], map, 4, 2, k == 2);
        let room = case.room;
        make(fixed, case, room);
        let case = Case { size: usize::MAX, ..Case::new(figure, &x[..LIMIT], map, 4, 2, k == 0) };
        make(fixed, case, Room { work: figure.entry() * 4, ..room });
        for map in [None, Some(&ones[..LIMIT / 8])] {
            let case = Case::new(figure, &x, map, 4, 2, false);
            let room = case.room;
            make(fixed, case.clone(), room);
            make(fixed, case, none);
        }
    }
    for centre in [false, true] {
        let case = Case::weighted(&w, &x[..LIMIT], 2, centre);
        let room = case.room;
        make(weighted, case, room);
        let case = Case::weighted(&w, &x, 2, centre);
        let room = case.room;
        make(weighted, case, room);
        let short = ones[..LIMIT / 8].to_vec();
        make(weighted, Case { has_map: true, map: short, ..Case::weighted(&[1.0, -1.0], &x, 2, centre) }, none);
    }
}

fn pairs_name(case: &pairs::Case) -> &'static str {
    match (case.decodes(), case.figure) {
        (true, PairFigure::Cov { .. }) => "pair-plan cov",
        (true, PairFigure::Pearson) => "pair-plan pearson",
        (false, PairFigure::Cov { .. }) => "pair-fixed cov",
        (false, PairFigure::Pearson) => "pair-fixed pearson",
    }
}
fn pairs_call(seen: &mut Seen, r: &mut Rng, f: PairsFn, case: &pairs::Case) {
    let [first, second] = [&case.x, &case.y].map(|trace| if case.decodes() { trace.decoded } else { 0 });
    let room = Room { readings: first, work: case.work, figures: case.figures, present: case.present, ..Room::default() };
    let before = Lists::new(r, room, second);
    let mut after = before.clone();
    let readings = after.readings.each_mut().map(Guarded::lent);
    let answer = f(case, readings, after.work.lent(), after.figures.lent(), after.present.lent());
    let (name, number) = (pairs_name(case), case.refusal());
    let mut wanted = Wanted::refused(number);
    if number == 0 {
        (wanted.rows, wanted.need) = (case.answers(), case.need());
        let counts = seen.pairs.entry(name).or_default();
        *counts.entry(case.mapped()).or_default() += 1;
        *counts.entry("with a bad pair").or_default() += case.has_bad() as u64;
    }
    match &case.windows {
        pairs::Windows::Fixed { size, centre } if number == 0 => seen.count_size(name, case.x.len(), *size, *centre),
        pairs::Windows::Fixed { .. } => {}
        pairs::Windows::Plan { .. } if number == 0 => wanted.readings = [case.x.readings(), case.y.readings()],
        pairs::Windows::Plan { .. } => wanted.row = refused_row(case.rows(), case.x.len(), number),
    }
    seen.maps.count(&[(case.x.len(), case.x.map()), (case.y.len(), case.y.map())], number);
    seen.tell(name, case, &wanted, &answer, &before, &after);
}
/// A random call on two traces, over a plan or fixed windows.
fn any_pairs(seen: &mut Seen, r: &mut Rng, f: PairsFn, plan: bool) {
    let (most, count) = match r.below(200) {
        0 => (2000, 300),
        1..=20 => (300, 24),
        _ => (24, 24),
    };
    let mut case = if plan { pairs::Case::any_plan(r, most, count) } else { pairs::Case::any_fixed(r, most) };
    for trace in [&mut case.x, &mut case.y] {
        if trace.has_map {
            trace.map = maps::lent(r, std::mem::take(&mut trace.map), trace.len());
        }
        *trace = std::mem::take(trace).shifted(r.below(8));
    }
    pairs_call(seen, r, f, &case);
}
/// 16,777,216 readings of both pass, and one more of either is 1, also where the lengths differ and a map is too short; as many rows of a
/// plan pass and one more is 4.
fn pairs_limits(seen: &mut Seen, r: &mut Rng, f: PairsFn, plan: bool) {
    use pairs::{Case, Trace};
    let x: Vec<f64> = (0..LIMIT + 1).map(|i| (i % 1000) as f64 - 400.0).collect();
    let y: Vec<f64> = (0..LIMIT + 1).map(|i| (i % 977) as f64 * 0.5).collect();
    let (ones, short) = (vec![0xFF; LIMIT / 8 + 64], vec![0xFF; LIMIT / 8]);
    let far = [(0, 3), (2, 9), (LIMIT - 70, LIMIT - 60), (LIMIT - 65, LIMIT)];
    for (figure, map) in [(PairFigure::Cov { ddof: 1 }, None), (PairFigure::Pearson, Some(&ones[..]))] {
        for (n, x_map, m, y_map) in [
            (LIMIT, None, LIMIT, map),
            (LIMIT + 1, None, LIMIT + 1, map),
            (LIMIT + 1, Some(&short[..]), LIMIT, None),
            (3, Some(&[][..]), LIMIT + 1, Some(&short[..])),
        ] {
            let (x, y) = (Trace::new(&x[..n], x_map), Trace::new(&y[..m], y_map));
            let mut case = if plan { Case::plan(figure, 1, x, y, &far) } else { Case::fixed(figure, 2, x, y, 4, map.is_some()) };
            pairs_call(seen, r, f, &case);
            if plan && n > m {
                // 14 of the second trace before 1 of the first
                case.y.edit().pop();
                pairs_call(seen, r, f, &case);
            }
        }
        if !plan {
            let case = Case::fixed(figure, 2, Trace::new(&x[..LIMIT], None), Trace::new(&y[..LIMIT], None), usize::MAX, true);
            pairs_call(seen, r, f, &Case { work: 4 * figure.entry(), ..case });
            continue;
        }
        let step = LIMIT / 8;
        let mut rows: Vec<(usize, usize)> = (0..LIMIT).map(|i| (i / step, i / step + 1 + i % step / (step / 2))).collect();
        for _ in 0..2 {
            pairs_call(seen, r, f, &Case::plan(figure, 1, Trace::new(&x[..9], None), Trace::new(&y[..9], None), &rows));
            rows.push((9, 3));
        }
    }
}

fn main() {
    let demo = std::env::args().any(|a| a == "--demo");
    let nums: Vec<u64> = std::env::args().skip(1).filter_map(|a| a.parse().ok()).collect();
    let named: Vec<String> = std::env::args().skip(1).filter(|a| a != "--demo" && a.parse::<u64>().is_err()).collect();
    let [calls, seed] = nums[..] else {
        eprintln!("usage: fuzz [--demo] CALLS SEED [plan] [fixed] [weighted] [pair-plan] [pair-fixed]");
        std::process::exit(1);
    };
    let asked = if demo { Some(second::demo()) } else { second::second() };
    let Some(Impl { plan, fixed, weighted, pairs }) = asked else {
        eprintln!("build with --features host, or give --demo");
        std::process::exit(1);
    };
    let mut kinds = vec!["plan", "fixed"];
    kinds.extend(weighted.map(|_| "weighted"));
    kinds.extend(["pair-plan", "pair-fixed"]);
    if let Some(name) = named.iter().find(|n| !kinds.contains(&n.as_str())) {
        eprintln!("no calls of {name} here, only of {kinds:?}");
        std::process::exit(1);
    }
    kinds.retain(|kind| named.is_empty() || named.iter().any(|n| n == kind));
    let mut r = Rng(seed);
    let mut seen = Seen::default();
    let (fixed, weighted) = (Some(fixed).filter(|_| kinds.contains(&"fixed")), weighted.filter(|_| kinds.contains(&"weighted")));
    if kinds.contains(&"plan") {
        limits(&mut seen, &mut r, plan);
    }
    windows_limits(&mut seen, &mut r, fixed, weighted);
    for kind in kinds.iter().filter(|kind| kind.starts_with("pair-")) {
        pairs_limits(&mut seen, &mut r, pairs, *kind == "pair-plan");
    }
    for i in 0..calls {
        match (kinds[i as usize % kinds.len()], fixed, weighted) {
            ("fixed", Some(f), _) => any_windows(&mut seen, &mut r, f, windows::Case::any),
            ("weighted", _, Some(f)) => any_windows(&mut seen, &mut r, f, windows::Case::any_weighted),
            (kind @ ("pair-plan" | "pair-fixed"), _, _) => any_pairs(&mut seen, &mut r, pairs, kind == "pair-plan"),
            _ => any_plan(&mut seen, &mut r, plan),
        }
    }
    println!("{:<20}{:>10}{:>10}  by number", "entry", "calls", "differing");
    for (name, (calls, differing, numbers)) in &seen.calls {
        println!("{name:<20}{calls:>10}{differing:>10}  {numbers:?}");
    }
    for (name, counts) in &seen.pairs {
        println!("accepted calls of {name} by their maps: {counts:?}");
    }
    for (name, sizes) in &seen.sizes {
        println!("accepted windows of {name}: {sizes:?}");
    }
    println!("{}", seen.maps);
    println!("rows that are refused: {}, told in words: {}", seen.refused_rows.0, seen.refused_rows.1);
    println!("{}", seen.extremes);
    println!("rows: {} numbers, {} NaN, {} missing", seen.present, seen.nans, seen.missing);
    println!("NaN readings decoded: {}, with bits other than the trace's: {}", seen.nan_readings.0, seen.nan_readings.1);
    println!("differing {}", seen.differing);
    std::process::exit((seen.differing > 0) as i32);
}

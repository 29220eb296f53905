//! The stored answers of the Rust (crates/vectors/data, oracle/FORMAT.md 'Word lists'), through the safe functions. NaN figures are
//! held to their bits; a NaN member of a state may be any.
use crate::lists::{bits, lent_map, Guarded, Rng};
use moments::*;
use std::fs;
use std::path::Path;

const NAN: u64 = 0x7FF8_0000_0000_0000;
const KINDS: [&str; 5] = ["var", "cov", "pearson", "skew", "kurtosis"];

fn canonical(word: u64) -> u64 {
    if f64::from_bits(word).is_nan() {
        NAN
    } else {
        word
    }
}
/// The records of a list, each without the word that counts its words.
fn records(kind: &str) -> Vec<Vec<u64>> {
    let file = Path::new(env!("CARGO_MANIFEST_DIR")).join("../crates/vectors/data").join(kind);
    let text = fs::read_to_string(&file).expect("the stored list");
    let mut words = text.split_whitespace().map(|word| u64::from_str_radix(word, 16).expect("a word"));
    let count = words.next().expect("a count") as usize;
    let mut records = Vec::new();
    while let Some(length) = words.next() {
        let record: Vec<u64> = words.by_ref().take(length as usize - 1).collect();
        assert_eq!(record.len() as u64 + 1, length);
        records.push(record);
    }
    assert_eq!(records.len(), count, "records of {kind}");
    assert!(count >= 190);
    records
}
fn doubles(words: &[u64]) -> Vec<f64> {
    words.iter().map(|word| f64::from_bits(*word)).collect()
}
fn bytes(words: &[u64]) -> Vec<u8> {
    words.iter().map(|word| *word as u8).collect()
}
/// A state's members out of six words.
fn members<const N: usize>(words: &[u64]) -> [f64; N] {
    std::array::from_fn(|i| f64::from_bits(words[i]))
}
fn padded<const N: usize>(members: [f64; N]) -> Vec<u64> {
    let mut words: Vec<u64> = members.iter().map(|x| canonical(x.to_bits())).collect();
    words.resize(6, 0);
    words
}
fn number<T>(result: &Result<T, Refusal>) -> u64 {
    result.as_ref().map_or_else(|refusal| refusal.number().into(), |_| 0)
}

#[test]
fn roots() {
    for record in records("root") {
        assert_eq!(root(f64::from_bits(record[0])).to_bits(), record[1], "root of {:016X}", record[0]);
    }
}

#[test]
fn inserts() {
    for (i, r) in records("insert").iter().enumerate() {
        let (x, y) = (f64::from_bits(r[7]), f64::from_bits(r[8]));
        let s = &r[1..7];
        let made = match KINDS[r[0] as usize] {
            "var" => padded::<3>(VarState::from(members(s)).insert_one(x).into()),
            "cov" => padded::<4>(CovState::from(members(s)).insert_one(x, y).into()),
            "pearson" => padded::<6>(PearsonState::from(members(s)).insert_one(x, y).into()),
            "skew" => padded::<4>(SkewState::from(members(s)).insert_one(x).into()),
            _ => padded::<5>(KurtosisState::from(members(s)).insert_one(x).into()),
        };
        assert_eq!(made, r[9..15], "record {i}");
    }
}

#[test]
fn combines() {
    for (i, r) in records("combine").iter().enumerate() {
        let (a, b) = (&r[1..7], &r[7..13]);
        let made = match KINDS[r[0] as usize] {
            "var" => padded::<3>(VarState::from(members(a)).combine(members(b).into()).into()),
            "cov" => padded::<4>(CovState::from(members(a)).combine(members(b).into()).into()),
            "pearson" => padded::<6>(PearsonState::from(members(a)).combine(members(b).into()).into()),
            "skew" => padded::<4>(SkewState::from(members(a)).combine(members(b).into()).into()),
            _ => padded::<5>(KurtosisState::from(members(a)).combine(members(b).into()).into()),
        };
        assert_eq!(made, r[13..19], "record {i}");
    }
}

#[test]
fn finalizes() {
    for (i, r) in records("finalize").iter().enumerate() {
        let (s, ddof, bias, fisher) = (&r[1..7], r[7] as u8, r[8] == 1, r[9] == 1);
        let figure = match KINDS[r[0] as usize] {
            "var" => VarState::from(members(s)).finalize(ddof),
            "cov" => CovState::from(members(s)).finalize(ddof),
            "pearson" => Some(PearsonState::from(members(s)).finalize()),
            "skew" => SkewState::from(members(s)).finalize(bias),
            _ => KurtosisState::from(members(s)).finalize(fisher, bias),
        };
        assert_eq!(figure.map_or((0, 0), |x| (1, x.to_bits())), (r[10], r[11]), "record {i}");
    }
}

/// What a record of whole or range gives: traces, maps, the number and the state's members.
struct Arrays {
    x: Vec<f64>,
    x_map: Option<Vec<u8>>,
    y: Vec<f64>,
    y_map: Option<Vec<u8>>,
    start: usize,
    length: usize,
    number: u64,
    members: Vec<u64>,
}
impl Arrays {
    fn of(r: &[u64]) -> Self {
        let [n, has_map, map, m, other_has_map, other_map, start, length] = std::array::from_fn(|i| r[1 + i] as usize);
        let mut at = 22;
        let mut list = |length: usize| {
            at += length;
            &r[at - length..at]
        };
        let (x, x_map, y, y_map) = (doubles(list(n)), bytes(list(map)), doubles(list(m)), bytes(list(other_map)));
        Arrays {
            x,
            x_map: (has_map == 1).then_some(x_map),
            y,
            y_map: (other_has_map == 1).then_some(y_map),
            start,
            length,
            number: r[15],
            members: r[16..22].to_vec(),
        }
    }
    fn check(&self, i: usize, result: Result<Vec<u64>, Refusal>) {
        assert_eq!(number(&result), self.number, "record {i}");
        if let Ok(members) = result {
            assert_eq!(members, self.members, "record {i}");
        }
    }
}

#[test]
fn whole_arrays() {
    for (i, r) in records("whole").iter().enumerate() {
        let a = Arrays::of(r);
        let (x, x_map, y, y_map) = (&a.x[..], a.x_map.as_deref(), &a.y[..], a.y_map.as_deref());
        a.check(
            i,
            match KINDS[r[0] as usize] {
                "var" => var(x, x_map).map(|s| padded::<3>(s.into())),
                "cov" => cov(x, x_map, y, y_map).map(|s| padded::<4>(s.into())),
                "pearson" => pearson_corr(x, x_map, y, y_map).map(|s| padded::<6>(s.into())),
                "skew" => skew(x, x_map).map(|s| padded::<4>(s.into())),
                _ => kurtosis(x, x_map).map(|s| padded::<5>(s.into())),
            },
        );
    }
}

#[test]
fn ranges() {
    for (i, r) in records("range").iter().enumerate() {
        let a = Arrays::of(r);
        let (x, map) = (&a.x[..], a.x_map.as_deref());
        a.check(
            i,
            match KINDS[r[0] as usize] {
                "skew" => skew_range(x, map, a.start, a.length).map(|s| padded::<4>(s.into())),
                _ => kurtosis_range(x, map, a.start, a.length).map(|s| padded::<5>(s.into())),
            },
        );
    }
}

/// What a record on windows gives beside its lists.
struct Windows<'a> {
    record: &'a [u64],
    setting: Setting,
    has_map: bool,
    number: u64,
    /// Doubles of work that may hold anything after the call.
    free: usize,
}
impl<'a> Windows<'a> {
    fn of(record: &'a [u64]) -> Self {
        let [figure, ddof, bias, fisher] = std::array::from_fn(|i| record[i]);
        let setting: Setting = match figure {
            1 => Setting::skew(bias == 1).into(),
            2 => Setting::kurtosis(fisher == 1, bias == 1).into(),
            _ => Setting::var(ddof as u8).into(),
        };
        let (setting, has_map) = (setting.min_periods(record[4] as usize), record[5] == 1);
        Windows { record, setting, has_map, number: record[6], free: record[7] as usize }
    }
    /// The two numbers of a list, by its place among them.
    fn pair(&self, k: usize) -> (usize, usize) {
        (self.record[8 + 2 * k] as usize, self.record[9 + 2 * k] as usize)
    }
    /// A list's words; a record's words count from the one that is not here.
    fn list(&self, k: usize) -> &'a [u64] {
        let (at, length) = self.pair(k);
        &self.record[at - 1..at - 1 + length]
    }
    /// What a lent list holds before the call.
    fn held(&self, length: usize) -> &'a [u64] {
        let at = self.pair(4).0 - 1;
        &self.record[at..at + length]
    }
    /// The lists after the call are those of the record, and nothing else was written.
    fn check<T>(&self, i: usize, result: Result<T, Refusal>, lent: &Lent) {
        assert_eq!(number(&result), self.number, "record {i}");
        lent.work.check("work", self.free);
        for (k, (values, present)) in lent.columns.iter().enumerate() {
            assert_eq!(bits(values.held()), self.list(6 + 2 * k), "record {i}, column {k}");
            assert_eq!(bits(present.held()), self.list(7 + 2 * k), "record {i}, column {k}");
            let answered = |length: usize| if result.is_ok() { length } else { 0 };
            values.check("values", answered(values.held().len()));
            present.check("present", answered(present.held().len()));
        }
    }
}
/// The lists that a record's call is lent. Those of the variance without weights have three columns: itself, lowest, highest.
struct Lent {
    work: Guarded<f64>,
    columns: Vec<(Guarded<f64>, Guarded<u8>)>,
}
impl Lent {
    fn new(rng: &mut Rng, w: &Windows, columns: usize) -> Self {
        let mut column = |k: usize| {
            let [values, present] = [6, 7].map(|list| w.pair(list + 2 * k).1);
            (Guarded::holding(rng, w.held(values)), Guarded::holding(rng, w.held(present)))
        };
        let columns = (0..columns).map(&mut column).collect();
        Lent { work: Guarded::holding(rng, w.held(w.pair(4).1)), columns }
    }
    fn lists(&mut self) -> Lists<'_> {
        let Lent { work, columns } = self;
        let (figures, present) = &mut columns[0];
        Lists { work: work.lend(), figures: figures.lend(), present: present.lend() }
    }
    fn var_lists(&mut self) -> VarLists<'_> {
        let Lent { work, columns } = self;
        let mut columns = columns.iter_mut().map(|(values, present)| Column::new(values.lend(), present.lend()));
        let [variance, lowest, highest] = std::array::from_fn(|_| columns.next().expect("three columns"));
        VarLists { work: work.lend(), variance, lowest, highest }
    }
}
/// How many columns the call of a figure writes.
fn columns(setting: Setting) -> usize {
    match setting.figure {
        Figure::Var(_) => 3,
        Figure::Shape(_) => 1,
    }
}

#[test]
fn plans() {
    let (mut rng, mut seen) = (Rng(1), [0; 4]);
    for (i, record) in records("plan").iter().enumerate() {
        let w = Windows::of(record);
        let (at, length) = w.pair(0);
        let trace: Vec<u8> = record[at - 1..].iter().flat_map(|word| word.to_le_bytes()).take(length).collect();
        let map = bytes(w.list(1));
        let [starts, ends] = [2, 3].map(|k| w.list(k).iter().map(|word| *word as u32).collect::<Vec<u32>>());
        let mut lent = Lent::new(&mut rng, &w, columns(w.setting));
        let mut readings = Guarded::holding(&mut rng, w.held(w.pair(5).1));
        let (plan, map, Setting { figure, min_periods }) = (Plan::new(&starts, &ends), lent_map(w.has_map, &map), w.setting);
        let result = match figure {
            Figure::Var(figure) => {
                plan_var_into(&trace, readings.lend(), map, plan, Setting { figure, min_periods }, lent.var_lists())
            }
            Figure::Shape(figure) => plan_into(&trace, readings.lend(), map, plan, Setting { figure, min_periods }, lent.lists()),
        };
        w.check(i, result, &lent);
        readings.check("readings", if result.is_ok() { trace.len() / 8 } else { 0 });
        assert_eq!(bits(readings.held()), w.list(5), "record {i}");
        if w.number == 0 {
            let answers = moments::plan(&decoded(&trace), map, plan, w.setting).expect("accepted");
            assert_eq!(answers.len(), starts.len());
            w.check_answers(i, 0, &answers);
            if let Figure::Var(figure) = figure {
                let answers = plan_var(&decoded(&trace), map, plan, Setting { figure, min_periods }).expect("accepted");
                w.check_all(i, &answers, &mut seen);
            }
        }
    }
    assert!([0, 2, 3].iter().all(|kind| seen[*kind] > 100), "{seen:?} rows have nothing, the variance, the extremes, all");
}
fn decoded(bytes: &[u8]) -> Vec<f64> {
    bytes.chunks_exact(8).map(|b| f64::from_le_bytes(std::array::from_fn(|i| b[i]))).collect()
}
impl Windows<'_> {
    /// The answers of a column.
    fn check_answers(&self, i: usize, column: usize, answers: &[Option<f64>]) {
        for (row, answer) in answers.iter().enumerate() {
            let wanted = (self.list(6 + 2 * column)[row], self.list(7 + 2 * column)[row]);
            assert_eq!(answer.map_or((0, 0), |x| (x.to_bits(), 1)), wanted, "record {i}, row {row}, column {column}");
        }
    }
    /// Those of all three, with a count of rows by what they have.
    fn check_all(&self, i: usize, answers: &[Answer], seen: &mut [usize; 4]) {
        self.check_answers(i, 0, &answers.iter().map(|answer| answer.variance).collect::<Vec<_>>());
        self.check_answers(i, 1, &answers.iter().map(|answer| answer.lowest).collect::<Vec<_>>());
        self.check_answers(i, 2, &answers.iter().map(|answer| answer.highest).collect::<Vec<_>>());
        for Answer { variance, lowest, highest } in answers {
            assert_eq!(lowest.is_some(), highest.is_some());
            seen[usize::from(variance.is_some()) + 2 * usize::from(lowest.is_some())] += 1;
        }
    }
}

#[test]
fn fixed_windows() {
    let (mut rng, mut seen) = (Rng(2), [0; 4]);
    for (i, record) in records("fixed").iter().enumerate() {
        let w = Windows::of(record);
        let (trace, map) = (doubles(w.list(0)), bytes(w.list(1)));
        let (size, center) = w.pair(3);
        let (window, Setting { figure, min_periods }) = (Window { size, center: center == 1 }, w.setting);
        let (mut lent, map) = (Lent::new(&mut rng, &w, columns(w.setting)), lent_map(w.has_map, &map));
        let result = match figure {
            Figure::Var(figure) => rolling_var_into(&trace, map, window, Setting { figure, min_periods }, lent.var_lists()),
            Figure::Shape(figure) => rolling_into(&trace, map, window, Setting { figure, min_periods }, lent.lists()),
        };
        w.check(i, result, &lent);
        if w.number == 0 {
            let answers = rolling(&trace, map, window, w.setting).expect("accepted");
            assert_eq!(answers.len(), trace.len());
            w.check_answers(i, 0, &answers);
            if let Figure::Var(figure) = figure {
                let answers = rolling_var(&trace, map, window, Setting { figure, min_periods }).expect("accepted");
                w.check_all(i, &answers, &mut seen);
            }
        }
    }
    assert!([0, 2, 3].iter().all(|kind| seen[*kind] > 100), "{seen:?} rows have nothing, the variance, the extremes, all");
}

#[test]
fn weights() {
    let mut rng = Rng(3);
    for (i, record) in records("weighted").iter().enumerate() {
        let w = Windows::of(record);
        let (trace, map, weights) = (doubles(w.list(0)), bytes(w.list(1)), doubles(w.list(2)));
        let (size, center) = w.pair(3);
        let (window, min) = (Window { size, center: center == 1 }, w.setting.min_periods);
        let (mut lent, map) = (Lent::new(&mut rng, &w, 1), lent_map(w.has_map, &map));
        let Lists { figures, present, .. } = lent.lists();
        let result = rolling_var_weights_into(&trace, map, window, min, &weights, figures, present);
        w.check(i, result, &lent);
        if w.number == 0 {
            let answers = rolling_var_weights(&trace, map, window, min, &weights).expect("accepted");
            assert_eq!(answers.len(), trace.len());
            w.check_answers(i, 0, &answers);
        }
    }
}

//! The lowest and the highest reading of windows: what is given and what is missing, by hand, and random calls against every place of
//! every window looked at afresh.
use crate::lists::{bytes_of, Lengths, Rng};
use moments::*;

/// What a row should have: whether there is a variance, and the bits of lowest and highest.
type Wanted = (bool, [Option<u64>; 2]);

/// By document 02's sentences: over the valid places of the window whose reading is finite, zeros as +0.0; without a map nothing where the
/// row is shorter than the minimum.
fn wanted(trace: &[f64], map: Option<&[u8]>, (start, end): (usize, usize), setting: Setting<Var>) -> Wanted {
    let valid: Vec<f64> = (start..end).filter(|place| is_valid(map, *place)).map(|place| trace[place]).collect();
    let (enough, ddof) = (valid.len() >= setting.min_periods, setting.figure.ddof.into());
    if map.is_none() && !enough {
        return (false, [None; 2]);
    }
    let mut finite: Vec<f64> = valid.iter().copied().filter(|x| x.is_finite()).collect();
    finite.sort_by(f64::total_cmp);
    let bits = |x: Option<&f64>| x.map(|x| if *x == 0.0 { 0 } else { x.to_bits() });
    (enough && valid.len() > ddof, [bits(finite.first()), bits(finite.last())])
}
/// Where a fixed window's row starts and ends: so many places before its own, and so many from its own on.
fn bounds(Window { size, center }: Window, n: usize, row: usize) -> (usize, usize) {
    let from_own = if center { size.div_ceil(2) } else { size.min(1) };
    (row.saturating_sub(size - from_own), row.saturating_add(from_own).min(n))
}
fn found(Answer { variance, lowest, highest }: Answer) -> Wanted {
    (variance.is_some(), [lowest, highest].map(|x| x.map(f64::to_bits)))
}

/// Numbers, zeros of both signs, the smallest and the largest there are, and what is not finite.
fn any_reading(rng: &mut Rng, kinds: u64) -> f64 {
    let special = [0.0, -0.0, 5e-324, -5e-324, f64::MAX, f64::MIN, f64::NAN, -f64::NAN, f64::INFINITY, f64::NEG_INFINITY];
    match rng.word() % kinds {
        0 => special[rng.word() as usize % special.len()],
        1 => f64::from_bits(0x7FF0_0000_0000_0001 | rng.word()),
        _ => (rng.word() % 64) as f64 / 8.0 - 7.0,
    }
}
/// No map, one of ones, one with bytes behind, one of noise, one of zeros.
fn any_map(rng: &mut Rng, n: usize) -> Option<Vec<u8>> {
    let bytes = n.div_ceil(8) + if rng.word() % 2 == 0 { 0 } else { (rng.word() % 9) as usize };
    match rng.word() % 5 {
        0 | 1 => None,
        2 => Some(vec![0xFF; bytes]),
        3 => Some((0..bytes).map(|_| rng.word() as u8 | rng.word() as u8).collect()),
        _ => Some((0..bytes).map(|_| if rng.word() % 2 == 0 { 0 } else { rng.word() as u8 }).collect()),
    }
}
/// Rows whose starts and ends do not fall, some of them empty.
fn any_rows(rng: &mut Rng, n: usize) -> (Vec<u32>, Vec<u32>) {
    let mut starts: Vec<usize> = (0..12).map(|_| rng.word() as usize % (n + 1)).collect();
    starts.sort_unstable();
    let mut last = 0;
    let rows = starts.into_iter().map(|start| {
        last = (start + rng.word() as usize % 9).max(last).min(n);
        (start as u32, last as u32)
    });
    rows.unzip()
}

#[test]
fn random_calls_answer_as_every_place_looked_at() {
    let mut rng = Rng(4);
    // rows by what they have: neither, variance alone, extremes alone, all
    let mut seen = [[0; 4]; 2];
    for call in 0..3000 {
        let n = (rng.word() % if call % 10 == 0 { 150 } else { 20 }) as usize;
        let kinds = [1, 2, 3, 9][rng.word() as usize % 4];
        let trace: Vec<f64> = (0..n).map(|_| any_reading(&mut rng, kinds)).collect();
        let map = any_map(&mut rng, n);
        let map = map.as_deref();
        let ddof = [0, 1, 2, 255][rng.word() as usize % 4];
        let min = [0, 1, 2, 5, 21, usize::MAX][rng.word() as usize % 6];
        let setting = Setting::var(ddof).min_periods(min);
        let (starts, ends) = any_rows(&mut rng, n);
        let (plan, more) = (Plan::new(&starts, &ends), (rng.word() % 3) as usize);
        let answers = plan_var(&trace, map, plan, setting).expect("accepted");
        for (row, (answer, (start, end))) in answers.iter().zip(plan.rows()).enumerate() {
            let wanted = wanted(&trace, map, (start as usize, end as usize), setting);
            assert_eq!(found(*answer), wanted, "row {row} of {trace:?}, map {map:02X?}, {plan:?}, {setting:?}");
            seen[0][usize::from(wanted.0) + 2 * usize::from(wanted.1[0].is_some())] += 1;
        }
        assert_eq!(answers.len(), starts.len());
        held_as_answered(&answers, &{
            let needed = ([n, 0], setting.work(plan.widest()), starts.len());
            let lent = Lengths::longer(needed, more);
            lent.plan(needed, (&bytes_of(&trace), map), plan, setting.into()).expect("accepted").split_off(n + more)
        });

        let size = [0, 1, 2, 3, 7, n, n + 1, usize::MAX][rng.word() as usize % 8];
        let window = Window { size, center: rng.word() % 2 == 0 };
        let answers = rolling_var(&trace, map, window, setting).expect("accepted");
        for (row, answer) in answers.iter().enumerate() {
            let wanted = wanted(&trace, map, bounds(window, n, row), setting);
            assert_eq!(found(*answer), wanted, "row {row} of {trace:?}, map {map:02X?}, {window:?}, {setting:?}");
            seen[1][usize::from(wanted.0) + 2 * usize::from(wanted.1[0].is_some())] += 1;
        }
        assert_eq!(answers.len(), n);
        held_as_answered(&answers, &{
            let needed = ([0; 2], setting.work(size.min(n)), n);
            Lengths { readings: [0; 2], ..Lengths::longer(needed, more) }
                .rolling(needed, (&trace, map), window, setting.into())
                .expect("accepted")
        });
    }
    assert!(seen.iter().flatten().all(|rows| *rows > 400), "{seen:?}");
}
/// The six lists, one behind another, hold the answers: +0.0 and 0 where one is missing.
fn held_as_answered(answers: &[Answer], held: &[u64]) {
    let length = held.len() / 6;
    let lists: Vec<&[u64]> = (0..6).map(|k| &held[k * length..(k + 1) * length]).collect();
    for (row, Answer { variance, lowest, highest }) in answers.iter().enumerate() {
        for (k, answer) in [variance, lowest, highest].into_iter().enumerate() {
            let held = (lists[2 * k][row], lists[2 * k + 1][row]);
            assert_eq!(held, answer.map_or((0, 0), |x| (x.to_bits(), 1)), "row {row}, column {k}");
        }
    }
}

/// The answers of one row over a whole trace.
fn of_all(trace: &[f64], map: Option<&[u8]>, setting: Setting<Var>) -> Wanted {
    found(plan_var(trace, map, Plan::new(&[0], &[trace.len() as u32]), setting).expect("accepted")[0])
}
fn both(lowest: f64, highest: f64) -> [Option<u64>; 2] {
    [lowest, highest].map(|x| Some(x.to_bits()))
}

#[test]
fn what_enters_for_a_bad_reading_does_not_show() {
    for bad in [f64::NAN, -f64::NAN, f64::INFINITY, f64::NEG_INFINITY] {
        assert_eq!(of_all(&[-18.0, bad, -17.0], None, Setting::var(1)), (true, both(-18.0, -17.0)));
        assert_eq!(of_all(&[bad, 3.0, 9.0], None, Setting::var(1)), (true, both(3.0, 9.0)));
        // a window of nothing else has a variance, NaN, and neither lowest nor highest
        assert_eq!(of_all(&[bad; 3], None, Setting::var(1)), (true, [None; 2]));
        // nor does what a place that is not valid holds
        assert_eq!(of_all(&[-18.0, bad, 50.0], Some(&[0b011]), Setting::var(1)), (true, both(-18.0, -18.0)));
    }
}

#[test]
fn a_zero_of_either_sign_is_plus_zero() {
    for zeros in [[0.0, -0.0], [-0.0, 0.0], [-0.0, -0.0]] {
        assert_eq!(of_all(&zeros, None, Setting::var(0)), (true, both(0.0, 0.0)));
    }
    assert_eq!(of_all(&[-0.0, 5e-324], None, Setting::var(0)), (true, both(0.0, 5e-324)));
    assert_eq!(of_all(&[-5e-324, -0.0], None, Setting::var(0)), (true, both(-5e-324, 0.0)));
    assert_eq!(of_all(&[f64::MAX, f64::MIN], None, Setting::var(0)), (true, both(f64::MIN, f64::MAX)));
}

#[test]
fn they_are_given_where_the_variance_is_missing() {
    let trace = [4.0, 2.0, 8.0];
    // at most ddof
    assert_eq!(of_all(&trace, None, Setting::var(3)), (false, both(2.0, 8.0)));
    assert_eq!(of_all(&trace, None, Setting::var(255).min_periods(0)), (false, both(2.0, 8.0)));
    assert_eq!(of_all(&trace, Some(&[0b111]), Setting::var(255)), (false, both(2.0, 8.0)));
    // below the minimum with a map, be it of ones
    assert_eq!(of_all(&trace, Some(&[0b111]), Setting::var(0).min_periods(4)), (false, both(2.0, 8.0)));
    assert_eq!(of_all(&trace, Some(&[0b101]), Setting::var(0).min_periods(usize::MAX)), (false, both(4.0, 8.0)));
    // and not without one, nor where there is no reading
    assert_eq!(of_all(&trace, None, Setting::var(0).min_periods(4)), (false, [None; 2]));
    assert_eq!(of_all(&trace, Some(&[0]), Setting::var(0).min_periods(0)), (false, [None; 2]));
    assert_eq!(of_all(&[], None, Setting::var(0).min_periods(0)), (false, [None; 2]));
}

/// Rows that are shorter than the minimum at the beginning, row 0 among them, in the middle and at the end.
#[test]
fn a_row_without_a_map_that_is_shorter_than_the_minimum_has_none() {
    let trace = [1.0, 5.0, 3.0, 9.0, 7.0, 2.0];
    let rows = Plan::new(&[0, 0, 2, 2, 2, 5], &[1, 3, 3, 5, 6, 6]);
    let extremes = |map| -> Vec<[Option<u64>; 2]> {
        let answers = plan_var(&trace, map, rows, Setting::var(0).min_periods(2)).expect("accepted");
        answers.into_iter().map(|answer| found(answer).1).collect()
    };
    let (first, middle, last) = (both(1.0, 1.0), both(3.0, 3.0), both(2.0, 2.0));
    let long = [both(1.0, 5.0), both(3.0, 9.0), both(2.0, 9.0)];
    assert_eq!(extremes(None), [[None; 2], long[0], [None; 2], long[1], long[2], [None; 2]]);
    assert_eq!(extremes(Some(&[0xFF])), [first, long[0], middle, long[1], long[2], last]);
}

#[test]
fn the_variance_alone_is_that_of_all_three() {
    let (trace, map) = ([1.5, f64::NAN, 2.25, -4.0, 0.1, 7.0], [0b11_1101]);
    let (rows, window, setting) = (Plan::new(&[0, 0, 2, 3], &[2, 4, 6, 6]), Window::centered(3), Setting::var(1).min_periods(2));
    let words = |list: Vec<Option<f64>>| list.into_iter().map(|x| x.map(f64::to_bits)).collect::<Vec<_>>();
    let variances = |answers: Vec<Answer>| words(answers.into_iter().map(|answer| answer.variance).collect());
    for map in [None, Some(&map[..])] {
        let all = variances(plan_var(&trace, map, rows, setting).expect("accepted"));
        assert_eq!(words(plan(&trace, map, rows, setting).expect("accepted")), all);
        let all = variances(rolling_var(&trace, map, window, setting).expect("accepted"));
        assert_eq!(words(rolling(&trace, map, window, setting).expect("accepted")), all);
        assert!(all.iter().any(Option::is_some));
    }
}

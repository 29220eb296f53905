//! 16,777,216 readings, and as many rows, are taken; one more is refused, and nothing is written.
use crate::lists::{Lengths, Needed};
use moments::*;

fn over(readings: usize) -> Refusal {
    over_of(Which::Only, readings)
}
fn over_of(trace: Which, readings: usize) -> Refusal {
    Refusal::TooManyReadings { trace, readings }
}
/// 0 and 1 in turn, one more than are taken.
fn one_more() -> Vec<f64> {
    (0..=MOST).map(|i| (i % 2) as f64).collect()
}
/// Each figure of a window of 0 and 1.
const FIGURES: [(Setting, f64); 3] = [
    (Setting { figure: Figure::Var(Var { ddof: 0 }), min_periods: 1 }, 0.25),
    (Setting { figure: Figure::Shape(Shape::Skew { bias: true }), min_periods: 1 }, 0.0),
    (Setting { figure: Figure::Shape(Shape::Kurtosis { fisher: true, bias: true }), min_periods: 1 }, -2.0),
];
/// Each figure of a window of 0 and 1 in both traces.
const PAIR_FIGURES: [(Setting<PairFigure>, f64); 2] = [
    (Setting { figure: PairFigure::Cov { ddof: 0 }, min_periods: 2 }, 0.25),
    (Setting { figure: PairFigure::PearsonCorr, min_periods: 2 }, 1.0),
];
const LENT: Lengths = Lengths { readings: [3, 4], work: 24, figures: 2, present: 2, extremes: [2; 4] };
/// Of a call on lists of any bits none may change.
const NOTHING: Needed = ([0; 2], 0, 0);
fn refused(result: Result<Vec<u64>, Refusal>) -> Result<(), Refusal> {
    result.map(|held| panic!("accepted: {held:?}"))
}
fn kept(call: impl FnOnce([&mut [f64]; 2], Lists) -> Result<(), Refusal>) -> Result<(), Refusal> {
    refused(LENT.run(NOTHING, call))
}

#[test]
fn readings_of_arrays() {
    let trace = one_more();
    let (most, map) = (&trace[..MOST], vec![0xFF; MOST / 8]);
    let map = Some(&map[..]);
    assert_eq!(var(most, None).map(|s| (s.weight, s.finalize(0))), Ok((MOST as f64, Some(0.25))));
    assert_eq!(skew(most, map).map(|s| s.weight), Ok(MOST as f64));
    assert_eq!(kurtosis(most, None).map(|s| s.weight), Ok(MOST as f64));
    assert_eq!(cov(most, map, most, None).map(|s| s.finalize(0)), Ok(Some(0.25)));
    assert_eq!(pearson_corr(most, None, most, map).map(|s| s.finalize()), Ok(1.0));
    assert_eq!(skew_range(most, None, MOST, 0).map(|s| s.weight), Ok(0.0));
    assert_eq!(kurtosis_range(most, map, MOST - 2, 2).map(|s| s.weight), Ok(2.0));
    let one_more = Err(over(MOST + 1));
    assert_eq!(var(&trace, None).map(drop), one_more);
    assert_eq!(skew(&trace, map).map(drop), one_more);
    assert_eq!(kurtosis(&trace, None).map(drop), one_more);
    assert_eq!(cov(&trace, map, &trace, None).map(drop), Err(over_of(Which::First, MOST + 1)));
    assert_eq!(cov(&trace, map, most, None).map(drop), Err(over_of(Which::First, MOST + 1)));
    assert_eq!(pearson_corr(most, None, &trace, map).map(drop), Err(over_of(Which::Second, MOST + 1)));
    assert_eq!(skew_range(&trace, None, 0, 1).map(drop), one_more);
    assert_eq!(kurtosis_range(&trace, map, usize::MAX, 1).map(drop), one_more);
}

#[test]
fn readings_of_fixed_windows() {
    let trace = one_more();
    for (setting, wanted) in FIGURES {
        let answers = rolling(&trace[..MOST], None, Window::trailing(2), setting).expect("as many as are taken");
        assert_eq!((answers.len(), answers[1], answers[MOST - 1]), (MOST, Some(wanted), Some(wanted)));
        drop(answers);
        assert_eq!(rolling(&trace, None, Window::trailing(2), setting).map(drop), Err(over(MOST + 1)));
        assert_eq!(refused(LENT.rolling(NOTHING, (&trace, None), Window::trailing(2), setting)), Err(over(MOST + 1)));
    }
    let answers = rolling_var_weights(&trace[..MOST], None, Window::trailing(2), 2, &[1.0, 1.0]).expect("as many as are taken");
    assert_eq!((answers[0], answers[MOST - 1]), (None, Some(0.25)));
    assert_eq!(rolling_var_weights(&trace, None, Window::trailing(2), 2, &[1.0]).map(drop), Err(over(MOST + 1)));
    let result = kept(|_, Lists { figures, present, .. }| {
        rolling_var_weights_into(&trace, None, Window::trailing(2), 2, &[1.0], figures, present)
    });
    assert_eq!(result, Err(over(MOST + 1)));
}

#[test]
fn readings_of_fixed_windows_over_two_traces() {
    let trace = one_more();
    let (most, window, map) = (&trace[..MOST], Window::trailing(2), vec![0xFF; MOST / 8]);
    for (setting, wanted) in PAIR_FIGURES {
        let answers = rolling_pair(most, None, most, Some(&map), window, setting).expect("as many as are taken");
        assert_eq!((answers.len(), answers[0], answers[MOST - 1]), (MOST, None, Some(wanted)));
        drop(answers);
        // before 2 and 3, of either trace
        let too_many = [(&trace[..], most, Which::First), (most, &trace, Which::Second), (&trace, &trace, Which::First)];
        for (x, y, which) in too_many {
            let one_more = Err(over_of(which, MOST + 1));
            assert_eq!(rolling_pair(x, Some(&[]), y, Some(&[]), window, setting).map(drop), one_more);
            assert_eq!(kept(|_, lists| rolling_pair_into(x, Some(&[]), y, None, window, setting, lists)), one_more);
        }
    }
}

#[test]
fn readings_of_plans_over_two_traces() {
    let trace = one_more();
    let most = &trace[..MOST];
    let rows = Plan::new(&[0, MOST as u32 - 2], &[2, MOST as u32]);
    let bytes = vec![0; 8 * MOST + 9];
    for (setting, wanted) in PAIR_FIGURES {
        assert_eq!(plan_pair(most, None, most, None, rows, setting), Ok(vec![Some(wanted); 2]));
        assert_eq!(plan_pair(most, None, &trace, None, rows, setting), Err(over_of(Which::Second, MOST + 1)));
        // 14 of either comes first, then 1 of either, before 2 and all that is wrong with the plan
        let lengths = [
            (8 * MOST + 8, 9, Refusal::TraceBytes { trace: Which::Second, bytes: 9 }),
            (8 * MOST + 9, 8 * MOST + 8, Refusal::TraceBytes { trace: Which::First, bytes: 8 * MOST + 9 }),
            (8 * MOST + 8, 8, over_of(Which::First, MOST + 1)),
            (0, 8 * MOST + 8, over_of(Which::Second, MOST + 1)),
        ];
        for (first, second, refusal) in lengths {
            let result = kept(|[x_readings, y_readings], lists| {
                let x = Encoded { bytes: &bytes[..first], readings: x_readings, map: Some(&[]) };
                let y = Encoded { bytes: &bytes[..second], readings: y_readings, map: None };
                plan_pair_into(x, y, Plan::new(&[3], &[2]), setting, lists)
            });
            assert_eq!(result, Err(refusal));
        }
    }
    // a window of all of them, by the figure that needs most work
    let all = Plan::new(&[0], &[MOST as u32]);
    assert_eq!(plan_pair(most, None, most, None, all, Setting::pearson_corr()), Ok(vec![Some(1.0)]));
}

#[test]
fn readings_of_plans() {
    let trace = one_more();
    let rows = Plan::new(&[0, MOST as u32 - 2], &[2, MOST as u32]);
    let bytes = vec![0; 8 * MOST + 8];
    for (setting, wanted) in FIGURES {
        let result = LENT.plan(NOTHING, (&bytes, None), Plan::new(&[3], &[2]), setting);
        assert_eq!(refused(result), Err(over(MOST + 1)));
        assert_eq!(plan(&trace[..MOST], None, rows, setting), Ok(vec![Some(wanted); 2]));
        assert_eq!(plan(&trace, None, Plan::new(&[3], &[2]), setting), Err(over(MOST + 1)));
    }
    // a window of all of them, by the figures that need most work
    let rows = Plan::new(&[0], &[MOST as u32]);
    assert_eq!(plan(&trace[..MOST], None, rows, Setting::kurtosis(true, true)), Ok(vec![Some(-2.0)]));
    let all = Answer { variance: Some(0.25), lowest: Some(0.0), highest: Some(1.0) };
    assert_eq!(plan_var(&trace[..MOST], None, rows, Setting::var(0)), Ok(vec![all]));
}

/// A reading that has left the window does not show in any of the rows behind.
#[test]
fn extremes_of_fixed_windows() {
    // falling from the first place on, but for a last one above all
    let (mut trace, size): (Vec<f64>, usize) = ((0..MOST).map(|i| -(i as f64)).collect(), 96);
    trace[MOST - 1] = 7.0;
    let answers = rolling_var(&trace, None, Window::trailing(size), Setting::var(0)).expect("as many as are taken");
    for (row, Answer { lowest, highest, .. }) in answers[..MOST - 1].iter().enumerate() {
        let first = row.saturating_sub(size - 1);
        assert_eq!((*lowest, *highest), (Some(-(row as f64)), Some(-(first as f64))), "row {row}");
    }
    let Answer { lowest, highest, .. } = answers[MOST - 1];
    assert_eq!((lowest, highest), (Some(2.0 - MOST as f64), Some(7.0)));
}

#[test]
fn rows_of_plans() {
    let (mut starts, mut ends) = (vec![0; MOST], vec![2; MOST]);
    for (setting, wanted) in FIGURES {
        let answers = plan(&[0.0, 1.0], None, Plan::new(&starts, &ends), setting).expect("as many as are taken");
        assert_eq!((answers.len(), answers[0], answers[MOST - 1]), (MOST, Some(wanted), Some(wanted)));
    }
    starts.push(1);
    ends.push(1);
    let both = Refusal::PlanLengths { starts: MOST + 1, ends: MOST + 1 };
    for (setting, _) in FIGURES {
        let rows = Plan::new(&starts, &ends);
        assert_eq!(plan(&[0.0, 1.0], None, rows, setting), Err(both));
        assert_eq!(refused(LENT.plan(NOTHING, (&[0; 16], None), rows, setting)), Err(both));
    }
    for (setting, wanted) in PAIR_FIGURES {
        let (traces, all, more) = ([[0.0, 1.0]; 2], Plan::new(&starts[..MOST], &ends[..MOST]), Plan::new(&starts, &ends));
        let answers = plan_pair(&traces[0], None, &traces[1], None, all, setting).expect("as many as are taken");
        assert_eq!((answers.len(), answers[0], answers[MOST - 1]), (MOST, Some(wanted), Some(wanted)));
        assert_eq!(plan_pair(&traces[0], None, &traces[1], None, more, setting), Err(both));
    }
}

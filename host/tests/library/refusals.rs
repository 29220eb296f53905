//! Every refusal of every entry, alone and before those of higher numbers, with lists that hold any bits: the refusal says what is
//! wrong and nothing is written. Then what is accepted at the edge: empty slices, odd addresses, maps that are not lent, NaNs.
use crate::lists::{bits, bytes_of, raw, state_of, Lengths, Rng};
use moments::*;

const NAN: u64 = 0x7FF8_0000_0000_0000;
const SETTINGS: [Setting; 3] = [
    Setting { figure: Figure::Var(Var { ddof: 1 }), min_periods: 1 },
    Setting { figure: Figure::Shape(Shape::Skew { bias: false }), min_periods: 0 },
    Setting { figure: Figure::Shape(Shape::Kurtosis { fisher: true, bias: true }), min_periods: 2 },
];
const PAIR_SETTINGS: [Setting<PairFigure>; 2] = [
    Setting { figure: PairFigure::Cov { ddof: 1 }, min_periods: 1 },
    Setting { figure: PairFigure::PearsonCorr, min_periods: 2 },
];

/// A fault of a call, with the refusal it comes to.
type Fault<C> = (fn(&mut C), Refusal);
/// Each fault alone, and each together with all those after it, is refused by itself.
fn try_each<C: Clone + PartialEq>(call: &C, faults: &[Fault<C>], run: impl Fn(&C) -> Result<(), Refusal>) {
    let run = |call: &C| {
        let given = call.clone();
        let result = run(call);
        assert!(*std::hint::black_box(call) == given, "what was given has changed");
        result
    };
    assert_eq!(run(call), Ok(()));
    for (k, (fault, refusal)) in faults.iter().enumerate() {
        let mut alone = call.clone();
        fault(&mut alone);
        assert_eq!(run(&alone), Err(*refusal), "alone");
        let mut all = call.clone();
        faults[k..].iter().rev().for_each(|(fault, _)| fault(&mut all));
        assert_eq!(run(&all), Err(*refusal), "before those after it");
    }
}

#[derive(Clone, PartialEq)]
struct PlanCall {
    setting: Setting,
    trace: Vec<u8>,
    map: Option<Vec<u8>>,
    starts: Vec<u32>,
    ends: Vec<u32>,
    lent: Lengths,
}
impl PlanCall {
    /// Nine readings, rows (0, 4), (2, 6), (3, 9), lists that are two places longer than is needed.
    fn new(setting: Setting) -> Self {
        let trace = (0..9).flat_map(|i| (f64::from(i) * 1.5).to_le_bytes()).collect();
        let lent = Lengths::longer(([9, 0], setting.work(6), 3), 2);
        PlanCall { setting, trace, map: Some(vec![0b1011_0111, 0b1]), starts: vec![0, 2, 3], ends: vec![4, 6, 9], lent }
    }
    fn run(&self) -> Result<(), Refusal> {
        let (plan, needed) =
            (Plan::new(&self.starts, &self.ends), ([self.trace.len() / 8, 0], self.setting.work(6), self.starts.len()));
        self.lent.plan(needed, (&self.trace, self.map.as_deref()), plan, self.setting).map(drop)
    }
}
fn is_var(setting: Setting) -> bool {
    matches!(setting.figure, Figure::Var(_))
}
/// A list that is too short.
fn short(list: List, length: usize, needed: usize) -> Refusal {
    Refusal::ListTooShort { list, length, needed }
}

#[test]
fn plans_are_refused_by_the_first_number_that_applies() {
    for setting in SETTINGS {
        let needed = setting.work(6);
        let row = Refusal::BelowRowBefore { row: 2, bounds: (1, 9), before: (2, 6) };
        let mut faults: Vec<Fault<PlanCall>> = vec![
            (|c| c.trace.truncate(71), Refusal::TraceBytes { trace: Which::Only, bytes: 71 }),
            (|c| c.map = Some(vec![0xFF; 1]), Refusal::MapLength { trace: Which::Only, bytes: 1, readings: 9 }),
            (|c| _ = c.starts.pop(), Refusal::PlanLengths { starts: 2, ends: 3 }),
            (|c| c.starts[1] = 7, Refusal::StartAfterEnd { row: 1, start: 7, end: 6 }),
            (|c| c.ends[2] = 10, Refusal::EndPastTrace { row: 2, end: 10, readings: 9 }),
            (|c| c.starts[2] = 1, row),
            (|c| c.lent.figures = 2, short(List::Figures, 2, 3)),
            (|c| (c.lent.figures, c.lent.present) = (3, 0), short(List::Present, 0, 3)),
            (|c| (c.lent.figures, c.lent.present, c.lent.readings) = (3, 3, [8, 0]), short(List::Readings(Which::Only), 8, 9)),
            (|c| c.lent.work = c.setting.work(6) - 1, Refusal::WorkTooShort { length: needed - 1, needed }),
        ];
        if is_var(setting) {
            let extremes: [Fault<PlanCall>; 4] = [
                (|c| c.lent.extremes = [2, 3, 3, 3], short(List::Lowest, 2, 3)),
                (|c| c.lent.extremes = [3, 2, 2, 2], short(List::LowestPresent, 2, 3)),
                (|c| c.lent.extremes = [3, 3, 2, 0], short(List::Highest, 2, 3)),
                (|c| c.lent.extremes = [3, 3, 3, 2], short(List::HighestPresent, 2, 3)),
            ];
            faults.splice(8..8, extremes);
        }
        try_each(&PlanCall::new(setting), &faults, PlanCall::run);
        // rows are tested one after the other, not number by number
        let rows: [Fault<PlanCall>; 3] = [
            (|c| c.ends[0] = 10, Refusal::EndPastTrace { row: 0, end: 10, readings: 9 }),
            (|c| c.ends[1] = 3, Refusal::BelowRowBefore { row: 1, bounds: (2, 3), before: (0, 4) }),
            (|c| c.starts[2] = u32::MAX, Refusal::StartAfterEnd { row: 2, start: u32::MAX, end: 9 }),
        ];
        try_each(&PlanCall::new(setting), &rows, PlanCall::run);
    }
}

/// Two traces in place of one.
#[derive(Clone, PartialEq)]
struct PairPlanCall {
    setting: Setting<PairFigure>,
    traces: [Vec<u8>; 2],
    maps: [Option<Vec<u8>>; 2],
    starts: Vec<u32>,
    ends: Vec<u32>,
    lent: Lengths,
}
impl PairPlanCall {
    fn new(setting: Setting<PairFigure>) -> Self {
        let PlanCall { trace, map, starts, ends, lent, .. } = PlanCall::new(SETTINGS[0]);
        let second = (0..9).flat_map(|i| (f64::from(i * i) - 7.0).to_le_bytes()).collect();
        let lent = Lengths { readings: [11; 2], work: setting.work(6) + 2, ..lent };
        PairPlanCall { setting, traces: [trace, second], maps: [map, Some(vec![0xFF, 1, 0])], starts, ends, lent }
    }
    fn run(&self) -> Result<(), Refusal> {
        let (plan, [first, second], [x_map, y_map]) = (Plan::new(&self.starts, &self.ends), &self.traces, &self.maps);
        let readings = [first, second].map(|trace| trace.len() / 8);
        self.lent.run((readings, self.setting.work(6), self.starts.len()), |[x_readings, y_readings], lists| {
            let x = Encoded { bytes: first, readings: x_readings, map: x_map.as_deref() };
            let y = Encoded { bytes: second, readings: y_readings, map: y_map.as_deref() };
            plan_pair_into(x, y, plan, self.setting, lists)
        })?;
        Ok(())
    }
}

#[test]
fn plans_of_two_traces_are_refused_by_the_first_number_that_applies() {
    for setting in PAIR_SETTINGS {
        let needed = setting.work(6);
        let map = |trace, bytes| Refusal::MapLength { trace, bytes, readings: 9 };
        let faults: [Fault<PairPlanCall>; 14] = [
            (|c| c.traces[0].truncate(71), Refusal::TraceBytes { trace: Which::First, bytes: 71 }),
            (|c| c.traces[1].resize(65, 0), Refusal::TraceBytes { trace: Which::Second, bytes: 65 }),
            (|c| c.traces[1].truncate(64), Refusal::LengthsDiffer { first: 9, second: 8 }),
            (|c| c.maps[0] = Some(vec![0xFF; 1]), map(Which::First, 1)),
            (|c| c.maps[1] = Some(vec![]), map(Which::Second, 0)),
            (|c| _ = c.ends.pop(), Refusal::PlanLengths { starts: 3, ends: 2 }),
            (|c| c.starts[1] = 7, Refusal::StartAfterEnd { row: 1, start: 7, end: 6 }),
            (|c| c.ends[2] = 10, Refusal::EndPastTrace { row: 2, end: 10, readings: 9 }),
            (|c| c.starts[2] = 1, Refusal::BelowRowBefore { row: 2, bounds: (1, 9), before: (2, 6) }),
            (|c| c.lent.figures = 2, short(List::Figures, 2, 3)),
            (|c| (c.lent.figures, c.lent.present) = (3, 0), short(List::Present, 0, 3)),
            (|c| (c.lent.present, c.lent.readings) = (3, [8, 11]), short(List::Readings(Which::First), 8, 9)),
            (|c| c.lent.readings = [9, 8], short(List::Readings(Which::Second), 8, 9)),
            (|c| c.lent.work = c.setting.work(6) - 1, Refusal::WorkTooShort { length: needed - 1, needed }),
        ];
        try_each(&PairPlanCall::new(setting), &faults, PairPlanCall::run);
        // with either map alone, with none, and with the first trace the shorter one
        let others: [Fault<PairPlanCall>; 3] = [
            (|c| c.traces[0].truncate(64), Refusal::LengthsDiffer { first: 8, second: 9 }),
            (|c| c.maps = [None, Some(vec![1])], map(Which::Second, 1)),
            (|c| c.maps = [Some(vec![]), None], map(Which::First, 0)),
        ];
        try_each(&PairPlanCall::new(setting), &others, PairPlanCall::run);
        // rows are tested one after the other, not number by number
        let rows: [Fault<PairPlanCall>; 3] = [
            (|c| c.ends[0] = 10, Refusal::EndPastTrace { row: 0, end: 10, readings: 9 }),
            (|c| c.ends[1] = 3, Refusal::BelowRowBefore { row: 1, bounds: (2, 3), before: (0, 4) }),
            (|c| c.starts[2] = u32::MAX, Refusal::StartAfterEnd { row: 2, start: u32::MAX, end: 9 }),
        ];
        try_each(&PairPlanCall { maps: [None, None], ..PairPlanCall::new(setting) }, &rows, PairPlanCall::run);
    }
}

#[derive(Clone, PartialEq)]
struct WindowCall {
    setting: Setting,
    window: Window,
    trace: Vec<f64>,
    map: Option<Vec<u8>>,
    weights: Vec<f64>,
    lent: Lengths,
}
impl WindowCall {
    fn new(setting: Setting) -> Self {
        WindowCall {
            setting,
            window: Window::trailing(3),
            trace: (0..9).map(|i| f64::from(i) * -2.5).collect(),
            map: None,
            weights: vec![1.0, 2.0, 0.5],
            lent: Lengths { readings: [0; 2], ..Lengths::longer(([0; 2], setting.work(3), 9), 2) },
        }
    }
    fn run(&self) -> Result<(), Refusal> {
        let needed = ([0; 2], self.setting.work(3), 9);
        self.lent.rolling(needed, (&self.trace, self.map.as_deref()), self.window, self.setting).map(drop)
    }
    fn run_weights(&self) -> Result<(), Refusal> {
        let (map, min) = (self.map.as_deref(), self.setting.min_periods);
        self.lent.run(([0; 2], 0, 9), |_, lists| {
            rolling_var_weights_into(&self.trace, map, self.window, min, &self.weights, lists.figures, lists.present)
        })?;
        Ok(())
    }
}
#[derive(Clone, PartialEq)]
struct PairWindowCall {
    setting: Setting<PairFigure>,
    window: Window,
    traces: [Vec<f64>; 2],
    maps: [Option<Vec<u8>>; 2],
    lent: Lengths,
}
impl PairWindowCall {
    fn new(setting: Setting<PairFigure>) -> Self {
        let WindowCall { window, trace, lent, .. } = WindowCall::new(SETTINGS[0]);
        let second = trace.iter().map(|x| 3.0 - x * x).collect();
        let lent = Lengths { work: setting.work(3) + 2, ..lent };
        PairWindowCall { setting, window, traces: [trace, second], maps: [None, None], lent }
    }
    fn run(&self) -> Result<(), Refusal> {
        let ([x, y], [x_map, y_map]) = (&self.traces, &self.maps);
        self.lent.run(([0; 2], self.setting.work(3), 9), |_, lists| {
            rolling_pair_into(x, x_map.as_deref(), y, y_map.as_deref(), self.window, self.setting, lists)
        })?;
        Ok(())
    }
}
const SHORT_FIGURES: Refusal = Refusal::ListTooShort { list: List::Figures, length: 8, needed: 9 };
const SHORT_PRESENT: Refusal = Refusal::ListTooShort { list: List::Present, length: 8, needed: 9 };

#[test]
fn fixed_windows_are_refused_by_the_first_number_that_applies() {
    for setting in SETTINGS {
        let needed = setting.work(3);
        let mut faults: Vec<Fault<WindowCall>> = vec![
            (|c| c.map = Some(vec![1]), Refusal::MapLength { trace: Which::Only, bytes: 1, readings: 9 }),
            (|c| c.lent.figures = 8, SHORT_FIGURES),
            (|c| c.lent.present = 8, SHORT_PRESENT),
            (|c| c.lent.work = c.setting.work(3) - 1, Refusal::WorkTooShort { length: needed - 1, needed }),
        ];
        if is_var(setting) {
            let extremes: [Fault<WindowCall>; 4] = [
                (|c| c.lent.extremes[0] = 8, short(List::Lowest, 8, 9)),
                (|c| c.lent.extremes[1] = 8, short(List::LowestPresent, 8, 9)),
                (|c| c.lent.extremes[2] = 8, short(List::Highest, 8, 9)),
                (|c| c.lent.extremes[3] = 8, short(List::HighestPresent, 8, 9)),
            ];
            faults.splice(3..3, extremes);
        }
        try_each(&WindowCall::new(setting), &faults, WindowCall::run);
    }
}

#[test]
fn fixed_windows_of_two_traces_are_refused_by_the_first_number_that_applies() {
    for setting in PAIR_SETTINGS {
        let needed = setting.work(3);
        let map = |trace, bytes| Refusal::MapLength { trace, bytes, readings: 9 };
        let faults: [Fault<PairWindowCall>; 6] = [
            (|c| _ = c.traces[1].pop(), Refusal::LengthsDiffer { first: 9, second: 8 }),
            (|c| c.maps[0] = Some(vec![1]), map(Which::First, 1)),
            (|c| c.maps[1] = Some(vec![1]), map(Which::Second, 1)),
            (|c| c.lent.figures = 8, SHORT_FIGURES),
            (|c| c.lent.present = 8, SHORT_PRESENT),
            (|c| c.lent.work = c.setting.work(3) - 1, Refusal::WorkTooShort { length: needed - 1, needed }),
        ];
        try_each(&PairWindowCall::new(setting), &faults, PairWindowCall::run);
        let others: [Fault<PairWindowCall>; 2] = [
            (|c| _ = c.traces[0].pop(), Refusal::LengthsDiffer { first: 8, second: 9 }),
            (|c| c.maps = [Some(vec![0xFF; 2]), Some(vec![])], map(Which::Second, 0)),
        ];
        try_each(&PairWindowCall::new(setting), &others, PairWindowCall::run);
    }
}

#[test]
fn weights_are_refused_by_the_first_number_that_applies() {
    let faults: [Fault<WindowCall>; 6] = [
        (|c| c.map = Some(vec![]), Refusal::MapLength { trace: Which::Only, bytes: 0, readings: 9 }),
        (|c| c.map = Some(vec![0xFF; 2]), Refusal::WeightsWithMap),
        (|c| c.weights = vec![2.0, -2.0, -0.0], Refusal::WeightsSumToZero),
        (|c| c.window.size = 4, Refusal::WeightCount { weights: 3, window_size: 4 }),
        (|c| c.lent.figures = 8, SHORT_FIGURES),
        (|c| c.lent.present = 8, SHORT_PRESENT),
    ];
    try_each(&WindowCall::new(SETTINGS[0]), &faults, WindowCall::run_weights);
}

/// The number that an entry answers, with a state array that a refusal must leave.
fn kept<const N: usize>(number: u32, call: impl FnOnce(&mut [f64; N]) -> u32) {
    assert_eq!(state_of(call).err().unwrap_or(0), number);
}

#[test]
fn states_of_arrays_are_refused_and_kept() {
    let trace = [2.0, 7.0, 4.0];
    for (bytes, number) in [(1, 0), (0, 3), (2, 0)] {
        let map = vec![5; bytes];
        let (t, n, has_map, m, mn) = raw(&trace, true, &map);
        // SAFETY: pointers and lengths are the slices'.
        unsafe {
            kept(number, |s| abi::moments_var(t, n, has_map, m, mn, s));
            kept(number, |s| abi::moments_skew(t, n, has_map, m, mn, s));
            kept(number, |s| abi::moments_kurtosis(t, n, has_map, m, mn, s));
            kept(number, |s| abi::moments_cov(t, n, has_map, m, mn, t, n, false, m, 0, s));
            kept(number, |s| abi::moments_cov(t, n, false, m, 0, t, n, has_map, m, mn, s));
            kept(number, |s| abi::moments_pearson_corr(t, n, has_map, m, mn, t, n, false, m, 0, s));
            kept(number, |s| abi::moments_pearson_corr(t, n, false, m, 0, t, n, has_map, m, mn, s));
            kept(number, |s| abi::moments_skew_range(t, n, has_map, m, mn, 1, 2, s));
            kept(number, |s| abi::moments_kurtosis_range(t, n, has_map, m, mn, 1, 2, s));
            kept(2, |s| abi::moments_cov(t, n, has_map, m, mn, t, 2, false, m, 0, s));
            kept(2, |s| abi::moments_pearson_corr(t, 2, has_map, m, mn, t, n, false, m, 0, s));
            let wrong = if number == 0 { 11 } else { number };
            kept(wrong, |s| abi::moments_skew_range(t, n, has_map, m, mn, 2, usize::MAX, s));
            kept(wrong, |s| abi::moments_kurtosis_range(t, n, has_map, m, mn, usize::MAX, 2, s));
        }
        let refusal = |trace| Refusal::MapLength { trace, bytes, readings: 3 };
        if number != 0 {
            let (map, only) = (Some(&map[..]), refusal(Which::Only));
            assert_eq!(var(&trace, map), Err(only));
            assert_eq!(skew(&trace, map), Err(only));
            assert_eq!(kurtosis(&trace, map), Err(only));
            assert_eq!(cov(&trace, None, &trace, map), Err(refusal(Which::Second)));
            assert_eq!(pearson_corr(&trace, map, &trace, None), Err(refusal(Which::First)));
            assert_eq!(skew_range(&trace, map, 9, 9), Err(only));
            assert_eq!(kurtosis_range(&trace, map, 9, 9), Err(only));
        }
    }
    let differ = Err(Refusal::LengthsDiffer { first: 3, second: 2 });
    assert_eq!(cov(&trace, Some(&[]), &trace[1..], Some(&[])), differ.map(|()| CovState::default()));
    assert_eq!(pearson_corr(&trace, None, &trace[1..], None), differ.map(|()| PearsonState::default()));
    let range = Refusal::RangePastTrace { start: 1, length: 3, readings: 3 };
    assert_eq!(skew_range(&trace, None, 1, 3), Err(range));
    assert_eq!(kurtosis_range(&trace, None, 1, 3), Err(range));
}

#[test]
fn each_refusal_is_a_sentence() {
    let said = [
        (
            Refusal::TooManyReadings { trace: Which::Only, readings: 16_777_217 },
            1,
            "the trace has 16777217 readings, but 16777216 is the most that is taken",
        ),
        (
            Refusal::TooManyReadings { trace: Which::First, readings: 16_777_218 },
            1,
            "the first trace has 16777218 readings, but 16777216 is the most that is taken",
        ),
        (
            Refusal::LengthsDiffer { first: 8, second: 9 },
            2,
            "the second trace has 9 readings, the first 8, but two traces must be of one length",
        ),
        (
            Refusal::LengthsDiffer { first: 2, second: 1 },
            2,
            "the second trace has 1 reading, the first 2, but two traces must be of one length",
        ),
        (
            Refusal::MapLength { trace: Which::Only, bytes: 0, readings: 1 },
            3,
            "the trace's map has 0 bytes, but 1 reading needs at least 1: one bit a reading, eight bits a byte",
        ),
        (
            Refusal::MapLength { trace: Which::Second, bytes: 1, readings: 9 },
            3,
            "the second trace's map has 1 byte, but 9 readings need at least 2: one bit a reading, eight bits a byte",
        ),
        (Refusal::PlanLengths { starts: 1, ends: 2 }, 4, "the plan has 1 start and 2 ends, but every row needs both"),
        (
            Refusal::PlanLengths { starts: 16_777_217, ends: 16_777_217 },
            4,
            "the plan has 16777217 rows, but 16777216 is the most that is taken",
        ),
        (Refusal::StartAfterEnd { row: 3, start: 40, end: 30 }, 5, "row 3 starts at 40, after its end at 30"),
        (
            Refusal::EndPastTrace { row: 52, end: 8904, readings: 8760 },
            6,
            "row 52 ends at 8904, but with 8760 readings a row can end at 8760 at most",
        ),
        (
            Refusal::BelowRowBefore { row: 2, bounds: (10, 30), before: (12, 25) },
            7,
            "row 2 starts at 10, before row 1, which starts at 12: starts must not fall",
        ),
        (
            Refusal::BelowRowBefore { row: 2, bounds: (12, 24), before: (12, 25) },
            7,
            "row 2 ends at 24, before row 1, which ends at 25: ends must not fall",
        ),
        (
            Refusal::BelowRowBefore { row: 2, bounds: (10, 20), before: (12, 25) },
            7,
            "row 2, from 10 to 20, goes back behind row 1, from 12 to 25: starts and ends must not fall",
        ),
        (Refusal::WeightsWithMap, 8, "weights were given for a trace with a map: a weighted window cannot have missing readings"),
        (Refusal::WeightsSumToZero, 9, "the weights add up to zero, so they cannot be divided by their sum"),
        (Refusal::WeightCount { weights: 3, window_size: 24 }, 10, "a window of 24 places needs as many weights, but has 3"),
        (
            Refusal::RangePastTrace { start: 7, length: 1, readings: 7 },
            11,
            "the range of 1 place from 7 reaches past the end of the trace, which has 7 readings",
        ),
        (short(List::Present, 1, 3), 12, "the lent list of present bytes has 1 place, but needs 3, one for each row"),
        (short(List::Lowest, 2, 3), 12, "the lent list of lowest readings has 2 places, but needs 3, one for each row"),
        (
            short(List::LowestPresent, 1, 3),
            12,
            "the lent list of the lowest readings' present bytes has 1 place, but needs 3, one for each row",
        ),
        (short(List::Highest, 0, 3), 12, "the lent list of highest readings has 0 places, but needs 3, one for each row"),
        (
            short(List::HighestPresent, 2, 3),
            12,
            "the lent list of the highest readings' present bytes has 2 places, but needs 3, one for each row",
        ),
        (
            short(List::Readings(Which::Only), 0, 1),
            12,
            "the lent list of readings has 0 places, but needs 1, one for each reading",
        ),
        (
            short(List::Readings(Which::Second), 8, 9),
            12,
            "the lent list of the second trace's readings has 8 places, but needs 9, one for each reading",
        ),
        (Refusal::WorkTooShort { length: 1, needed: 24 }, 13, "the lent work slice has 1 double, but the widest window needs 24"),
        (
            Refusal::TraceBytes { trace: Which::Only, bytes: 71 },
            14,
            "the trace has 71 bytes, which is no multiple of 8: a reading has 8",
        ),
        (
            Refusal::TraceBytes { trace: Which::First, bytes: 1 },
            14,
            "the first trace has 1 byte, which is no multiple of 8: a reading has 8",
        ),
    ];
    for (refusal, number, text) in said {
        assert_eq!((refusal.number(), refusal.to_string().as_str()), (number, text));
        assert_eq!(refusal.row().is_some(), (5..=7).contains(&number));
    }
}

#[test]
fn empty_slices_are_answered() {
    let none: [Option<f64>; 0] = [];
    for map in [None, Some(&[][..])] {
        for setting in SETTINGS {
            assert_eq!(plan(&[], map, Plan::default(), setting).as_deref(), Ok(&none[..]));
            assert_eq!(plan(&[], map, Plan::new(&[0], &[0]), setting), Ok(vec![None]));
            let (nothing, lent) = (([0; 2], 0, 0), Lengths::longer(([0; 2], 0, 0), 0));
            assert_eq!(lent.plan(nothing, (&[], map), Plan::default(), setting), Ok(vec![]));
            assert_eq!(lent.rolling(nothing, (&[], map), Window::trailing(3), setting), Ok(vec![]));
            for size in [0, 1, 2, 1 << 63, usize::MAX] {
                for window in [Window::trailing(size), Window::centered(size)] {
                    assert_eq!(rolling(&[], map, window, setting).as_deref(), Ok(&none[..]));
                }
            }
        }
        for (setting, other) in PAIR_SETTINGS.into_iter().flat_map(|setting| [(setting, None), (setting, map)]) {
            assert_eq!(plan_pair(&[], map, &[], other, Plan::default(), setting).as_deref(), Ok(&none[..]));
            assert_eq!(plan_pair(&[], other, &[], map, Plan::new(&[0], &[0]), setting.min_periods(0)), Ok(vec![None]));
            for window in [0, 1, usize::MAX].into_iter().flat_map(|size| [Window::trailing(size), Window::centered(size)]) {
                assert_eq!(rolling_pair(&[], map, &[], other, window, setting).as_deref(), Ok(&none[..]));
            }
        }
        assert_eq!(var(&[], map), Ok(VarState::default()));
        assert_eq!(skew(&[], map), Ok(SkewState::default()));
        assert_eq!(kurtosis(&[], map), Ok(KurtosisState::default()));
        assert_eq!(cov(&[], map, &[], None), Ok(CovState::default()));
        assert_eq!(pearson_corr(&[], None, &[], map), Ok(PearsonState::default()));
        assert_eq!(skew_range(&[], map, 0, 0), Ok(SkewState::default()));
        assert_eq!(kurtosis_range(&[], map, 0, 0), Ok(KurtosisState::default()));
    }
    assert_eq!(rolling_var_weights(&[], None, Window::trailing(1), 0, &[1.0]).as_deref(), Ok(&none[..]));
    assert_eq!(rolling_var_weights(&[], None, Window::trailing(0), 0, &[]), Err(Refusal::WeightsSumToZero));
    // no map is another thing than one of no bytes
    assert_eq!(var(&[1.0], Some(&[])), Err(Refusal::MapLength { trace: Which::Only, bytes: 0, readings: 1 }));
    // an empty window has no figure
    assert_eq!(rolling(&[1.0, 2.0], None, Window::trailing(0), Setting::var(0)), Ok(vec![None, None]));
}

#[test]
fn bytes_are_taken_from_any_address() {
    let (trace, rows) = ([2.0f64, 4.0, 6.0, 8.0], Plan::new(&[0, 1, 3], &[2, 3, 4]));
    for shift in 0..8 {
        let bytes = [vec![0xA5; shift], bytes_of(&trace)].concat();
        let needed = ([4, 0], Setting::var(1).work(2), 3);
        let held = Lengths::longer(needed, 0).plan(needed, (&bytes[shift..], None), rows, Setting::var(1).into());
        let wanted = [
            bits(&trace),
            [bits(&[2.0, 2.0, 0.0]), vec![1, 1, 0]].concat(),
            [bits(&[2.0, 4.0, 8.0]), vec![1; 3]].concat(),
            [bits(&[4.0, 6.0, 8.0]), vec![1; 3]].concat(),
        ];
        assert_eq!(held, Ok(wanted.concat()));
        // the second trace stands at another one
        let (mut x_readings, mut y_readings, mut work) = ([0.0; 4], [0.0; 4], [0.0; 12]);
        let (mut figures, mut present) = ([9.0; 3], [9; 3]);
        let lists = Lists { work: &mut work, figures: &mut figures, present: &mut present };
        let x = Encoded { bytes: &bytes[shift..], readings: &mut x_readings, map: None };
        let second = [vec![0xA5; 7 - shift], bytes_of(&trace)].concat();
        let y = Encoded { bytes: &second[7 - shift..], readings: &mut y_readings, map: None };
        assert_eq!(plan_pair_into(x, y, rows, Setting::cov(1), lists), Ok(()));
        assert_eq!((x_readings, y_readings, figures, present), (trace, trace, [2.0, 2.0, 0.0], [1, 1, 0]));
    }
}

#[test]
fn a_map_that_is_not_lent_is_not_looked_at() {
    let (trace, garbage) = ([2.0, 7.0, 4.0, -1.0], [0u8; 3]);
    let (t, n, has_map, m, mn) = raw(&trace, false, &garbage);
    let bytes = bytes_of(&trace);
    let (starts, ends, weights) = ([0u32, 1], [3u32, 4], [1.0, 1.0]);
    let (b, bn, s, e, w) = (bytes.as_ptr(), bytes.len(), starts.as_ptr(), ends.as_ptr(), weights.as_ptr());
    let rows = Plan::new(&starts, &ends);
    /// Both answers, of a call that writes figures and present bytes.
    fn same(wanted: Result<Vec<Option<f64>>, Refusal>, call: impl FnOnce(*mut f64, *mut f64, *mut f64, *mut u8) -> u32) {
        same_pair(wanted, |readings, _, work, figures, present| call(readings, work, figures, present))
    }
    fn same_pair(
        wanted: Result<Vec<Option<f64>>, Refusal>,
        call: impl FnOnce(*mut f64, *mut f64, *mut f64, *mut f64, *mut u8) -> u32,
    ) {
        let ([mut first, mut second], mut work, mut figures, mut present) = ([[0.0; 4]; 2], [0.0; 24], [0.0; 4], [0u8; 4]);
        let (r, q) = (first.as_mut_ptr(), second.as_mut_ptr());
        assert_eq!(call(r, q, work.as_mut_ptr(), figures.as_mut_ptr(), present.as_mut_ptr()), 0);
        for (row, answer) in wanted.expect("accepted").iter().enumerate() {
            assert_eq!((figures[row].to_bits(), present[row]), answer.map_or((0, 0), |x| (x.to_bits(), 1)));
        }
    }
    /// The answers of a call that writes variances, lowest and highest readings, each with its bytes.
    fn same_var(wanted: Result<Vec<Answer>, Refusal>, call: impl FnOnce(*mut f64, *mut f64, [*mut f64; 3], [*mut u8; 3]) -> u32) {
        let (mut readings, mut work, mut values, mut present) = ([0.0; 4], [0.0; 24], [[9.0; 4]; 3], [[9u8; 4]; 3]);
        let lists = (values.each_mut().map(|list| list.as_mut_ptr()), present.each_mut().map(|list| list.as_mut_ptr()));
        assert_eq!(call(readings.as_mut_ptr(), work.as_mut_ptr(), lists.0, lists.1), 0);
        for (row, Answer { variance, lowest, highest }) in wanted.expect("accepted").into_iter().enumerate() {
            for (k, answer) in [variance, lowest, highest].into_iter().enumerate() {
                assert_eq!((values[k][row].to_bits(), present[k][row]), answer.map_or((0, 0), |x| (x.to_bits(), 1)));
            }
        }
    }
    fn same_state<const N: usize>(wanted: Result<impl Into<[f64; N]>, Refusal>, call: impl FnOnce(&mut [f64; N]) -> u32) {
        let mut state = [0.0; N];
        assert_eq!(call(&mut state), 0);
        assert_eq!(Ok(state), wanted.map(Into::into));
    }
    let (v, k, q) = (Setting::var(1), Setting::skew(true), Setting::kurtosis(true, true));
    let window = Window::trailing(2);
    // SAFETY: pointers and lengths are the slices' and the arrays'.
    unsafe {
        same_var(plan_var(&trace, None, rows, v), |r, x, [f, l, h], [p, q, o]| {
            abi::moments_plan_var(b, bn, r, 4, has_map, m, mn, s, 2, e, 2, 1, 1, x, 24, f, 4, p, 4, l, 4, q, 4, h, 4, o, 4)
        });
        same(plan(&trace, None, rows, k), |r, x, f, p| {
            abi::moments_plan_skew(b, bn, r, 4, has_map, m, mn, s, 2, e, 2, 1, true, x, 24, f, 4, p, 4)
        });
        same(plan(&trace, None, rows, q), |r, x, f, p| {
            abi::moments_plan_kurtosis(b, bn, r, 4, has_map, m, mn, s, 2, e, 2, 1, true, true, x, 24, f, 4, p, 4)
        });
        same_var(rolling_var(&trace, None, window, v), |_, x, [f, l, h], [p, q, o]| {
            abi::moments_rolling_var(t, n, has_map, m, mn, 2, 1, false, 1, x, 24, f, 4, p, 4, l, 4, q, 4, h, 4, o, 4)
        });
        same(rolling(&trace, None, window, k), |_, x, f, p| {
            abi::moments_rolling_skew(t, n, has_map, m, mn, 2, 1, false, true, x, 24, f, 4, p, 4)
        });
        same(rolling(&trace, None, window, q), |_, x, f, p| {
            abi::moments_rolling_kurtosis(t, n, has_map, m, mn, 2, 1, false, true, true, x, 24, f, 4, p, 4)
        });
        same(rolling_var_weights(&trace, None, window, 1, &weights), |_, _, f, p| {
            abi::moments_rolling_var_weights(t, n, has_map, m, mn, 2, 1, false, w, 2, f, 4, p, 4)
        });
        // one trace with a map, and the other's not looked at
        let (ones, on) = (&[0b1011u8][..], 1);
        let (o, pair) = (ones.as_ptr(), Some(ones));
        same_pair(plan_pair(&trace, None, &trace, pair, rows, Setting::cov(1)), |r, q, x, f, p| {
            abi::moments_plan_cov(b, bn, r, 4, false, m, mn, b, bn, q, 4, true, o, on, s, 2, e, 2, 1, 1, x, 24, f, 4, p, 4)
        });
        same_pair(plan_pair(&trace, pair, &trace, None, rows, Setting::pearson_corr()), |r, q, x, f, p| {
            abi::moments_plan_pearson_corr(b, bn, r, 4, true, o, on, b, bn, q, 4, false, m, mn, s, 2, e, 2, 1, x, 24, f, 4, p, 4)
        });
        same_pair(rolling_pair(&trace, pair, &trace, None, window, Setting::cov(0)), |_, _, x, f, p| {
            abi::moments_rolling_cov(t, n, true, o, on, t, n, false, m, mn, 2, 1, false, 0, x, 24, f, 4, p, 4)
        });
        same_pair(rolling_pair(&trace, None, &trace, None, window, Setting::pearson_corr()), |_, _, x, f, p| {
            abi::moments_rolling_pearson_corr(t, n, false, m, mn, t, n, false, m, mn, 2, 1, false, x, 24, f, 4, p, 4)
        });
        same_state(var(&trace, None), |s| abi::moments_var(t, n, has_map, m, mn, s));
        same_state(skew(&trace, None), |s| abi::moments_skew(t, n, has_map, m, mn, s));
        same_state(kurtosis(&trace, None), |s| abi::moments_kurtosis(t, n, has_map, m, mn, s));
        same_state(cov(&trace, None, &trace, None), |s| abi::moments_cov(t, n, has_map, m, mn, t, n, has_map, m, mn, s));
        same_state(pearson_corr(&trace, None, &trace, None), |s| {
            abi::moments_pearson_corr(t, n, has_map, m, mn, t, n, has_map, m, mn, s)
        });
        same_state(skew_range(&trace, None, 1, 3), |s| abi::moments_skew_range(t, n, has_map, m, mn, 1, 3, s));
        same_state(kurtosis_range(&trace, None, 1, 3), |s| abi::moments_kurtosis_range(t, n, has_map, m, mn, 1, 3, s));
    }
}

#[test]
fn a_nan_figure_has_one_pattern() {
    let bad = [0x7FF0_0000_0000_0001, 0xFFF8_0000_0000_0000, 0x7FFF_FFFF_FFFF_FFFF, 0x7FF0_0000_0000_0000, 0xFFF0_0000_0000_0000];
    for word in bad {
        let trace = [1.0, f64::from_bits(word), 3.0, 4.0, 6.0];
        let settings: [Setting; 3] = [Setting::var(0).into(), Setting::skew(true).into(), Setting::kurtosis(false, true).into()];
        for setting in settings {
            let answers = rolling(&trace, None, Window::trailing(2), setting).expect("accepted");
            let by_plan = plan(&trace, None, Plan::new(&[0, 0, 1, 2, 3], &[1, 2, 3, 4, 5]), setting).expect("accepted");
            let words = |list: &[Option<f64>]| list.iter().map(|x| x.map(f64::to_bits)).collect::<Vec<_>>();
            assert_eq!(words(&answers), words(&by_plan));
            assert_eq!(words(&answers)[1..3], [Some(NAN); 2]);
            assert!(answers[3..].iter().all(|x| x.is_some_and(f64::is_finite)), "a reading that has left the window");
        }
        for setting in PAIR_SETTINGS {
            let finite = [2.0, 5.0, 4.0, 1.0, 3.0];
            for (x, y) in [(trace, finite), (finite, trace), (trace, trace)] {
                let answers = rolling_pair(&x, None, &y, None, Window::trailing(2), setting).expect("accepted");
                assert_eq!(answers[1..3].iter().map(|x| x.map(f64::to_bits)).collect::<Vec<_>>(), [Some(NAN); 2]);
                assert!(answers[3..].iter().all(|x| x.is_some_and(f64::is_finite)), "a pair that has left the window");
            }
        }
        let weighted = rolling_var_weights(&trace, None, Window::trailing(2), 1, &[1.0, 1.0]).expect("accepted");
        assert_eq!(weighted[1..3].iter().map(|x| x.map(f64::to_bits)).collect::<Vec<_>>(), [Some(NAN); 2]);
        let state = var(&trace, None).expect("accepted");
        assert_eq!(state.finalize(1).map(f64::to_bits), Some(NAN));
        let pairs = pearson_corr(&trace, None, &trace, None).expect("accepted");
        assert_eq!(pairs.finalize().to_bits(), NAN);
        assert_eq!(cov(&trace, None, &trace, None).expect("accepted").finalize(0).map(f64::to_bits), Some(NAN));
        if f64::from_bits(word).is_nan() {
            assert_eq!(root(f64::from_bits(word)).to_bits(), NAN);
        }
    }
    assert_eq!(root(-1.0).to_bits(), NAN);
    assert_eq!(root(f64::NEG_INFINITY).to_bits(), NAN);
}

#[test]
fn any_input_is_answered_or_refused_by_a_known_number() {
    let mut rng = Rng(11);
    let mut refused = [0; 15];
    for _ in 0..20_000 {
        let below = |rng: &mut Rng, n: u64| (rng.word() % n) as usize;
        let n = below(&mut rng, 12);
        let trace: Vec<f64> = (0..n).map(|_| f64::from_bits(rng.word())).collect();
        let map = (0..below(&mut rng, 3)).map(|_| rng.word() as u8).collect::<Vec<_>>();
        let map = (rng.word() % 2 == 0).then_some(&map[..]);
        let wild = |rng: &mut Rng| match rng.word() % 4 {
            0 => rng.word() as usize,
            1 => usize::MAX - below(rng, 3),
            _ => below(rng, 14),
        };
        let setting = SETTINGS[below(&mut rng, 3)].min_periods(wild(&mut rng));
        let var_setting = Setting::var(rng.word() as u8).min_periods(wild(&mut rng));
        let rows = below(&mut rng, 5);
        let place = |rng: &mut Rng| if rng.word() % 9 == 0 { rng.word() as u32 } else { below(rng, 13) as u32 };
        let mut starts: Vec<u32> = (0..rows).map(|_| place(&mut rng)).collect();
        let mut ends: Vec<u32> = (0..rows + usize::from(rng.word() % 9 == 0)).map(|_| place(&mut rng)).collect();
        if rng.word() % 2 == 0 {
            starts.sort_unstable();
            ends.sort_unstable();
        }
        let window = Window { size: wild(&mut rng), center: rng.word() % 2 == 0 };
        let weights: Vec<f64> = (0..below(&mut rng, 4)).map(|_| below(&mut rng, 3) as f64 - 1.0).collect();
        let rows_of =
            |result: Result<Vec<Option<f64>>, Refusal>, rows: usize| result.map(|answers| assert_eq!(answers.len(), rows));
        let (start, length) = (wild(&mut rng), wild(&mut rng));
        let (asked, other) =
            (PAIR_SETTINGS[below(&mut rng, 2)].min_periods(wild(&mut rng)), (rng.word() % 2 == 0).then_some(&[0xFF][..]));
        let second = if rng.word() % 4 == 0 { &trace[n / 2..] } else { &trace[..] };
        for result in [
            rows_of(plan_pair(&trace, map, second, other, Plan::new(&starts, &ends), asked), rows),
            rows_of(rolling_pair(second, other, &trace, map, window, asked), n),
            plan_var(&trace, map, Plan::new(&starts, &ends), var_setting).map(|answers| assert_eq!(answers.len(), rows)),
            rolling_var(&trace, map, window, var_setting).map(|answers| assert_eq!(answers.len(), n)),
            rows_of(plan(&trace, map, Plan::new(&starts, &ends), setting), rows),
            rows_of(rolling(&trace, map, window, setting), n),
            rows_of(rolling_var_weights(&trace, map, window, setting.min_periods, &weights), n),
            var(&trace, map).map(drop),
            pearson_corr(&trace, map, &trace[n / 2..], None).map(drop),
            kurtosis_range(&trace, map, start, length).map(drop),
        ] {
            if let Err(refusal) = result {
                assert!(!matches!(refusal, Refusal::Unknown { .. }), "{refusal}");
                refused[refusal.number() as usize] += 1;
            }
        }
    }
    for number in [2, 3, 4, 5, 6, 7, 8, 9, 10, 11] {
        assert!(refused[number] > 50, "{number} came {} times", refused[number]);
    }
    assert_eq!([1, 12, 13, 14].map(|number| refused[number]), [0; 4]);
}

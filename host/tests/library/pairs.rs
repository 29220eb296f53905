//! Figures of two traces that are worked out by hand, by document 02's account, to the bit: which places are pairs, which rule the rows go
//! by, what is missing, what is NaN, and in which order pairs go into a state.
use crate::lists::{bits, bytes_of, Lengths};
use moments::*;

const NAN: u64 = 0x7FF8_0000_0000_0000;

/// Two traces with their maps, asked by a plan.
struct Asked<'a> {
    x: &'a [f64],
    x_map: Option<&'a [u8]>,
    y: &'a [f64],
    y_map: Option<&'a [u8]>,
    rows: &'a [(u32, u32)],
}
impl<'a> Asked<'a> {
    fn new(x: &'a [f64], y: &'a [f64], rows: &'a [(u32, u32)]) -> Self {
        Asked { x, x_map: None, y, y_map: None, rows }
    }
    fn maps(&self, x_map: Option<&'a [u8]>, y_map: Option<&'a [u8]>) -> Self {
        Asked { x_map, y_map, ..*self }
    }
    /// The figures' bits, none where one is missing.
    fn bits(&self, setting: Setting<PairFigure>) -> Vec<Option<u64>> {
        let (starts, ends): (Vec<u32>, Vec<u32>) = self.rows.iter().copied().unzip();
        let answers = plan_pair(self.x, self.x_map, self.y, self.y_map, Plan::new(&starts, &ends), setting).expect("accepted");
        answers.into_iter().map(|figure| figure.map(f64::to_bits)).collect()
    }
    fn figures(&self, setting: Setting<PairFigure>) -> Vec<Option<f64>> {
        self.bits(setting).into_iter().map(|bits| bits.map(f64::from_bits)).collect()
    }
}
/// The bits of fixed windows over both traces.
fn rolling_bits(asked: &Asked, window: Window, setting: Setting<PairFigure>) -> Vec<Option<u64>> {
    let answers = rolling_pair(asked.x, asked.x_map, asked.y, asked.y_map, window, setting).expect("accepted");
    answers.into_iter().map(|figure| figure.map(f64::to_bits)).collect()
}

#[test]
fn a_pair_is_where_both_traces_have_a_reading() {
    let (x, y) = ([1.0, 2.0, 3.0, 5.0], [2.0, 8.0, 6.0, 4.0]);
    let asked = Asked::new(&x, &y, &[(0, 2), (0, 3), (2, 4)]);
    assert_eq!(asked.figures(Setting::cov(1))[0], Some(3.0));
    // place 1 is missing in either: (1, 2), (3, 6) and (5, 4) are left
    for (x_map, y_map) in [(Some(&[0b1101][..]), None), (None, Some(&[0b1101][..])), (Some(&[0b1101]), Some(&[0b1111]))] {
        let maps = asked.maps(x_map, y_map);
        assert_eq!(maps.figures(Setting::cov(1)), [None, Some(4.0), Some(-2.0)]);
        assert_eq!(maps.figures(Setting::cov(0)), [Some(0.0), Some(2.0), Some(-1.0)]);
        assert_eq!(maps.bits(Setting::pearson_corr())[0], Some(NAN));
        assert_eq!(maps.figures(Setting::pearson_corr())[1..], [Some(1.0), Some(-1.0)]);
    }
    // what one lacks the other may have: only place 3 is a pair
    let apart = asked.maps(Some(&[0b1010]), Some(&[0b1101]));
    assert_eq!(apart.bits(Setting::pearson_corr()), [None, None, Some(NAN)]);
    assert_eq!(apart.bits(Setting::cov(0)), [None, None, Some(0)]);
}

#[test]
fn what_is_missing_and_what_is_nan() {
    let (x, y) = ([4.0, 6.0, 6.0], [1.0, 3.0, 7.0]);
    let asked = Asked::new(&x, &y, &[(0, 0), (0, 1), (0, 2), (1, 3)]);
    // a covariance at a count that is at most ddof, and in no window at 255
    assert_eq!(asked.figures(Setting::cov(0).min_periods(0)), [None, Some(0.0), Some(1.0), Some(0.0)]);
    assert_eq!(asked.figures(Setting::cov(1).min_periods(0)), [None, None, Some(2.0), Some(0.0)]);
    assert_eq!(asked.figures(Setting::cov(255)), [None; 4]);
    // a correlation only at count 0; of one pair, or where a trace does not change, it is there and NaN
    assert_eq!(asked.bits(Setting::pearson_corr().min_periods(0)), [None, Some(NAN), Some(1f64.to_bits()), Some(NAN)]);
    // and both by the minimum
    for asked in [asked.maps(None, None), asked.maps(None, Some(&[0xFF]))] {
        assert_eq!(asked.bits(Setting::pearson_corr().min_periods(2))[..3], [None, None, Some(1f64.to_bits())]);
        assert_eq!(asked.figures(Setting::cov(0).min_periods(3)), [None; 4]);
    }
}

/// Without a map a window's places count against the minimum, with one in either trace its pairs.
#[test]
fn the_minimum_counts_pairs_as_soon_as_either_trace_has_a_map() {
    let (x, y) = ([1.0, 2.0, 3.0], [5.0, 7.0, 3.0]);
    let (asked, window) = (Asked::new(&x, &y, &[]), Window::trailing(2));
    let setting = Setting::cov(1).min_periods(2);
    let wanted = |figures: [Option<f64>; 3]| figures.map(|figure| figure.map(f64::to_bits));
    assert_eq!(rolling_bits(&asked, window, setting), wanted([None, Some(1.0), Some(-2.0)]));
    for (x_map, y_map) in [(Some(&[0b011][..]), None), (None, Some(&[0b011][..]))] {
        assert_eq!(rolling_bits(&asked.maps(x_map, y_map), window, setting), wanted([None, Some(1.0), None]));
    }
}

/// Without a map a row below the minimum does not move the window; with one, of ones only and in either trace, it does, and the
/// pairs then stand otherwise on both sides of the split.
#[test]
fn a_map_of_ones_in_either_trace_is_a_map() {
    let x = [0.9, 0.4, 0.5, 0.8, 0.0, 0.7, 0.3, 0.0];
    let y = [0.2, 0.1, 0.5, 0.7, 0.3, 0.6, 0.8, 0.1];
    let asked = Asked::new(&x, &y, &[(0, 3), (2, 4), (3, 5), (4, 6), (4, 8)]);
    let rows = |first: u64, last: u64| [Some(first), None, None, None, Some(last)];
    let (cov, corr) = (Setting::cov(0).min_periods(3), Setting::pearson_corr().min_periods(3));
    assert_eq!(asked.bits(cov), rows(0xBF6B_4E81_B4E8_1B45, 0x3FAA_E147_AE14_7AE1));
    assert_eq!(asked.bits(corr), rows(0xBFB7_3DA0_F4EA_EDD0, 0x3FE5_B901_3A2F_44A4));
    let ones = Some(&[0xFF][..]);
    for (x_map, y_map) in [(ones, None), (None, ones), (ones, ones)] {
        let maps = asked.maps(x_map, y_map);
        assert_eq!(maps.bits(cov), rows(0xBF6B_4E81_B4E8_1B45, 0x3FAA_E147_AE14_7AE2));
        assert_eq!(maps.bits(corr), rows(0xBFB7_3DA0_F4EA_EDD0, 0x3FE5_B901_3A2F_44A3));
    }
}

/// Any other order of the front part, of the back part or of the two, and every window afresh, has other bits.
#[test]
fn pairs_go_in_by_the_split_account() {
    let x = [0.3, 0.6, 0.4, 0.0, 0.5, 0.6, 0.2];
    let y = [0.2, 0.4, 0.1, 0.5, 0.4, 0.9, 0.9];
    let asked = Asked::new(&x, &y, &[(0, 4), (1, 5), (1, 7)]);
    let cov = [0xBF91_1111_1111_110F, 0xBF8E_B851_EB85_1EB8, 0xBF75_D867_C3EC_E2B0];
    let corr = [0xBFD7_5E97_46A0_B098, 0xBFD5_1322_0631_AB5B, 0xBFB2_19BB_A636_1764];
    assert_eq!(asked.bits(Setting::cov(1)), cov.map(Some));
    assert_eq!(asked.bits(Setting::pearson_corr()), corr.map(Some));
}

#[test]
fn a_pair_with_a_member_that_is_not_finite() {
    let x = [1.0, f64::NAN, 3.0, 5.0, 9.0];
    let y = [2.0, 5.0, f64::INFINITY, 4.0, 2.0];
    let asked = Asked::new(&x, &y, &[(0, 1), (0, 2), (1, 3), (2, 4), (3, 5)]);
    for setting in [Setting::cov(1), Setting::pearson_corr()] {
        // it counts as a pair, and is gone with its place
        assert_eq!(asked.bits(setting)[1..4], [Some(NAN); 3]);
    }
    assert_eq!(asked.figures(Setting::cov(1))[4], Some(-4.0));
    assert_eq!(asked.figures(Setting::pearson_corr())[4], Some(-1.0));
    // where the other trace lacks the place there is no pair
    let hidden = asked.maps(Some(&[0b11011]), Some(&[0b11101]));
    assert_eq!(hidden.figures(Setting::cov(0)), [Some(0.0), Some(0.0), None, Some(0.0), Some(-4.0 / 2.0)]);
}

/// Both traces are decoded, a missing figure is +0.0 whatever its place held, and nothing else is written.
#[test]
fn lists_hold_readings_figures_and_present_bytes() {
    let (x, y) = ([2.0, f64::from_bits(0xFFF0_0000_0000_0001), -0.0, 6.0], [1.0, 3.0, f64::NEG_INFINITY, 4.0]);
    let (rows, missing) = (Plan::new(&[0, 0, 1, 3], &[0, 1, 3, 4]), Some(&[0b0111][..]));
    let [x_bytes, y_bytes] = [bytes_of(&x), bytes_of(&y)];
    let decoded = [bits(&x[..1]), vec![NAN], bits(&x[2..]), bits(&y)].concat();
    for (setting, one_pair) in [(Setting::cov(0).min_periods(0), 0), (Setting::pearson_corr().min_periods(0), NAN)] {
        let lent = Lengths::longer(([4; 2], setting.work(2), 4), 0);
        let held = lent.run(([4; 2], setting.work(2), 4), |[x_readings, y_readings], lists| {
            let x = Encoded { bytes: &x_bytes, readings: x_readings, map: None };
            let y = Encoded { bytes: &y_bytes, readings: y_readings, map: missing };
            plan_pair_into(x, y, rows, setting, lists)
        });
        let answers = vec![0, one_pair, NAN, 0, 0, 1, 1, 0];
        assert_eq!(held, Ok([decoded.clone(), answers].concat()));
        let lent = Lengths { readings: [0; 2], ..lent };
        let held = lent.run(([0; 2], setting.work(2), 4), |_, lists| {
            rolling_pair_into(&x, None, &y, Some(&[0b1000]), Window::trailing(2), setting, lists)
        });
        assert_eq!(held, Ok(vec![0, 0, 0, one_pair, 0, 0, 0, 1]));
    }
}

#[test]
fn figures_are_neither_clamped_nor_clipped() {
    // a covariance below 0, and one that rounds to minus zero
    let small = f64::from_bits((1023 - 537) << 52);
    assert_eq!(Asked::new(&[0.0, 0.0, small], &[0.0, 0.0, -small], &[(0, 3)]).bits(Setting::cov(0)), [Some(1 << 63)]);
    assert_eq!(Asked::new(&[1.0, 2.0], &[2.0, 1.0], &[(0, 2)]).figures(Setting::cov(1)), [Some(-0.5)]);
    // correlations past 1 and -1: a mean of two neighbours at 2^52 is rounded to one of them, and products about it are 1, 3 and 3
    let (x, y) = ([4503599627370498.0, 4503599627370499.0], [4503599627370496.0, 4503599627370499.0]);
    let past = 0x3FFB_B67A_E858_4CAB;
    assert_eq!(Asked::new(&x, &y, &[(0, 2)]).bits(Setting::pearson_corr()), [Some(past)]);
    let falling = [x[0], x[0] - 1.0];
    assert_eq!(Asked::new(&falling, &y, &[(0, 2)]).bits(Setting::pearson_corr()), [Some(past | 1 << 63)]);
}

//! Whole arrays and ranges: a state of each.
use crate::input::Input;
use crate::measure::{Aim, Bench, Case};
use moments::{cov, kurtosis, kurtosis_range, pearson_corr, skew, skew_range, var};
use oracle::moment;
use std::hint::black_box;

/// Both states, and whether each member of one is the other's.
macro_rules! state {
    ($bench:ident, $section:literal, $name:expr, $n:expr, $State:ident: $rust:expr, $ours:expr) => {
        $bench.run(
            Case { section: $section, name: $name, aim: Aim::AtMost(1.0), n: $n },
            || (oracle::$State::default(), moments::$State::default()),
            |states| states.0 = black_box($rust),
            |states| states.1 = black_box($ours).expect("accepted"),
            |(rust, ours)| {
                let ours: [f64; oracle::$State::FIELDS] = ours.into();
                rust.fields().into_iter().zip(ours).map(|(a, b)| oracle::same(a, b))
            },
        )
    };
}

pub fn whole(bench: &mut Bench, input: &Input) {
    let (n, x, y) = (input.n, &input.x, &input.y);
    for (map, tag) in input.maps() {
        let (ax, ay) = (oracle::array(x, map), oracle::array(y, map));
        state!(bench, "Whole arrays", format!("var, {tag}"), n, VarState: moment::var(&ax), var(x, map));
        state!(bench, "Whole arrays", format!("skew, {tag}"), n, SkewState: moment::skew(&ax), skew(x, map));
        state!(bench, "Whole arrays", format!("kurtosis, {tag}"), n, KurtosisState: moment::kurtosis(&ax), kurtosis(x, map));
        state!(bench, "Whole arrays", format!("cov, {tag}"), n, CovState: moment::cov(&ax, &ay), cov(x, map, y, map));
        let of_pearson = || moment::pearson_corr(&ax, &ay);
        state!(bench, "Whole arrays", format!("pearson_corr, {tag}"), n, PearsonState: of_pearson(), pearson_corr(x, map, y, map));
    }
}

/// All places but the first and the last.
pub fn ranges(bench: &mut Bench, input: &Input) {
    let (n, x) = (input.n, &input.x);
    let (start, length) = (1, n.saturating_sub(2));
    for (map, tag) in input.maps() {
        let array = oracle::array(x, map);
        let of_skew = || oracle::SkewState::from_array(&array, start, length);
        let of_kurtosis = || oracle::KurtosisState::from_array(&array, start, length);
        state!(bench, "Ranges", format!("skew, {tag}"), n, SkewState: of_skew(), skew_range(x, map, start, length));
        state!(bench, "Ranges", format!("kurtosis, {tag}"), n, KurtosisState: of_kurtosis(), kurtosis_range(x, map, start, length));
    }
}

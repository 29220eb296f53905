//! The range of an axis, its ticks and their texts.

/// How much higher than most a value must be for a logarithmic axis.
const FLAT: f64 = 50.0;

/// A range of values, low below high, both finite: of their logarithms, if it is logarithmic.
#[derive(Clone, Copy, Debug)]
pub struct Scale {
    pub low: f64,
    pub high: f64,
    pub logarithmic: bool,
}
impl Scale {
    pub fn linear(low: f64, high: f64) -> Scale {
        Scale { low, high, logarithmic: false }
    }
    /// A range with some room about the finite ones of these values, from 0 or up to 0 if they lie on one side and it is wanted.
    /// None if no value is finite.
    pub fn around(values: impl Iterator<Item = f64>, from_zero: bool) -> Option<Scale> {
        let (mut low, mut high) = (f64::INFINITY, f64::NEG_INFINITY);
        for value in values.filter(|value| value.is_finite()) {
            (low, high) = (low.min(value), high.max(value));
        }
        if low > high {
            return None;
        }
        let (base, top) = if from_zero { (low.min(0.0), high.max(0.0)) } else { (low, high) };
        if from_zero && base == top {
            return Some(Scale::linear(0.0, 1.0));
        }
        // Half the range, as the whole may be too large for a double.
        let half = top / 2.0 - base / 2.0;
        let room = if half > 0.0 { half / 8.0 } else { (base.abs() / 8.0).max(0.5) };
        let low = if from_zero && base == 0.0 && top > 0.0 { 0.0 } else { (base - room).max(f64::MIN) };
        let high = if from_zero && top == 0.0 && base < 0.0 { 0.0 } else { (top + room).min(f64::MAX) };
        Some(Scale::linear(low, high))
    }
    /// A logarithmic range, where a few of these values would press all others flat: where the highest is more than [`FLAT`]
    /// times the middle one. None elsewhere, and if a value is negative.
    pub fn logarithmic(values: impl Iterator<Item = f64>) -> Option<Scale> {
        let mut values: Vec<f64> = values.filter(|value| value.is_finite() && *value != 0.0).collect();
        let half = values.len() / 2;
        if values.is_empty() || values.iter().any(|value| *value < 0.0) {
            return None;
        }
        let (_, median, _) = values.select_nth_unstable_by(half, f64::total_cmp);
        let median = *median;
        let logarithms = values.iter().map(|value| value.log10());
        let Scale { low, high, .. } = Scale::around(logarithms, false)?;
        let highest = values.iter().fold(0.0, |highest: f64, value| highest.max(*value));
        (highest / FLAT > median).then_some(Scale { low, high, logarithmic: true })
    }
    /// Where a value stands, from 0 at the low end to 1.
    pub fn fraction(&self, value: f64) -> f64 {
        let value = match self.logarithmic {
            true if value <= 0.0 => self.low,
            true => value.log10(),
            false => value,
        };
        let fraction = (value / 2.0 - self.low / 2.0) / (self.high / 2.0 - self.low / 2.0);
        if fraction.is_finite() {
            fraction.clamp(0.0, 1.0)
        } else {
            0.5
        }
    }
    /// Round values, about so many or fewer, with their texts.
    pub fn ticks(&self, most: u32) -> Vec<(f64, String)> {
        let Some(step) = self.step(most) else { return Vec::new() };
        let step = if self.logarithmic { step.max(1.0) } else { step };
        let first = (self.low / step).ceil();
        let ticks = (0..=most).map(|number| (first + f64::from(number)) * step);
        let mut ticks: Vec<f64> = ticks.filter(|tick| (self.low..=self.high).contains(tick)).collect();
        ticks.dedup();
        let ticks = ticks.into_iter();
        if self.logarithmic {
            let powers = ticks.map(|tick| (10f64.powf(tick), power_text(tick as i32)));
            return powers.filter(|(power, _)| power.is_normal()).collect();
        }
        ticks.map(|tick| (tick, self.text(tick, step))).collect()
    }
    /// The least of 1, 2, 5, 10, .. that makes no more ticks than so many.
    fn step(&self, most: u32) -> Option<f64> {
        let least = self.high / f64::from(most) - self.low / f64::from(most);
        let power = 10f64.powf(least.log10().floor());
        let steps = [1.0, 2.0, 5.0, 10.0].map(|digit| digit * power);
        steps.into_iter().find(|step| *step >= least && step.is_normal())
    }
    fn text(&self, tick: f64, step: f64) -> String {
        let digits = |value: f64| value.abs().log10().floor() as i32;
        let largest = self.low.abs().max(self.high.abs());
        // A hair more, so that 0.001 has its three places though its logarithm is rounded.
        let step = step * 1.000_001;
        if tick.abs() < step / 2.0 {
            "0".to_string()
        } else if largest < 1e7 && step >= 1e-6 {
            format!("{tick:.*}", usize::try_from(-digits(step)).unwrap_or(0))
        } else {
            format!("{tick:.*e}", usize::try_from(digits(tick).saturating_sub(digits(step))).unwrap_or(0).min(16))
        }
    }
}

/// Ten to the power of so much.
fn power_text(exponent: i32) -> String {
    match (usize::try_from(exponent), usize::try_from(-exponent)) {
        (Ok(zeros @ 0..=6), _) => format!("1{}", "0".repeat(zeros)),
        (_, Ok(places @ 1..=6)) => format!("0.{}1", "0".repeat(places - 1)),
        _ => format!("1e{exponent}"),
    }
}

#[cfg(test)]
mod tests {
    use super::*;

    fn texts(low: f64, high: f64) -> Vec<String> {
        Scale::linear(low, high).ticks(6).into_iter().map(|(_, text)| text).collect()
    }

    #[test]
    fn ticks_are_round() {
        assert_eq!(texts(0.0, 8760.0), ["0", "2000", "4000", "6000", "8000"]);
        assert_eq!(texts(-20.3, -4.1), ["-20", "-15", "-10", "-5"]);
        assert_eq!(texts(-0.25, 0.31), ["-0.2", "-0.1", "0", "0.1", "0.2", "0.3"]);
        assert_eq!(texts(0.0, 0.005), ["0", "0.001", "0.002", "0.003", "0.004", "0.005"]);
        assert_eq!(texts(0.0, 1e9), ["0", "2e8", "4e8", "6e8", "8e8", "1.0e9"]);
        assert_eq!(texts(0.0, 2.9e-9), ["0", "5e-10", "1.0e-9", "1.5e-9", "2.0e-9", "2.5e-9"]);
    }

    #[test]
    fn no_range_breaks_the_ticks() {
        let ends = [f64::MIN, -1e300, -1.0, -1e-300, -5e-324, 0.0, 5e-324, 1e-300, 1.0, 1.0 + f64::EPSILON, 1e300, f64::MAX];
        for (at, low) in ends.into_iter().enumerate() {
            for high in ends.into_iter().skip(at + 1) {
                let scale = Scale::linear(low, high);
                let ticks = scale.ticks(6);
                assert!(ticks.len() <= 7 && ticks.iter().all(|(tick, _)| (low..=high).contains(tick)), "{scale:?} {ticks:?}");
                for value in [low, high, 0.0, f64::MAX, f64::MIN, f64::NAN, f64::INFINITY] {
                    assert!((0.0..=1.0).contains(&scale.fraction(value)), "{scale:?} {value}");
                }
            }
        }
    }

    #[test]
    fn ranges_have_room() {
        let around =
            |values: &[f64], from_zero| Scale::around(values.iter().copied(), from_zero).map(|scale| (scale.low, scale.high));
        assert_eq!(around(&[], false), None);
        assert_eq!(around(&[f64::NAN, f64::INFINITY], true), None);
        assert_eq!(around(&[0.0, 16.0], false), Some((-1.0, 17.0)));
        assert_eq!(around(&[8.0, 16.0], true), Some((0.0, 17.0)));
        assert_eq!(around(&[-16.0], true), Some((-17.0, 0.0)));
        assert_eq!(around(&[0.0, -0.0], true), Some((0.0, 1.0)));
        assert_eq!(around(&[-16.0, -16.0], false), Some((-18.0, -14.0)));
        assert_eq!(around(&[f64::MIN, f64::MAX], false), Some((f64::MIN, f64::MAX)));
        assert!(around(&[f64::MAX], false).is_some_and(|(low, high)| low < high && high.is_finite()));
    }

    #[test]
    fn logarithmic_where_a_peak_would_press_the_rest_flat() {
        let scale = |values: &[f64]| Scale::logarithmic(values.iter().copied());
        assert!(scale(&[1.0, 1.0, 50.0]).is_none() && scale(&[]).is_none() && scale(&[-1.0, 1.0, 1.0, 90.0]).is_none());
        let peak = scale(&[0.0, 0.01, 0.02, 0.03, 100.0, f64::NAN]).expect("a peak");
        let texts: Vec<String> = peak.ticks(6).into_iter().map(|(_, text)| text).collect();
        assert_eq!(texts, ["0.01", "0.1", "1", "10", "100"]);
        assert_eq!([0.0, -1.0].map(|value| peak.fraction(value)), [0.0, 0.0]);
        assert!((peak.fraction(1.0) - 0.5).abs() < 1e-12);
        let wide = scale(&[5e-324, 5e-324, f64::MAX]).expect("a peak");
        let texts: Vec<String> = wide.ticks(6).into_iter().map(|(_, text)| text).collect();
        assert_eq!(texts, ["1e-200", "1", "1e200"]);
        assert!(wide.fraction(5e-324) > 0.0 && wide.fraction(f64::MAX) < 1.0);
    }
}

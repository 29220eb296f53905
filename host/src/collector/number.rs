//! Numbers as they are read and shown.
use crate::text::quoted;

/// A reading, or none where it is missing: empty or NA. NaN and the infinities are readings if they are written so.
pub fn reading(text: &str) -> Result<Option<f64>, String> {
    let text = text.trim();
    if text.is_empty() || text.eq_ignore_ascii_case("na") {
        return Ok(None);
    }
    double(text).map(Some)
}

/// A double. Digits never stand for an infinity.
pub fn double(text: &str) -> Result<f64, String> {
    match text.parse::<f64>() {
        Ok(number) if number.is_infinite() && text.contains(|c: char| c.is_ascii_digit()) => {
            Err(format!("{} is too large for a 64-bit float", quoted(text)))
        }
        Ok(number) => Ok(number),
        Err(_) => Err(format!("{} is no number", quoted(text))),
    }
}

/// A number to six digits, with an exponent where it would be long.
pub fn six_digits(number: f64) -> String {
    let scientific = format!("{number:.5e}");
    let exponent = scientific.split_once('e').and_then(|(_, exponent)| exponent.parse::<i32>().ok());
    match exponent {
        _ if number == 0.0 => "0".to_string(),
        None => number.to_string(),
        Some(exponent @ -4..=5) => format!("{number:.*}", usize::try_from(5 - exponent).unwrap_or(0)),
        Some(_) => scientific,
    }
}

/// How many decimals show all of some readings in full, so that they read as in their file and their points stand below each other.
#[derive(Clone, Copy, Debug, PartialEq)]
pub enum Decimals {
    These(usize),
    /// Five are not enough, or a reading would be long.
    Many,
}
impl Decimals {
    const MOST: usize = 5;
    /// As many as this reading needs too.
    pub fn with(self, reading: f64) -> Decimals {
        let Decimals::These(least) = self else { return self };
        let in_full = |decimals: &usize| format!("{reading:.*}", *decimals).parse() == Ok(reading);
        match (least..=Decimals::MOST).find(in_full) {
            Some(decimals) if reading.abs() < 1e6 => Decimals::These(decimals),
            _ => Decimals::Many,
        }
    }
    pub fn text(self, reading: f64) -> String {
        match self {
            Decimals::These(decimals) => format!("{reading:.decimals$}"),
            Decimals::Many => six_digits(reading),
        }
    }
}

#[cfg(test)]
mod tests {
    use super::*;

    #[test]
    fn readings_and_missing_ones() {
        for text in ["", "  ", "NA", "na", " Na "] {
            assert_eq!(reading(text), Ok(None), "{text:?}");
        }
        assert_eq!(reading(" -18.25 "), Ok(Some(-18.25)));
        assert_eq!(reading("1e3"), Ok(Some(1000.0)));
        assert_eq!(reading("-Inf"), Ok(Some(f64::NEG_INFINITY)));
        assert_eq!(reading("INFINITY"), Ok(Some(f64::INFINITY)));
        assert!(reading("NaN").is_ok_and(|number| number.is_some_and(f64::is_nan)));
        assert_eq!(reading("1e999"), Err("\"1e999\" is too large for a 64-bit float".to_string()));
        assert_eq!(reading("-18,5"), Err("\"-18,5\" is no number".to_string()));
        assert!(reading("N/A").is_err() && reading("0x1").is_err() && reading("\u{2212}18").is_err());
    }

    #[test]
    fn six_digits_of_any_number() {
        let cases = [
            (0.0, "0"),
            (-0.0, "0"),
            (1.0, "1.00000"),
            (-1.5, "-1.50000"),
            (123456.4, "123456"),
            (999999.4, "999999"),
            (999999.6, "1.00000e6"),
            (99999.96, "100000"),
            (0.0001234567, "0.000123457"),
            (0.00001234567, "1.23457e-5"),
            (0.0000999999951, "0.000100000"),
            (f64::MAX, "1.79769e308"),
            (5e-324, "4.94066e-324"),
            (f64::NAN, "NaN"),
            (f64::INFINITY, "inf"),
            (f64::NEG_INFINITY, "-inf"),
        ];
        for (number, text) in cases {
            assert_eq!(six_digits(number), text);
        }
    }

    #[test]
    fn readings_with_one_number_of_decimals() {
        let shown = |readings: &[f64]| {
            let decimals = readings.iter().fold(Decimals::These(0), |decimals, reading| decimals.with(*reading));
            readings.iter().map(|reading| decimals.text(*reading)).collect::<Vec<_>>()
        };
        assert_eq!(shown(&[-18.5, -4.68, 0.0, 7.0]), ["-18.50", "-4.68", "0.00", "7.00"]);
        assert_eq!(shown(&[-18.0, 999999.0]), ["-18", "999999"]);
        assert_eq!(shown(&[0.12345, 1.0]), ["0.12345", "1.00000"]);
        assert_eq!(shown(&[0.123456, 1.5]), ["0.123456", "1.50000"]);
        assert_eq!(shown(&[1e6, 1.5]), ["1.00000e6", "1.50000"]);
        assert_eq!(shown(&[5e-324, -f64::MAX]), ["4.94066e-324", "-1.79769e308"]);
    }
}

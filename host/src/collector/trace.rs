//! A trace as CSV: time, temperature. Two of them, place by place.
use crate::csv::{split, Fault, Fields, Lines};
use crate::number;
use crate::text::Texts;
use moments::{is_valid, trace_of, Which, MOST};
use std::io::BufRead;

/// What a trace's file holds.
pub struct Trace {
    pub file: String,
    pub readings: Vec<f64>,
    /// There is a map only if a reading is missing: where one is lent, the library goes by other rules for the minimum.
    pub map: Option<Vec<u8>>,
    pub times: Texts,
    /// How many readings the file has, even if too many to keep.
    pub seen: usize,
    heading: bool,
}
impl Trace {
    pub fn read(input: &mut dyn BufRead, file: &str) -> Result<Trace, Fault> {
        let lines = Lines::new(input, file, "the line is blank: a missing reading is written as its time and a comma, `time,`");
        let mut reader = Reader { lines, buffer: Vec::new(), times: Texts::default(), seen: 0, heading: false };
        let mut fault = None;
        let (readings, map) = trace_of(std::iter::from_fn(|| {
            reader.next().unwrap_or_else(|found| {
                fault = Some(found);
                None
            })
        }));
        match fault {
            Some(fault) => Err(fault),
            None => {
                let (times, seen, heading) = (reader.times, reader.seen, reader.heading);
                Ok(Trace { file: file.to_string(), readings, map, times, seen, heading })
            }
        }
    }
    pub fn len(&self) -> usize {
        self.readings.len()
    }
    /// The line of a place.
    pub fn line(&self, place: usize) -> usize {
        place.saturating_add(1 + usize::from(self.heading))
    }
    /// A place's reading, or none if it is missing.
    pub fn reading(&self, place: usize) -> Option<f64> {
        self.readings.get(place).copied().filter(|_| is_valid(self.map.as_deref(), place))
    }
    pub fn first_missing(&self) -> Option<usize> {
        (0..self.len()).find(|place| self.reading(*place).is_none())
    }
    /// Whether a place's reading is finite, or none if it is missing.
    fn is_finite(&self, place: usize) -> Option<bool> {
        self.reading(place).map(f64::is_finite)
    }
}

/// A trace, or two whose places are paired.
pub struct Traces {
    pub first: Trace,
    pub second: Option<Trace>,
    /// How many of the first so many places are valid, and how many of those are not finite.
    valid: Vec<u32>,
    not_finite: Vec<u32>,
}
impl Traces {
    pub fn new(first: Trace, second: Option<Trace>) -> Self {
        let mut traces = Traces { first, second, valid: Vec::new(), not_finite: Vec::new() };
        let count = |such: fn(Option<bool>) -> bool| totals(traces.len(), |place| such(traces.is_finite(place)));
        let (valid, not_finite) = (count(|finite| finite.is_some()), count(|finite| finite == Some(false)));
        (traces.valid, traces.not_finite) = (valid, not_finite);
        traces
    }
    pub fn all(&self) -> impl Iterator<Item = &Trace> {
        std::iter::once(&self.first).chain(&self.second)
    }
    /// The one that a refusal speaks of.
    pub fn told(&self, which: Which) -> &Trace {
        match (which, &self.second) {
            (Which::Second, Some(second)) => second,
            _ => &self.first,
        }
    }
    pub fn len(&self) -> usize {
        self.first.len()
    }
    /// Whether a place's reading, or pair of readings, is finite, or none if one is missing.
    pub fn is_finite(&self, place: usize) -> Option<bool> {
        let first = self.first.is_finite(place)?;
        let second = self.second.as_ref().map_or(Some(true), |second| second.is_finite(place))?;
        Some(first && second)
    }
    pub fn valid(&self, start: usize, end: usize) -> usize {
        between(&self.valid, start, end)
    }
    pub fn not_finite(&self, start: usize, end: usize) -> usize {
        between(&self.not_finite, start, end)
    }
    /// The places at which two traces do not have the same time.
    pub fn at_other_times(&self) -> impl Iterator<Item = (usize, &str, &str)> {
        let second = self.second.as_ref();
        let times = (0..self.len()).filter_map(move |place| Some((place, self.first.times.get(place), second?.times.get(place))));
        times.filter(|(_, first, second)| first != second)
    }
}

/// How many of the first 0, 1, 2, .. places are such.
fn totals(places: usize, such: impl Fn(usize) -> bool) -> Vec<u32> {
    let mut total = 0;
    let rest = (0..places).map(|place| {
        total += u32::from(such(place));
        total
    });
    std::iter::once(0).chain(rest).collect()
}
fn between(totals: &[u32], start: usize, end: usize) -> usize {
    let total = |place: usize| totals.get(place).copied().unwrap_or(0);
    total(end).saturating_sub(total(start)) as usize
}

struct Reader<'a> {
    lines: Lines<'a>,
    buffer: Vec<u8>,
    times: Texts,
    seen: usize,
    heading: bool,
}
impl Reader<'_> {
    /// The next reading or missing one; none at the file's end. One more than the library takes is kept, so that it refuses;
    /// those past it are only counted.
    fn next(&mut self) -> Result<Option<Option<f64>>, Fault> {
        while let Some(line) = self.lines.next(&mut self.buffer)? {
            let fields = split(line).map_err(|text| self.lines.fault(text))?;
            let first = self.lines.line() == 1;
            if first && fields.are(&["time", "temperature"]) {
                self.heading = true;
                continue;
            }
            let reading = reading(&fields)
                .map_err(|text| self.lines.fault(if first { text + "; a heading reads time,temperature" } else { text }))?;
            self.seen += 1;
            if self.seen <= MOST + 1 {
                let [time, ..] = &fields.first;
                self.times.push(time);
                return Ok(Some(reading));
            }
        }
        Ok(None)
    }
}

fn reading(fields: &Fields<'_>) -> Result<Option<f64>, String> {
    match &fields.first {
        // A table with decimal commas and other separators would else give times and temperatures of another meaning.
        [time, ..] if time.contains([';', '\t']) => {
            Err("fields are parted by commas and decimals by points, but a semicolon or a tab stands in the time".to_string())
        }
        [_, temperature, _] if fields.count == 2 => number::reading(temperature),
        _ => Err(format!("a line has two fields, time and temperature, but this one has {}", fields.count)),
    }
}

#[cfg(test)]
mod tests {
    use super::*;

    fn read(mut input: &[u8]) -> Trace {
        Trace::read(&mut input, "f").expect("a trace")
    }
    const FIRST: &[u8] = b"time,temperature\na,1\nb,\nc,nan\nd,NA\ne,-inf\n";

    #[test]
    fn counts_of_windows() {
        let trace = read(FIRST);
        assert_eq!((trace.len(), trace.seen, trace.map.clone(), trace.line(0)), (5, 5, Some(vec![0b10101]), 2));
        assert_eq!((trace.first_missing(), trace.reading(0), trace.times.get(4)), (Some(1), Some(1.0), "e"));
        let one = Traces::new(trace, None);
        assert_eq!((one.valid(0, 5), one.valid(1, 2), one.valid(2, 5), one.valid(3, 3)), (3, 0, 2, 0));
        assert_eq!((one.not_finite(0, 5), one.not_finite(0, 2), one.not_finite(3, 5)), (2, 0, 1));
        assert_eq!(one.at_other_times().count(), 0);
    }

    #[test]
    fn a_pair_is_where_both_have_a_reading() {
        // a reading that is not finite beside a missing one is no pair
        let two = Traces::new(read(FIRST), Some(read(b"a,inf\nb,2\nC,\nd,nan\ne,5\n")));
        assert_eq!([0, 1, 2, 3, 4, 5].map(|place| two.is_finite(place)), [Some(false), None, None, None, Some(false), None]);
        assert_eq!((two.valid(0, 5), two.valid(1, 4), two.not_finite(0, 5), two.not_finite(0, 1)), (2, 0, 2, 1));
        assert_eq!(two.at_other_times().collect::<Vec<_>>(), [(2, "c", "C")]);
        assert_eq!([Which::Only, Which::First, Which::Second].map(|which| two.told(which).line(0)), [2, 2, 1]);
    }
}

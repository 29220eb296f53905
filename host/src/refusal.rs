//! Why a call was refused, in words.
use crate::map::bytes_for;
use crate::rolling::Plan;
use std::error::Error;
use std::fmt;

/// The most readings that a trace may have, and the most rows that a plan may have.
pub const MOST: usize = 16_777_216;

/// The trace that a refusal speaks of.
#[derive(Clone, Copy, Debug, PartialEq, Eq)]
pub enum Which {
    /// The one that the call has.
    Only,
    /// The first of two.
    First,
    /// The second of two.
    Second,
}
impl fmt::Display for Which {
    fn fmt(&self, f: &mut fmt::Formatter<'_>) -> fmt::Result {
        f.write_str(match self {
            Self::Only => "the trace",
            Self::First => "the first trace",
            Self::Second => "the second trace",
        })
    }
}

/// One of the lists that a caller lends for the answers.
#[derive(Clone, Copy, Debug, PartialEq, Eq)]
pub enum List {
    /// A double a row.
    Figures,
    /// A byte a row.
    Present,
    /// A double a row for the lowest readings.
    Lowest,
    /// A byte a row, whether there is a lowest reading.
    LowestPresent,
    /// A double a row for the highest readings.
    Highest,
    /// A byte a row, whether there is a highest reading.
    HighestPresent,
    /// A double a reading, into which a plan call decodes this trace.
    Readings(Which),
}

/// Why a call was refused: document 01's numbers, each with what there is to say of it. Of several that apply it is the first
/// (14 before all, then in number order, of 5, 6 and 7 the first row's), and no lent list has changed.
///
/// Its text is a sentence for whoever gave the input. Rows and places count from 0, as in a plan.
///
/// ```
/// use moments::{plan, Plan, Refusal, Setting};
/// let refusal = plan(&[2.0, 4.0, 6.0], None, Plan::new(&[0, 2], &[2, 4]), Setting::var(1)).unwrap_err();
/// assert_eq!(refusal, Refusal::EndPastTrace { row: 1, end: 4, readings: 3 });
/// assert_eq!(refusal.number(), 6);
/// assert_eq!(refusal.to_string(), "row 1 ends at 4, but with 3 readings a row can end at 3 at most");
/// ```
#[derive(Clone, Copy, Debug, PartialEq, Eq)]
pub enum Refusal {
    /// 1: a trace has more than [`MOST`] readings.
    TooManyReadings {
        /// Which trace, of two the first that has.
        trace: Which,
        /// How many.
        readings: usize,
    },
    /// 2: paired traces differ in length.
    LengthsDiffer {
        /// Readings of the first.
        first: usize,
        /// Readings of the second.
        second: usize,
    },
    /// 3: a map with fewer bytes than its trace needs. A longer one is taken.
    MapLength {
        /// Whose map, of two the first such one's.
        trace: Which,
        /// Bytes of the map.
        bytes: usize,
        /// Readings of its trace, each with a bit.
        readings: usize,
    },
    /// 4: a plan's lists differ in length or have more than [`MOST`] rows.
    PlanLengths {
        /// How many starts.
        starts: usize,
        /// How many ends.
        ends: usize,
    },
    /// 5: a row's start lies after its end.
    StartAfterEnd {
        /// The first such row.
        row: usize,
        /// Where it starts.
        start: u32,
        /// Where it ends.
        end: u32,
    },
    /// 6: a row's end lies past the trace's.
    EndPastTrace {
        /// The first such row.
        row: usize,
        /// Where it ends.
        end: u32,
        /// Readings of the trace.
        readings: usize,
    },
    /// 7: a row's start or end lies before that of the row before.
    BelowRowBefore {
        /// The first such row.
        row: usize,
        /// Where it starts and ends.
        bounds: (u32, u32),
        /// Where the row before starts and ends.
        before: (u32, u32),
    },
    /// 8: weights together with a map.
    WeightsWithMap,
    /// 9: the sum of the weights is zero.
    WeightsSumToZero,
    /// 10: another number of weights than the window has places.
    WeightCount {
        /// How many weights.
        weights: usize,
        /// The window's size.
        window_size: usize,
    },
    /// 11: a range reaches past the trace's end.
    RangePastTrace {
        /// Where it starts.
        start: usize,
        /// How many places it has.
        length: usize,
        /// Readings of the trace.
        readings: usize,
    },
    /// 12: a lent list is too short.
    ListTooShort {
        /// Which.
        list: List,
        /// How many places it has.
        length: usize,
        /// How many it needs.
        needed: usize,
    },
    /// 13: the lent work slice is too short.
    WorkTooShort {
        /// How many doubles it has.
        length: usize,
        /// How many it needs.
        needed: usize,
    },
    /// 14: the bytes of a trace are no multiple of 8.
    TraceBytes {
        /// Which trace, of two the first such one.
        trace: Which,
        /// How many.
        bytes: usize,
    },
    /// A number that document 01 does not have or that does not fit the call: the linked archive is not this crate's.
    Unknown {
        /// The number.
        number: u32,
    },
}

impl Refusal {
    /// The number that the library answers: document 01's, but for [`Refusal::Unknown`].
    pub fn number(&self) -> u32 {
        match self {
            Self::TooManyReadings { .. } => 1,
            Self::LengthsDiffer { .. } => 2,
            Self::MapLength { .. } => 3,
            Self::PlanLengths { .. } => 4,
            Self::StartAfterEnd { .. } => 5,
            Self::EndPastTrace { .. } => 6,
            Self::BelowRowBefore { .. } => 7,
            Self::WeightsWithMap => 8,
            Self::WeightsSumToZero => 9,
            Self::WeightCount { .. } => 10,
            Self::RangePastTrace { .. } => 11,
            Self::ListTooShort { .. } => 12,
            Self::WorkTooShort { .. } => 13,
            Self::TraceBytes { .. } => 14,
            Self::Unknown { number } => *number,
        }
    }
    /// The row of the plan that was refused, where it was one.
    pub fn row(&self) -> Option<usize> {
        match self {
            Self::StartAfterEnd { row, .. } | Self::EndPastTrace { row, .. } | Self::BelowRowBefore { row, .. } => Some(*row),
            _ => None,
        }
    }
}

/// A number and the thing that it counts.
fn count(n: usize, thing: &str) -> String {
    format!("{n} {thing}{}", if n == 1 { "" } else { "s" })
}

impl fmt::Display for Refusal {
    fn fmt(&self, f: &mut fmt::Formatter<'_>) -> fmt::Result {
        match *self {
            Self::TooManyReadings { trace, readings } => {
                write!(f, "{trace} has {readings} readings, but {MOST} is the most that is taken")
            }
            Self::LengthsDiffer { first, second } => {
                let second = count(second, "reading");
                write!(f, "the second trace has {second}, the first {first}, but two traces must be of one length")
            }
            Self::MapLength { trace, bytes, readings: n } => write!(
                f,
                "{trace}'s map has {}, but {} at least {}: one bit a reading, eight bits a byte",
                count(bytes, "byte"),
                if n == 1 { "1 reading needs".into() } else { format!("{n} readings need") },
                bytes_for(n),
            ),
            Self::PlanLengths { starts, ends } if starts == ends => {
                write!(f, "the plan has {starts} rows, but {MOST} is the most that is taken")
            }
            Self::PlanLengths { starts, ends } => {
                write!(f, "the plan has {} and {}, but every row needs both", count(starts, "start"), count(ends, "end"),)
            }
            Self::StartAfterEnd { row, start, end } => {
                write!(f, "row {row} starts at {start}, after its end at {end}")
            }
            Self::EndPastTrace { row, end, readings: n } => {
                write!(f, "row {row} ends at {end}, but with {} a row can end at {n} at most", count(n, "reading"))
            }
            Self::BelowRowBefore { row, bounds, before } => {
                let last = row.saturating_sub(1);
                let (start, end) = bounds;
                match (start < before.0, end < before.1) {
                    (true, true) => write!(
                        f,
                        "row {row}, from {start} to {end}, goes back behind row {last}, from {} to {}: starts and ends must not fall",
                        before.0, before.1
                    ),
                    (true, false) => {
                        write!(f, "row {row} starts at {start}, before row {last}, which starts at {}: starts must not fall", before.0)
                    }
                    _ => write!(f, "row {row} ends at {end}, before row {last}, which ends at {}: ends must not fall", before.1),
                }
            }
            Self::WeightsWithMap => {
                write!(f, "weights were given for a trace with a map: a weighted window cannot have missing readings")
            }
            Self::WeightsSumToZero => write!(f, "the weights add up to zero, so they cannot be divided by their sum"),
            Self::WeightCount { weights, window_size } => {
                let places = count(window_size, "place");
                write!(f, "a window of {places} needs as many weights, but has {weights}")
            }
            Self::RangePastTrace { start, length, readings: n } => write!(
                f,
                "the range of {} from {start} reaches past the end of the trace, which has {}",
                count(length, "place"),
                count(n, "reading"),
            ),
            Self::ListTooShort { list, length, needed } => {
                let (list, what) = match list {
                    List::Figures => ("figures".into(), "row"),
                    List::Present => ("present bytes".into(), "row"),
                    List::Lowest => ("lowest readings".into(), "row"),
                    List::LowestPresent => ("the lowest readings' present bytes".into(), "row"),
                    List::Highest => ("highest readings".into(), "row"),
                    List::HighestPresent => ("the highest readings' present bytes".into(), "row"),
                    List::Readings(Which::Only) => ("readings".into(), "reading"),
                    List::Readings(trace) => (format!("{trace}'s readings"), "reading"),
                };
                let places = count(length, "place");
                write!(f, "the lent list of {list} has {places}, but needs {needed}, one for each {what}")
            }
            Self::WorkTooShort { length, needed } => {
                write!(f, "the lent work slice has {}, but the widest window needs {needed}", count(length, "double"))
            }
            Self::TraceBytes { trace, bytes } => {
                write!(f, "{trace} has {}, which is no multiple of 8: a reading has 8", count(bytes, "byte"))
            }
            Self::Unknown { number } => {
                write!(f, "the library answered the number {number}, which this crate does not know: is the archive an older or a newer one?")
            }
        }
    }
}
impl Error for Refusal {}

/// A trace that a call was given, as far as a refusal can speak of it.
#[derive(Clone, Copy, Default)]
pub(crate) struct GivenTrace {
    /// Where it was given as bytes, how many.
    pub bytes: usize,
    pub readings: usize,
    /// Bytes of its map.
    pub map: Option<usize>,
    /// Length of the list into which it is decoded.
    pub decoded: Option<usize>,
}
impl GivenTrace {
    pub fn new(trace: &[f64], map: Option<&[u8]>) -> Self {
        GivenTrace { readings: trace.len(), map: map.map(<[u8]>::len), ..GivenTrace::default() }
    }
    fn is_too_long(&self) -> bool {
        self.readings > MOST
    }
    fn has_short_map(&self) -> bool {
        self.map.is_some_and(|bytes| bytes < bytes_for(self.readings))
    }
    fn is_cut(&self) -> bool {
        self.bytes % 8 != 0
    }
}

/// What a call was given, as far as a refusal can speak of it; what a call has not is left at its default.
#[derive(Clone, Copy, Default)]
pub(crate) struct Given<'a> {
    pub trace: GivenTrace,
    /// The second trace.
    pub pair: Option<GivenTrace>,
    pub plan: Plan<'a>,
    pub weights: usize,
    pub window_size: usize,
    pub range: (usize, usize),
    pub rows: usize,
    /// Lengths of the lists that are lent.
    pub figures: usize,
    pub present: usize,
    /// Of the lowest readings and of the highest, doubles and bytes.
    pub extremes: Option<[[usize; 2]; 2]>,
    pub work: usize,
    pub needed_work: usize,
}
impl Given<'_> {
    pub fn trace(trace: &[f64], map: Option<&[u8]>) -> Self {
        Given { trace: GivenTrace::new(trace, map), ..Given::default() }
    }
    /// 0 is acceptance; any other number is said in full.
    pub fn result(&self, number: u32) -> Result<(), Refusal> {
        match number {
            0 => Ok(()),
            _ => Err(self.refusal(number).filter(|refusal| refusal.number() == number).unwrap_or(Refusal::Unknown { number })),
        }
    }
    /// The same for a call that is lent work, of which more is told only where it was too short.
    pub fn result_of_work(self, number: u32, needed: impl FnOnce() -> usize) -> Result<(), Refusal> {
        let needed_work = if number == 13 { needed() } else { 0 };
        Given { needed_work, ..self }.result(number)
    }
    fn refusal(&self, number: u32) -> Option<Refusal> {
        let readings = self.trace.readings;
        Some(match number {
            1 => {
                let (trace, GivenTrace { readings, .. }) = self.first_trace(GivenTrace::is_too_long)?;
                Refusal::TooManyReadings { trace, readings }
            }
            2 => {
                let GivenTrace { readings: second, .. } = self.pair.filter(|pair| pair.readings != readings)?;
                Refusal::LengthsDiffer { first: readings, second }
            }
            3 => {
                let (trace, GivenTrace { readings, map, .. }) = self.first_trace(GivenTrace::has_short_map)?;
                Refusal::MapLength { trace, bytes: map?, readings }
            }
            4 => Refusal::PlanLengths { starts: self.plan.starts.len(), ends: self.plan.ends.len() },
            5..=7 => self.plan.first_refusal(readings)?,
            8 => Refusal::WeightsWithMap,
            9 => Refusal::WeightsSumToZero,
            10 => Refusal::WeightCount { weights: self.weights, window_size: self.window_size },
            11 => Refusal::RangePastTrace { start: self.range.0, length: self.range.1, readings },
            12 => self.short_list()?,
            13 => Refusal::WorkTooShort { length: self.work, needed: self.needed_work },
            14 => {
                let (trace, GivenTrace { bytes, .. }) = self.first_trace(GivenTrace::is_cut)?;
                Refusal::TraceBytes { trace, bytes }
            }
            _ => return None,
        })
    }
    /// The call's traces, each with how it is called.
    fn traces(&self) -> impl Iterator<Item = (Which, GivenTrace)> {
        let first = if self.pair.is_some() { Which::First } else { Which::Only };
        [(first, Some(self.trace)), (Which::Second, self.pair)].into_iter().filter_map(|(which, trace)| Some((which, trace?)))
    }
    fn first_trace(&self, such: fn(&GivenTrace) -> bool) -> Option<(Which, GivenTrace)> {
        self.traces().find(|(_, trace)| such(trace))
    }
    fn short_list(&self) -> Option<Refusal> {
        let figures = [(List::Figures, self.figures), (List::Present, self.present)];
        let extremes = self.extremes.map(|[[lowest, lowest_present], [highest, highest_present]]| {
            let (lowest, highest) = ((List::Lowest, lowest), (List::Highest, highest));
            [lowest, (List::LowestPresent, lowest_present), highest, (List::HighestPresent, highest_present)]
        });
        let answers = figures.into_iter().chain(extremes.into_iter().flatten()).map(|(list, length)| (list, length, self.rows));
        let decoded = self.traces().filter_map(|(which, trace)| Some((List::Readings(which), trace.decoded?, trace.readings)));
        let mut lists = answers.chain(decoded);
        let (list, length, needed) = lists.find(|(_, length, needed)| length < needed)?;
        Some(Refusal::ListTooShort { list, length, needed })
    }
}

#[cfg(test)]
mod tests {
    use super::*;

    #[test]
    fn a_number_that_does_not_fit_the_call_is_unknown() {
        let trace = GivenTrace { readings: 3, ..GivenTrace::default() };
        let given = Given { trace, plan: Plan::new(&[0], &[4]), ..Given::default() };
        assert_eq!(given.result(0), Ok(()));
        assert_eq!(given.result(6), Err(Refusal::EndPastTrace { row: 0, end: 4, readings: 3 }));
        for number in [1, 2, 3, 5, 7, 12, 14, 15, 99, u32::MAX] {
            assert_eq!(given.result(number), Err(Refusal::Unknown { number }));
        }
    }

    #[test]
    fn the_trace_that_is_told_of_is_the_first_such_one() {
        let told = |traces: [GivenTrace; 2], number| {
            Given { trace: traces[0], pair: Some(traces[1]), ..Given::default() }.result(number)
        };
        let of = |readings, map| GivenTrace { readings, map, ..GivenTrace::default() };
        let short = |trace, bytes| Err(Refusal::MapLength { trace, bytes, readings: 9 });
        assert_eq!(told([of(9, Some(1)), of(9, Some(0))], 3), short(Which::First, 1));
        assert_eq!(told([of(9, Some(3)), of(9, Some(1))], 3), short(Which::Second, 1));
        assert_eq!(told([of(9, None), of(9, Some(0))], 3), short(Which::Second, 0));
        // no map is short: the archive is not this crate's
        for longer in [2, 3, 66] {
            assert_eq!(told([of(9, Some(longer)), of(9, None)], 3), Err(Refusal::Unknown { number: 3 }));
        }
        let long = |trace, readings| Err(Refusal::TooManyReadings { trace, readings });
        assert_eq!(told([of(MOST + 1, None), of(MOST + 2, None)], 1), long(Which::First, MOST + 1));
        assert_eq!(told([of(MOST, None), of(MOST + 2, None)], 1), long(Which::Second, MOST + 2));
        let cut = |bytes| GivenTrace { bytes, readings: bytes / 8, ..GivenTrace::default() };
        assert_eq!(told([cut(17), cut(9)], 14), Err(Refusal::TraceBytes { trace: Which::First, bytes: 17 }));
        assert_eq!(told([cut(16), cut(9)], 14), Err(Refusal::TraceBytes { trace: Which::Second, bytes: 9 }));
    }
}

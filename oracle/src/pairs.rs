//! A call on two traces, over a plan or fixed windows: what it is given and lent, what the account over the Rust's own states answers to
//! it, and random calls.
use crate::account::{self, Given};
use crate::host::{self, readings};
use crate::rng::Rng;
use crate::{offsets, refusal, windows, PairFigure};
use std::fmt;

/// A trace in the bytes of a host call, eight a reading, of which fixed windows are given the readings.
#[derive(Clone, Default)]
pub struct Trace {
    bytes: Vec<u8>,
    /// So many bytes stand before the trace's own, so that those may start at any address.
    shift: usize,
    pub has_map: bool,
    /// May hold anything where there is none.
    pub map: Vec<u8>,
    /// Places of the list that a plan call decodes the readings into.
    pub decoded: usize,
}
impl Trace {
    pub fn new(x: &[f64], map: Option<&[u8]>) -> Trace {
        let bytes = x.iter().flat_map(|v| v.to_bits().to_le_bytes()).collect();
        Trace { bytes, shift: 0, has_map: map.is_some(), map: map.unwrap_or(&[]).to_vec(), decoded: x.len() }
    }
    pub fn bytes(&self) -> &[u8] {
        &self.bytes[self.shift..]
    }
    /// How many whole readings the bytes are.
    pub fn len(&self) -> usize {
        self.bytes().len() / 8
    }
    pub fn is_empty(&self) -> bool {
        self.len() == 0
    }
    pub fn map(&self) -> Option<&[u8]> {
        self.has_map.then_some(&self.map)
    }
    pub fn readings(&self) -> Vec<f64> {
        self.bytes().chunks_exact(8).map(|b| f64::from_bits(u64::from_le_bytes(b.try_into().unwrap()))).collect()
    }
    /// The same from another address.
    pub fn shifted(self, shift: usize) -> Trace {
        Trace { bytes: (0..shift as u8).chain(self.bytes().iter().copied()).collect(), shift, ..self }
    }
    /// The bytes, to be changed.
    pub fn edit(&mut self) -> &mut Vec<u8> {
        self.bytes.drain(..std::mem::take(&mut self.shift));
        &mut self.bytes
    }
    /// Whole readings, and a list that takes them.
    pub fn whole(&mut self) {
        let n = self.len();
        self.edit().truncate(8 * n);
        self.decoded = n;
    }
    /// A fault, where it comes to one: 14, 2, 3 or 12. A map that gets longer is none.
    fn spoil(&mut self, r: &mut Rng, kind: usize) {
        let needed = self.len().div_ceil(8);
        match kind {
            0 => {
                let odd = 1 + r.below(7);
                if r.chance(1, 2) || self.is_empty() {
                    self.edit().extend((0..odd).map(|i| i as u8));
                } else {
                    let left = self.bytes().len() - odd;
                    self.edit().truncate(left);
                }
            }
            1 => {
                let n = [self.len() + 1, self.len().saturating_sub(1), r.below(self.len() + 9)][r.below(3)];
                self.edit().resize(8 * n, 0x3F);
            }
            2 => (self.has_map, self.map) = (true, vec![0xFF; [0, needed.saturating_sub(1), needed + 1][r.below(3)]]),
            3 => self.decoded = [0, self.len().saturating_sub(1), r.below(self.len() + 1)][r.below(3)],
            _ => {}
        }
    }
}

#[derive(Clone)]
pub enum Windows {
    Plan { starts: Vec<u32>, ends: Vec<u32> },
    Fixed { size: usize, centre: bool },
}

/// So much of a list is shown.
fn shown<T>(list: &[T]) -> &[T] {
    &list[..list.len().min(100)]
}
impl fmt::Debug for Trace {
    fn fmt(&self, f: &mut fmt::Formatter<'_>) -> fmt::Result {
        let Trace { shift, decoded, .. } = self;
        let map = self.map().map(shown);
        write!(f, "{} bytes at {shift}, map {map:X?}, {decoded} places for readings, readings", self.bytes().len())?;
        shown(&self.readings()).iter().try_for_each(|x| write!(f, " {:016X}", x.to_bits()))
    }
}
impl fmt::Debug for Windows {
    fn fmt(&self, f: &mut fmt::Formatter<'_>) -> fmt::Result {
        match self {
            Windows::Plan { starts, ends } => write!(f, "starts {:?}, ends {:?}", shown(starts), shown(ends)),
            Windows::Fixed { size, centre } => write!(f, "size {size}, centre {centre}"),
        }
    }
}
/// All that a call is given, and the lengths of the lists that it is lent.
#[derive(Clone, Debug)]
pub struct Case {
    pub figure: PairFigure,
    pub x: Trace,
    pub y: Trace,
    pub windows: Windows,
    pub min: usize,
    pub work: usize,
    pub figures: usize,
    pub present: usize,
}
impl Case {
    /// A call with each output list just as long as the first trace, or the plan, needs it, and as much work as the windows need.
    fn lent(figure: PairFigure, min: usize, x: Trace, y: Trace, windows: Windows) -> Case {
        let rows = match &windows {
            Windows::Plan { starts, .. } => starts.len(),
            Windows::Fixed { .. } => x.len(),
        };
        let mut case = Case { figure, x, y, windows, min, work: 0, figures: rows, present: rows };
        case.work = case.need();
        case
    }
    pub fn plan(figure: PairFigure, min: usize, x: Trace, y: Trace, rows: &[(usize, usize)]) -> Case {
        let (starts, ends) = rows.iter().map(|row| (row.0 as u32, row.1 as u32)).unzip();
        Case::lent(figure, min, x, y, Windows::Plan { starts, ends })
    }
    pub fn fixed(figure: PairFigure, min: usize, x: Trace, y: Trace, size: usize, centre: bool) -> Case {
        Case::lent(figure, min, x, y, Windows::Fixed { size, centre })
    }
    /// Whether the readings are decoded, which a host call of a plan does.
    pub fn decodes(&self) -> bool {
        matches!(self.windows, Windows::Plan { .. })
    }
    /// The rows as (start, end), as many as have both.
    pub fn rows(&self) -> Vec<(usize, usize)> {
        match &self.windows {
            Windows::Plan { starts, ends } => starts.iter().zip(ends).map(|(s, e)| (*s as usize, *e as usize)).collect(),
            Windows::Fixed { size, centre } => (0..self.x.len()).map(|i| offsets(i, *size, self.x.len(), *centre)).collect(),
        }
    }
    /// Doubles of the work slice that the windows need.
    pub fn need(&self) -> usize {
        let widest = match &self.windows {
            Windows::Plan { starts, ends } => starts.iter().zip(ends).map(|(s, e)| e.saturating_sub(*s) as usize).max().unwrap_or(0),
            Windows::Fixed { size, .. } => self.x.len().min(*size),
        };
        self.figure.entry() * widest
    }
    pub fn refusal(&self) -> u32 {
        let Case { figure, x, y, work, figures, present, .. } = self;
        let map = |trace: &Trace| trace.map().map(<[u8]>::len);
        match &self.windows {
            Windows::Plan { starts, ends } => {
                let wide = |v: &[u32]| v.iter().map(|x| *x as usize).collect::<Vec<_>>();
                let pair = [(x.bytes().len(), map(x)), (y.bytes().len(), map(y))];
                let decoded = [x.decoded, y.decoded];
                refusal::host_pair(pair, &wide(starts), &wide(ends), decoded, &[*figures, *present], figure.entry(), *work)
            }
            Windows::Fixed { size, .. } => {
                refusal::fixed_pair([(x.len(), map(x)), (y.len(), map(y))], *size, &[*figures, *present], figure.entry(), *work)
            }
        }
    }
    /// The account's answers; the call must be accepted.
    pub fn answers(&self) -> Vec<Option<f64>> {
        let (x, y) = (self.x.readings(), self.y.readings());
        let pairs = account::Pairs { x: &x, x_map: self.x.map(), y: &y, y_map: self.y.map(), figure: self.figure };
        account::plan(&pairs, &self.rows(), self.min).0
    }

    /// A random call over a plan: the first trace, the rows, the minimum and what is wrong with them as in a call on one trace.
    pub fn any_plan(r: &mut Rng, most: usize, count: usize) -> Case {
        let (one, spare) = host::Case::drawn(r, most, count);
        let x = Trace { decoded: one.room.readings, has_map: one.has_map, map: one.map, bytes: one.trace, shift: 0 };
        let windows = Windows::Plan { starts: one.starts, ends: one.ends };
        Case::beside(r, x, windows, one.min).faulty(r, spare, (one.room.figures, one.room.present))
    }
    /// The same over fixed windows.
    pub fn any_fixed(r: &mut Rng, most: usize) -> Case {
        let (one, spare) = windows::Case::drawn(r, most);
        let x = Trace { has_map: one.has_map, map: one.map, ..Trace::new(&one.x, None) };
        let windows = Windows::Fixed { size: one.size, centre: one.centre };
        Case::beside(r, x, windows, one.min).faulty(r, spare, (one.room.figures, one.room.present))
    }
    /// With a second trace: on its own, in step with the first, the same, or steady. In a third of the calls all that is not finite
    /// stands where a trace has no reading, so that it must not be seen; in another third some pairs have a bad member beside a good one.
    fn beside(r: &mut Rng, x: Trace, windows: Windows, min: usize) -> Case {
        let (mut a, keen) = (x.readings(), r.chance(1, 2));
        let (mut b, map) = readings(r, a.len(), keen);
        match r.below(10) {
            0 => b.clone_from(&a),
            1 => b = a.iter().map(|x| -x).collect(),
            2 | 3 => b = a.iter().map(|x| 0.5 * x + r.unit()).collect(),
            4 => b = a.iter().map(|x| 3.0 * x - 1.0).collect(),
            5 => b = vec![r.reading(1); b.len()],
            _ => {}
        }
        let y = Trace::new(&b, map.as_deref());
        let has = |trace: &Trace, i: usize| !trace.has_map || trace.map.get(i / 8).is_some_and(|byte| byte >> (i % 8) & 1 == 1);
        let bad = r.below(3);
        for i in 0..a.len() {
            let (valid, members) = (has(&x, i) && has(&y, i), [&mut a[i], &mut b[i]]);
            match bad {
                0 if valid => members.into_iter().filter(|v| !v.is_finite()).for_each(|v| *v = r.reading(1)),
                0 => *members[r.below(2)] = r.bad(),
                1 if r.chance(1, 10) => *members[r.below(2)] = r.bad(),
                _ => {}
            }
        }
        let tail = x.bytes()[8 * a.len()..].to_vec();
        let mut x = Trace { bytes: Trace::new(&a, None).bytes, ..x };
        x.bytes.extend(tail);
        let figure = r.pair_figure();
        Case::lent(figure, min, x, Trace { bytes: Trace::new(&b, None).bytes, ..y }, windows)
    }
    /// With the lists of the call on one trace, and none, one or several faults of the second trace.
    fn faulty(mut self, r: &mut Rng, spare: isize, (figures, present): (usize, usize)) -> Case {
        (self.figures, self.present) = (figures, present);
        if !self.y.has_map && r.chance(1, 2) {
            // no map is lent: whatever stands there is not looked at
            self.y.map = (0..r.below(4)).map(|_| r.u64() as u8).collect();
        }
        if r.chance(1, 3) {
            self.y.decoded += r.below(5);
        }
        let faults = match r.below(12) {
            0..=7 => 0,
            8..=10 => 1,
            _ => 2 + r.below(3),
        };
        let first = if self.decodes() { 0 } else { 1 };
        for _ in 0..faults {
            let kind = first + r.below(4 - first);
            self.y.spoil(r, kind);
        }
        // a plan that is refused may need more than there can be
        let need = self.need().min(8 * self.x.len());
        self.work = match spare {
            0.. => need + spare as usize,
            _ if r.chance(2, 3) => need.saturating_sub(1),
            _ => r.below(need + 1),
        };
        self
    }
    /// Which of the traces have a map.
    pub fn mapped(&self) -> &'static str {
        match (self.x.has_map, self.y.has_map) {
            (false, false) => "no map",
            (true, false) => "the first's",
            (false, true) => "the second's",
            (true, true) => "both",
        }
    }
    /// Whether a valid pair of some row has a member that is not finite.
    pub fn has_bad(&self) -> bool {
        let (x, y) = (self.x.readings(), self.y.readings());
        let pairs = account::Pairs { x: &x, x_map: self.x.map(), y: &y, y_map: self.y.map(), figure: self.figure };
        self.rows().iter().any(|(s, e)| (*s..*e).any(|i| pairs.valid(i) && !pairs.finite(i)))
    }
}

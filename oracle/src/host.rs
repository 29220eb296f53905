//! Document 01's host call of a plan: what it is given, what the Rust answers to it, and random calls.
use crate::account::valid;
use crate::extremes::{self, Extremes};
use crate::rng::Rng;
use crate::{plan, refusal, Figure};

/// Each figure with a setting under which it is present wherever the window has some readings.
pub const EASY: [Figure; 3] = [Figure::Var { ddof: 1 }, Figure::Skew { bias: true }, Figure::Kurt { fisher: true, bias: true }];

/// What a call is given, in our entries' order; `map` may hold anything where `has_map` is false.
#[derive(Clone, Copy, Debug)]
pub struct Call<'a> {
    pub figure: Figure,
    pub trace: &'a [u8],
    pub has_map: bool,
    pub map: &'a [u8],
    pub starts: &'a [u32],
    pub ends: &'a [u32],
    pub min: usize,
}
/// Lengths of the lists that a call is lent.
#[derive(Clone, Copy, Debug, Default, PartialEq)]
pub struct Room {
    pub readings: usize,
    pub work: usize,
    pub figures: usize,
    pub present: usize,
    /// Of the lists of the lowest, of its bytes, of the highest and of its bytes, which only variance without weights is lent.
    pub extremes: [usize; 4],
}
impl Room {
    /// Of all lists that take answers.
    pub fn outs(&self) -> [usize; 6] {
        let [a, b, c, d] = self.extremes;
        [self.figures, self.present, a, b, c, d]
    }
    /// Some of the lists of lowest and highest longer than they were, drawn by a generator of its own: what is drawn by the other one goes
    /// on as it would without it.
    pub(crate) fn lengthen_extremes(&mut self, r: &Rng) {
        let mut r = Rng(r.0 ^ 0x4C4F_5745_5354);
        for list in &mut self.extremes {
            if r.chance(1, 3) {
                *list += r.below(5);
            }
        }
    }
    /// One of these lists shorter than so many rows, where there are any: 12 if nothing comes before it.
    pub fn shorten_extremes(&mut self, r: &mut Rng, rows: usize) {
        let k = r.below(4);
        self.extremes[k] = if r.chance(2, 3) { rows.saturating_sub(1) } else { r.below(rows + 1) };
    }
}
impl<'a> Call<'a> {
    pub fn map(&self) -> Option<&'a [u8]> {
        self.has_map.then_some(self.map)
    }
    pub fn readings(&self) -> Vec<f64> {
        self.trace.chunks_exact(8).map(|b| f64::from_bits(u64::from_le_bytes(b.try_into().unwrap()))).collect()
    }
    pub fn rows(&self) -> Vec<(usize, usize)> {
        self.starts.iter().zip(self.ends).map(|(s, e)| (*s as usize, *e as usize)).collect()
    }
    /// Places of the widest window.
    pub fn widest(&self) -> usize {
        let widths = self.starts.iter().zip(self.ends).map(|(s, e)| e.saturating_sub(*s) as usize);
        widths.max().unwrap_or(0)
    }
    /// Doubles of the work slice that the plan needs.
    pub fn need(&self) -> usize {
        self.figure.entry() * self.widest()
    }
    /// The output lists that the call is lent, of those of a room.
    pub fn outs<'r>(&self, outs: &'r [usize; 6]) -> &'r [usize] {
        if self.figure.has_extremes() { outs } else { &outs[..2] }
    }
    pub fn refusal(&self, room: Room) -> u32 {
        let wide = |v: &[u32]| v.iter().map(|x| *x as usize).collect::<Vec<_>>();
        refusal::host(
            self.trace.len(),
            self.map().map(<[u8]>::len),
            &wide(self.starts),
            &wide(self.ends),
            room.readings,
            self.outs(&room.outs()),
            self.figure.entry(),
            room.work,
        )
    }
    /// The Rust's answers; the call must be accepted.
    pub fn answers(&self) -> Vec<Option<f64>> {
        plan(&self.readings(), self.map(), &self.rows(), self.figure, self.min)
    }
    /// Of each row the lowest and the highest, where the figure has them; the call must be accepted.
    pub fn extremes(&self) -> Option<Vec<Extremes>> {
        let of = || extremes::of_rows(&self.readings(), self.map(), self.rows().into_iter(), self.min);
        self.figure.has_extremes().then(of)
    }
}

/// A call that owns what it is given.
#[derive(Clone, Debug)]
pub struct Case {
    pub figure: Figure,
    pub trace: Vec<u8>,
    pub has_map: bool,
    pub map: Vec<u8>,
    pub starts: Vec<u32>,
    pub ends: Vec<u32>,
    pub min: usize,
    pub room: Room,
}
impl Case {
    /// An accepted call, each list just as long as is needed.
    pub fn new(figure: Figure, min: usize, x: &[f64], map: Option<&[u8]>, rows: &[(usize, usize)]) -> Case {
        let mut case = Case {
            figure,
            trace: x.iter().flat_map(|v| v.to_bits().to_le_bytes()).collect(),
            has_map: map.is_some(),
            map: map.unwrap_or(&[]).to_vec(),
            starts: rows.iter().map(|v| v.0 as u32).collect(),
            ends: rows.iter().map(|v| v.1 as u32).collect(),
            min,
            room: Room { readings: x.len(), work: 0, figures: rows.len(), present: rows.len(), extremes: [0; 4] },
        };
        case.room.work = case.call().need();
        if figure.has_extremes() {
            case.room.extremes = [rows.len(); 4];
        }
        case
    }
    pub fn call(&self) -> Call<'_> {
        Call {
            figure: self.figure,
            trace: &self.trace,
            has_map: self.has_map,
            map: &self.map,
            starts: &self.starts,
            ends: &self.ends,
            min: self.min,
        }
    }
    /// Doubles of work that variance needs more than it did before request 4. A plan that is refused may ask for more than there can be:
    /// its work, which is not looked at, stays as it is drawn.
    fn more_work(&self) -> usize {
        let widest = self.call().widest();
        if widest <= self.trace.len() / 8 { (self.figure.entry() - self.figure.drawn_entry()) * widest } else { 0 }
    }
    /// Doubles of work that the call was lent before request 4, for whatever is drawn by it.
    pub fn drawn_work(&self) -> usize {
        self.room.work.saturating_sub(self.more_work())
    }
    /// A random call over at most `most` readings in at most `count` rows, mostly one that is accepted. Half of them are
    /// keen: windows of some places, and a setting and a minimum under which most figures are present. The lists of lowest and highest
    /// are as long as the rows or longer.
    pub fn any(r: &mut Rng, most: usize, count: usize) -> Case {
        let mut case = Case::drawn(r, most, count).0;
        case.room.work += case.more_work();
        if case.figure.has_extremes() {
            case.room.extremes = [case.starts.len(); 4];
            case.room.lengthen_extremes(r);
        }
        case
    }
    /// The same with the lists of a call before request 4, and how much its work is longer than was needed then, or shorter.
    pub(crate) fn drawn(r: &mut Rng, most: usize, count: usize) -> (Case, isize) {
        let keen = r.chance(1, 2);
        let n = if r.chance(1, 12) { r.below(3) } else { r.below(most + 1) };
        let count = if r.chance(1, 12) { 0 } else { r.below(count + 1) };
        let (x, map) = readings(r, n, keen);
        // slides reach the trace's end in about so many rows, and are short after it
        let rows = if keen { r.slides(n, count.min(n * 2 / 3 + 1)) } else { r.rows(n, count) };
        let widest = rows.iter().map(|(s, e)| e - s).max().unwrap_or(0);
        let min = match r.below(24) {
            0 => widest + r.below(2),
            1 => [usize::MAX, n, 1 << 32][r.below(3)],
            2..=7 => r.below(widest + 1),
            _ if keen => r.below(5),
            _ => r.minimum(),
        };
        let figure = match r.below(40) {
            0 => Figure::Var { ddof: 255 },
            1..=19 if keen => EASY[r.below(3)],
            _ => r.figure(),
        };
        let mut case = Case::new(figure, min, &x, map.as_deref(), &rows);
        if map.is_none() && r.chance(1, 2) {
            // no map is lent: whatever stands there is not looked at
            case.map = (0..r.below(4)).map(|_| r.u64() as u8).collect();
        }
        let faults = match r.below(12) {
            0..=7 => 0,
            8..=10 => 1,
            _ => 2 + r.below(3),
        };
        let kinds: Vec<usize> = (0..faults).map(|_| r.below(16)).collect();
        kinds.iter().for_each(|k| case.spoil(r, *k));
        let need = figure.drawn_entry() * case.call().widest();
        case.room.work = need.min(6 * n);
        let room = &mut case.room;
        for list in [&mut room.readings, &mut room.work, &mut room.figures, &mut room.present] {
            if r.chance(1, 3) {
                *list += r.below(5);
            }
        }
        kinds.iter().for_each(|k| case.shorten(r, *k, need));
        let spare = case.room.work as isize - need as isize;
        (case, spare)
    }
    /// A fault of what is given: 14, 3, 4, 5, 6 or 7, where it comes to one; a map that gets longer is none.
    fn spoil(&mut self, r: &mut Rng, kind: usize) {
        let n = self.trace.len() / 8;
        let rows = self.starts.len().min(self.ends.len());
        let k = r.below(rows.max(1));
        match kind {
            0 => {
                if r.chance(1, 2) || self.trace.is_empty() {
                    (0..1 + r.below(7)).for_each(|i| self.trace.push(i as u8))
                } else if let Some(left) = self.trace.len().checked_sub(1 + r.below(7)) {
                    self.trace.truncate(left)
                }
            }
            1 if !self.has_map => (self.has_map, self.map) = (true, vec![0xFF; n.div_ceil(8) + 1]),
            1 => match r.below(3) {
                0 => self.map.clear(),
                1 => self.map.truncate(self.map.len().saturating_sub(1)),
                _ => self.map.push(0xFF),
            },
            2 => match r.below(4) {
                0 => _ = self.starts.pop(),
                1 => _ = self.ends.pop(),
                2 => self.starts.push(n as u32),
                _ => self.ends.push(n as u32),
            },
            3..=11 if rows == 0 => {}
            3 => self.starts[k] = self.ends[k].saturating_add(1),
            4 => self.ends[k..].fill(n as u32 + 1),
            5 => self.ends[k] = n as u32 + 1,
            6 => self.starts[k] = self.starts[k].saturating_sub(1 + r.below(3) as u32),
            7 => self.ends[k] = self.ends[k].saturating_sub(1 + r.below(3) as u32),
            8 => self.starts[k] = u32::MAX - r.below(2) as u32,
            9 => self.ends[k] = u32::MAX - r.below(2) as u32,
            10 => (self.starts[k], self.ends[k]) = (u32::MAX, u32::MAX),
            11 => (self.starts[k], self.ends[k]) = (r.below(n + 3) as u32, r.below(n + 3) as u32),
            _ => {}
        }
    }
    /// A list that is too short: 12 or 13, where it was not empty.
    fn shorten(&mut self, r: &mut Rng, kind: usize, need: usize) {
        let (rows, n) = (self.starts.len(), self.trace.len() / 8);
        let short = |r: &mut Rng, need: usize| if r.chance(2, 3) { need.saturating_sub(1) } else { r.below(need + 1) };
        match kind {
            12 => self.room.readings = short(r, n),
            13 => self.room.work = short(r, need).min(6 * n),
            14 => self.room.figures = short(r, rows),
            15 => self.room.present = short(r, rows),
            _ => {}
        }
    }
}

/// Readings and a map, if there is one: now and then all that is not finite is missing, or all that is missing is not
/// finite. Where `keen`, the readings are mostly finite and of one size.
pub fn readings(r: &mut Rng, n: usize, keen: bool) -> (Vec<f64>, Option<Vec<u8>>) {
    let mut x = r.trace(n);
    if keen && r.chance(3, 4) {
        let style = [0, 1, 2, 3, 6][r.below(5)];
        x = (0..n).map(|_| r.reading(style)).collect();
    }
    let map = match r.below(8) {
        0..=3 => None,
        4 => Some(vec![0xFF; n.div_ceil(8)]),
        _ => Some(r.map(n)),
    };
    if map.is_some() {
        let hidden = r.below(4);
        for (i, v) in x.iter_mut().enumerate() {
            match (hidden, valid(map.as_deref(), i)) {
                (0 | 1, false) => *v = r.bad(),
                (1, true) if !v.is_finite() => *v = r.reading(1),
                _ => {}
            }
        }
    }
    (x, map)
}

//! A call with fixed windows, of a figure or with weights: what it is given, what the Rust answers to it, and random calls.
use crate::extremes::{self, Extremes};
use crate::host::{readings, Room, EASY};
use crate::rng::Rng;
use crate::{fixed, offsets, refusal, weighted, Figure};

/// What a call is given; `map` may hold anything where `has_map` is false. With weights it is the weighted variance that is
/// asked, and `figure` is not looked at.
#[derive(Clone, Copy, Debug)]
pub struct Call<'a> {
    pub figure: Figure,
    pub weights: Option<&'a [f64]>,
    pub x: &'a [f64],
    pub has_map: bool,
    pub map: &'a [u8],
    pub size: usize,
    pub min: usize,
    pub centre: bool,
}
impl<'a> Call<'a> {
    pub fn map(&self) -> Option<&'a [u8]> {
        self.has_map.then_some(self.map)
    }
    /// Doubles of the work slice that the call needs; with weights none is lent.
    pub fn need(&self) -> usize {
        match self.weights {
            None => self.figure.entry() * self.size.min(self.x.len()),
            Some(_) => 0,
        }
    }
    /// Whether the call also gives the lowest and the highest reading.
    pub fn has_extremes(&self) -> bool {
        self.weights.is_none() && self.figure.has_extremes()
    }
    /// The output lists that the call is lent, of those of a room.
    pub fn outs<'r>(&self, outs: &'r [usize; 6]) -> &'r [usize] {
        if self.has_extremes() { outs } else { &outs[..2] }
    }
    pub fn refusal(&self, room: Room) -> u32 {
        let (n, map, outs) = (self.x.len(), self.map().map(<[u8]>::len), room.outs());
        match self.weights {
            None => refusal::fixed(n, map, self.size, self.outs(&outs), self.figure.entry(), room.work),
            Some(w) => refusal::weighted(n, map, self.size, w, self.outs(&outs)),
        }
    }
    /// Of each row the lowest and the highest, where the call gives them; it must be accepted.
    pub fn extremes(&self) -> Option<Vec<Extremes>> {
        let n = self.x.len();
        let rows = (0..n).map(|i| offsets(i, self.size, n, self.centre));
        self.has_extremes().then(|| extremes::of_rows(self.x, self.map(), rows, self.min))
    }
    /// The Rust's answers; the call must be accepted.
    pub fn answers(&self) -> Vec<Option<f64>> {
        match self.weights {
            // the Rust panics on an empty trace with a trailing window; document 01: no rows
            None if self.x.is_empty() => vec![],
            None => fixed(self.x, self.map(), self.size, self.min, self.centre, self.figure),
            Some(w) => weighted(self.x, self.size, self.min, self.centre, w).unwrap(),
        }
    }
}

/// A call that owns what it is given.
#[derive(Clone, Debug)]
pub struct Case {
    pub figure: Figure,
    pub weights: Option<Vec<f64>>,
    pub x: Vec<f64>,
    pub has_map: bool,
    pub map: Vec<u8>,
    pub size: usize,
    pub min: usize,
    pub centre: bool,
    pub room: Room,
}
impl Case {
    /// An accepted call of a figure, each list just as long as is needed.
    pub fn new(figure: Figure, x: &[f64], map: Option<&[u8]>, size: usize, min: usize, centre: bool) -> Case {
        let mut case = Case {
            figure,
            weights: None,
            x: x.to_vec(),
            has_map: map.is_some(),
            map: map.unwrap_or(&[]).to_vec(),
            size,
            min,
            centre,
            room: Room { figures: x.len(), present: x.len(), ..Room::default() },
        };
        case.room.work = case.call().need();
        if figure.has_extremes() {
            case.room.extremes = [x.len(); 4];
        }
        case
    }
    /// A call with weights, one for each place of the window.
    pub fn weighted(weights: &[f64], x: &[f64], min: usize, centre: bool) -> Case {
        let room = Room { figures: x.len(), present: x.len(), ..Room::default() };
        Case { weights: Some(weights.to_vec()), room, ..Case::new(EASY[0], x, None, weights.len(), min, centre) }
    }
    pub fn call(&self) -> Call<'_> {
        Call {
            figure: self.figure,
            weights: self.weights.as_deref(),
            x: &self.x,
            has_map: self.has_map,
            map: &self.map,
            size: self.size,
            min: self.min,
            centre: self.centre,
        }
    }
    /// Doubles of work that variance needs more than it did before request 4.
    fn more_work(&self) -> usize {
        let places = self.size.min(self.x.len());
        if self.weights.is_none() { (self.figure.entry() - self.figure.drawn_entry()) * places } else { 0 }
    }
    /// Doubles of work that the call was lent before request 4, for whatever is drawn by it.
    pub fn drawn_work(&self) -> usize {
        self.room.work.saturating_sub(self.more_work())
    }
    /// A random call of a figure over at most `most` readings, mostly one that is accepted. Half of them are keen: readings
    /// that are mostly finite, and a setting and a minimum under which most figures are present. The lists of lowest and highest are as
    /// long as the rows or longer.
    pub fn any(r: &mut Rng, most: usize) -> Case {
        let mut case = Case::drawn(r, most).0;
        case.room.work += case.more_work();
        if case.figure.has_extremes() {
            case.room.extremes = [case.x.len(); 4];
            case.room.lengthen_extremes(r);
        }
        case
    }
    /// The same with the lists of a call before request 4, and how much its work is longer than was needed then, or shorter.
    pub(crate) fn drawn(r: &mut Rng, most: usize) -> (Case, isize) {
        let (keen, n) = (r.chance(1, 2), any_length(r, most));
        let (x, map) = readings(r, n, keen);
        let size = match r.below(24) {
            0 => 0,
            1 => 1,
            2 => n,
            3 => n + 1,
            4 => n.saturating_sub(1),
            5 => 2 * n + r.below(3),
            6 => 1 << 63,
            7 => usize::MAX - r.below(2),
            8 => (1 << r.below(64)) - r.below(2),
            _ if keen => 3 + r.below(8),
            _ => r.below(14),
        };
        let min = any_minimum(r, n, size, keen);
        let figure = match r.below(40) {
            0 => Figure::Var { ddof: 255 },
            1..=19 if keen => EASY[r.below(3)],
            _ => r.figure(),
        };
        let centre = r.chance(1, 2);
        let mut case = Case::new(figure, &x, map.as_deref(), size, min, centre);
        let need = figure.drawn_entry() * size.min(n);
        case.room = Room { work: need, extremes: [0; 4], ..case.room };
        let case = case.faulty(r, &[0, 4, 5, 6]);
        let spare = case.room.work as isize - need as isize;
        (case, spare)
    }
    /// The same with weights.
    pub fn any_weighted(r: &mut Rng, most: usize) -> Case {
        let (keen, n) = (r.chance(1, 2), any_length(r, most));
        let (x, _) = readings(r, n, keen);
        let count = match r.below(16) {
            0 => 1,
            1 => n,
            2 => n + 1,
            3 => 2 * n + r.below(3),
            _ => 1 + r.below(9),
        };
        let (weights, min) = (any_weights(r, count), any_minimum(r, n, count, keen));
        let centre = r.chance(1, 2);
        Case::weighted(&weights, &x, min, centre).faulty(r, &[0, 1, 2, 3, 4, 5])
    }
    /// The case with none of these faults, with one or with several, and with lists that are longer than is needed.
    fn faulty(mut self, r: &mut Rng, kinds: &[usize]) -> Case {
        if !self.has_map && r.chance(1, 2) {
            // no map is lent: whatever stands there is not looked at
            self.map = (0..r.below(4)).map(|_| r.u64() as u8).collect();
        }
        let faults = match r.below(12) {
            0..=7 => 0,
            8..=10 => 1,
            _ => 2 + r.below(3),
        };
        let faults: Vec<usize> = (0..faults).map(|_| kinds[r.below(kinds.len())]).collect();
        let lent = self.weights.is_none();
        let room = &mut self.room;
        for (list, lent) in [(&mut room.work, lent), (&mut room.figures, true), (&mut room.present, true)] {
            if lent && r.chance(1, 3) {
                *list += r.below(5);
            }
        }
        faults.iter().for_each(|k| self.spoil(r, *k));
        self
    }
    /// A fault: 3, 8, 9, 10, 12, 12 or 13, where it comes to one; a map that gets longer is none but with weights.
    fn spoil(&mut self, r: &mut Rng, kind: usize) {
        let n = self.x.len();
        let need = self.figure.drawn_entry() * self.size.min(n);
        let short = |r: &mut Rng, need: usize| if r.chance(2, 3) { need.saturating_sub(1) } else { r.below(need + 1) };
        match (kind, &mut self.weights) {
            (0, _) if !self.has_map => (self.has_map, self.map) = (true, vec![0xFF; n.div_ceil(8) + 1]),
            (0, _) => match r.below(3) {
                0 => self.map.clear(),
                1 => self.map.truncate(self.map.len().saturating_sub(1)),
                _ => self.map.push(0xFF),
            },
            (1, _) => (self.has_map, self.map) = (true, r.map(n)),
            (2, Some(w)) => match r.below(4) {
                0 => w.fill(0.0),
                1 => w.fill(-0.0),
                2 => w.clear(),
                _ => {
                    // pairs of opposite weights
                    let k = w.len();
                    (0..k).for_each(|i| w[i] = if i + 1 == k && i % 2 == 0 { 0.0 } else { [2.5, -2.5][i % 2] })
                }
            },
            (3, Some(w)) => match r.below(5) {
                0 => w.push(1.0),
                1 => _ = w.pop(),
                2 => self.size = 0,
                3 => self.size = [1 << 63, usize::MAX][r.below(2)],
                _ => self.size += 1,
            },
            (4, _) => self.room.figures = short(r, n),
            (5, _) => self.room.present = short(r, n),
            (6, _) => self.room.work = short(r, need),
            _ => {}
        }
    }
}

fn any_length(r: &mut Rng, most: usize) -> usize {
    if r.chance(1, 12) { r.below(3) } else { r.below(most + 1) }
}
fn any_minimum(r: &mut Rng, n: usize, size: usize, keen: bool) -> usize {
    match r.below(20) {
        0 => size,
        1 => size.saturating_add(1),
        2 => size.min(n) + r.below(2),
        3 => [usize::MAX, n, 1 << 32][r.below(3)],
        4..=7 => r.below(size.min(n) + 1),
        _ if keen => r.below(5),
        _ => r.minimum(),
    }
}
/// Weights of one sort: small whole numbers, fractions, or any size and bits.
fn any_weights(r: &mut Rng, count: usize) -> Vec<f64> {
    let style = r.below(9);
    (0..count)
        .map(|_| match style {
            // rows whose weights are all zero, rows whose total is
            0 | 1 => r.below(3) as f64,
            2 => r.below(5) as f64 - 2.0,
            3 | 4 => r.unit(),
            5 => r.unit() - 0.3,
            // a sum that overflows; subnormals
            6 => r.reading(3),
            7 => r.reading(4),
            _ => r.reading(7),
        })
        .collect()
}

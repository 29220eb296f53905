//! Maps of other lengths than is needed: longer ones, as Arrow pads its buffers, which are taken, and shorter ones, which are refused.
use crate::account::valid;
use crate::rng::Rng;
use std::fmt;

/// So many bytes behind a map, of one of three sorts: zeros, ones, noise.
pub fn padding(r: &mut Rng, sort: usize, bytes: usize) -> Vec<u8> {
    (0..bytes).map(|_| [0, 0xFF, r.u64() as u8][sort % 3]).collect()
}
/// The map of n readings as a caller may lend it: in nearly half of the calls with 1 to 64 bytes behind it, in one of ten too short
/// by one byte or more, where it can be.
pub fn lent(r: &mut Rng, mut map: Vec<u8>, n: usize) -> Vec<u8> {
    let needed = n.div_ceil(8);
    match r.below(20) {
        0..2 if needed > 0 => map.truncate([0, needed - 1, r.below(needed)][r.below(3)]),
        0..11 => {
            let (sort, bytes) = (r.below(3), 1 + r.below(64));
            map.extend(padding(r, sort, bytes));
        }
        _ => {}
    }
    map
}
/// Readings and their map, with so many bytes behind it, or for `None` a byte too short. A reading that is missing is not finite, so
/// that it shows if its bit is not the one that is looked at.
pub fn example(r: &mut Rng, n: usize, behind: Option<usize>, sort: usize) -> (Vec<f64>, Vec<u8>) {
    let mut map: Vec<u8> = (0..n.div_ceil(8)).map(|_| (r.u64() | r.u64()) as u8).collect();
    let x = (0..n).map(|i| if valid(Some(&map), i) { r.reading(1) } else { r.bad() }).collect();
    match behind {
        Some(bytes) => map.extend(padding(r, sort, bytes)),
        None => map.truncate(map.len() - 1),
    }
    (x, map)
}

/// How many calls have a map that is longer than is needed, or shorter.
#[derive(Default)]
pub struct Lengths {
    longer: u64,
    accepted: u64,
    shorter: u64,
    refused: u64,
}
impl Lengths {
    /// A call's traces, each with its readings and the bytes of its map, and the number that the call is to answer.
    pub fn count(&mut self, traces: &[(usize, Option<&[u8]>)], number: u32) {
        let any = |test: fn(usize, usize) -> bool| traces.iter().any(|(n, map)| map.is_some_and(|map| test(map.len(), n.div_ceil(8))));
        let (longer, shorter) = (any(|bytes, needed| bytes > needed), any(|bytes, needed| bytes < needed));
        self.longer += longer as u64;
        self.accepted += (longer && number == 0) as u64;
        self.shorter += shorter as u64;
        self.refused += (shorter && number == 3) as u64;
    }
}
impl fmt::Display for Lengths {
    fn fmt(&self, f: &mut fmt::Formatter<'_>) -> fmt::Result {
        let Lengths { longer, accepted, shorter, refused } = self;
        write!(f, "calls with a longer map than is needed: {longer}, accepted: {accepted}; ")?;
        write!(f, "with one too short: {shorter}, refused by 3: {refused}")
    }
}

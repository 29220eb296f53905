//! What the entries are given: the same for the same number of readings.
use oracle::maps;
use oracle::rng::Rng;

/// Two traces and a map of each in which nine places in ten are valid, padded with noise to a multiple of 64 bytes, as Arrow pads its
/// buffers.
pub struct Input {
    pub n: usize,
    pub x: Vec<f64>,
    pub y: Vec<f64>,
    pub map: Vec<u8>,
    /// The second trace's, for windows of both.
    pub y_map: Vec<u8>,
}
impl Input {
    pub fn new(n: usize) -> Self {
        let mut r = Rng(42);
        let x: Vec<f64> = (0..n).map(|i| 18.0 + 4.0 * ((i % 1440) as f64 / 229.0).sin() + r.unit()).collect();
        let y = x.iter().map(|x| x * 0.5 + r.unit()).collect();
        let mut any = || {
            let mut map = vec![0; n.div_ceil(8)];
            for i in (0..n).filter(|_| r.chance(9, 10)) {
                map[i / 8] |= 1 << (i % 8);
            }
            let behind = map.len().next_multiple_of(64) - map.len();
            map.extend(maps::padding(&mut r, 2, behind));
            map
        };
        let (map, y_map) = (any(), any());
        Input { n, x, y, map, y_map }
    }
    /// Without a map and with it, and what to call that.
    pub fn maps(&self) -> [(Option<&[u8]>, &'static str); 2] {
        [(None, "no map"), (Some(&self.map), "map")]
    }
    /// As many numbers as there are readings, of any size, all finite.
    pub fn of_any_size(&self) -> Vec<f64> {
        let mut r = Rng(43);
        std::iter::repeat_with(|| f64::from_bits(r.u64() >> 1)).filter(|x| x.is_finite()).take(self.n).collect()
    }
    /// A plan of as many rows as readings, as starts and ends: ends step by 0 to 2, widths wander between 0 and 256, and now and
    /// then a window is empty.
    pub fn uneven(&self) -> (Vec<u32>, Vec<u32>) {
        let mut r = Rng(44);
        let (mut start, mut end, mut wide) = (0, 0, 100);
        (0..self.n)
            .map(|_| {
                end = (end + r.below(3)).min(self.n);
                if r.chance(1, 50) {
                    wide = r.below(257);
                }
                start = end.saturating_sub(wide).max(start);
                if r.chance(1, 2000) {
                    start = end;
                }
                (start as u32, end as u32)
            })
            .unzip()
    }
    /// The plan of trailing windows of one size.
    pub fn trailing(&self, size: usize) -> (Vec<u32>, Vec<u32>) {
        (0..self.n).map(|i| ((i + 1).saturating_sub(size) as u32, i as u32 + 1)).unzip()
    }
}

//! Document 01's refusal numbers, with document 02's requests, straight from their text (not from the crate). 0: accepted.
pub const LIMIT: usize = 16_777_216;

/// The first row that is refused, with its number, itself and the row before: 5, 6, 7, each row tested in that order from row 0.
pub fn first_row(rows: impl Iterator<Item = (usize, usize)>, n: usize) -> Option<FirstRow> {
    let mut prev: Option<(usize, usize)> = None;
    for (row, (s, e)) in rows.enumerate() {
        let number = if s > e {
            5
        } else if e > n {
            6
        } else if prev.is_some_and(|(ps, pe)| s < ps || e < pe) {
            7
        } else {
            prev = Some((s, e));
            continue;
        };
        return Some(FirstRow { row, number, bounds: (s, e), prev });
    }
    None
}
pub struct FirstRow {
    pub row: usize,
    pub number: u32,
    pub bounds: (usize, usize),
    pub prev: Option<(usize, usize)>,
}
pub fn rows(rows: impl Iterator<Item = (usize, usize)>, n: usize) -> u32 {
    first_row(rows, n).map_or(0, |first| first.number)
}
pub fn trace(n: usize, map: Option<usize>) -> u32 {
    if n > LIMIT {
        return 1;
    }
    match map {
        // a longer map is taken, whatever stands behind (document 02, request 1)
        Some(m) if m < n.div_ceil(8) => 3,
        _ => 0,
    }
}
/// `outs`: lengths of the output lists, as many as the call is lent.
#[allow(clippy::too_many_arguments)]
pub fn plan(
    n: usize,
    map: Option<usize>,
    starts: &[usize],
    ends: &[usize],
    outs: &[usize],
    entry: usize,
    work: usize,
) -> u32 {
    let r = trace(n, map);
    if r != 0 {
        return r;
    }
    if starts.len() != ends.len() || starts.len() > LIMIT {
        return 4;
    }
    let it = || starts.iter().copied().zip(ends.iter().copied());
    let r = rows(it(), n);
    if r != 0 {
        return r;
    }
    if outs.iter().any(|list| *list < starts.len()) {
        return 12;
    }
    let widest = it().map(|(s, e)| e - s).max().unwrap_or(0);
    if work < entry * widest {
        return 13;
    }
    0
}
/// The host call: 14 before all; 12 for a reading list shorter than n too, so after 1 to 11 and before 13.
#[allow(clippy::too_many_arguments)]
pub fn host(
    bytes: usize,
    map: Option<usize>,
    starts: &[usize],
    ends: &[usize],
    readings: usize,
    outs: &[usize],
    entry: usize,
    work: usize,
) -> u32 {
    if !bytes.is_multiple_of(8) {
        return 14;
    }
    match plan(bytes / 8, map, starts, ends, outs, entry, work) {
        0 | 13 if readings < bytes / 8 => 12,
        r => r,
    }
}
pub fn fixed(n: usize, map: Option<usize>, size: usize, outs: &[usize], entry: usize, work: usize) -> u32 {
    let r = trace(n, map);
    if r != 0 {
        return r;
    }
    if outs.iter().any(|list| *list < n) {
        return 12;
    }
    if work < entry * size.min(n) {
        return 13;
    }
    0
}
pub fn weighted(n: usize, map: Option<usize>, size: usize, w: &[f64], outs: &[usize]) -> u32 {
    let r = trace(n, map);
    if r != 0 {
        return r;
    }
    if map.is_some() {
        return 8;
    }
    let mut sum = 0.0;
    for x in w {
        sum += x;
    }
    if sum == 0.0 {
        return 9;
    }
    if w.len() != size {
        return 10;
    }
    if outs.iter().any(|list| *list < n) {
        return 12;
    }
    0
}
pub fn range(n: usize, map: Option<usize>, start: usize, len: usize) -> u32 {
    let r = trace(n, map);
    if r != 0 {
        return r;
    }
    if start as u128 + len as u128 > n as u128 {
        return 11;
    }
    0
}
/// 1 and 3 apply to either trace: document 01 does not say which of two.
pub fn pair(n: usize, nm: Option<usize>, m: usize, mm: Option<usize>) -> u32 {
    if n > LIMIT || m > LIMIT {
        return 1;
    }
    if n != m {
        return 2;
    }
    if trace(n, nm) == 3 || trace(m, mm) == 3 {
        return 3;
    }
    0
}
/// Of each trace how many readings, or bytes, it has, and how many bytes its map, if there is one.
pub type Pair = [(usize, Option<usize>); 2];
/// Fixed windows of two traces, by their readings: 1, 2 and 3 as above, then as of one.
pub fn fixed_pair([(n, nm), (m, mm)]: Pair, size: usize, outs: &[usize], entry: usize, work: usize) -> u32 {
    match pair(n, nm, m, mm) {
        0 => fixed(n, None, size, outs, entry, work),
        r => r,
    }
}
/// The host call of two traces, by their bytes: 14 for either before all; 12 for either reading list too.
#[allow(clippy::too_many_arguments)]
pub fn host_pair(
    [(x, xm), (y, ym)]: Pair,
    starts: &[usize],
    ends: &[usize],
    readings: [usize; 2],
    outs: &[usize],
    entry: usize,
    work: usize,
) -> u32 {
    if !x.is_multiple_of(8) || !y.is_multiple_of(8) {
        return 14;
    }
    let n = x / 8;
    match pair(n, xm, y / 8, ym) {
        0 => {}
        r => return r,
    }
    match plan(n, None, starts, ends, outs, entry, work) {
        0 | 13 if readings.iter().any(|list| *list < n) => 12,
        r => r,
    }
}

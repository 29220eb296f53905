//! Which places of a trace are valid: one bit a place, lowest bit first, 1 for valid. A map has at least as many bytes as that takes;
//! spare bits of the last and the bytes behind are ignored.
use crate::refusal::{Refusal, Which};

/// Bytes that the map of so many readings has at least.
pub(crate) fn bytes_for(readings: usize) -> usize {
    readings.div_ceil(8)
}

/// Whether a place of a trace is valid: without a map each is, and past a map's end none.
///
/// ```
/// assert!(moments::is_valid(Some(&[0b101]), 2));
/// assert!(!moments::is_valid(Some(&[0b101]), 1));
/// assert!(!moments::is_valid(Some(&[0b101]), 8));
/// assert!(moments::is_valid(None, 1));
/// ```
pub fn is_valid(map: Option<&[u8]>, place: usize) -> bool {
    map.is_none_or(|bytes| bytes.get(place / 8).is_some_and(|byte| byte >> (place % 8) & 1 == 1))
}

/// Readings of which some may be missing, as the entries take them: a trace, and a map if any is missing. A missing
/// place holds 0.0.
///
/// Without a missing reading there is no map, as the entries go by other rules where one is lent, even if all its places are valid:
/// a row then counts its valid places against the minimum, and not its length.
///
/// ```
/// let (trace, map) = moments::trace_of([Some(2.0), None, Some(4.0)]);
/// assert_eq!((trace, map), (vec![2.0, 0.0, 4.0], Some(vec![0b101])));
/// assert_eq!(moments::trace_of([Some(2.0)]), (vec![2.0], None));
/// ```
pub fn trace_of(readings: impl IntoIterator<Item = Option<f64>>) -> (Vec<f64>, Option<Vec<u8>>) {
    let (mut trace, mut map, mut whole) = (Vec::new(), Vec::new(), true);
    for reading in readings {
        let place = trace.len();
        if place % 8 == 0 {
            map.push(0);
        }
        if let (Some(byte), true) = (map.last_mut(), reading.is_some()) {
            *byte |= 1 << (place % 8);
        }
        whole &= reading.is_some();
        trace.push(reading.unwrap_or(0.0));
    }
    (trace, (!whole).then_some(map))
}

/// The map of a slice of a bitmap: bit i is the bitmap's bit `offset + i`. It has just the bytes that are needed, and spare bits are 0.
///
/// An Arrow array may be a slice of a longer one: it has the longer one's bitmap, an offset in bits and a length. At an offset of 0
/// the bitmap can be lent as it is, and at a multiple of 8 without the bytes in front, as a longer map is taken: no copy is needed. At any
/// other offset it takes this function: nobody notices a bitmap that is lent without its offset.
///
/// A bitmap of fewer than `offset + length` bits is refused, as a map of so many readings that is too short. It gives no `None` then,
/// which as a map would say that every place is valid. Of ones it makes a map of ones, which is another question than no map (see
/// [`trace_of`]); an array without missing readings is asked without a map.
///
/// ```
/// use moments::{map_of, var, Refusal, Which};
/// let (bitmap, trace) = ([0b0101_1000, 0xFF, 0xFF, 0xFF], [2.0, 4.0, 9.0, 6.0]);
/// let map = map_of(&bitmap, 3, trace.len())?;
/// assert_eq!(map, [0b1011]);
/// assert_eq!(var(&trace, Some(&map))?.finalize(1), Some(4.0));
/// assert_eq!(var(&trace, Some(&bitmap[1..]))?.weight, 4.0);       // places 8 to 11
/// assert_eq!(map_of(&bitmap, 29, 4), Err(Refusal::MapLength { trace: Which::Only, bytes: 4, readings: 33 }));
/// # Ok::<(), Refusal>(())
/// ```
pub fn map_of(bitmap: &[u8], offset: usize, length: usize) -> Result<Vec<u8>, Refusal> {
    let enough = offset.checked_add(length).is_some_and(|bits| bytes_for(bits) <= bitmap.len());
    if !enough {
        let readings = offset.saturating_add(length);
        return Err(Refusal::MapLength { trace: Which::Only, bytes: bitmap.len(), readings });
    }
    let byte = |first: usize| {
        let bits = 0..(length - first).min(8);
        bits.fold(0, |byte, bit| byte | u8::from(is_valid(Some(bitmap), offset + first + bit)) << bit)
    };
    Ok((0..length).step_by(8).map(byte).collect())
}

#[cfg(test)]
mod tests {
    use super::*;

    /// Eight bytes, of which no two are alike.
    const BITMAP: [u8; 8] = [0b1011_0010, 0b0110_1101, 0xFF, 0, 0b1100_0011, 0b0001_1110, 0b1000_0001, 0b0101_0101];

    #[test]
    fn a_slice_of_a_bitmap_has_its_bits() {
        for offset in 0..=17 {
            for length in 0..=40 {
                let map = map_of(&BITMAP, offset, length).expect("57 bits of 64");
                assert_eq!(map.len(), length.div_ceil(8));
                for i in 0..8 * map.len() {
                    let bit = i < length && BITMAP[(offset + i) / 8] & 1 << ((offset + i) % 8) != 0;
                    assert_eq!(map[i / 8] & 1 << (i % 8) != 0, bit, "bit {i} of {length} from {offset}");
                }
            }
        }
    }

    #[test]
    fn a_bitmap_that_is_too_short_is_refused() {
        let short = |bytes, readings| Err(Refusal::MapLength { trace: Which::Only, bytes, readings });
        for offset in 0..=64 {
            assert!(map_of(&BITMAP, offset, 64 - offset).is_ok());
            assert_eq!(map_of(&BITMAP, offset, 65 - offset), short(8, 65));
        }
        assert_eq!(map_of(&[], 0, 0), Ok(vec![]));
        assert_eq!(map_of(&[], 1, 0), short(0, 1));
        // sums past the largest number, some of which would wrap to one within the bitmap
        for (offset, length) in [(usize::MAX, 1), (1, usize::MAX), (usize::MAX, 9), (usize::MAX, usize::MAX), (1 << 63, 1 << 63)]
        {
            assert_eq!(map_of(&BITMAP, offset, length), short(8, usize::MAX));
        }
        assert_eq!(map_of(&BITMAP, 0, usize::MAX), short(8, usize::MAX));
        assert_eq!(map_of(&BITMAP, usize::MAX, 0), short(8, usize::MAX));
    }
}

//! The bounds that the library gives the rows of a window of one size.
use moments::Window;

/// Where a row starts and ends in a trace of so many readings. Centred, the larger half of an odd size stands from the row's
/// own place on. A row past the last is empty.
pub fn bounds(window: Window, readings: usize, row: usize) -> (usize, usize) {
    if row >= readings {
        return (readings, readings);
    }
    let after = match (window.size, window.center) {
        (0, _) => 0,
        (_, false) => 1,
        (size, true) => size.div_ceil(2),
    };
    (row.saturating_sub(window.size - after), row.saturating_add(after).min(readings))
}

#[cfg(test)]
mod tests {
    use super::*;
    use std::path::Path;

    #[test]
    fn document_01_s_example() {
        let rows = [0, 1, 2, 3, 4].map(|row| bounds(Window::centered(4), 5, row));
        assert_eq!(rows, [(0, 2), (0, 3), (0, 4), (1, 5), (2, 5)]);
    }

    #[test]
    fn trailing_and_of_no_size() {
        assert_eq!([0, 1, 2, 3].map(|row| bounds(Window::trailing(2), 3, row)), [(0, 1), (0, 2), (1, 3), (3, 3)]);
        assert_eq!([0, 1, 2].map(|row| bounds(Window::trailing(0), 3, row)), [(0, 0), (1, 1), (2, 2)]);
        assert_eq!(bounds(Window::centered(0), 3, 1), (1, 1));
        assert_eq!(bounds(Window::centered(usize::MAX), 3, 2), (0, 3));
        assert_eq!(bounds(Window::trailing(usize::MAX), 3, 2), (0, 3));
    }

    /// The answers of the Rust that the library was proved after (oracle/FORMAT.md, "Word lists").
    #[test]
    fn stored_answers() {
        let file = Path::new(env!("CARGO_MANIFEST_DIR")).join("../crates/vectors/data/bounds");
        let words = std::fs::read_to_string(file).expect("the stored bounds");
        let words = words.split_whitespace().map(|word| usize::from_str_radix(word, 16).expect("a word"));
        let words: Vec<usize> = words.collect();
        assert_eq!((words[0], words.len()), (488, 1 + 488 * 7));
        for record in words[1..].chunks(7) {
            let [_, size, center, readings, row, start, end] = record else { panic!("a record of 7 words") };
            let window = Window { size: *size, center: *center == 1 };
            assert_eq!(bounds(window, *readings, *row), (*start, *end), "{window:?}, {readings} readings, row {row}");
        }
    }
}

//! Texts from files, made fit to be shown.
use std::borrow::Cow;
use std::path::Path;

/// The most characters of a label, a time or a name that are shown.
pub const WIDEST: usize = 40;

/// On one line and without what a terminal would obey.
pub fn plain(text: &str) -> Cow<'_, str> {
    if text.contains(char::is_control) {
        text.replace(char::is_control, "\u{FFFD}").into()
    } else {
        text.into()
    }
}

/// Plain, and no longer than [`WIDEST`].
pub fn capped(text: &str) -> Cow<'_, str> {
    let mut ends = text.char_indices().skip(WIDEST - 1).map(|(end, _)| end);
    match (ends.next(), ends.next()) {
        (Some(end), Some(_)) => format!("{}…", plain(text.get(..end).unwrap_or(text))).into(),
        _ => plain(text),
    }
}

/// In quotes, for a message.
pub fn quoted(text: &str) -> String {
    format!("\"{}\"", capped(text))
}

/// A file's name as it was given.
pub fn name(path: &Path) -> String {
    plain(&path.to_string_lossy()).into_owned()
}

/// A number and the thing that it counts.
pub fn count(n: usize, thing: &str) -> String {
    format!("{n} {thing}{}", if n == 1 { "" } else { "s" })
}

/// Many short texts in one allocation.
#[derive(Default)]
pub struct Texts {
    all: String,
    ends: Vec<usize>,
}
impl Texts {
    pub fn push(&mut self, text: &str) {
        self.all.push_str(text);
        self.ends.push(self.all.len());
    }
    /// Past the last one, nothing.
    pub fn get(&self, at: usize) -> &str {
        let start = at.checked_sub(1).map_or(Some(0), |before| self.ends.get(before).copied());
        let bounds = start.zip(self.ends.get(at).copied());
        bounds.and_then(|(start, end)| self.all.get(start..end)).unwrap_or("")
    }
}

#[cfg(test)]
mod tests {
    use super::*;

    #[test]
    fn long_texts_are_capped_by_characters() {
        assert_eq!(capped(&"é".repeat(WIDEST)), "é".repeat(WIDEST));
        let long = "é".repeat(WIDEST + 1);
        let long = capped(&long);
        assert_eq!((long.chars().count(), long.chars().last()), (WIDEST, Some('…')));
        assert_eq!(capped("a\tb\u{1b}[2J"), "a\u{FFFD}b\u{FFFD}[2J");
        assert_eq!(capped(""), "");
    }

    #[test]
    fn texts_are_found_again() {
        let mut texts = Texts::default();
        ["a", "", "öl"].iter().for_each(|text| texts.push(text));
        assert_eq!([0, 1, 2, 3, usize::MAX].map(|at| texts.get(at)), ["a", "", "öl", "", ""]);
    }
}

//! Lines of a CSV file and their fields.
use crate::progress::Progress;
use crate::text::capped;
use std::borrow::Cow;
use std::fmt;
use std::io::{BufRead, Read};

/// Bytes of the longest line that is taken, so that a file without line ends does not fill the memory.
const LONGEST: usize = 1 << 16;

/// What is wrong with a file, and in which line.
#[derive(Debug)]
pub struct Fault {
    pub file: String,
    pub line: Option<usize>,
    pub text: String,
}
impl fmt::Display for Fault {
    fn fmt(&self, f: &mut fmt::Formatter<'_>) -> fmt::Result {
        match self.line {
            Some(line) => write!(f, "{}:{line}: {}", self.file, self.text),
            None => write!(f, "{}: {}", self.file, self.text),
        }
    }
}
impl From<Fault> for String {
    fn from(fault: Fault) -> Self {
        fault.to_string()
    }
}

/// The lines of a file. Blank ones may stand at its end, and those of commas alone, which some programs write there.
pub struct Lines<'a> {
    input: &'a mut dyn BufRead,
    file: &'a str,
    /// What to say of a blank line elsewhere.
    if_blank: &'a str,
    line: usize,
    blank: Option<usize>,
    progress: Progress,
}
impl<'a> Lines<'a> {
    pub fn new(input: &'a mut dyn BufRead, file: &'a str, if_blank: &'a str) -> Self {
        Lines { input, file, if_blank, line: 0, blank: None, progress: Progress::new(true) }
    }
    /// The number of the line that was read last, from 1.
    pub fn line(&self) -> usize {
        self.line
    }
    /// Something is wrong with the line that was read last.
    pub fn fault(&self, text: impl Into<String>) -> Fault {
        Fault { file: self.file.to_string(), line: Some(self.line), text: text.into() }
    }
    /// The next line, which the buffer then holds; none at the end.
    pub fn next<'b>(&mut self, buffer: &'b mut Vec<u8>) -> Result<Option<&'b str>, Fault> {
        while self.fill(buffer)? {
            if !buffer.iter().all(|byte| byte.is_ascii_whitespace() || *byte == b',') {
                if let Some(line) = self.blank {
                    return Err(Fault { line: Some(line), ..self.fault(self.if_blank) });
                }
                return std::str::from_utf8(buffer).map(Some).map_err(|_| self.fault("the line is not UTF-8 text"));
            }
            self.blank.get_or_insert(self.line);
        }
        Ok(None)
    }
    fn fill(&mut self, buffer: &mut Vec<u8>) -> Result<bool, Fault> {
        buffer.clear();
        let read = Read::take(&mut *self.input, LONGEST as u64 + 2).read_until(b'\n', buffer);
        let read = read.map_err(|why| Fault { line: None, ..self.fault(format!("cannot be read: {why}")) })?;
        self.line += 1;
        let line = self.line;
        self.progress.step(|| format!("reading {}: line {line}", capped(self.file)));
        for end in [b'\n', b'\r'] {
            if buffer.last() == Some(&end) {
                buffer.pop();
            }
        }
        if buffer.len() > LONGEST {
            return Err(self.fault(format!("the line is longer than {LONGEST} bytes")));
        }
        if self.line == 1 && buffer.starts_with("\u{FEFF}".as_bytes()) {
            buffer.drain(..3);
        }
        Ok(read > 0)
    }
}

/// A line's first three fields, and how many it has.
#[derive(Debug, Default, PartialEq)]
pub struct Fields<'a> {
    pub first: [Cow<'a, str>; 3],
    pub count: usize,
}
impl Fields<'_> {
    /// Whether they are these names, in any case.
    pub fn are(&self, names: &[&str]) -> bool {
        self.count == names.len() && names.iter().zip(&self.first).all(|(name, field)| field.trim().eq_ignore_ascii_case(name))
    }
}

/// Splits a line at its commas. A field in quotes may have commas in it, and a doubled quote for a quote.
pub fn split(line: &str) -> Result<Fields<'_>, &'static str> {
    let (mut fields, mut rest) = (Fields::default(), Some(line));
    while let Some(text) = rest {
        let (field, after) = match text.trim_start().strip_prefix('"') {
            Some(inside) => quoted(inside)?,
            None => match text.split_once(',') {
                Some((field, after)) => (Cow::Borrowed(field.trim()), Some(after)),
                None => (Cow::Borrowed(text.trim()), None),
            },
        };
        if let Some(place) = fields.first.get_mut(fields.count) {
            *place = field;
        }
        fields.count += 1;
        rest = after;
    }
    Ok(fields)
}

/// The field whose text follows an opening quote, and what stands behind its comma.
fn quoted(mut text: &str) -> Result<(Cow<'_, str>, Option<&str>), &'static str> {
    let mut field = String::new();
    loop {
        let (part, after) = text.split_once('"').ok_or("a field's closing quote is missing: a field ends on its line")?;
        field.push_str(part);
        if let Some(more) = after.strip_prefix('"') {
            field.push('"');
            text = more;
            continue;
        }
        let after = after.trim_start();
        return match after.strip_prefix(',') {
            Some(rest) => Ok((field.into(), Some(rest))),
            None if after.is_empty() => Ok((field.into(), None)),
            None => Err("a comma is missing after a closing quote"),
        };
    }
}

#[cfg(test)]
mod tests {
    use super::*;

    fn fields(line: &str) -> (usize, Vec<String>) {
        let fields = split(line).expect("a line that can be split");
        (fields.count, fields.first.iter().take(fields.count).map(|field| field.to_string()).collect())
    }

    #[test]
    fn fields_and_quotes() {
        assert_eq!(fields("a, b "), (2, vec!["a".into(), "b".into()]));
        assert_eq!(fields("a,"), (2, vec!["a".into(), String::new()]));
        assert_eq!(fields(r#" "a, ""b""" ,2,3"#), (3, vec![r#"a, "b""#.into(), "2".into(), "3".into()]));
        assert_eq!(fields("a,b,c,d,e").0, 5);
        assert_eq!(fields(r#""""#), (1, vec![String::new()]));
        assert!(split(r#""a,2"#).is_err_and(|text| text.contains("closing quote is missing")));
        assert!(split(r#""a"b,2"#).is_err_and(|text| text.contains("comma is missing")));
    }

    #[test]
    fn lines_end_in_any_way_and_blank_ones_stand_at_the_end() {
        let read = |bytes: &[u8]| -> Result<Vec<String>, String> {
            let (mut input, mut buffer, mut all) = (bytes, Vec::new(), Vec::new());
            let mut lines = Lines::new(&mut input, "f", "blank");
            while let Some(line) = lines.next(&mut buffer)? {
                all.push(line.to_string());
            }
            Ok(all)
        };
        assert_eq!(read(b"\xEF\xBB\xBFa\r\nb\n c\n \n\n").expect("lines"), ["a", "b", " c"]);
        assert_eq!(read(b"").expect("lines"), [""; 0]);
        assert_eq!(read(b"\n \r\n").expect("lines"), [""; 0]);
        assert_eq!(read(b"a,b\n,\n , \n").expect("lines"), ["a,b"]);
        assert_eq!(read(b"a,b\n,\na,b\n").expect_err("blank"), "f:2: blank");
        assert_eq!(read(b"a\n\n\nb").expect_err("blank"), "f:2: blank");
        assert_eq!(read(b"a\nb\xFF").expect_err("bytes"), "f:2: the line is not UTF-8 text");
        assert_eq!(read(&[b'a'; LONGEST]).expect("a long line").len(), 1);
        assert_eq!(read(&[b'a'; LONGEST + 1]).expect_err("long"), "f:1: the line is longer than 65536 bytes");
        let mut longest = vec![b'a'; LONGEST];
        longest.extend(b"\r\nb\n");
        assert_eq!(read(&longest).expect("a long line").len(), 2);
    }
}

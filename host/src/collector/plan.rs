//! A plan as CSV: start, end, or label, start, end.
use crate::csv::{split, Fault, Fields, Lines};
use crate::text::{quoted, Texts};
use moments::MOST;
use std::io::BufRead;

/// What a plan's file holds.
pub struct PlanFile {
    pub file: String,
    pub starts: Vec<u32>,
    pub ends: Vec<u32>,
    pub labels: Option<Texts>,
    /// How many rows the file has, even if too many to keep.
    pub seen: usize,
    heading: bool,
}
impl PlanFile {
    pub fn read(input: &mut dyn BufRead, file: &str) -> Result<PlanFile, Fault> {
        let mut lines = Lines::new(input, file, "the line is blank: blank lines can stand only at a plan's end");
        let mut plan =
            PlanFile { file: file.to_string(), starts: Vec::new(), ends: Vec::new(), labels: None, seen: 0, heading: false };
        let mut buffer = Vec::new();
        while let Some(line) = lines.next(&mut buffer)? {
            let fields = split(line).map_err(|text| lines.fault(text))?;
            let first = lines.line() == 1;
            if first && (fields.count == 2 || fields.count == 3) {
                plan.labels = (fields.count == 3).then(Texts::default);
            }
            if first && (fields.are(&["start", "end"]) || fields.are(&["label", "start", "end"])) {
                plan.heading = true;
                continue;
            }
            plan.push(&fields).map_err(|text| {
                lines.fault(if first { text + "; a heading reads start,end or label,start,end" } else { text })
            })?;
        }
        Ok(plan)
    }
    /// One row more than the library takes is kept, so that it refuses; those past it are only counted.
    fn push(&mut self, fields: &Fields<'_>) -> Result<(), String> {
        let (label, start, end) = match (&fields.first, fields.count, &self.labels) {
            ([start, end, _], 2, None) => (None, start, end),
            ([label, start, end], 3, Some(_)) => (Some(label), start, end),
            (_, count @ 2..=3, _) => {
                return Err(format!("this line has {count} fields, but those before it have {}", 5 - count));
            }
            (_, count, _) => {
                return Err(format!("a line has start and end, or label, start and end, but this one has {count} fields"))
            }
        };
        let (start, end) = (place(start)?, place(end)?);
        self.seen += 1;
        if self.seen <= MOST + 1 {
            self.starts.push(start);
            self.ends.push(end);
            if let (Some(labels), Some(label)) = (&mut self.labels, label) {
                labels.push(label);
            }
        }
        Ok(())
    }
    /// The line of a row.
    pub fn line(&self, row: usize) -> usize {
        row.saturating_add(1 + usize::from(self.heading))
    }
}

fn place(text: &str) -> Result<u32, String> {
    let whole = text.trim().parse();
    whole.map_err(|_| format!("{} is no place: a start or an end is a whole number from 0 to {}", quoted(text), u32::MAX))
}

#[cfg(test)]
mod tests {
    use super::*;

    fn read(text: &str) -> Result<PlanFile, String> {
        Ok(PlanFile::read(&mut text.as_bytes(), "p")?)
    }

    #[test]
    fn rows_with_and_without_labels() {
        let plan = read("0,2\n1,4294967295").expect("a plan");
        assert_eq!(
            (plan.starts.as_slice(), plan.ends.as_slice(), plan.line(1)),
            ([0, 1].as_slice(), [2, u32::MAX].as_slice(), 2)
        );
        assert!(plan.labels.is_none());
        let plan = read(" LABEL , Start,END\r\n\"a, b\",0,2\r\n").expect("a plan");
        assert_eq!((plan.labels.expect("labels").get(0), plan.heading, plan.seen), ("a, b", true, 1));
        assert!(read("label,start,end\n").is_ok_and(|plan| plan.seen == 0 && plan.labels.is_some()));
        assert!(read("").is_ok_and(|plan| plan.seen == 0));
    }

    #[test]
    fn faults_have_their_line() {
        let fault = |text: &str| read(text).err().unwrap_or_default();
        assert_eq!(
            fault("0,1\n0,4294967296"),
            "p:2: \"4294967296\" is no place: a start or an end is a whole number from 0 to 4294967295"
        );
        assert_eq!(fault("start,end\na,0,1"), "p:2: this line has 3 fields, but those before it have 2");
        assert_eq!(fault("a,0,1\n0,1"), "p:2: this line has 2 fields, but those before it have 3");
        assert!(fault("from,to\n0,1").starts_with("p:1: \"from\" is no place"));
        assert!(fault("from,to\n0,1").ends_with("; a heading reads start,end or label,start,end"));
        assert!(fault("0,1\n-1,2").starts_with("p:2: \"-1\" is no place"));
        assert!(fault("0,1\n1.5,2").starts_with("p:2: \"1.5\" is no place"));
        assert!(fault("0,1\n\n1,2").starts_with("p:2: the line is blank"));
        assert!(fault("7").starts_with("p:1: a line has start and end"));
    }
}

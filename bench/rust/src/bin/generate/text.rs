//! Job files put together from programs and a trace.

use row_judge::lines::Line;

/// A job in parts: the head is worked out from the sections.
#[derive(Clone)]
pub struct Job {
    pub language: usize,
    pub locations: usize,
    /// The programs, then the trace.
    pub sections: Vec<Vec<u8>>,
}

impl Job {
    pub fn pairs(&self, head: usize) -> Vec<(usize, usize)> {
        let mut offset = head;
        let mut pairs = Vec::new();
        for section in &self.sections {
            pairs.push((offset, section.len()));
            offset += section.len();
        }
        pairs
    }

    pub fn head(&self, pairs: &[(usize, usize)]) -> String {
        let threads = self.sections.len() - 1;
        let mut head = format!("J {} {threads} {}\n", self.language, self.locations);
        for (offset, length) in pairs {
            head += &format!("D {offset} {length}\n");
        }
        head
    }

    /// The pairs that fit: the first offset is the length of the head that names them.
    pub fn right_pairs(&self) -> Vec<(usize, usize)> {
        let mut length = 0;
        loop {
            let pairs = self.pairs(length);
            let head = self.head(&pairs).len();
            if head == length {
                return pairs;
            }
            length = head;
        }
    }

    pub fn bytes(&self) -> Vec<u8> {
        self.with_pairs(&self.right_pairs())
    }

    pub fn with_pairs(&self, pairs: &[(usize, usize)]) -> Vec<u8> {
        let mut bytes = self.head(pairs).into_bytes();
        for section in &self.sections {
            bytes.extend_from_slice(section);
        }
        bytes
    }
}

pub fn line_text(line: Line) -> String {
    match line {
        Line::Turn(thread) => format!("T {thread}\n"),
        Line::Next => "N\n".into(),
        Line::Read(end) => format!("R {end}\n"),
        Line::Write { from, to } => format!("W {from} {to}\n"),
        Line::Update { from, to } => format!("U {from} {to}\n"),
        Line::Promise { location, value, from, to } => {
            format!("G {location} {value} {from} {to}\n")
        }
        Line::Keep(end) => format!("H {end}\n"),
        Line::Show => "X\n".into(),
        Line::End => "E\n".into(),
    }
}

pub fn trace_text(trace: &[Line]) -> Vec<u8> {
    trace.iter().map(|&line| line_text(line)).collect::<String>().into_bytes()
}

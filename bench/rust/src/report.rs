//! The report of a judged file.

use crate::languages::Language;
use crate::refusal::Refused;
use crate::run::Run;

/// A buffer of this size holds every report.
pub const LEAST_BUFFER: usize = 2400;

pub struct Report<'a> {
    buffer: &'a mut [u8],
    length: usize,
}

impl<'a> Report<'a> {
    pub fn new(buffer: &'a mut [u8]) -> Self {
        Report { buffer, length: 0 }
    }

    /// Puts zeros behind the report and answers its length.
    pub fn finish(self) -> usize {
        self.buffer[self.length..].fill(0);
        self.length
    }

    pub fn refused(&mut self, refused: &Refused) {
        self.text(b"NO");
        self.field(refused.refusal.number());
        self.field(refused.refusal.layer());
        self.field(refused.section);
        self.field(refused.line);
        self.text(b"\n");
    }

    pub fn accepted<L: Language>(
        &mut self,
        lines: u16,
        run: &Run<L>,
        threads: usize,
        locations: usize,
    ) {
        self.text(b"OK");
        self.field(lines);
        self.text(b"\n");
        for (arrival, message) in run.messages().iter().enumerate() {
            self.text(b"m");
            self.field(message.location as u16);
            self.field(message.from);
            self.field(message.to);
            self.field(message.value);
            self.field(run.owing(arrival).map_or(0, |thread| thread as u16 + 1));
            self.text(b"\n");
        }
        for thread in 0..threads {
            let cur = run.cur(thread);
            self.text(b"c");
            self.field(thread as u16);
            for location in 0..locations {
                self.field(cur.at(location));
            }
            self.text(b"\n");
        }
        for print in run.prints() {
            self.text(b"p");
            self.field(print.thread as u16);
            self.field(print.value);
            self.text(b"\n");
        }
    }

    fn text(&mut self, text: &[u8]) {
        self.buffer[self.length..self.length + text.len()].copy_from_slice(text);
        self.length += text.len();
    }

    /// One space and the number.
    fn field(&mut self, number: u16) {
        let mut digits = [b' '; 6];
        let mut rest = number;
        let mut start = digits.len();
        loop {
            start -= 1;
            digits[start] = b'0' + (rest % 10) as u8;
            rest /= 10;
            if rest == 0 {
                break;
            }
        }
        self.text(&digits[start - 1..]);
    }
}

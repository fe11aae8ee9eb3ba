//! Lines of text: a capital letter, fields of one space and a decimal number, a line feed.

use crate::refusal::Refusal;

/// What is left of a section. Lines are taken off its front.
#[derive(Clone, Copy)]
pub struct Reader<'a> {
    rest: &'a [u8],
}

impl<'a> Reader<'a> {
    pub fn new(bytes: &'a [u8]) -> Self {
        Reader { rest: bytes }
    }

    pub fn is_empty(&self) -> bool {
        self.rest.is_empty()
    }

    /// The number of bytes not yet taken.
    pub fn left(&self) -> usize {
        self.rest.len()
    }

    #[inline(always)]
    pub fn letter(&mut self) -> Result<u8, Refusal> {
        let (&letter, rest) = self.rest.split_first().ok_or(Refusal::Form)?;
        self.rest = rest;
        Ok(letter)
    }

    /// The N fields behind the letter and the line feed. The form of the whole line comes before
    /// the size of any field.
    #[inline(always)]
    pub fn fields<const N: usize>(&mut self) -> Result<[u16; N], Refusal> {
        let mut values = [0; N];
        let mut small = true;
        for value in &mut values {
            let number = self.field()?;
            small &= number <= u32::from(u16::MAX);
            *value = number as u16;
        }
        match self.rest {
            [b'\n', rest @ ..] => self.rest = rest,
            _ => return Err(Refusal::Form),
        }
        if small {
            Ok(values)
        } else {
            Err(Refusal::Range)
        }
    }

    /// One space and a number. Every number above 65,535 comes out as some number above 65,535.
    #[inline(always)]
    fn field(&mut self) -> Result<u32, Refusal> {
        let (first, mut rest) = match self.rest {
            [b' ', first @ b'0'..=b'9', rest @ ..] => (*first, rest),
            _ => return Err(Refusal::Form),
        };
        let mut number = u32::from(first - b'0');
        while let [digit @ b'0'..=b'9', after @ ..] = rest {
            if first == b'0' {
                return Err(Refusal::Form);
            }
            number = (number * 10 + u32::from(digit - b'0')).min(1_000_000);
            rest = after;
        }
        self.rest = rest;
        Ok(number)
    }
}

/// A line of a trace.
#[derive(Clone, Copy, Debug, PartialEq, Eq)]
pub enum Line {
    Turn(usize),
    Next,
    Read(u16),
    Write { from: u16, to: u16 },
    Update { from: u16, to: u16 },
    Promise { location: usize, value: u16, from: u16, to: u16 },
    Keep(u16),
    Show,
    End,
}

impl Line {
    #[inline(always)]
    pub fn read(reader: &mut Reader, threads: usize, locations: usize) -> Result<Line, Refusal> {
        match reader.letter()? {
            b'T' => {
                let [thread] = reader.fields()?;
                Ok(Line::Turn(below(thread, threads)?))
            }
            b'N' => reader.fields::<0>().map(|_| Line::Next),
            b'R' => reader.fields().map(|[end]| Line::Read(end)),
            b'W' => reader.fields().map(|[from, to]| Line::Write { from, to }),
            b'U' => reader.fields().map(|[from, to]| Line::Update { from, to }),
            b'G' => {
                let [location, value, from, to] = reader.fields()?;
                let location = below(location, locations)?;
                Ok(Line::Promise { location, value, from, to })
            }
            b'H' => reader.fields().map(|[end]| Line::Keep(end)),
            b'X' => reader.fields::<0>().map(|_| Line::Show),
            b'E' => reader.fields::<0>().map(|_| Line::End),
            _ => Err(Refusal::Form),
        }
    }
}

/// The field as an index, if it is below the bound.
#[inline(always)]
pub fn below(field: u16, bound: usize) -> Result<usize, Refusal> {
    let index = usize::from(field);
    if index < bound {
        Ok(index)
    } else {
        Err(Refusal::Range)
    }
}

//! The two languages of threads.

use crate::lines::{below, Reader};
use crate::refusal::Refusal;

pub const PROGRAM_LINES: usize = 64;
const REGISTERS: usize = 8;

#[derive(Clone, Copy, Debug, PartialEq, Eq)]
pub enum ReadMode {
    Relaxed,
    Acquire,
}

#[derive(Clone, Copy, Debug, PartialEq, Eq)]
pub enum WriteMode {
    Relaxed,
    Release,
}

#[derive(Clone, Copy, Debug, PartialEq, Eq)]
pub enum Fence {
    Acquire,
    Release,
    Both,
    Sequential,
}

/// What a thread does next.
#[derive(Clone, Copy, Debug, PartialEq, Eq)]
pub enum Action {
    Silent,
    Read { location: usize, mode: ReadMode },
    Write { location: usize, value: u16, mode: WriteMode },
    Update { location: usize, read: ReadMode, write: WriteMode },
    Fence(Fence),
    Print(u16),
    Ended,
}

/// What a read or an update does with a value.
#[derive(Clone, Copy, Debug, PartialEq, Eq)]
pub enum Taking {
    NotTaken,
    OnlyRead,
    Replaced(u16),
}

/// The state of a thread in some language.
pub trait Language: Copy {
    type Line: Copy;

    fn read_line(reader: &mut Reader, locations: usize) -> Result<Self::Line, Refusal>;
    fn action(&self, program: &Program<Self::Line>) -> Action;
    fn taking(&self, program: &Program<Self::Line>, value: u16) -> Taking;
    fn go_on(&mut self, program: &Program<Self::Line>, value: u16);
    fn start() -> Self;
}

/// The lines of one thread.
#[derive(Clone, Copy)]
pub struct Program<T: Copy> {
    lines: [Option<T>; PROGRAM_LINES],
    count: usize,
}

impl<T: Copy> Program<T> {
    pub const EMPTY: Self = Program { lines: [None; PROGRAM_LINES], count: 0 };

    #[inline(always)]
    fn at(&self, line: usize) -> Option<T> {
        self.lines.get(line).copied().flatten()
    }

    /// Reads a section; a fault comes with the number of its line, from 1.
    pub fn read<L: Language<Line = T>>(
        section: &[u8],
        locations: usize,
    ) -> Result<Self, (Refusal, u16)> {
        let mut program = Program::EMPTY;
        let mut reader = Reader::new(section);
        let mut number = 1;
        while !reader.is_empty() {
            let line = L::read_line(&mut reader, locations).map_err(|fault| (fault, number))?;
            match program.lines.get_mut(program.count) {
                Some(place) => *place = Some(line),
                None => return Err((Refusal::ProgramTooLong, number)),
            }
            program.count += 1;
            number += 1;
        }
        Ok(program)
    }
}

fn read_mode(field: u16) -> Result<ReadMode, Refusal> {
    match field {
        0 => Ok(ReadMode::Relaxed),
        1 => Ok(ReadMode::Acquire),
        _ => Err(Refusal::Range),
    }
}

fn write_mode(field: u16) -> Result<WriteMode, Refusal> {
    match field {
        0 => Ok(WriteMode::Relaxed),
        1 => Ok(WriteMode::Release),
        _ => Err(Refusal::Range),
    }
}

fn fence(field: u16) -> Result<Fence, Refusal> {
    match field {
        0 => Ok(Fence::Acquire),
        1 => Ok(Fence::Release),
        2 => Ok(Fence::Both),
        3 => Ok(Fence::Sequential),
        _ => Err(Refusal::Range),
    }
}

fn register(field: u16) -> Result<u8, Refusal> {
    below(field, REGISTERS).map(|index| index as u8)
}

fn place(field: u16, locations: usize) -> Result<u8, Refusal> {
    below(field, locations).map(|index| index as u8)
}

#[derive(Clone, Copy, Debug)]
pub enum RegisterLine {
    Constant { to: u8, value: u16 },
    Add { to: u8, left: u8, right: u8 },
    Equal { to: u8, left: u8, right: u8 },
    Branch { on: u8, line: u8 },
    Load { to: u8, location: u8, mode: ReadMode },
    Store { location: u8, from: u8, mode: WriteMode },
    FetchAdd { to: u8, location: u8, add: u8, read: ReadMode, write: WriteMode },
    CompareExchange { to: u8, location: u8, old: u8, new: u8, read: ReadMode, write: WriteMode },
    Fence(Fence),
    Print(u8),
}

#[derive(Clone, Copy, Debug)]
pub struct Registers {
    values: [u16; REGISTERS],
    line: u8,
}

impl Registers {
    #[inline(always)]
    fn get(&self, register: u8) -> u16 {
        self.values[usize::from(register) % REGISTERS]
    }

    #[inline(always)]
    fn set(&mut self, register: u8, value: u16) {
        self.values[usize::from(register) % REGISTERS] = value;
    }
}

impl Language for Registers {
    type Line = RegisterLine;

    fn start() -> Self {
        Registers { values: [0; REGISTERS], line: 0 }
    }

    fn read_line(reader: &mut Reader, locations: usize) -> Result<RegisterLine, Refusal> {
        let line = match reader.letter()? {
            b'C' => {
                let [r, value] = reader.fields()?;
                RegisterLine::Constant { to: register(r)?, value }
            }
            b'A' => {
                let [r, s, u] = reader.fields()?;
                RegisterLine::Add { to: register(r)?, left: register(s)?, right: register(u)? }
            }
            b'Q' => {
                let [r, s, u] = reader.fields()?;
                RegisterLine::Equal { to: register(r)?, left: register(s)?, right: register(u)? }
            }
            b'B' => {
                let [r, k] = reader.fields()?;
                let line = below(k, PROGRAM_LINES + 1)? as u8;
                RegisterLine::Branch { on: register(r)?, line }
            }
            b'L' => {
                let [r, x, o] = reader.fields()?;
                let location = place(x, locations)?;
                RegisterLine::Load { to: register(r)?, location, mode: read_mode(o)? }
            }
            b'S' => {
                let [x, s, o] = reader.fields()?;
                let location = place(x, locations)?;
                RegisterLine::Store { location, from: register(s)?, mode: write_mode(o)? }
            }
            b'U' => {
                let [r, x, s, o, p] = reader.fields()?;
                RegisterLine::FetchAdd {
                    to: register(r)?,
                    location: place(x, locations)?,
                    add: register(s)?,
                    read: read_mode(o)?,
                    write: write_mode(p)?,
                }
            }
            b'K' => {
                let [r, x, s, u, o, p] = reader.fields()?;
                RegisterLine::CompareExchange {
                    to: register(r)?,
                    location: place(x, locations)?,
                    old: register(s)?,
                    new: register(u)?,
                    read: read_mode(o)?,
                    write: write_mode(p)?,
                }
            }
            b'F' => {
                let [o] = reader.fields()?;
                RegisterLine::Fence(fence(o)?)
            }
            b'P' => {
                let [s] = reader.fields()?;
                RegisterLine::Print(register(s)?)
            }
            _ => return Err(Refusal::Form),
        };
        Ok(line)
    }

    #[inline(always)]
    fn action(&self, program: &Program<RegisterLine>) -> Action {
        let Some(line) = program.at(usize::from(self.line)) else {
            return Action::Ended;
        };
        match line {
            RegisterLine::Constant { .. }
            | RegisterLine::Add { .. }
            | RegisterLine::Equal { .. }
            | RegisterLine::Branch { .. } => Action::Silent,
            RegisterLine::Load { location, mode, .. } => {
                Action::Read { location: location.into(), mode }
            }
            RegisterLine::Store { location, from, mode } => {
                Action::Write { location: location.into(), value: self.get(from), mode }
            }
            RegisterLine::FetchAdd { location, read, write, .. }
            | RegisterLine::CompareExchange { location, read, write, .. } => {
                Action::Update { location: location.into(), read, write }
            }
            RegisterLine::Fence(fence) => Action::Fence(fence),
            RegisterLine::Print(from) => Action::Print(self.get(from)),
        }
    }

    #[inline(always)]
    fn taking(&self, program: &Program<RegisterLine>, value: u16) -> Taking {
        match program.at(usize::from(self.line)) {
            Some(RegisterLine::Load { .. }) => Taking::OnlyRead,
            Some(RegisterLine::FetchAdd { add, .. }) => {
                Taking::Replaced(value.wrapping_add(self.get(add)))
            }
            Some(RegisterLine::CompareExchange { old, new, .. }) => {
                if value == self.get(old) {
                    Taking::Replaced(self.get(new))
                } else {
                    Taking::OnlyRead
                }
            }
            _ => Taking::NotTaken,
        }
    }

    #[inline(always)]
    fn go_on(&mut self, program: &Program<RegisterLine>, value: u16) {
        let Some(line) = program.at(usize::from(self.line)) else {
            return;
        };
        self.line += 1;
        match line {
            RegisterLine::Constant { to, value } => self.set(to, value),
            RegisterLine::Add { to, left, right } => {
                self.set(to, self.get(left).wrapping_add(self.get(right)));
            }
            RegisterLine::Equal { to, left, right } => {
                self.set(to, u16::from(self.get(left) == self.get(right)));
            }
            RegisterLine::Branch { on, line } => {
                if self.get(on) != 0 {
                    self.line = line;
                }
            }
            RegisterLine::Load { to, .. }
            | RegisterLine::FetchAdd { to, .. }
            | RegisterLine::CompareExchange { to, .. } => self.set(to, value),
            RegisterLine::Store { .. } | RegisterLine::Fence(_) | RegisterLine::Print(_) => {}
        }
    }
}

#[derive(Clone, Copy, Debug)]
pub enum StripLine {
    Read { location: u8, value: u16, mode: ReadMode },
    Write { location: u8, value: u16, mode: WriteMode },
    Update { location: u8, add: u16, read: ReadMode, write: WriteMode },
    Fence(Fence),
    Print(u16),
}

#[derive(Clone, Copy, Debug)]
pub struct Strip {
    line: u8,
}

impl Language for Strip {
    type Line = StripLine;

    fn start() -> Self {
        Strip { line: 0 }
    }

    fn read_line(reader: &mut Reader, locations: usize) -> Result<StripLine, Refusal> {
        let line = match reader.letter()? {
            b'R' => {
                let [x, value, o] = reader.fields()?;
                StripLine::Read { location: place(x, locations)?, value, mode: read_mode(o)? }
            }
            b'S' => {
                let [x, value, o] = reader.fields()?;
                StripLine::Write { location: place(x, locations)?, value, mode: write_mode(o)? }
            }
            b'U' => {
                let [x, add, o, p] = reader.fields()?;
                let location = place(x, locations)?;
                StripLine::Update { location, add, read: read_mode(o)?, write: write_mode(p)? }
            }
            b'F' => {
                let [o] = reader.fields()?;
                StripLine::Fence(fence(o)?)
            }
            b'P' => {
                let [value] = reader.fields()?;
                StripLine::Print(value)
            }
            _ => return Err(Refusal::Form),
        };
        Ok(line)
    }

    #[inline(always)]
    fn action(&self, program: &Program<StripLine>) -> Action {
        let Some(line) = program.at(usize::from(self.line)) else {
            return Action::Ended;
        };
        match line {
            StripLine::Read { location, mode, .. } => {
                Action::Read { location: location.into(), mode }
            }
            StripLine::Write { location, value, mode } => {
                Action::Write { location: location.into(), value, mode }
            }
            StripLine::Update { location, read, write, .. } => {
                Action::Update { location: location.into(), read, write }
            }
            StripLine::Fence(fence) => Action::Fence(fence),
            StripLine::Print(value) => Action::Print(value),
        }
    }

    #[inline(always)]
    fn taking(&self, program: &Program<StripLine>, value: u16) -> Taking {
        match program.at(usize::from(self.line)) {
            Some(StripLine::Read { value: wanted, .. }) if value == wanted => Taking::OnlyRead,
            Some(StripLine::Update { add, .. }) => Taking::Replaced(value.wrapping_add(add)),
            _ => Taking::NotTaken,
        }
    }

    #[inline(always)]
    fn go_on(&mut self, program: &Program<StripLine>, _value: u16) {
        if program.at(usize::from(self.line)).is_some() {
            self.line += 1;
        }
    }
}

//! Walks through a run by lines that are accepted, found by trying.

use row_judge::languages::{Action, Language, WriteMode};
use row_judge::lines::Line;
use row_judge::refusal::Refusal;
use row_judge::run::Run;
use row_judge::store::Message;

use crate::random::Random;

/// The nine kinds of lines.
#[derive(Clone, Copy, Debug, PartialEq, Eq)]
pub enum Kind {
    Turn,
    Next,
    Read,
    Write,
    Update,
    Promise,
    Keep,
    Show,
    End,
}

impl Kind {
    pub const ALL: [Kind; 9] = [
        Kind::Turn,
        Kind::Next,
        Kind::Read,
        Kind::Write,
        Kind::Update,
        Kind::Promise,
        Kind::Keep,
        Kind::Show,
        Kind::End,
    ];

    /// The kinds that can be refused so.
    pub fn refused(refusal: Refusal) -> &'static [Kind] {
        use Kind::{End, Keep, Next, Promise, Read, Update, Write};
        match refusal {
            Refusal::OtherKind => &[Next, Read, Write, Update, Keep],
            Refusal::Owing => &[Next, Write, Update],
            Refusal::NotThere | Refusal::Value => &[Read, Update, Keep],
            Refusal::TooNew => &[Read, Write, Update, Promise, Keep],
            Refusal::Span => &[Write, Update, Promise],
            Refusal::ClosingLine => &[Write, Update],
            Refusal::Full => &[Next, Write, Update, Promise],
            Refusal::EndOwing => &[End],
            _ => &Kind::ALL,
        }
    }
}

/// How a walk goes about its turns.
#[derive(Clone, Copy)]
pub struct Manner {
    pub turn_steps: usize,
    pub show_steps: usize,
    pub promise_percent: usize,
    /// The lengths of spans, and of the room left between them.
    pub gaps: &'static [u16],
}

pub struct Walk<'r, 'p, L: Language> {
    pub run: Run<'p, L>,
    pub trace: Vec<Line>,
    pub random: &'r mut Random,
    pub threads: usize,
    pub locations: usize,
    pub manner: Manner,
    /// The thread whose turn it is.
    thread: usize,
    showing: bool,
}

impl<'r, 'p, L: Language> Walk<'r, 'p, L> {
    pub fn new(
        run: Run<'p, L>,
        random: &'r mut Random,
        threads: usize,
        locations: usize,
        manner: Manner,
    ) -> Self {
        let trace = Vec::new();
        Walk { run, trace, random, threads, locations, manner, thread: 0, showing: false }
    }

    pub fn take(&mut self, line: Line) -> Result<(), Refusal> {
        self.run.take(line)?;
        match line {
            Line::Turn(thread) => self.thread = thread,
            Line::Show => self.showing = true,
            Line::End => self.showing = false,
            _ => {}
        }
        self.trace.push(line);
        Ok(())
    }

    fn at(&self, location: usize) -> Vec<Message> {
        self.run.messages().iter().copied().filter(|m| m.location == location).collect()
    }

    fn greatest(&self, location: usize) -> u16 {
        self.at(location).iter().map(|m| m.to).max().unwrap_or(0)
    }

    fn gap(&mut self) -> u16 {
        self.random.pick(self.manner.gaps)
    }

    /// An end of a message of the location, likely one that may be read.
    fn some_end(&mut self, location: usize) -> u16 {
        let cur = self.run.cur(self.thread).at(location);
        let ends: Vec<u16> = self.at(location).iter().map(|m| m.to).collect();
        let high: Vec<u16> = ends.iter().copied().filter(|&end| end >= cur).collect();
        if !high.is_empty() && self.random.chance(95) {
            self.random.pick(&high)
        } else {
            self.random.pick(&ends)
        }
    }

    /// A span for a new message: mostly above all others, sometimes behind any message.
    fn some_span(&mut self, location: usize) -> (u16, u16) {
        let base = if self.showing || self.random.chance(70) {
            self.greatest(location)
        } else {
            self.some_end(location)
        };
        let behind = if self.showing { 1 } else { 0 };
        let from = if self.random.chance(75) {
            base.saturating_add(behind)
        } else {
            base.saturating_add(behind).saturating_add(self.gap())
        };
        (from, from.saturating_add(self.gap()))
    }

    /// Ends and values of the thread's promises at the location.
    fn owed(&self, thread: usize, location: usize) -> Vec<(u16, u16)> {
        let messages = self.run.messages().iter().enumerate();
        messages
            .filter(|(k, m)| m.location == location && self.run.owing(*k) == Some(thread))
            .map(|(_, m)| (m.to, m.value))
            .collect()
    }

    /// A line that the thread may well take now.
    pub fn likely(&mut self) -> Line {
        match self.run.action(self.thread) {
            Action::Silent | Action::Fence(_) | Action::Print(_) => Line::Next,
            Action::Ended => Line::End,
            Action::Read { location, .. } => Line::Read(self.some_end(location)),
            Action::Update { location, .. } => {
                let from = self.some_end(location);
                if self.random.chance(25) {
                    Line::Read(from)
                } else {
                    Line::Update { from, to: from.saturating_add(self.gap()) }
                }
            }
            Action::Write { location, value, mode } => {
                let owed = self.owed(self.thread, location);
                let kept: Vec<u16> =
                    owed.iter().filter(|(_, v)| *v == value).map(|(end, _)| *end).collect();
                if mode == WriteMode::Relaxed && !kept.is_empty() && self.random.chance(80) {
                    Line::Keep(self.random.pick(&kept))
                } else {
                    let (from, to) = self.some_span(location);
                    Line::Write { from, to }
                }
            }
        }
    }

    /// One step by a likely line; false when none was found.
    pub fn step(&mut self) -> bool {
        for _ in 0..6 {
            let line = self.likely();
            if line == Line::End {
                return false;
            }
            if self.take(line).is_ok() {
                return true;
            }
        }
        false
    }

    /// Looks ahead for a relaxed write and promises it.
    pub fn promise(&mut self) -> bool {
        let saved = (self.run.clone(), self.trace.len());
        let mut found = None;
        for _ in 0..14 {
            if let Action::Write { location, value, mode: WriteMode::Relaxed } =
                self.run.action(self.thread)
            {
                found = Some((location, value));
                if self.random.chance(40) {
                    break;
                }
            }
            if !self.step() {
                break;
            }
        }
        self.run = saved.0;
        self.trace.truncate(saved.1);
        let Some((location, value)) = found else {
            return false;
        };
        let (from, to) = self.some_span(location);
        self.take(Line::Promise { location, value, from, to }).is_ok()
    }

    /// A showing and the end of the turn; nothing changes when it is not found.
    pub fn show(&mut self) -> bool {
        let saved = (self.run.clone(), self.trace.len());
        if self.take(Line::Show).is_ok() {
            for _ in 0..self.manner.show_steps {
                if !self.run.owes(self.thread) {
                    return self.take(Line::End).is_ok();
                }
                if !self.step() {
                    break;
                }
            }
        }
        self.run = saved.0;
        self.trace.truncate(saved.1);
        self.showing = false;
        false
    }

    /// A whole turn; nothing changes when it cannot be ended.
    pub fn turn(&mut self, thread: usize) -> bool {
        let saved = (self.run.clone(), self.trace.len());
        if self.take(Line::Turn(thread)).is_err() {
            return false;
        }
        let mut promised = None;
        for _ in 0..self.random.within(1, self.manner.turn_steps) {
            if self.random.chance(self.manner.promise_percent) {
                let before = (self.run.clone(), self.trace.len());
                if self.promise() && promised.is_none() {
                    promised = Some(before);
                }
            }
            if self.random.chance(10) || !self.step() {
                break;
            }
        }
        let idle = self.trace.len() == saved.1 + 1;
        if !(idle && self.random.chance(98)) && self.close() {
            return true;
        }
        if let Some((run, length)) = promised {
            self.run = run;
            self.trace.truncate(length);
            if self.close() {
                return true;
            }
        }
        self.run = saved.0;
        self.trace.truncate(saved.1);
        false
    }

    fn close(&mut self) -> bool {
        if !self.run.owes(self.thread) {
            return self.take(Line::End).is_ok();
        }
        (0..5).any(|_| self.show())
    }

    /// Turns until the trace has the wanted length or no more are found.
    pub fn turns(&mut self, lines: usize) {
        let mut failed = 0;
        while self.trace.len() < lines && failed < 20 {
            let thread = self.random.below(self.threads);
            let before = self.trace.len();
            let moved = self.turn(thread) && self.trace.len() > before + 2;
            failed = if moved { 0 } else { failed + 1 };
        }
    }

    /// Leaves the run inside a turn or a showing, if it comes to that. Promises made here need
    /// not be such that they can be kept.
    pub fn open_end(&mut self, promises: usize) {
        let thread = self.random.below(self.threads);
        if self.take(Line::Turn(thread)).is_err() {
            return;
        }
        let steps = self.random.below(8);
        for _ in 0..steps {
            if self.random.chance(promises) {
                if self.random.chance(75) {
                    self.promise();
                } else {
                    let line = self.wild_of(Kind::Promise);
                    let _ = self.take(line);
                }
            }
            self.step();
        }
        if self.random.chance(60) && self.take(Line::Show).is_ok() {
            let steps = if self.random.chance(50) { 30 } else { self.random.below(6) };
            for _ in 0..steps {
                if !self.step() {
                    break;
                }
            }
        }
    }

    /// The location of the thread's next action, or any.
    fn some_location(&mut self) -> usize {
        match self.run.action(self.thread) {
            Action::Read { location, .. }
            | Action::Write { location, .. }
            | Action::Update { location, .. }
                if self.random.chance(80) =>
            {
                location
            }
            _ => self.random.below(self.locations),
        }
    }

    /// A number that tells something: an end, a neighbour of one, or a limit.
    fn wild_number(&mut self) -> u16 {
        let location = self.some_location();
        match self.random.below(10) {
            0 => 0,
            1 => self.random.pick(&[1, 2, 65_534, 65_535]),
            2 => self.greatest(location).saturating_add(1),
            3 => self.greatest(location).saturating_add(2),
            4 => self.some_end(location).saturating_sub(1),
            5 => self.some_end(location).saturating_add(1),
            6 => self.run.cur(self.thread).at(location),
            _ => {
                let ends: Vec<u16> = self.at(location).iter().map(|m| m.to).collect();
                self.random.pick(&ends)
            }
        }
    }

    /// The end of a promise, mostly, of this thread or of any.
    fn wild_promise(&mut self) -> u16 {
        let location = self.some_location();
        let mut owed = self.owed(self.thread, location);
        if owed.is_empty() || self.random.chance(30) {
            owed.extend((0..self.threads).flat_map(|thread| self.owed(thread, location)));
        }
        if owed.is_empty() || self.random.chance(30) {
            self.wild_number()
        } else {
            self.random.pick(&owed).0
        }
    }

    /// A line of the kind with telling numbers.
    fn wild_of(&mut self, kind: Kind) -> Line {
        let from = self.wild_number();
        let to = if self.random.chance(50) {
            self.wild_number()
        } else {
            from.saturating_add(self.gap())
        };
        match kind {
            Kind::Turn => Line::Turn(self.random.below(self.threads)),
            Kind::Next => Line::Next,
            Kind::Read => Line::Read(from),
            Kind::Write => Line::Write { from, to },
            Kind::Update => Line::Update { from, to },
            Kind::Promise => {
                let location = self.some_location();
                let value = self.random.below(3) as u16;
                Line::Promise { location, value, from, to }
            }
            Kind::Keep => Line::Keep(self.wild_promise()),
            Kind::Show => Line::Show,
            Kind::End => Line::End,
        }
    }

    /// Any line with telling numbers.
    pub fn wild(&mut self) -> Line {
        let kind = self.random.pick(&Kind::ALL);
        self.wild_of(kind)
    }

    /// A line of the kind that is refused with the wanted refusal, if some tries find one.
    pub fn refused_line(&mut self, wanted: Refusal, kind: Kind) -> Option<Line> {
        for _ in 0..12 {
            let line = self.wild_of(kind);
            if self.run.clone().take(line) == Err(wanted) {
                return Some(line);
            }
        }
        None
    }

    /// After the run was put back to a moment between turns.
    pub fn restart(&mut self) {
        self.showing = false;
    }

    /// A turn of some lines: silent steps, and writes and updates above all others.
    pub fn fill(&mut self, thread: usize, lines: usize) {
        let accepted = self.take(Line::Turn(thread));
        assert!(accepted.is_ok(), "a turn begins");
        for _ in 0..lines {
            let line = match self.run.action(thread) {
                Action::Silent => Line::Next,
                Action::Write { location, .. } => {
                    let from = self.greatest(location);
                    Line::Write { from, to: from + 1 }
                }
                Action::Update { location, .. } => {
                    let from = self.greatest(location);
                    Line::Update { from, to: from + 1 }
                }
                _ => break,
            };
            assert!(self.take(line).is_ok(), "a line of the filling is accepted");
        }
        let accepted = self.take(Line::End);
        assert!(accepted.is_ok(), "a turn that owes nothing ends");
    }

    /// A turn that promises the value 1 at the location and shows that it is kept.
    pub fn promise_at(&mut self, thread: usize, location: usize) {
        let accepted = self.take(Line::Turn(thread));
        assert!(accepted.is_ok(), "a turn begins");
        let from = self.greatest(location);
        let promise = Line::Promise { location, value: 1, from, to: from + 1 };
        assert!(self.take(promise).is_ok(), "the promise is accepted");
        assert!((0..100).any(|_| self.show()), "a showing is found");
    }

    /// One more turn that only shows.
    pub fn show_again(&mut self, thread: usize) -> bool {
        self.take(Line::Turn(thread)).is_ok() && (0..100).any(|_| self.show())
    }

    /// One more turn of many steps.
    pub fn read_on(&mut self, thread: usize) -> bool {
        if self.take(Line::Turn(thread)).is_err() {
            return false;
        }
        for _ in 0..self.random.within(1, self.manner.turn_steps) {
            self.step();
        }
        self.take(Line::End).is_ok()
    }
}

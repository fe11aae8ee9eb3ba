//! A run: threads, their views, the memory, and the nine lines of a trace.

use crate::languages::{Action, Fence, Language, Program, ReadMode, Taking, WriteMode};
use crate::lines::Line;
use crate::refusal::Refusal;
use crate::store::{Arrivals, Message, Store, View, LOCATIONS};

pub const THREADS: usize = 4;
pub const PRINTS: usize = 64;

#[derive(Clone, Copy)]
struct Views {
    cur: View,
    acq: View,
    rel: [View; LOCATIONS],
}

impl Views {
    const ZERO: Views = Views { cur: View::ZERO, acq: View::ZERO, rel: [View::ZERO; LOCATIONS] };

    /// A message's view has its end at its location, so a join takes that in.
    #[inline(always)]
    fn read(&mut self, message: &Message, mode: ReadMode) {
        match mode {
            ReadMode::Relaxed => self.cur.raise(message.location, message.to),
            ReadMode::Acquire => self.cur.join(&message.view),
        }
        self.acq.join(&message.view);
    }

    /// Answers the view of the message that is written.
    #[inline(always)]
    fn write(&mut self, location: usize, end: u16, mode: WriteMode) -> View {
        self.cur.raise(location, end);
        self.acq.raise(location, end);
        let rel = &mut self.rel[location % LOCATIONS];
        rel.raise(location, end);
        if mode == WriteMode::Release {
            rel.join(&self.cur);
        }
        *rel
    }

    fn fence(&mut self, fence: Fence, sequential: &mut View) {
        match fence {
            Fence::Acquire => self.cur = self.acq,
            Fence::Release => self.rel = [self.cur; LOCATIONS],
            Fence::Both => {
                self.cur = self.acq;
                self.rel = [self.acq; LOCATIONS];
            }
            Fence::Sequential => {
                sequential.join(&self.acq);
                self.cur = *sequential;
                self.acq = *sequential;
                self.rel = [*sequential; LOCATIONS];
            }
        }
    }
}

#[derive(Clone, Copy)]
struct Thread<L> {
    state: L,
    views: Views,
    owed: Arrivals,
}

/// What a showing is put back to, and its closing lines.
#[derive(Clone, Copy)]
struct Before<L> {
    thread: Thread<L>,
    messages: usize,
    closing: View,
}

#[derive(Clone, Copy)]
enum Phase<L> {
    Between,
    Turn(usize),
    Showing(usize, Before<L>),
}

#[derive(Clone, Copy, Debug, PartialEq, Eq)]
pub struct Print {
    pub thread: usize,
    pub value: u16,
}

#[derive(Clone)]
pub struct Run<'a, L: Language> {
    programs: &'a [Program<L::Line>; THREADS],
    threads: [Thread<L>; THREADS],
    phase: Phase<L>,
    store: Store,
    sequential: View,
    prints: [Print; PRINTS],
    printed: usize,
}

impl<'a, L: Language> Run<'a, L> {
    pub fn new(programs: &'a [Program<L::Line>; THREADS], locations: usize) -> Self {
        let thread = Thread { state: L::start(), views: Views::ZERO, owed: Arrivals::NONE };
        Run {
            programs,
            threads: [thread; THREADS],
            phase: Phase::Between,
            store: Store::new(locations),
            sequential: View::ZERO,
            prints: [Print { thread: 0, value: 0 }; PRINTS],
            printed: 0,
        }
    }

    pub fn messages(&self) -> &[Message] {
        self.store.messages()
    }

    pub fn prints(&self) -> &[Print] {
        &self.prints[..self.printed]
    }

    pub fn cur(&self, thread: usize) -> View {
        self.threads[thread % THREADS].views.cur
    }

    /// The thread that owes the message, if one does.
    pub fn owing(&self, arrival: usize) -> Option<usize> {
        self.threads.iter().position(|thread| thread.owed.has(arrival))
    }

    pub fn owes(&self, thread: usize) -> bool {
        !self.threads[thread % THREADS].owed.is_empty()
    }

    pub fn action(&self, thread: usize) -> Action {
        self.threads[thread % THREADS].state.action(&self.programs[thread % THREADS])
    }

    pub fn is_between_turns(&self) -> bool {
        matches!(self.phase, Phase::Between)
    }

    /// Takes one line, or refuses it and stays as it is.
    #[inline(always)]
    pub fn take(&mut self, line: Line) -> Result<(), Refusal> {
        match line {
            Line::Turn(thread) => self.begin(thread),
            Line::Next => self.next(),
            Line::Read(end) => self.read(end),
            Line::Write { from, to } => self.write(from, to),
            Line::Update { from, to } => self.update(from, to),
            Line::Promise { location, value, from, to } => self.promise(location, value, from, to),
            Line::Keep(end) => self.keep(end),
            Line::Show => self.show(),
            Line::End => self.end(),
        }
    }

    fn begin(&mut self, thread: usize) -> Result<(), Refusal> {
        match self.phase {
            Phase::Between => {
                self.phase = Phase::Turn(thread);
                Ok(())
            }
            _ => Err(Refusal::NotNow),
        }
    }

    /// The thread that may step now. In a showing that owes nothing any more, none may.
    #[inline(always)]
    fn stepping(&self) -> Result<usize, Refusal> {
        match &self.phase {
            Phase::Turn(thread) => Ok(*thread % THREADS),
            Phase::Showing(thread, _) if self.owes(*thread) => Ok(*thread % THREADS),
            _ => Err(Refusal::NotNow),
        }
    }

    #[inline(always)]
    fn next(&mut self) -> Result<(), Refusal> {
        let i = self.stepping()?;
        let program = &self.programs[i];
        let thread = &mut self.threads[i];
        match thread.state.action(program) {
            Action::Silent => {}
            Action::Fence(Fence::Acquire) => {
                thread.views.fence(Fence::Acquire, &mut self.sequential);
            }
            Action::Fence(fence) => {
                if !thread.owed.is_empty() {
                    return Err(Refusal::Owing);
                }
                thread.views.fence(fence, &mut self.sequential);
            }
            Action::Print(value) => {
                if !thread.owed.is_empty() {
                    return Err(Refusal::Owing);
                }
                let place = self.prints.get_mut(self.printed).ok_or(Refusal::Full)?;
                *place = Print { thread: i, value };
                self.printed += 1;
            }
            _ => return Err(Refusal::OtherKind),
        }
        thread.state.go_on(program, 0);
        Ok(())
    }

    #[inline(always)]
    fn read(&mut self, end: u16) -> Result<(), Refusal> {
        let i = self.stepping()?;
        let program = &self.programs[i];
        let thread = &mut self.threads[i];
        let (location, mode) = match thread.state.action(program) {
            Action::Read { location, mode } => (location, mode),
            Action::Update { location, read, .. } => (location, read),
            _ => return Err(Refusal::OtherKind),
        };
        let (_, message) = self.store.find(location, end).ok_or(Refusal::NotThere)?;
        if thread.views.cur.at(location) > end {
            return Err(Refusal::TooNew);
        }
        if thread.state.taking(program, message.value) != Taking::OnlyRead {
            return Err(Refusal::Value);
        }
        thread.views.read(message, mode);
        thread.state.go_on(program, message.value);
        Ok(())
    }

    #[inline(always)]
    fn write(&mut self, from: u16, to: u16) -> Result<(), Refusal> {
        let i = self.stepping()?;
        let program = &self.programs[i];
        let thread = &self.threads[i];
        let Action::Write { location, value, mode } = thread.state.action(program) else {
            return Err(Refusal::OtherKind);
        };
        if mode == WriteMode::Release && thread.owed.meets(self.store.members(location)) {
            return Err(Refusal::Owing);
        }
        if thread.views.cur.at(location) >= to {
            return Err(Refusal::TooNew);
        }
        self.span(location, from, to)?;
        let thread = &mut self.threads[i];
        let view = thread.views.write(location, to, mode);
        self.store.add(Message { location, from, to, value, view });
        thread.state.go_on(program, 0);
        Ok(())
    }

    #[inline(always)]
    fn update(&mut self, from: u16, to: u16) -> Result<(), Refusal> {
        let i = self.stepping()?;
        let program = &self.programs[i];
        let thread = &self.threads[i];
        let Action::Update { location, read, write } = thread.state.action(program) else {
            return Err(Refusal::OtherKind);
        };
        if write == WriteMode::Release && thread.owed.meets(self.store.members(location)) {
            return Err(Refusal::Owing);
        }
        let (_, &message) = self.store.find(location, from).ok_or(Refusal::NotThere)?;
        if thread.views.cur.at(location) > from {
            return Err(Refusal::TooNew);
        }
        let Taking::Replaced(value) = thread.state.taking(program, message.value) else {
            return Err(Refusal::Value);
        };
        self.span(location, from, to)?;
        let thread = &mut self.threads[i];
        thread.views.read(&message, read);
        let mut view = thread.views.write(location, to, write);
        view.join(&message.view);
        self.store.add(Message { location, from, to, value, view });
        thread.state.go_on(program, message.value);
        Ok(())
    }

    /// Whether a new message may have this span: it is one, it is free, it lies above the
    /// closing line, and there is room.
    #[inline(always)]
    fn span(&self, location: usize, from: u16, to: u16) -> Result<(), Refusal> {
        if from >= to || !self.store.is_free(location, from, to) {
            return Err(Refusal::Span);
        }
        if let Phase::Showing(_, before) = &self.phase {
            if from <= before.closing.at(location) {
                return Err(Refusal::ClosingLine);
            }
        }
        if self.store.is_full() {
            return Err(Refusal::Full);
        }
        Ok(())
    }

    fn promise(&mut self, location: usize, value: u16, from: u16, to: u16) -> Result<(), Refusal> {
        let Phase::Turn(i) = self.phase else {
            return Err(Refusal::NotNow);
        };
        let thread = &self.threads[i % THREADS];
        if thread.views.cur.at(location) >= to {
            return Err(Refusal::TooNew);
        }
        self.span(location, from, to)?;
        let thread = &mut self.threads[i % THREADS];
        let mut view = thread.views.rel[location % LOCATIONS];
        view.raise(location, to);
        thread.owed.insert(self.store.count());
        self.store.add(Message { location, from, to, value, view });
        Ok(())
    }

    #[inline(always)]
    fn keep(&mut self, end: u16) -> Result<(), Refusal> {
        let i = self.stepping()?;
        let program = &self.programs[i];
        let thread = &mut self.threads[i];
        let Action::Write { location, value, mode: WriteMode::Relaxed } =
            thread.state.action(program)
        else {
            return Err(Refusal::OtherKind);
        };
        let (arrival, promise) = self.store.find(location, end).ok_or(Refusal::NotThere)?;
        if !thread.owed.has(arrival) {
            return Err(Refusal::NotThere);
        }
        if thread.views.cur.at(location) >= end {
            return Err(Refusal::TooNew);
        }
        if promise.value != value {
            return Err(Refusal::Value);
        }
        thread.views.write(location, end, WriteMode::Relaxed);
        thread.owed.remove(arrival);
        thread.state.go_on(program, 0);
        Ok(())
    }

    fn show(&mut self) -> Result<(), Refusal> {
        match self.phase {
            Phase::Turn(i) if self.owes(i) => {
                let before = Before {
                    thread: self.threads[i % THREADS],
                    messages: self.store.count(),
                    closing: self.store.greatest(),
                };
                self.phase = Phase::Showing(i, before);
                Ok(())
            }
            _ => Err(Refusal::NotNow),
        }
    }

    /// In a showing nothing but the thread and the messages changes: while something is owed,
    /// neither a print nor a fence that changes the sequential view is taken.
    fn end(&mut self) -> Result<(), Refusal> {
        match &self.phase {
            Phase::Between => return Err(Refusal::NotNow),
            Phase::Turn(i) | Phase::Showing(i, _) if self.owes(*i) => {
                return Err(Refusal::EndOwing);
            }
            Phase::Turn(_) => {}
            Phase::Showing(i, before) => {
                self.threads[*i % THREADS] = before.thread;
                self.store.keep(before.messages);
            }
        }
        self.phase = Phase::Between;
        Ok(())
    }
}

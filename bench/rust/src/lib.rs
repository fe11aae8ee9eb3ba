//! A judge of job files in plain safe Rust that shares no code with the proved one: to compare reports
//! and to compare speed. It keeps each location's messages in order of their ends.

#![forbid(unsafe_code)]

pub mod languages;
pub mod lines;
pub mod refusal;
pub mod report;
pub mod run;
pub mod store;

use languages::{Language, Program, Registers, Strip};
use lines::{Line, Reader};
use refusal::{Refusal, Refused};
use report::{Report, LEAST_BUFFER};
use run::{Run, THREADS};
use store::LOCATIONS;

/// The longest file that is judged.
pub const LONGEST_FILE: usize = 65_535;

/// Judges a job file. The report is written to the front of the buffer, zeros behind it, and its
/// length is answered; a buffer under 2,400 bytes is left as it is, and the answer is 0.
pub fn judge(file: &[u8], report: &mut [u8]) -> usize {
    if report.len() < LEAST_BUFFER {
        return 0;
    }
    let mut report = Report::new(report);
    if let Err(refused) = judge_file(file, &mut report) {
        report.refused(&refused);
    }
    report.finish()
}

fn judge_file(file: &[u8], report: &mut Report) -> Result<(), Refused> {
    if file.len() > LONGEST_FILE {
        return Err(Refused { refusal: Refusal::FileTooLong, section: 0, line: 0 });
    }
    let head = Head::read(file)?;
    match head.language {
        LanguageName::Registers => judge_in::<Registers>(&head, report),
        LanguageName::Strips => judge_in::<Strip>(&head, report),
    }
}

#[derive(Clone, Copy, Debug, PartialEq, Eq)]
pub enum LanguageName {
    Registers,
    Strips,
}

/// What the first lines of a file say: the language, the numbers of threads and locations, and
/// the bytes of the sections, the trace behind the programs.
pub struct Head<'a> {
    pub language: LanguageName,
    pub threads: usize,
    pub locations: usize,
    pub sections: [&'a [u8]; THREADS + 1],
}

impl<'a> Head<'a> {
    pub fn read(file: &'a [u8]) -> Result<Self, Refused> {
        let refused =
            |line: usize| move |refusal| Refused { refusal, section: 0, line: line as u16 };
        let mut reader = Reader::new(file);
        let (language, threads, locations) = first_line(&mut reader).map_err(refused(1))?;
        let mut pairs = [[0; 2]; THREADS + 1];
        for (index, pair) in pairs[..=threads].iter_mut().enumerate() {
            *pair = section_line(&mut reader).map_err(refused(index + 2))?;
        }
        let mut sections: [&[u8]; THREADS + 1] = [&[]; THREADS + 1];
        let mut start = file.len() - reader.left();
        for (index, [offset, length]) in pairs[..=threads].iter().enumerate() {
            let end = start + usize::from(*length);
            let fits = if index == threads { end == file.len() } else { end <= file.len() };
            if usize::from(*offset) != start || !fits {
                return Err(refused(index + 2)(Refusal::Sections));
            }
            sections[index] = &file[start..end];
            start = end;
        }
        Ok(Head { language, threads, locations, sections })
    }
}

/// `J g n l`
fn first_line(reader: &mut Reader) -> Result<(LanguageName, usize, usize), Refusal> {
    if reader.letter()? != b'J' {
        return Err(Refusal::Form);
    }
    let [language, threads, locations] = reader.fields()?;
    let language = match language {
        0 => LanguageName::Registers,
        1 => LanguageName::Strips,
        _ => return Err(Refusal::Range),
    };
    let (threads, locations) = (usize::from(threads), usize::from(locations));
    if (1..=THREADS).contains(&threads) && (1..=LOCATIONS).contains(&locations) {
        Ok((language, threads, locations))
    } else {
        Err(Refusal::Range)
    }
}

/// `D o k`
fn section_line(reader: &mut Reader) -> Result<[u16; 2], Refusal> {
    if reader.letter()? != b'D' {
        return Err(Refusal::Form);
    }
    reader.fields()
}

/// The programs of a file.
pub fn programs<L: Language>(head: &Head) -> Result<[Program<L::Line>; THREADS], Refused> {
    let mut programs = [Program::EMPTY; THREADS];
    for (thread, program) in programs[..head.threads].iter_mut().enumerate() {
        *program = Program::read::<L>(head.sections[thread], head.locations)
            .map_err(|(refusal, line)| Refused { refusal, section: thread as u16 + 1, line })?;
    }
    Ok(programs)
}

fn judge_in<L: Language>(head: &Head, report: &mut Report) -> Result<(), Refused> {
    let programs = programs::<L>(head)?;
    let mut run = Run::<L>::new(&programs, head.locations);
    let section = head.threads as u16 + 1;
    let mut reader = Reader::new(head.sections[head.threads]);
    let mut accepted = 0;
    while !reader.is_empty() {
        Line::read(&mut reader, head.threads, head.locations)
            .and_then(|line| run.take(line))
            .map_err(|refusal| Refused { refusal, section, line: accepted + 1 })?;
        accepted += 1;
    }
    if !run.is_between_turns() {
        return Err(Refused { refusal: Refusal::Unfinished, section, line: accepted });
    }
    report.accepted(accepted, &run, head.threads, head.locations);
    Ok(())
}

#[cfg(test)]
mod tests;

//! Random jobs of many kinds, each made from its own seed.

use row_judge::languages::{Language, Registers, Strip};
use row_judge::refusal::Refusal;
use row_judge::report::LEAST_BUFFER;
use row_judge::run::Run;
use row_judge::{judge, programs, Head, LanguageName};

use crate::damage::{damage_bytes, damage_head, damage_line, damage_pairs};
use crate::programs::{register_program, strip_program, taste, Taste};
use crate::random::Random;
use crate::text::{line_text, trace_text, Job};
use crate::walk::{Kind, Manner, Walk};

/// What the trace of a job is to come to.
#[derive(Clone, Copy, PartialEq, Eq)]
enum Aim {
    Accepted,
    Unfinished,
    Refused(Refusal),
}

const STEP_REFUSALS: [Refusal; 10] = [
    Refusal::NotNow,
    Refusal::OtherKind,
    Refusal::Owing,
    Refusal::NotThere,
    Refusal::TooNew,
    Refusal::Value,
    Refusal::Span,
    Refusal::ClosingLine,
    Refusal::Full,
    Refusal::EndOwing,
];

const GAPS: [&[u16]; 5] =
    [&[1], &[1], &[1, 1, 1, 2, 3], &[1, 1, 2, 5, 20, 300], &[1, 2, 9, 1000, 20_000, 65_535]];

/// Whether the refusal is found more easily while something is owed.
fn about_promises(refusal: Refusal) -> bool {
    matches!(
        refusal,
        Refusal::NotNow
            | Refusal::Owing
            | Refusal::ClosingLine
            | Refusal::EndOwing
            | Refusal::Value
            | Refusal::TooNew
    )
}

/// The job with this number.
pub fn job(seed: u64, number: u64) -> Vec<u8> {
    let mut random = Random::new(seed.wrapping_mul(0x1_0000_0001).wrapping_add(number << 1));
    random.next();
    match random.below(100) {
        0..=37 => job_with(&mut random, Aim::Accepted).bytes(),
        38..=67 => {
            let wanted = random.pick(&STEP_REFUSALS);
            refused_job(&mut random, wanted)
        }
        68..=70 => job_with(&mut random, Aim::Unfinished).bytes(),
        71..=80 => {
            let mut job = job_with(&mut random, Aim::Accepted);
            damage_line(&mut random, &mut job);
            job.bytes()
        }
        81..=83 => {
            let job = job_with(&mut random, Aim::Accepted);
            damage_head(&mut random, &job)
        }
        84..=87 => {
            let job = job_with(&mut random, Aim::Accepted);
            damage_pairs(&mut random, &job)
        }
        88 => long_program(&mut random).bytes(),
        89 if random.chance(40) => long_file(&mut random),
        _ => damaged_job(&mut random),
    }
}

/// Bytes changed anywhere in the file, or in one section with a head that fits.
fn damaged_job(random: &mut Random) -> Vec<u8> {
    let mut job = job_with(random, Aim::Accepted);
    if random.chance(40) {
        return damage_bytes(random, job.bytes());
    }
    let place = random.below(job.sections.len());
    let section = std::mem::take(&mut job.sections[place]);
    job.sections[place] = damage_bytes(random, section);
    job.bytes()
}

/// A job that is refused so, or, when some programs give no way to that, an accepted one.
fn refused_job(random: &mut Random, wanted: Refusal) -> Vec<u8> {
    let mut bytes = Vec::new();
    for _ in 0..6 {
        bytes = job_with(random, Aim::Refused(wanted)).bytes();
        let mut report = [0; LEAST_BUFFER];
        judge(&bytes, &mut report);
        if report.starts_with(b"NO") {
            break;
        }
    }
    bytes
}

fn empty_job(random: &mut Random, aim: Aim) -> Job {
    let language = random.below(2);
    let full = aim == Aim::Refused(Refusal::Full);
    let views = !full && random.chance(30);
    let threads = if views { random.within(2, 4) } else { random.within(1, 4) };
    let locations = match random.below(5) {
        _ if views => random.within(2, 4),
        0..=2 => random.within(1, 3),
        _ => random.within(1, 8),
    };
    let mut sections = Vec::new();
    for _ in 0..threads {
        let taste = if full {
            random.pick(&[Taste::Writes, Taste::Prints, Taste::Updates])
        } else if views {
            Taste::Fences
        } else {
            taste(random)
        };
        let program = if language == 0 {
            register_program(random, locations, taste)
        } else {
            strip_program(random, locations, taste)
        };
        sections.push(program.into_bytes());
    }
    sections.push(Vec::new());
    Job { language, locations, sections }
}

fn job_with(random: &mut Random, aim: Aim) -> Job {
    let mut job = empty_job(random, aim);
    let bytes = job.bytes();
    let head = Head::read(&bytes).expect("a generated head is right");
    let trace = match head.language {
        LanguageName::Registers => trace::<Registers>(random, &head, aim),
        LanguageName::Strips => trace::<Strip>(random, &head, aim),
    };
    *job.sections.last_mut().expect("the trace") = trace;
    job
}

fn trace<L: Language>(random: &mut Random, head: &Head, aim: Aim) -> Vec<u8> {
    let programs = programs::<L>(head).expect("generated programs are right");
    let run = Run::<L>::new(&programs, head.locations);
    let long = aim == Aim::Refused(Refusal::Full);
    let lines = match random.below(10) {
        _ if long => 700,
        0 => 500,
        1..=4 => 150,
        _ if aim == Aim::Accepted => 60,
        _ => random.within(0, 30),
    };
    let manner = Manner {
        turn_steps: if long { 60 } else { random.pick(&[4, 12, 12, 40]) },
        show_steps: 30,
        promise_percent: if long { 3 } else { random.pick(&[5, 25, 50, 80]) },
        gaps: random.pick(&GAPS),
    };
    let mut walk = Walk::new(run, random, head.threads, head.locations, manner);
    walk.turns(lines);
    match aim {
        Aim::Accepted => {}
        Aim::Unfinished => walk.open_end(50),
        Aim::Refused(wanted) => return refused_trace(&mut walk, wanted),
    }
    trace_text(&walk.trace)
}

/// The trace so far, lines that lead into a turn or a showing, the refused line, and anything.
fn refused_trace<L: Language>(walk: &mut Walk<L>, wanted: Refusal) -> Vec<u8> {
    let mut refused = None;
    let promises = if about_promises(wanted) { 80 } else { 40 };
    let kinds = Kind::refused(wanted);
    let mut kind = walk.random.pick(kinds);
    for attempt in 0..80 {
        let saved = (walk.run.clone(), walk.trace.len());
        if walk.random.chance(if wanted == Refusal::NotNow { 85 } else { 95 }) {
            walk.open_end(promises);
        }
        if attempt >= 60 {
            kind = walk.random.pick(kinds);
        }
        refused = walk.refused_line(wanted, kind);
        if refused.is_some() {
            break;
        }
        walk.run = saved.0;
        walk.trace.truncate(saved.1);
        walk.restart();
    }
    let mut text = trace_text(&walk.trace);
    if let Some(line) = refused {
        text.extend(line_text(line).bytes());
        for _ in 0..walk.random.below(4) {
            let line = walk.wild();
            text.extend(line_text(line).bytes());
        }
        if walk.random.chance(10) {
            text.extend(b"r 0");
        }
    }
    text
}

/// A program with 64 lines or more; what stands behind line 64 may itself be wrong.
fn long_program(random: &mut Random) -> Job {
    let mut job = job_with(random, Aim::Accepted);
    let place = random.below(job.sections.len() - 1);
    let count = random.pick(&[63, 64, 65, 65, 65, 66, 70]);
    let mut text = "F 0\n".repeat(count);
    if random.chance(30) {
        text += random.pick(&["F 4\n", "F 00\n", "f\n", "\n", "F 0", "P 9\n"]);
    }
    job.sections[place] = text.into_bytes();
    job
}

/// A file at the limit of its length, or just above: an accepted one with turns that do nothing
/// up to there, or one with any bytes behind it.
fn long_file(random: &mut Random) -> Vec<u8> {
    let mut job = job_with(random, Aim::Accepted);
    let length = random.pick(&[65_534, 65_535, 65_536, 65_537, 70_000]);
    if random.chance(60) {
        let left = length - job.bytes().len();
        let trace = job.sections.last_mut().expect("the trace");
        for _ in 0..left / 6 {
            trace.extend(b"T 0\nE\n");
        }
        return job.bytes();
    }
    let mut bytes = job.bytes();
    bytes.resize(length, random.pick(b"N\n 0\0"));
    bytes
}

//! Long accepted jobs: some 15,000 lines on a memory of up to 64 messages.

use row_judge::languages::{Language, Registers, Strip};
use row_judge::run::Run;
use row_judge::{programs, Head, LanguageName};

use crate::random::Random;
use crate::text::{trace_text, Job};
use crate::walk::{Manner, Walk};

pub const KINDS: [&str; 6] =
    ["reads", "showing-reads", "showings", "updates", "mixed", "strip-showings"];

/// The most bytes of a trace.
const LONGEST_TRACE: usize = 63_500;

/// What the four threads do: each fills the memory, and goes on with a body and a last line.
struct Plan {
    language: LanguageName,
    /// A line that fills; `{x}` is a location.
    filling: &'static str,
    fillings: usize,
    body: &'static str,
    /// `{own}` is a location of the thread's own, `{body}` the body's first line.
    last: &'static str,
}

const PROMISED: &str = "S {own} 0 0";

fn plan(kind: &str) -> Option<Plan> {
    let plan = |filling, fillings, body, last| {
        Some(Plan { language: LanguageName::Registers, filling, fillings, body, last })
    };
    match kind {
        "reads" => plan("S {x} 0 0", 14, READS, "B 0 {body}"),
        "showing-reads" => plan("S {x} 0 0", 13, READS, PROMISED),
        "showings" => plan("S {x} 0 0", 13, "L 1 2 0,C 2 3,L 1 3 1", PROMISED),
        "updates" => plan("U 1 {x} 0 0 0", 9, UPDATES, PROMISED),
        "mixed" => plan("S {x} 0 1", 12, MIXED, PROMISED),
        "strip-showings" => Some(Plan {
            language: LanguageName::Strips,
            filling: "S {x} 1 0",
            fillings: 12,
            body: "R 0 1 0,R 1 1 1,S 2 1 0,U 2 0 1 0,F 0,R 3 1 1,R 0 1 0,U 2 0 0 1,R 1 1 0,S 3 1 1",
            last: "S {own} 1 0",
        }),
        _ => None,
    }
}

const READS: &str = "L 1 0 0,L 1 1 1,L 1 2 0,L 1 3 1,L 1 4 0,L 1 5 1,L 1 6 0,L 1 7 1,\
    L 2 0 1,L 2 1 0,L 2 2 0,L 2 3 0,L 2 4 1,L 2 5 0,L 2 6 0,L 2 7 1";
const UPDATES: &str = "S 0 0 0,A 2 2 0,U 1 0 0 0 0,A 2 2 0,S 1 0 1,U 1 1 0 1 0,Q 3 1 0,\
    U 1 1 0 0 0,B 4 0,S 2 0 0,A 2 2 1,U 1 2 0 1 0,A 2 2 0,U 1 2 0 0 1,C 5 7,S 3 0 0,\
    U 1 3 0 1 0,A 2 2 0,U 1 3 0 1 1,U 1 0 0 1 1,A 2 2 0,U 1 1 0 0 1,U 1 2 0 0 0,A 2 2 0,\
    U 1 3 0 0 0,A 2 2 1,U 1 0 0 0 0";
const MIXED: &str = "L 1 0 1,S 1 0 0,F 0,U 2 1 0 1 0,A 3 1 2,Q 3 3 0,L 1 2 0,S 3 1 1,L 2 3 1,\
    U 2 3 0 0 1";

const THREADS: usize = 4;
const LOCATIONS: usize = 8;

impl Plan {
    /// The lines of a thread's filling.
    fn filling(&self, thread: usize) -> Vec<String> {
        let first = match self.language {
            LanguageName::Registers => vec!["C 0 1".to_owned()],
            LanguageName::Strips => Vec::new(),
        };
        let writes = (0..self.fillings).map(|k| {
            let location = (k + thread * self.fillings) % LOCATIONS;
            self.filling.replace("{x}", &location.to_string())
        });
        first.into_iter().chain(writes).collect()
    }

    fn program(&self, thread: usize) -> Vec<u8> {
        let mut lines = self.filling(thread);
        let body = lines.len().to_string();
        let own = own_location(thread).to_string();
        lines.extend(self.body.split(',').map(String::from));
        lines.push(self.last.replace("{own}", &own).replace("{body}", &body));
        (lines.join("\n") + "\n").into_bytes()
    }

    /// Whether the last line is a write that is promised and shown again and again.
    fn owing(&self) -> bool {
        self.last.starts_with('S')
    }
}

fn own_location(thread: usize) -> usize {
    4 + thread
}

/// A long job of the kind, if there is such a kind.
pub fn big(kind: &str, seed: u64) -> Option<Vec<u8>> {
    let plan = plan(kind)?;
    let mut random = Random::new(seed);
    let mut sections: Vec<Vec<u8>> = (0..THREADS).map(|thread| plan.program(thread)).collect();
    sections.push(Vec::new());
    let language = usize::from(plan.language == LanguageName::Strips);
    let mut job = Job { language, locations: LOCATIONS, sections };
    let bytes = job.bytes();
    let head = Head::read(&bytes).expect("the head is right");
    job.sections[THREADS] = match plan.language {
        LanguageName::Registers => trace::<Registers>(&mut random, &head, &plan),
        LanguageName::Strips => trace::<Strip>(&mut random, &head, &plan),
    };
    Some(job.bytes())
}

fn trace<L: Language>(random: &mut Random, head: &Head, plan: &Plan) -> Vec<u8> {
    let programs = programs::<L>(head).expect("the programs are right");
    let run = Run::<L>::new(&programs, LOCATIONS);
    let manner = Manner { turn_steps: 120, show_steps: 200, promise_percent: 0, gaps: &[1] };
    let mut walk = Walk::new(run, random, THREADS, LOCATIONS, manner);
    for thread in 0..THREADS {
        walk.fill(thread, plan.filling(thread).len());
    }
    if plan.owing() {
        for thread in 0..THREADS {
            walk.promise_at(thread, own_location(thread));
        }
    }
    let mut length = trace_text(&walk.trace).len();
    loop {
        let before = walk.trace.len();
        let thread = walk.random.below(THREADS);
        let went = if plan.owing() { walk.show_again(thread) } else { walk.read_on(thread) };
        assert!(went, "a further turn is found");
        length += trace_text(&walk.trace[before..]).len();
        if length > LONGEST_TRACE {
            walk.trace.truncate(before);
            return trace_text(&walk.trace);
        }
    }
}

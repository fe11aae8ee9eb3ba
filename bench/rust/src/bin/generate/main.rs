//! Generates job files; the same arguments give the same files.
//!
//!     generate jobs SEED COUNT DIRECTORY    COUNT random jobs, DIRECTORY/000000.job and on
//!     generate pack SEED COUNT              the same jobs on standard output, each behind its
//!                                           length in four bytes, the lowest first
//!     generate one SEED NUMBER              one of them on standard output
//!     generate big KIND SEED                a long accepted job on standard output
//!     generate kinds                        the kinds of long jobs

#![forbid(unsafe_code)]

mod big;
mod damage;
mod jobs;
mod programs;
mod random;
mod text;
mod walk;

use std::io::{BufWriter, Write};
use std::path::Path;
use std::process::ExitCode;

fn main() -> ExitCode {
    let arguments: Vec<String> = std::env::args().skip(1).collect();
    let words: Vec<&str> = arguments.iter().map(String::as_str).collect();
    let done = match words[..] {
        ["jobs", seed, count, directory] => write_jobs(seed, count, directory),
        ["pack", seed, count] => write_pack(seed, count),
        ["one", seed, number] => write_one(seed, number),
        ["big", kind, seed] => write_big(kind, seed),
        ["kinds"] => std::io::stdout().write_all((big::KINDS.join("\n") + "\n").as_bytes()),
        _ => Err(std::io::Error::other(
            "jobs SEED COUNT DIRECTORY | pack SEED COUNT | one SEED NUMBER | big KIND SEED | kinds",
        )),
    };
    match done {
        Ok(()) => ExitCode::SUCCESS,
        Err(error) => {
            eprintln!("generate: {error}");
            ExitCode::from(2)
        }
    }
}

fn number(word: &str) -> std::io::Result<u64> {
    word.parse().map_err(|_| std::io::Error::other(format!("not a number: {word}")))
}

fn write_jobs(seed: &str, count: &str, directory: &str) -> std::io::Result<()> {
    let seed = number(seed)?;
    std::fs::create_dir_all(directory)?;
    for index in 0..number(count)? {
        std::fs::write(
            Path::new(directory).join(format!("{index:06}.job")),
            jobs::job(seed, index),
        )?;
    }
    Ok(())
}

fn write_pack(seed: &str, count: &str) -> std::io::Result<()> {
    let seed = number(seed)?;
    let mut out = BufWriter::new(std::io::stdout().lock());
    for index in 0..number(count)? {
        let job = jobs::job(seed, index);
        out.write_all(&(job.len() as u32).to_le_bytes())?;
        out.write_all(&job)?;
    }
    out.flush()
}

fn write_one(seed: &str, index: &str) -> std::io::Result<()> {
    std::io::stdout().write_all(&jobs::job(number(seed)?, number(index)?))
}

fn write_big(kind: &str, seed: &str) -> std::io::Result<()> {
    match big::big(kind, number(seed)?) {
        Some(job) => std::io::stdout().write_all(&job),
        None => Err(std::io::Error::other(format!("no such kind: {kind}"))),
    }
}

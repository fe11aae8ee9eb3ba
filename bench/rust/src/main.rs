//! Prints the reports of job files.
//!
//!     row-judge [FILE]          the report of the file, or of standard input
//!     row-judge --pack          reads jobs from standard input, each behind its length in four
//!                               bytes, the lowest first, and writes their reports in that form
//!     row-judge --time N FILE   judges the file N times, each time with a cleared buffer, and
//!                               prints the least and the middle time in nanoseconds

#![forbid(unsafe_code)]

use std::hint::black_box;
use std::io::{BufWriter, Error, Read, Result, Write};
use std::process::ExitCode;
use std::time::Instant;

use row_judge::judge;
use row_judge::report::LEAST_BUFFER;

fn main() -> ExitCode {
    let arguments: Vec<String> = std::env::args().skip(1).collect();
    let words: Vec<&str> = arguments.iter().map(String::as_str).collect();
    let done = match words[..] {
        [] => standard_input().and_then(|file| print_report(&file)),
        ["--pack"] => standard_input().and_then(|pack| print_reports(&pack)),
        ["--time", count, file] => print_times(count, file),
        [file] => std::fs::read(file).and_then(|file| print_report(&file)),
        _ => Err(Error::other("[FILE] | --pack | --time N FILE")),
    };
    match done {
        Ok(()) => ExitCode::SUCCESS,
        Err(error) => {
            eprintln!("row-judge: {error}");
            ExitCode::from(2)
        }
    }
}

fn standard_input() -> Result<Vec<u8>> {
    let mut bytes = Vec::new();
    std::io::stdin().lock().read_to_end(&mut bytes)?;
    Ok(bytes)
}

fn print_report(file: &[u8]) -> Result<()> {
    let mut report = [0; LEAST_BUFFER];
    let length = judge(file, &mut report);
    std::io::stdout().lock().write_all(&report[..length])
}

fn print_reports(mut pack: &[u8]) -> Result<()> {
    let mut out = BufWriter::new(std::io::stdout().lock());
    let mut report = [0; LEAST_BUFFER];
    while let Some((length, rest)) = pack.split_first_chunk::<4>() {
        let length = u32::from_le_bytes(*length) as usize;
        let (job, rest) =
            rest.split_at_checked(length).ok_or_else(|| Error::other("a job is cut off"))?;
        let length = judge(job, &mut report);
        out.write_all(&(length as u32).to_le_bytes())?;
        out.write_all(&report[..length])?;
        pack = rest;
    }
    out.flush()
}

fn print_times(count: &str, file: &str) -> Result<()> {
    let count: usize = count.parse().map_err(|_| Error::other("not a number"))?;
    let file = std::fs::read(file)?;
    let mut report = [0; LEAST_BUFFER];
    let mut times = Vec::with_capacity(count);
    for _ in 0..count.max(1) {
        report.fill(0);
        let start = Instant::now();
        black_box(judge(black_box(&file), black_box(&mut report)));
        times.push(start.elapsed().as_nanos());
    }
    times.sort_unstable();
    writeln!(std::io::stdout(), "{} {}", times[0], times[times.len() / 2])
}

//! The player of traces and the checker of pairs in plain Rust, for the benchmark only. They read, play, check and write
//! what gcflip does, with the panics, checks and unproved steps of ordinary Rust. Nothing else in the repository uses
//! them.

mod collector;
mod cursor;
mod machine;
mod pair;
mod player;
mod text;

use player::Wanted;
use std::fs::File;
use std::io::{self, Read, Write};
use std::process::ExitCode;

fn told(line: &str, status: u8) -> ExitCode {
    eprintln!("{line}");
    ExitCode::from(status)
}

fn written(lines: &[u8], status: u8) -> ExitCode {
    match io::stdout().write_all(lines).and_then(|()| io::stdout().flush()) {
        Ok(()) => ExitCode::from(status),
        Err(_) => told("cannot write", 4),
    }
}

fn checked(path: &str) -> io::Result<ExitCode> {
    let mut text = Vec::new();
    let file = File::open(path)?;
    let size = file.metadata()?.len().min(pair::LIMIT + 1);
    text.reserve_exact(size as usize + 1);
    file.take(pair::LIMIT + 1).read_to_end(&mut text)?;
    Ok(match pair::verdict(&text) {
        Ok((line, status)) => written(line.as_bytes(), status),
        Err(line) => told(&line, 3),
    })
}

/// Returns the least time of a check of images in memory, in milliseconds.
fn checked_alone(path: &str, runs: u32) -> io::Result<ExitCode> {
    let text = std::fs::read(path)?;
    let Ok((old, new, pairs)) = pair::read(&text) else {
        return Ok(told("no pair text", 3));
    };
    let mut least = f64::MAX;
    for _ in 0..runs {
        let start = std::time::Instant::now();
        let refused = pair::check(&old, &new, &pairs).is_err();
        least = least.min(start.elapsed().as_secs_f64() * 1e3);
        if refused {
            return Ok(told("refused", 1));
        }
    }
    Ok(written(format!("{least:.3}\n").as_bytes(), 0))
}

fn played(path: &str, wanted: Wanted) -> io::Result<ExitCode> {
    Ok(match player::played(&mut File::open(path)?, wanted)? {
        Ok(lines) => written(&lines, 0),
        Err(line) => told(&line, if line == "no such flip" { 1 } else { 3 }),
    })
}

/// Runs `peer play FILE`, `peer report FILE`, `peer pair FILE N` and `peer check FILE`, which are gcflip's commands, and `peer check-alone
/// FILE RUNS`.
fn main() -> ExitCode {
    let words: Vec<String> = std::env::args().skip(1).collect();
    let words: Vec<&str> = words.iter().map(String::as_str).collect();
    let ended = match words[..] {
        ["play", path] => played(path, Wanted::Replies),
        ["report", path] => played(path, Wanted::Report),
        ["pair", path, n] => played(path, Wanted::Pair(n.parse().unwrap_or(0))),
        ["check", path] => checked(path),
        ["check-alone", path, runs] => checked_alone(path, runs.parse().unwrap_or(1)),
        _ => return told("play, report, pair or check", 2),
    };
    ended.unwrap_or_else(|_| told("cannot read", 4))
}

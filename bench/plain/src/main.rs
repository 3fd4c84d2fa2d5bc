//! A plain program that does the work of `mvhub`, to compare its time and memory with.

mod blocks;
mod canon;
mod fault;
mod fields;
mod hub;
mod inquiries;
mod lines;
mod link;
mod log;
mod message;
#[cfg(feature = "one-pass")]
mod one_pass;
mod own;
mod packs;
mod party;
#[cfg(feature = "threads")]
mod plan;
mod repository;
mod request;
#[cfg(feature = "one-pass")]
mod scan;
mod shared;
mod steps;
mod stops;
mod text;
mod values;
#[cfg(feature = "threads")]
mod work;
mod world;

use lines::{answer_all, Fault};
use std::fs::File;
#[cfg(feature = "threads")]
use std::io::Write;
use std::io::{self, BufReader};
use std::mem::ManuallyDrop;
use std::os::fd::AsFd;
use std::process::ExitCode;
use steps::Session;

/// The bytes that are read at once.
const BLOCK: usize = 1 << 16;

fn main() -> ExitCode {
    let words: Vec<String> = std::env::args().skip(1).collect();
    let words: Vec<&str> = words.iter().map(String::as_str).collect();
    let done = match words[..] {
        ["canon"] => run(canon::answer),
        ["steps"] => {
            // The process gives its memory back at once, so nothing of the session is dropped piece by piece.
            let mut session = ManuallyDrop::new(Session::default());
            run(|line, out| session.answer(line, out))
        }
        #[cfg(feature = "threads")]
        ["work", "--turns", _] => run_plan(),
        _ => {
            eprintln!("plain canon, or plain steps; with threads plain work --turns N");
            return ExitCode::from(2);
        }
    };
    match done {
        Ok(()) => ExitCode::SUCCESS,
        Err(fault) => {
            eprintln!("plain: {}", fault.code());
            ExitCode::FAILURE
        }
    }
}

/// Carries out the plan of standard input, or tells why there is none.
#[cfg(feature = "threads")]
fn run_plan() -> Result<(), Fault> {
    let mut planned = plan::Planned::default();
    let input = BufReader::with_capacity(BLOCK, io::stdin().lock());
    answer_all(input, io::sink(), |line, _| planned.take(line))?;
    let (text, done) = match planned {
        plan::Planned::Nothing => (b"{\"refused\":\"C1\"}\n".to_vec(), false),
        plan::Planned::Refused(text) => ([text, vec![b'\n']].concat(), false),
        plan::Planned::Plan(plan) => (work::carry_out(plan).into_bytes(), true),
    };
    io::stdout().write_all(&text).map_err(|_| Fault::Write)?;
    std::process::exit(if done { 0 } else { 1 })
}

/// Answers the lines of standard input.
fn run(answer: impl FnMut(&[u8], &mut Vec<u8>)) -> Result<(), Fault> {
    let output = io::stdout().as_fd().try_clone_to_owned().map_err(|_| Fault::Write)?;
    answer_all(BufReader::with_capacity(BLOCK, io::stdin().lock()), File::from(output), answer)
}

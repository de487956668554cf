//! Answers as the reference does: `reference job` and `reference desk`.

use std::env;
use std::io::{self, Read, Write};
use std::process::ExitCode;

use harness::desk;
use harness::reference::job::{job_text, MOST_INPUT};

fn main() -> ExitCode {
    let words: Vec<String> = env::args().skip(1).collect();
    match words.iter().map(String::as_str).collect::<Vec<_>>().as_slice() {
        ["job"] => job(),
        ["desk"] => desk_answers(),
        _ => fail("usage: reference job < job-bytes | reference desk < script"),
    }
}

fn fail(message: &str) -> ExitCode {
    eprintln!("{message}");
    ExitCode::FAILURE
}

fn input(most: usize) -> Vec<u8> {
    let mut bytes = Vec::new();
    let read = io::stdin().take(most as u64).read_to_end(&mut bytes);
    read.expect("standard input can be read");
    bytes
}

fn print(text: &str) {
    io::stdout().write_all(text.as_bytes()).expect("standard output can be written");
}

fn job() -> ExitCode {
    match job_text(&input(MOST_INPUT), u32::MAX) {
        Ok(text) => print(&text),
        Err(_) => return fail("gave up"),
    }
    ExitCode::SUCCESS
}

fn desk_answers() -> ExitCode {
    let Some(run) = desk::play(&input(usize::MAX), u32::MAX) else {
        return fail("gave up");
    };
    print(&run.answers);
    match run.unreadable_line {
        Some(number) => fail(&format!("line {number} cannot be read")),
        None => ExitCode::SUCCESS,
    }
}

//! Compares the job call of the static library with the reference, in-process.

use std::process::ExitCode;

use harness::chance::Chance;
use harness::desk::hex_text;
use harness::job_maker::JobMaker;
use harness::reference::job::{job_text, LEAST_BUFFER};
use harness::reference::refusal::SHORT_BUFFER;

const PATIENCE: u32 = 2000;
const MOST_SHOWN: usize = 5;

#[repr(C)]
#[derive(Clone, Copy, Debug)]
struct JobAnswer {
    /// 0, or the number by which the call declines.
    declined: u32,
    written: usize,
}

extern "C" {
    fn planbench_job(input: *const u8, input_len: usize, output: *mut u8, output_len: usize) -> JobAnswer;
}

fn call(input: &[u8], output: &mut [u8]) -> JobAnswer {
    // SAFETY: both pointers come from slices of those lengths, which do not overlap.
    unsafe { planbench_job(input.as_ptr(), input.len(), output.as_mut_ptr(), output.len()) }
}

fn main() -> ExitCode {
    let Some((count, seed)) = choice() else {
        eprintln!("usage: compare-lib [--count N] [--seed S]");
        return ExitCode::from(2);
    };
    let different = compare(count, seed);
    if different == 0 {
        ExitCode::SUCCESS
    } else {
        ExitCode::FAILURE
    }
}

fn choice() -> Option<(usize, u64)> {
    let words: Vec<String> = std::env::args().skip(1).collect();
    let (mut count, mut seed) = (100_000, 1);
    for option in words.chunks(2) {
        match option {
            [name, value] if name == "--count" => count = value.parse().ok()?,
            [name, value] if name == "--seed" => seed = value.parse().ok()?,
            _ => return None,
        }
    }
    Some((count, seed))
}

fn compare(count: usize, seed: u64) -> usize {
    let mut maker = JobMaker::new(seed);
    let mut chance = Chance::new(!seed);
    let (mut compared, mut skipped, mut different) = (0, 0, 0);
    while compared < count {
        let job = maker.next_job();
        let Ok(wanted) = job_text(&job, PATIENCE) else {
            skipped += 1;
            continue;
        };
        compared += 1;
        for trouble in [long_buffer(&mut chance, &job, &wanted), short_buffer(&mut chance, &job)] {
            let Err(trouble) = trouble else { continue };
            different += 1;
            if different <= MOST_SHOWN {
                println!("job {}\nwanted {wanted:?}\n{trouble}\n", hex_text(&job));
            }
        }
    }
    println!("library seed {seed}: {compared} compared, {skipped} skipped, {different} different");
    different
}

/// The text stands at the start; the bytes beyond stay.
fn long_buffer(chance: &mut Chance, job: &[u8], wanted: &str) -> Result<(), String> {
    let filling = chance.byte();
    let mut buffer = vec![filling; LEAST_BUFFER + chance.pick(&[0, 0, 1, 7, 500])];
    let answer = call(job, &mut buffer);
    if answer.declined != 0 || answer.written != wanted.len() {
        return Err(format!("got    {answer:?}, wanted {} bytes", wanted.len()));
    }
    let (text, beyond) = buffer.split_at(wanted.len());
    if text != wanted.as_bytes() {
        return Err(format!("got    {:?}", String::from_utf8_lossy(text)));
    }
    unchanged(beyond, filling)
}

/// Declined whatever the job holds, and nothing is written.
fn short_buffer(chance: &mut Chance, job: &[u8]) -> Result<(), String> {
    let filling = chance.byte();
    let length = chance.pick(&[0, 1, 4, 500, 1535, 1535]);
    let mut buffer = vec![filling; length];
    let answer = call(job, &mut buffer);
    if answer.declined != SHORT_BUFFER {
        return Err(format!("got    {answer:?} for a buffer of {length} bytes"));
    }
    unchanged(&buffer, filling)
}

fn unchanged(bytes: &[u8], filling: u8) -> Result<(), String> {
    match bytes.iter().position(|byte| *byte != filling) {
        Some(at) => Err(format!("a byte that must stay was changed, {at} past the text")),
        None => Ok(()),
    }
}

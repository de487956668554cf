//! Compares a program with the reference on random jobs or random desk scripts.

use std::collections::BTreeMap;
use std::path::{Path, PathBuf};
use std::process::ExitCode;

use harness::chance::Chance;
use harness::desk::{self, hex_text};
use harness::job_maker::JobMaker;
use harness::program::{self, Outcome};
use harness::reference::job::job_text;
use harness::script_maker::script;

/// More tries than this and the reference gives a job or a call up.
const PATIENCE: u32 = 2000;
/// Only the first differences are printed.
const MOST_SHOWN: usize = 5;

const USAGE: &str = "usage: compare jobs|desk [--count N] [--seed S] --program PATH";

fn main() -> ExitCode {
    let words: Vec<String> = std::env::args().skip(1).collect();
    let Some(choice) = Choice::read(&words) else {
        eprintln!("{USAGE}");
        return ExitCode::from(2);
    };
    let tally = match choice.matter.as_str() {
        "jobs" => compare_jobs(&choice),
        _ => compare_scripts(&choice),
    };
    tally.print(&choice);
    if tally.different == 0 {
        ExitCode::SUCCESS
    } else {
        ExitCode::FAILURE
    }
}

struct Choice {
    matter: String,
    count: usize,
    seed: u64,
    program: PathBuf,
}

impl Choice {
    fn read(words: &[String]) -> Option<Choice> {
        let (matter, options) = words.split_first()?;
        if matter != "jobs" && matter != "desk" {
            return None;
        }
        let mut choice = Choice { matter: matter.clone(), count: 10_000, seed: 1, program: PathBuf::new() };
        for option in options.chunks(2) {
            match option {
                [name, value] if name == "--count" => choice.count = value.parse().ok()?,
                [name, value] if name == "--seed" => choice.seed = value.parse().ok()?,
                [name, value] if name == "--program" => choice.program = PathBuf::from(value),
                _ => return None,
            }
        }
        (choice.program != Path::new("")).then_some(choice)
    }
}

/// What came of the comparison so far.
#[derive(Default)]
struct Tally {
    compared: usize,
    skipped: usize,
    different: usize,
    /// How often each sort of answer was wanted.
    sorts: BTreeMap<String, usize>,
}

impl Tally {
    fn note(&mut self, sort: String) {
        *self.sorts.entry(sort).or_default() += 1;
    }

    fn difference(&mut self, told: impl FnOnce() -> String) {
        self.different += 1;
        if self.different <= MOST_SHOWN {
            println!("{}", told());
        }
    }

    fn print(&self, choice: &Choice) {
        let sorts: Vec<String> = self.sorts.iter().map(|(sort, count)| format!("{sort}: {count}")).collect();
        println!("answers wanted: {}", sorts.join(", "));
        let Tally { compared, skipped, different, .. } = self;
        let matter = if choice.matter == "jobs" { "jobs" } else { "scripts" };
        println!(
            "{matter} seed {}: {compared} compared, {skipped} skipped, {different} different",
            choice.seed
        );
    }
}

fn compare_jobs(choice: &Choice) -> Tally {
    let mut maker = JobMaker::new(choice.seed);
    let mut tally = Tally::default();
    while tally.compared < choice.count {
        let job = maker.next_job();
        let Ok(wanted) = job_text(&job, PATIENCE) else {
            tally.skipped += 1;
            continue;
        };
        tally.compared += 1;
        tally.note(sort_of_text(&wanted));
        if let Some(got) = job_difference(&program::run(&choice.program, &job), &wanted) {
            tally.difference(|| format!("job {}\nwanted {wanted:?}\ngot    {got}\n", hex_text(&job)));
        }
    }
    tally
}

/// A listing by its length, a refusal by its number.
fn sort_of_text(text: &str) -> String {
    let placements = text.lines().count() - 1;
    if let Some(refusal) = text.strip_prefix("refused ") {
        return format!("refused {:>2}", refusal.split(' ').next().unwrap_or_default());
    }
    match placements {
        0 => "none".to_string(),
        20 if text.ends_with("more\n") => "over twenty".to_string(),
        20 => "exactly twenty".to_string(),
        _ => "some".to_string(),
    }
}

/// What the program did instead, if it did not do what was wanted.
fn job_difference(outcome: &Result<Outcome, String>, wanted: &str) -> Option<String> {
    match outcome {
        Err(trouble) => Some(trouble.clone()),
        Ok(outcome) if outcome.output == wanted.as_bytes() && outcome.status == Some(0) => None,
        Ok(outcome) => Some(outcome_text(outcome)),
    }
}

fn outcome_text(outcome: &Outcome) -> String {
    let text = String::from_utf8_lossy(&outcome.output);
    format!("{text:?} with status {:?}", outcome.status)
}

fn compare_scripts(choice: &Choice) -> Tally {
    let mut chance = Chance::new(choice.seed);
    let mut tally = Tally::default();
    while tally.compared < choice.count {
        let script = script(&mut chance, PATIENCE);
        let Some(wanted) = desk::play(&script, PATIENCE) else {
            tally.skipped += 1;
            continue;
        };
        tally.compared += 1;
        wanted.answers.lines().for_each(|answer| tally.note(sort_of_answer(answer)));
        if let Some(got) = script_difference(&program::run(&choice.program, &script), &wanted) {
            tally.difference(|| format!("script\n{}{got}\n", String::from_utf8_lossy(&script)));
        }
    }
    tally
}

fn sort_of_answer(answer: &str) -> String {
    let mut words = answer.split(' ');
    match (words.next(), words.next()) {
        (Some("declined"), Some(number)) => format!("declined {number:>2}"),
        (Some(word), _) => word.to_string(),
        _ => String::new(),
    }
}

fn script_difference(outcome: &Result<Outcome, String>, wanted: &desk::Run) -> Option<String> {
    let outcome = match outcome {
        Ok(outcome) => outcome,
        Err(trouble) => return Some(trouble.clone()),
    };
    let got = String::from_utf8_lossy(&outcome.output);
    if got != wanted.answers {
        return Some(first_other_line(&got, &wanted.answers));
    }
    let status = i32::from(wanted.unreadable_line.is_some());
    if outcome.status != Some(status) {
        return Some(format!("wanted status {status}, got {:?}", outcome.status));
    }
    let number = wanted.unreadable_line?.to_string();
    let complaint = String::from_utf8_lossy(&outcome.complaint);
    let named = complaint.split(|letter: char| !letter.is_ascii_digit()).any(|word| word == number);
    (!named).then(|| format!("line {number} is not named by the complaint {complaint:?}"))
}

fn first_other_line(got: &str, wanted: &str) -> String {
    let same = got.lines().zip(wanted.lines()).take_while(|(got, wanted)| got == wanted).count();
    let line = |text: &str| text.lines().nth(same).map(str::to_string);
    format!("answer {}\nwanted {:?}\ngot    {:?}", same + 1, line(wanted), line(got))
}

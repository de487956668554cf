//! The desk: drives plans line by line and prints one answer a call.

mod words;

use crate::reference::agreement::Scene;
use crate::reference::filter::Filter;
use crate::reference::graph::Graph;
use crate::reference::job::job_call;
use crate::reference::plan::{Plan, Shown};
use crate::reference::refusal::{Fault, Stop, ILL_JOINTS, LOOK_OVER_LAYER};
use crate::reference::table::{Reader, Table};
use crate::reference::walk::Found;

pub use words::{hex_text, rows_text};

/// What every byte of a buffer holds before its call.
const UNTOUCHED: u8 = 0xee;
const PLANS: usize = 10;

/// Why a line has no answer.
#[derive(Clone, Copy, Debug, PartialEq, Eq)]
pub enum Trouble {
    Unreadable,
    /// The reference gave up on a search.
    TooLong,
}

type Answer = Result<String, Trouble>;

/// All answers to a script, and the number of the line that ended it early.
#[derive(Clone, Debug, PartialEq, Eq)]
pub struct Run {
    pub answers: String,
    pub unreadable_line: Option<usize>,
}

/// Plays a whole script; none if a search takes over `patience` tries.
pub fn play(script: &[u8], patience: u32) -> Option<Run> {
    let mut desk = Desk::new(patience);
    let mut answers = String::new();
    for (index, line) in script.split(|byte| *byte == b'\n').enumerate() {
        match desk.line(line) {
            Ok(Some(answer)) => answers += &(answer + "\n"),
            Ok(None) => {}
            Err(Trouble::Unreadable) => return Some(Run { answers, unreadable_line: Some(index + 1) }),
            Err(Trouble::TooLong) => return None,
        }
    }
    Some(Run { answers, unreadable_line: None })
}

#[derive(Clone, Debug)]
pub struct Desk {
    plans: Vec<Plan>,
    current: usize,
    patience: u32,
}

impl Desk {
    pub fn new(patience: u32) -> Desk {
        Desk { plans: vec![Plan::new(); PLANS], current: 0, patience }
    }

    pub fn current(&self) -> usize {
        self.current
    }

    pub fn plan(&self) -> &Plan {
        &self.plans[self.current]
    }

    fn plan_mut(&mut self) -> &mut Plan {
        &mut self.plans[self.current]
    }

    /// The answer to one line; none for a line that is passed over.
    pub fn line(&mut self, line: &[u8]) -> Result<Option<String>, Trouble> {
        if line.starts_with(b"#") {
            return Ok(None);
        }
        let text = std::str::from_utf8(line).map_err(|_| Trouble::Unreadable)?;
        let words: Vec<&str> = text.split([' ', '\t']).filter(|word| !word.is_empty()).collect();
        match words.as_slice() {
            [] => Ok(None),
            [call, handed @ ..] => self.call(call, handed).map(Some),
        }
    }

    fn call(&mut self, call: &str, handed: &[&str]) -> Answer {
        match (call, handed) {
            ("begin", [units, bays]) => self.begin(units, bays),
            ("open", [bytes]) => self.open(bytes),
            ("strike" | "free", [unit, bay]) => self.strike_or_free(call, unit, bay),
            ("fit" | "fitfurther", [book, units, bays]) => self.fit(call, book, units, bays),
            ("seek" | "further", [shown @ .., length]) => self.seek(call, shown, length),
            ("whatif", [unit, bay, shown @ ..]) => self.what_if(unit, bay, shown),
            ("tally", []) => Ok(format!("tally {}", self.plan().tally())),
            ("save", [length]) => self.save(length),
            ("plan", [number]) => self.turn_to(number),
            ("new", []) => self.renew(),
            ("look", [source]) => look(source),
            ("count", [source]) => Ok(format!("count {}", words::source(source)?.take().count())),
            ("joined", [source, a, b]) => joined(source, a, b),
            ("suits", [book, unit, bay]) => suits(book, unit, bay),
            ("sieve", [shown @ .., rows]) => sieve(shown, rows),
            ("readtable", [bytes]) => read_table(bytes),
            ("job", [length, bytes]) => self.job(length, bytes),
            _ => Err(Trouble::Unreadable),
        }
    }

    fn begin(&mut self, units: &str, bays: &str) -> Answer {
        let (units, bays) = (words::number(units)?, words::number(bays)?);
        Ok(ok_or_declined(self.plan_mut().begin(units, bays)))
    }

    fn open(&mut self, bytes: &str) -> Answer {
        let bytes = words::hex(bytes)?;
        Ok(match self.plan_mut().open(&bytes) {
            Ok(()) => "ok".to_string(),
            Err(fault) => fault_text(fault),
        })
    }

    fn strike_or_free(&mut self, call: &str, unit: &str, bay: &str) -> Answer {
        let (unit, bay) = (words::number(unit)?, words::number(bay)?);
        let plan = self.plan_mut();
        Ok(ok_or_declined(if call == "strike" { plan.strike(unit, bay) } else { plan.free(unit, bay) }))
    }

    fn fit(&mut self, call: &str, book: &str, units: &str, bays: &str) -> Answer {
        let book = words::book(book)?;
        let (units, bays) = (words::unit_cards(units)?, words::bay_cards(book, bays)?);
        let plan = self.plan_mut();
        Ok(ok_or_declined(match call {
            "fit" => plan.fit(book, &units, &bays),
            _ => plan.fit_further(book, &units, &bays),
        }))
    }

    fn seek(&mut self, call: &str, shown: &[&str], length: &str) -> Answer {
        let view = View::read(shown)?;
        let mut buffer = vec![UNTOUCHED; words::number(length)?];
        let shown = view.shown(self.patience);
        let answer = match call {
            "seek" => self.plan_mut().seek(&shown, &mut buffer),
            _ => self.plan_mut().further(&shown, &mut buffer),
        };
        let told = match answer {
            Ok(found) => found_text(&found),
            Err(stop) => stop_text(stop)?,
        };
        Ok(with_buffer(told, &buffer))
    }

    fn what_if(&mut self, unit: &str, bay: &str, shown: &[&str]) -> Answer {
        let (unit, bay) = (words::number(unit)?, words::number(bay)?);
        let view = View::read(shown)?;
        match self.plan().what_if(unit, bay, &view.shown(self.patience)) {
            Ok(tries) => Ok(format!("yes tries {tries}")),
            Err(stop) => stop_text(stop),
        }
    }

    fn save(&self, length: &str) -> Answer {
        let mut buffer = vec![UNTOUCHED; words::number(length)?];
        let told = match self.plan().save(&mut buffer) {
            Ok(written) => format!("saved {written}"),
            Err(number) => format!("declined {number}"),
        };
        Ok(with_buffer(told, &buffer))
    }

    fn turn_to(&mut self, number: &str) -> Answer {
        let number = words::number(number)?;
        if number >= PLANS {
            return Err(Trouble::Unreadable);
        }
        self.current = number;
        Ok("ok".to_string())
    }

    fn renew(&mut self) -> Answer {
        *self.plan_mut() = Plan::new();
        Ok("ok".to_string())
    }

    fn job(&self, length: &str, bytes: &str) -> Answer {
        let mut buffer = vec![UNTOUCHED; words::number(length)?];
        let bytes = words::hex(bytes)?;
        let told = match job_call(&bytes, &mut buffer, self.patience).map_err(|_| Trouble::TooLong)? {
            Ok(written) => format!("wrote {written}"),
            Err(number) => format!("declined {number}"),
        };
        Ok(with_buffer(told, &buffer))
    }
}

/// Filter, strictness, arrangement and room, as the lines name them.
struct View {
    filter: Filter,
    strict: bool,
    arrangement: Graph,
    room: Graph,
}

impl View {
    fn read(words: &[&str]) -> Result<View, Trouble> {
        let [filter, strict, arrangement, room] = words else {
            return Err(Trouble::Unreadable);
        };
        Ok(View {
            filter: words::filter(filter)?,
            strict: words::strict(strict)?,
            arrangement: words::source(arrangement)?.take(),
            room: words::source(room)?.take(),
        })
    }

    fn shown(&self, patience: u32) -> Shown<'_> {
        let (arrangement, room) = (&self.arrangement, &self.room);
        Shown { arrangement, room, strict: self.strict, filter: &self.filter, patience }
    }
}

fn look(source: &str) -> Answer {
    Ok(match words::source(source)?.is_sound() {
        true => "ok".to_string(),
        false => fault_text(Fault { number: ILL_JOINTS, layer: LOOK_OVER_LAYER, place: 0 }),
    })
}

fn joined(source: &str, a: &str, b: &str) -> Answer {
    let source = words::source(source)?;
    let (a, b) = (words::number(a)?, words::number(b)?);
    Ok(yes_or_no(source.take().joined(a, b)))
}

fn suits(book: &str, unit: &str, bay: &str) -> Answer {
    let book = words::book(book)?;
    let (unit, bay) = (words::unit_card(unit)?, words::bay_card(book, bay)?);
    Ok(yes_or_no(book.suits(unit, bay)))
}

fn sieve(shown: &[&str], rows: &str) -> Answer {
    let view = View::read(shown)?;
    let mut rows = words::rows(rows)?;
    let scene = Scene::new(view.arrangement, view.room, view.strict);
    let counts = view.filter.apply(&scene, &mut rows);
    Ok(format!("taken {} empty {} rows {}", counts.taken, counts.empty, rows_text(&rows)))
}

fn read_table(bytes: &str) -> Answer {
    let bytes = words::hex(bytes)?;
    let reader = &mut Reader::new(&bytes);
    Ok(match Table::read(reader) {
        Err(fault) => fault_text(fault),
        Ok(table) => {
            let (count, columns, rows) = (table.rows.len(), table.columns, rows_text(&table.rows));
            format!("table {count} {columns} rows {rows} used {}", reader.place())
        }
    })
}

fn yes_or_no(yes: bool) -> String {
    if yes { "yes" } else { "no" }.to_string()
}

fn ok_or_declined(answer: Result<(), u32>) -> String {
    match answer {
        Ok(()) => "ok".to_string(),
        Err(number) => format!("declined {number}"),
    }
}

fn fault_text(fault: Fault) -> String {
    format!("declined {} layer {} place {}", fault.number, fault.layer, fault.place)
}

fn stop_text(stop: Stop) -> Answer {
    match stop {
        Stop::Declined(number) => Ok(format!("declined {number}")),
        Stop::NoPlacement { tries } => Ok(format!("declined 9 tries {tries}")),
        Stop::TooLong => Err(Trouble::TooLong),
    }
}

fn found_text(found: &Found) -> String {
    let bays: Vec<String> = found.bays.iter().map(usize::to_string).collect();
    format!("found {} tries {}", bays.join(" "), found.tries)
}

fn with_buffer(told: String, buffer: &[u8]) -> String {
    format!("{told} buffer {}", hex_text(buffer))
}

//! A job: from its bytes to the text of its listing.

use super::book::Book;
use super::filter::Filter;
use super::graph::{Graph, Source};
use super::plan::{read_saved_plan, Plan, Shown};
use super::refusal::*;
use super::table::{number, Reader, Table};
use super::walk::Found;

/// A shorter buffer is declined, whatever the job.
pub const LEAST_BUFFER: usize = 1536;
/// How many bytes the console program reads.
pub const MOST_INPUT: usize = 4096;
const MOST_LINES: usize = 20;

/// A job that was read without fault.
#[derive(Clone, Debug)]
pub struct Job {
    pub strict: bool,
    pub book: Book,
    pub arrangement: Graph,
    pub room: Graph,
    pub kinds: Vec<u8>,
    pub heights: Vec<u16>,
    pub struck: Table,
}

/// The reference gave up on a job.
#[derive(Clone, Copy, Debug, PartialEq, Eq)]
pub struct TooLong;

/// Writes the text at the start of the buffer; answers its length, or 18.
pub fn job_call(bytes: &[u8], buffer: &mut [u8], patience: u32) -> Result<Result<usize, u32>, TooLong> {
    if buffer.len() < LEAST_BUFFER {
        return Ok(Err(SHORT_BUFFER));
    }
    let text = job_text(bytes, patience)?;
    buffer[..text.len()].copy_from_slice(text.as_bytes());
    Ok(Ok(text.len()))
}

/// The listing, or the one line of refusal. Gives up after `patience` tries.
pub fn job_text(bytes: &[u8], patience: u32) -> Result<String, TooLong> {
    match Job::read(bytes) {
        Ok(job) => job.listing(patience),
        Err(fault) => Ok(format!("refused {} {} {}\n", fault.number, fault.layer, fault.place)),
    }
}

impl Job {
    pub fn read(bytes: &[u8]) -> Result<Job, Fault> {
        let reader = &mut Reader::new(bytes);
        let strict = read_strictness(reader)?;
        let book = read_edition(reader)?;
        let arrangement = read_joints(reader)?;
        let room = read_joints(reader)?;
        let kinds = reader.part(arrangement.count(), JOB_LAYER)?.to_vec();
        let heights = read_heights(reader, room.count())?;
        let plan_table = reader.place() + 1;
        let struck = read_saved_plan(reader)?;
        if struck.rows.len() != arrangement.count() || struck.columns != room.count() {
            return Err(job_fault(OTHER_SIZES, plan_table));
        }
        Ok(Job { strict, book, arrangement, room, kinds, heights, struck })
    }

    fn listing(&self, patience: u32) -> Result<String, TooLong> {
        let (placements, another) = self.placements(MOST_LINES, patience)?;
        let mut text = String::new();
        for bays in placements {
            let words: Vec<String> = bays.iter().map(usize::to_string).collect();
            text.push_str(&words.join(" "));
            text.push('\n');
        }
        text.push_str(if another { "more\n" } else { "end\n" });
        Ok(text)
    }

    /// The first placements, at most `most`, and whether there is another.
    pub fn placements(&self, most: usize, patience: u32) -> Result<(Vec<Vec<usize>>, bool), TooLong> {
        let mut plan = self.fitted_plan();
        let mut left = patience;
        let mut placements = Vec::new();
        while let Some(found) = self.next(&mut plan, placements.is_empty(), left)? {
            if placements.len() == most {
                return Ok((placements, true));
            }
            left -= found.tries;
            placements.push(found.bays);
        }
        Ok((placements, false))
    }

    fn fitted_plan(&self) -> Plan {
        let mut plan = Plan::new();
        plan.start_from(&self.struck);
        plan.fit(self.book, &self.kinds, &self.heights).expect("sizes were compared");
        plan
    }

    fn next(&self, plan: &mut Plan, first: bool, patience: u32) -> Result<Option<Found>, TooLong> {
        let filter = &Filter::of_a_job();
        let (arrangement, room, strict) = (&self.arrangement, &self.room, self.strict);
        let shown = Shown { arrangement, room, strict, filter, patience };
        let mut buffer = vec![0; plan.units()];
        let answer = match first {
            true => plan.seek(&shown, &mut buffer),
            false => plan.further(&shown, &mut buffer),
        };
        match answer {
            Ok(found) => Ok(Some(found)),
            Err(Stop::NoPlacement { .. }) => Ok(None),
            Err(Stop::TooLong) => Err(TooLong),
            Err(Stop::Declined(number)) => unreachable!("a job that reads well is declined {number}"),
        }
    }
}

fn job_fault(number: u32, place: usize) -> Fault {
    Fault { number, layer: JOB_LAYER, place }
}

fn read_strictness(reader: &mut Reader) -> Result<bool, Fault> {
    let place = reader.place();
    match reader.byte(JOB_LAYER)? {
        0 => Ok(false),
        1 => Ok(true),
        _ => Err(job_fault(UNKNOWN_BYTE, place)),
    }
}

fn read_edition(reader: &mut Reader) -> Result<Book, Fault> {
    let place = reader.place();
    let edition = number(reader.part(2, JOB_LAYER)?) as u16;
    Book::clearance(edition).ok_or(job_fault(UNKNOWN_BYTE, place))
}

/// A joint table is looked over before anything after it is read.
fn read_joints(reader: &mut Reader) -> Result<Graph, Fault> {
    let place = reader.place();
    let table = Table::read(reader)?;
    let source = Source::Table { rows: table.rows, columns: table.columns };
    if !source.is_sound() {
        return Err(Fault { number: ILL_JOINTS, layer: LOOK_OVER_LAYER, place });
    }
    Ok(source.take())
}

fn read_heights(reader: &mut Reader, count: usize) -> Result<Vec<u16>, Fault> {
    let bytes = reader.part(2 * count, JOB_LAYER)?;
    Ok(bytes.chunks(2).map(|height| number(height) as u16).collect())
}

//! A plan: the pairs struck and fitted, the last answer, and its calls.

use std::collections::BTreeSet;

use super::agreement::Scene;
use super::book::Book;
use super::filter::{Filter, MOST_UNITS};
use super::graph::{Graph, MOST_NODES};
use super::refusal::*;
use super::rows::{bays, only};
use super::table::{Reader, Table};
use super::walk::{search, Found};

/// The byte that opens a saved plan.
pub const FORM: u8 = 2;

type Pairs = BTreeSet<(usize, usize)>;

#[derive(Clone, Debug, PartialEq, Eq)]
pub struct Plan {
    units: usize,
    bays: usize,
    struck: Pairs,
    fitted: Option<Pairs>,
    last: Option<Vec<usize>>,
}

/// What a search is shown beside the plan.
pub struct Shown<'a> {
    pub arrangement: &'a Graph,
    pub room: &'a Graph,
    pub strict: bool,
    pub filter: &'a Filter,
    /// After so many tries the reference gives up.
    pub patience: u32,
}

impl Plan {
    /// A new plan, as if begun with one unit and one bay.
    pub fn new() -> Plan {
        Plan::started(1, 1, Pairs::new())
    }

    fn started(units: usize, bays: usize, struck: Pairs) -> Plan {
        Plan { units, bays, struck, fitted: None, last: None }
    }

    pub fn units(&self) -> usize {
        self.units
    }

    pub fn bays(&self) -> usize {
        self.bays
    }

    pub fn begin(&mut self, units: usize, bays: usize) -> Result<(), u32> {
        if !sizes_inside(units, bays) {
            return Err(SIZES_OUTSIDE);
        }
        *self = Plan::started(units, bays, Pairs::new());
        Ok(())
    }

    pub fn open(&mut self, bytes: &[u8]) -> Result<(), Fault> {
        let table = read_saved_plan(&mut Reader::new(bytes))?;
        self.start_from(&table);
        Ok(())
    }

    /// Starts over with the struck pairs of a table that was read as a plan's.
    pub fn start_from(&mut self, struck: &Table) {
        *self = Plan::started(struck.rows.len(), struck.columns, pairs_of(&struck.rows));
    }

    pub fn strike(&mut self, unit: usize, bay: usize) -> Result<(), u32> {
        self.need_pair(unit, bay)?;
        let added = self.struck.insert((unit, bay));
        added.then_some(()).ok_or(STRUCK_OR_NOT)
    }

    pub fn free(&mut self, unit: usize, bay: usize) -> Result<(), u32> {
        self.need_pair(unit, bay)?;
        let removed = self.struck.remove(&(unit, bay));
        removed.then_some(()).ok_or(STRUCK_OR_NOT)
    }

    pub fn fit(&mut self, book: Book, unit_cards: &[u8], bay_cards: &[u16]) -> Result<(), u32> {
        self.need_cards(unit_cards, bay_cards)?;
        let all = (0..self.units).flat_map(|unit| (0..self.bays).map(move |bay| (unit, bay)));
        let suiting = all.filter(|&(unit, bay)| book.suits(unit_cards[unit], bay_cards[bay]));
        self.fitted = Some(suiting.collect());
        Ok(())
    }

    pub fn fit_further(&mut self, book: Book, unit_cards: &[u8], bay_cards: &[u16]) -> Result<(), u32> {
        self.need_cards(unit_cards, bay_cards)?;
        let fitted = self.fitted.as_mut().ok_or(NO_FIT)?;
        fitted.retain(|&(unit, bay)| book.suits(unit_cards[unit], bay_cards[bay]));
        Ok(())
    }

    /// The first placement; it becomes the last answer.
    pub fn seek(&mut self, shown: &Shown, buffer: &mut [u8]) -> Result<Found, Stop> {
        let rows = self.need_fit()?;
        self.need_sizes(shown)?;
        self.need_room_for_answer(buffer)?;
        let found = search(&scene(shown), shown.filter, &rows, None, shown.patience)?;
        self.keep(&found, buffer);
        Ok(found)
    }

    /// The first placement after the last answer, which it becomes.
    pub fn further(&mut self, shown: &Shown, buffer: &mut [u8]) -> Result<Found, Stop> {
        let rows = self.need_fit()?;
        self.need_sizes(shown)?;
        let last = self.last.clone().ok_or(Stop::Declined(NO_LAST_ANSWER))?;
        self.need_room_for_answer(buffer)?;
        let found = search(&scene(shown), shown.filter, &rows, Some(&last), shown.patience)?;
        self.keep(&found, buffer);
        Ok(found)
    }

    /// Whether a placement gives the unit that bay; answers the tries.
    pub fn what_if(&self, unit: usize, bay: usize, shown: &Shown) -> Result<u32, Stop> {
        self.need_pair(unit, bay).map_err(Stop::Declined)?;
        let mut rows = self.need_fit()?;
        self.need_sizes(shown)?;
        rows[unit] &= only(bay);
        Ok(search(&scene(shown), shown.filter, &rows, None, shown.patience)?.tries)
    }

    /// The number of pairs not struck.
    pub fn tally(&self) -> usize {
        self.units * self.bays - self.struck.len()
    }

    /// The saved form at the start of the buffer; answers its length.
    pub fn save(&self, buffer: &mut [u8]) -> Result<usize, u32> {
        let struck = rows_of(self.units, |pair| self.struck.contains(&pair));
        let table = Table { rows: struck, columns: self.bays };
        let mut form = vec![FORM];
        form.extend(table.saved());
        if buffer.len() < form.len() {
            return Err(SHORT_BUFFER);
        }
        buffer[..form.len()].copy_from_slice(&form);
        Ok(form.len())
    }

    fn need_pair(&self, unit: usize, bay: usize) -> Result<(), u32> {
        (unit < self.units && bay < self.bays).then_some(()).ok_or(NO_SUCH_PAIR)
    }

    fn need_cards(&self, unit_cards: &[u8], bay_cards: &[u16]) -> Result<(), u32> {
        let right = unit_cards.len() == self.units && bay_cards.len() == self.bays;
        right.then_some(()).ok_or(WRONG_CARD_COUNT)
    }

    /// The open rows: what is fitted and not struck.
    fn need_fit(&self) -> Result<Vec<u64>, Stop> {
        let fitted = self.fitted.as_ref().ok_or(Stop::Declined(NO_FIT))?;
        Ok(rows_of(self.units, |pair| fitted.contains(&pair) && !self.struck.contains(&pair)))
    }

    fn need_sizes(&self, shown: &Shown) -> Result<(), Stop> {
        let right = shown.arrangement.count() == self.units && shown.room.count() == self.bays;
        right.then_some(()).ok_or(Stop::Declined(OTHER_SIZES))
    }

    fn need_room_for_answer(&self, buffer: &[u8]) -> Result<(), Stop> {
        (buffer.len() >= self.units).then_some(()).ok_or(Stop::Declined(SHORT_ANSWER_BUFFER))
    }

    fn keep(&mut self, found: &Found, buffer: &mut [u8]) {
        for (byte, bay) in buffer.iter_mut().zip(&found.bays) {
            *byte = *bay as u8;
        }
        self.last = Some(found.bays.clone());
    }
}

impl Default for Plan {
    fn default() -> Plan {
        Plan::new()
    }
}

/// Reads form byte, table, sizes and the end, in that order.
pub fn read_saved_plan(reader: &mut Reader) -> Result<Table, Fault> {
    let form_place = reader.place();
    if reader.byte(PLAN_LAYER)? != FORM {
        return Err(plan_fault(UNKNOWN_BYTE, form_place));
    }
    let table_place = reader.place();
    let table = Table::read(reader)?;
    if !sizes_inside(table.rows.len(), table.columns) {
        return Err(plan_fault(SIZES_OUTSIDE, table_place));
    }
    if !reader.at_end() {
        return Err(plan_fault(BYTES_LEFT, reader.place()));
    }
    Ok(table)
}

fn plan_fault(number: u32, place: usize) -> Fault {
    Fault { number, layer: PLAN_LAYER, place }
}

fn sizes_inside(units: usize, bays: usize) -> bool {
    (1..=MOST_UNITS).contains(&units) && (1..=MOST_NODES).contains(&bays)
}

fn scene(shown: &Shown) -> Scene {
    Scene::new(shown.arrangement.clone(), shown.room.clone(), shown.strict)
}

fn pairs_of(rows: &[u64]) -> Pairs {
    let row_pairs = |(unit, row): (usize, &u64)| bays(*row).map(move |bay| (unit, bay));
    rows.iter().enumerate().flat_map(row_pairs).collect()
}

fn rows_of(units: usize, has: impl Fn((usize, usize)) -> bool) -> Vec<u64> {
    let row = |unit| (0..64).filter(|&bay| has((unit, bay))).fold(0, |row, bay| row | only(bay));
    (0..units).map(row).collect()
}

#[cfg(test)]
mod tests {
    use super::*;

    #[test]
    fn rows_and_pairs_come_back() {
        let rows = vec![0, 5, 1 << 63];
        let pairs = pairs_of(&rows);
        assert_eq!(rows_of(3, |pair| pairs.contains(&pair)), rows);
    }
}

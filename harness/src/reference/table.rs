//! Reading forward through bytes, and the saved form of a table.

use super::refusal::*;
use super::rows::first_past;

/// The most rows or columns of a stored table.
pub const MOST_ROWS: usize = 64;
const MAP_BYTES: usize = 8;
const ROW_BYTES: usize = 8;

/// A place in the whole input; it only moves forward.
pub struct Reader<'a> {
    bytes: &'a [u8],
    at: usize,
}

impl<'a> Reader<'a> {
    pub fn new(bytes: &'a [u8]) -> Reader<'a> {
        Reader { bytes, at: 0 }
    }

    pub fn place(&self) -> usize {
        self.at
    }

    pub fn at_end(&self) -> bool {
        self.at == self.bytes.len()
    }

    /// A whole part, or 11 at the input's end in the layer that reads it.
    pub fn part(&mut self, length: usize, layer: u32) -> Result<&'a [u8], Fault> {
        if self.bytes.len() - self.at < length {
            return Err(Fault { number: CUT_OFF, layer, place: self.bytes.len() });
        }
        let part = &self.bytes[self.at..self.at + length];
        self.at += length;
        Ok(part)
    }

    pub fn byte(&mut self, layer: u32) -> Result<u8, Fault> {
        Ok(self.part(1, layer)?[0])
    }
}

/// A table as it was stored; zero rows are among its rows.
#[derive(Clone, Debug, PartialEq, Eq)]
pub struct Table {
    pub rows: Vec<u64>,
    pub columns: usize,
}

impl Table {
    pub fn read(reader: &mut Reader) -> Result<Table, Fault> {
        let count = read_count(reader)?;
        let columns = read_count(reader)?;
        let map = read_map(reader, count)?;
        let mut rows = vec![0; count];
        for (index, row) in rows.iter_mut().enumerate() {
            if map >> index & 1 == 1 {
                *row = read_row(reader, columns)?;
            }
        }
        Ok(Table { rows, columns })
    }

    pub fn saved(&self) -> Vec<u8> {
        let stored = |index: &usize| self.rows[*index] != 0;
        let map = (0..self.rows.len()).filter(stored).fold(0u64, |map, index| map | 1 << index);
        let mut bytes = vec![self.rows.len() as u8, self.columns as u8];
        bytes.extend(map.to_le_bytes());
        for index in (0..self.rows.len()).filter(stored) {
            bytes.extend(self.rows[index].to_le_bytes());
        }
        bytes
    }
}

fn fault(number: u32, place: usize) -> Fault {
    Fault { number, layer: TABLE_LAYER, place }
}

fn read_count(reader: &mut Reader) -> Result<usize, Fault> {
    let place = reader.place();
    let count = reader.byte(TABLE_LAYER)? as usize;
    if count > MOST_ROWS {
        return Err(fault(TABLE_TOO_LARGE, place));
    }
    Ok(count)
}

fn read_map(reader: &mut Reader, count: usize) -> Result<u64, Fault> {
    let place = reader.place();
    let map = number(reader.part(MAP_BYTES, TABLE_LAYER)?);
    match first_past(map, count) {
        Some(bit) => Err(fault(MAP_BIT_PAST_ROWS, place + bit / 8)),
        None => Ok(map),
    }
}

fn read_row(reader: &mut Reader, columns: usize) -> Result<u64, Fault> {
    let place = reader.place();
    let row = number(reader.part(ROW_BYTES, TABLE_LAYER)?);
    if row == 0 {
        return Err(fault(ZERO_ROW, place));
    }
    match first_past(row, columns) {
        Some(bit) => Err(fault(ROW_BIT_PAST_COLUMNS, place + bit / 8)),
        None => Ok(row),
    }
}

/// Bytes as a number, lowest first.
pub fn number(bytes: &[u8]) -> u64 {
    bytes.iter().rev().fold(0, |number, byte| number << 8 | u64::from(*byte))
}

#[cfg(test)]
mod tests {
    use super::*;

    fn read(bytes: &[u8]) -> Result<Table, Fault> {
        Table::read(&mut Reader::new(bytes))
    }

    #[test]
    fn a_stored_row_of_zero_is_told_at_its_first_byte() {
        let mut bytes = vec![1, 1, 1];
        bytes.extend([0; 15]);
        assert_eq!(read(&bytes), Err(fault(15, 10)));
        assert_eq!(read(&bytes[..17]), Err(fault(11, 17)));
    }

    #[test]
    fn counts_map_and_rows_are_checked_in_that_order() {
        assert_eq!(read(&[]), Err(fault(11, 0)));
        assert_eq!(read(&[65]), Err(fault(13, 0)));
        assert_eq!(read(&[64]), Err(fault(11, 1)));
        assert_eq!(read(&[64, 65]), Err(fault(13, 1)));
        assert_eq!(read(&[9, 9, 0, 0xfe, 1, 0, 0, 0, 0]), Err(fault(11, 9)));
        assert_eq!(read(&[9, 9, 0, 0xfe, 1, 0, 0, 0, 0, 0]), Err(fault(14, 3)));
        let mut row = vec![2, 9, 2, 0, 0, 0, 0, 0, 0, 0];
        row.extend([0xff, 0xff, 0, 0, 0, 0, 0, 1]);
        assert_eq!(read(&row), Err(fault(16, 11)));
        row[11] = 1;
        assert_eq!(read(&row), Err(fault(16, 17)));
        row[17] = 0;
        assert_eq!(read(&row), Ok(Table { rows: vec![0, 0x1ff], columns: 9 }));
    }

    #[test]
    fn empty_tables_read_well() {
        assert_eq!(read(&[0; 10]), Ok(Table { rows: vec![], columns: 0 }));
    }

    #[test]
    fn saving_and_reading_come_back() {
        let table = Table { rows: vec![0, 5, 0, u64::MAX], columns: 64 };
        assert_eq!(read(&table.saved()), Ok(table));
    }
}

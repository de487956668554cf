//! The words of a line: numbers, bytes, cards, rows, sources, filters, books.

use super::Trouble;
use crate::reference::book::Book;
use crate::reference::filter::Filter;
use crate::reference::graph::Source;

type Read<T> = Result<T, Trouble>;

fn readable<T>(value: Option<T>) -> Read<T> {
    value.ok_or(Trouble::Unreadable)
}

/// Digits only; a number too large for its place is unreadable.
pub fn number<T: std::str::FromStr>(word: &str) -> Read<T> {
    let digits = word.bytes().all(|byte| byte.is_ascii_digit());
    readable(word.parse().ok().filter(|_| digits))
}

/// The parts of a list parted by commas, `-` being the list of none.
fn list<T>(word: &str, read: impl Fn(&str) -> Read<T>) -> Read<Vec<T>> {
    match word {
        "-" => Ok(Vec::new()),
        _ => word.split(',').map(read).collect(),
    }
}

pub fn hex(word: &str) -> Read<Vec<u8>> {
    if word == "-" {
        return Ok(Vec::new());
    }
    let digits: Option<Vec<u32>> = word.chars().map(|digit| digit.to_digit(16)).collect();
    let digits = readable(digits.filter(|digits| digits.len() % 2 == 0))?;
    Ok(digits.chunks(2).map(|pair| (pair[0] * 16 + pair[1]) as u8).collect())
}

pub fn hex_text(bytes: &[u8]) -> String {
    if bytes.is_empty() {
        return "-".to_string();
    }
    bytes.iter().map(|byte| format!("{byte:02x}")).collect()
}

pub fn rows(word: &str) -> Read<Vec<u64>> {
    list(word, |row| {
        let digits = row.bytes().all(|byte| byte.is_ascii_hexdigit());
        readable(u64::from_str_radix(row, 16).ok().filter(|_| digits))
    })
}

pub fn rows_text(rows: &[u64]) -> String {
    if rows.is_empty() {
        return "-".to_string();
    }
    let words: Vec<String> = rows.iter().map(|row| format!("{row:x}")).collect();
    words.join(",")
}

pub fn strict(word: &str) -> Read<bool> {
    match word {
        "0" => Ok(false),
        "1" => Ok(true),
        _ => Err(Trouble::Unreadable),
    }
}

pub fn book(word: &str) -> Read<Book> {
    match word {
        "clearance1" => Ok(Book::Clearance1),
        "clearance2" => Ok(Book::Clearance2),
        "services1" => Ok(Book::Services1),
        _ => Err(Trouble::Unreadable),
    }
}

pub fn unit_card(word: &str) -> Read<u8> {
    number(word)
}

/// A height takes two bytes, services take one.
pub fn bay_card(book: Book, word: &str) -> Read<u16> {
    match book {
        Book::Services1 => number::<u8>(word).map(u16::from),
        _ => number(word),
    }
}

pub fn unit_cards(word: &str) -> Read<Vec<u8>> {
    list(word, unit_card)
}

pub fn bay_cards(book: Book, word: &str) -> Read<Vec<u16>> {
    list(word, |card| bay_card(book, card))
}

pub fn source(word: &str) -> Read<Source> {
    if let Some(grid) = word.strip_prefix('G') {
        let (columns, levels) = sizes(grid)?;
        return Ok(Source::Grid { columns, levels });
    }
    let table = readable(word.strip_prefix('T'))?;
    let (shape, listed) = readable(table.split_once(':'))?;
    let (count, columns) = sizes(shape)?;
    let rows = rows(listed)?;
    readable((rows.len() == count).then_some(Source::Table { rows, columns }))
}

fn sizes(word: &str) -> Read<(usize, usize)> {
    let (first, second) = readable(word.split_once('x'))?;
    Ok((number(first)?, number(second)?))
}

pub fn filter(word: &str) -> Read<Filter> {
    if let Some(repeated) = word.strip_suffix('*') {
        return Ok(Filter::Repeated(Box::new(chain(repeated)?)));
    }
    chain(word)
}

fn chain(word: &str) -> Read<Filter> {
    let filters: Read<Vec<Filter>> = word.split('+').map(single_filter).collect();
    Ok(Filter::Chained(filters?))
}

fn single_filter(word: &str) -> Read<Filter> {
    match word {
        "open" => Ok(Filter::Open),
        "joint" => Ok(Filter::JointCount),
        "support" => Ok(Filter::Support),
        _ => Err(Trouble::Unreadable),
    }
}

#[cfg(test)]
mod tests {
    use super::*;

    #[test]
    fn numbers_fit_their_place() {
        assert_eq!(number::<u8>("255"), Ok(255));
        for word in ["256", "", "+1", "-1", " 1", "1a"] {
            assert!(number::<u8>(word).is_err(), "{word:?}");
        }
    }

    #[test]
    fn bytes_and_rows() {
        assert_eq!(hex("00eE"), Ok(vec![0, 0xee]));
        assert_eq!(hex("-"), Ok(vec![]));
        assert!(hex("0").is_err() && hex("0g").is_err());
        assert_eq!(rows("-"), Ok(vec![]));
        assert_eq!(rows("a,ffffffffffffffff,0"), Ok(vec![10, u64::MAX, 0]));
        assert!(rows("1,,2").is_err() && rows("10000000000000000").is_err() && rows("+1").is_err());
        assert_eq!(rows_text(&[10, 0]), "a,0");
    }

    #[test]
    fn sources() {
        assert_eq!(source("G3x2"), Ok(Source::Grid { columns: 3, levels: 2 }));
        assert_eq!(source("T2x3:2,1"), Ok(Source::Table { rows: vec![2, 1], columns: 3 }));
        assert_eq!(source("T0x0:-"), Ok(Source::Table { rows: vec![], columns: 0 }));
        for word in ["T2x2:1", "T2x2", "G3", "X1x1", "G1x1x1", "T1x1:"] {
            assert!(source(word).is_err(), "{word}");
        }
    }

    #[test]
    fn filters() {
        assert_eq!(filter("joint+support*"), Ok(Filter::Repeated(Box::new(Filter::of_a_job()))));
        for word in ["", "*", "joint*+open", "joint++open", "+", "joints", "open**"] {
            assert!(filter(word).is_err(), "{word}");
        }
    }
}

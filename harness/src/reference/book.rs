//! Rule books: which unit card suits which bay card.

#[derive(Clone, Copy, Debug, PartialEq, Eq)]
pub enum Book {
    /// Kinds against clear heights, with 650 mm over a hob.
    Clearance1,
    /// The same with 750 mm over a hob.
    Clearance2,
    /// Needs against services, a bit each.
    Services1,
}

impl Book {
    pub fn clearance(edition: u16) -> Option<Book> {
        match edition {
            1 => Some(Book::Clearance1),
            2 => Some(Book::Clearance2),
            _ => None,
        }
    }

    pub fn suits(self, unit_card: u8, bay_card: u16) -> bool {
        match self {
            Book::Clearance1 => tall_enough(unit_card, bay_card, 650),
            Book::Clearance2 => tall_enough(unit_card, bay_card, 750),
            // Every needed bit counts, the nameless ones too.
            Book::Services1 => (0..8).all(|bit| unit_card >> bit & 1 == 0 || bay_card >> bit & 1 == 1),
        }
    }
}

fn tall_enough(kind: u8, height: u16, over_hob: u16) -> bool {
    let figure = match kind {
        0 => 0,        // base
        1 => 600,      // wall
        2 => 1300,     // tall
        3 => over_hob, // hob
        4 => 450,      // sink
        5 => 900,      // oven housing
        6 => 0,        // corner
        7 => 300,      // shelf
        _ => return false,
    };
    height >= figure
}

#[cfg(test)]
mod tests {
    use super::*;

    #[test]
    fn figures_are_the_least_suiting_heights() {
        let figures = [0u16, 600, 1300, 650, 450, 900, 0, 300];
        for (kind, figure) in figures.into_iter().enumerate() {
            let second = if kind == 3 { 750 } else { figure };
            for (book, least) in [(Book::Clearance1, figure), (Book::Clearance2, second)] {
                assert!(book.suits(kind as u8, least));
                assert!(least == 0 || !book.suits(kind as u8, least - 1));
            }
        }
        assert!((8..=255).all(|kind| !Book::Clearance1.suits(kind, 65535)));
    }

    #[test]
    fn services_need_every_bit() {
        assert!(Book::Services1.suits(0, 0));
        assert!(Book::Services1.suits(0b101, 0b111));
        assert!(!Book::Services1.suits(0b101, 0b110));
        assert!(!Book::Services1.suits(0x80, 0x7f));
    }
}

//! Refusals: the numbers of documents 01 and 02, and for a table's faults the byte.

use just_raw as raw;
use std::error::Error;
use std::fmt;

/// Why a call was refused.
#[derive(Clone, Copy, Debug, PartialEq, Eq, Hash, PartialOrd, Ord)]
pub enum Reason {
    TableLength,
    GlyphCount,
    Version,
    Outside,
    BadLookup,
    BadCluster,
    BadMachine,
    BadActions,
    UnequalLengths,
    LongLine,
    PointSize,
    Advances,
    UnknownGlyph,
    EndlessWalk,
    StageTotal,
    ShortRoom,
    NotSheet,
    UnknownEdition,
    FontEnds,
    MissingTable,
    WrongSum,
    /// A number that a later library gives and this layer does not know.
    Unknown(u32),
}

/// The number of each reason, the reason, and what it means; numbers rise, and some are not given.
const MEANINGS: &[(u32, Reason, &str)] = &[
    (1, Reason::TableLength, "the table's length is outside 10 to 32,768 bytes"),
    (2, Reason::GlyphCount, "the glyph count is outside 1 to 65,535"),
    (3, Reason::Version, "the table's version or format is not known"),
    (4, Reason::Outside, "a field to be read is not wholly in the table"),
    (5, Reason::BadLookup, "a lookup breaks its rule"),
    (6, Reason::BadCluster, "a width cluster breaks its rule"),
    (7, Reason::BadMachine, "a class machine breaks its rule"),
    (8, Reason::BadActions, "an action list breaks its rule"),
    (9, Reason::UnequalLengths, "sizes, glyphs, advances, classes or movements are lent in differing lengths"),
    (10, Reason::LongLine, "the line has more than 1,024 glyphs"),
    (11, Reason::PointSize, "a point size is outside 1 to 67,108,864 units"),
    (12, Reason::Advances, "an advance, their sum or the target is outside 0 to 1,073,741,823 units"),
    (13, Reason::UnknownGlyph, "a glyph is at or past the glyph count and is not the deleted one"),
    (14, Reason::EndlessWalk, "the class walk never ends"),
    (15, Reason::StageTotal, "a stage's total of factors is above 8,589,934,592 units"),
    (16, Reason::ShortRoom, "the verdicts, the sheet or the differences are longer than the lent room"),
    (17, Reason::NotSheet, "the bytes are not a sheet"),
    (18, Reason::UnknownEdition, "the edition is neither 1 nor 2"),
    (21, Reason::FontEnds, "the font's directory or its 'just' or 'maxp' table is not wholly there"),
    (22, Reason::MissingTable, "the font has no 'just' or no 'maxp' table"),
    (23, Reason::WrongSum, "the checksum of 'just' or 'maxp' is not the one that the font's directory has"),
];

impl Reason {
    /// The number that documents 01 and 02 give it.
    ///
    /// ```
    /// assert_eq!(just::Reason::EndlessWalk.number(), 14);
    /// ```
    pub fn number(self) -> u32 {
        self.told().0
    }

    /// What it means, in words.
    pub fn meaning(self) -> &'static str {
        self.told().1
    }

    /// Its number and what it means.
    fn told(self) -> (u32, &'static str) {
        let known = MEANINGS.iter().find(|(_, reason, _)| *reason == self);
        match (self, known) {
            (_, Some(&(number, _, meaning))) => (number, meaning),
            (Reason::Unknown(number), None) => (number, "a refusal that is not known here"),
            (_, None) => unreachable!("every reason has a meaning"),
        }
    }

    /// The reason of a number; 0 is none.
    fn of(number: u32) -> Option<Reason> {
        let known = MEANINGS.iter().find(|(known, _, _)| *known == number);
        (number != 0).then(|| known.map_or(Reason::Unknown(number), |(_, reason, _)| *reason))
    }

    /// Whether it is a fault of a field of a table, which stands at some byte: 4 to 8.
    pub(crate) fn has_offset(self) -> bool {
        (4..=8).contains(&self.number())
    }
}

/// A refusal: why, and for the faults of a table's fields (4 to 8) at which byte.
///
/// ```
/// use just::{Reason, Refusal, Table};
///
/// // The horizontal direction begins at byte 10, where the table ends.
/// let refusal = Table::new(&[0, 1, 0, 0, 0, 0, 0, 10, 0, 0], 1).unwrap_err();
/// assert_eq!(refusal, Refusal { reason: Reason::Outside, offset: 10 });
/// assert_eq!(refusal.to_string(), "refused 4 at byte 10: a field to be read is not wholly in the table");
/// ```
#[derive(Clone, Copy, Debug, PartialEq, Eq, Hash)]
pub struct Refusal {
    pub reason: Reason,
    /// For 4 to 8 the offset, from the table's start, of the first byte of the field that was being read or judged; for 4 it
    /// may lie past the table's end. For all others 0.
    pub offset: u64,
}

impl Refusal {
    /// The number that documents 01 and 02 give it.
    pub fn number(self) -> u32 {
        self.reason.number()
    }

    /// What it means, in words.
    pub fn meaning(self) -> &'static str {
        self.reason.meaning()
    }

    /// What an answer says, unless it is a refusal.
    pub(crate) fn or<T>(answer: raw::Answer<T>) -> Result<T, Refusal> {
        match Reason::of(answer.refusal) {
            None => Ok(answer.said),
            Some(reason) => Err(Refusal { reason, offset: answer.offset }),
        }
    }
}

impl fmt::Display for Refusal {
    fn fmt(&self, out: &mut fmt::Formatter) -> fmt::Result {
        write!(out, "refused {}", self.number())?;
        if self.reason.has_offset() {
            write!(out, " at byte {}", self.offset)?;
        }
        write!(out, ": {}", self.meaning())
    }
}

impl Error for Refusal {}

#[cfg(test)]
mod tests {
    use super::*;

    fn answered(refusal: u32, offset: u64) -> Result<(), Refusal> {
        Refusal::or(raw::Answer { refusal, offset, said: () })
    }

    #[test]
    fn each_number_has_its_reason() {
        assert_eq!(answered(0, 0), Ok(()));
        assert!(MEANINGS.is_sorted_by(|(a, ..), (b, ..)| a < b));
        for &(number, reason, meaning) in MEANINGS {
            let refusal = Refusal { reason, offset: 0 };
            assert_eq!(refusal.number(), number);
            assert_eq!(answered(number, 0), Err(refusal));
            let at = if (4..=8).contains(&number) { " at byte 0" } else { "" };
            assert_eq!(refusal.to_string(), format!("refused {number}{at}: {meaning}"));
        }
    }

    /// The numbers that the header's enum gives, after 0 for none.
    #[test]
    fn the_numbers_are_the_headers() {
        let header = include_str!("../../include/just.h");
        let text =
            header.split("enum just_refusal {").nth(1).and_then(|text| text.split('}').next()).expect("the enum");
        let numbers = text.lines().filter_map(|line| line.split("= ").nth(1));
        let numbers: Vec<u32> = numbers
            .map(|text| text.chars().take_while(char::is_ascii_digit).collect::<String>().parse().expect("a number"))
            .collect();
        let known: Vec<u32> = [0].into_iter().chain(MEANINGS.iter().map(|row| row.0)).collect();
        assert_eq!(numbers, known);
    }

    #[test]
    fn the_byte_is_said() {
        let refusal = answered(6, 412).unwrap_err();
        assert_eq!(refusal, Refusal { reason: Reason::BadCluster, offset: 412 });
        assert_eq!(refusal.to_string(), "refused 6 at byte 412: a width cluster breaks its rule");
    }

    #[test]
    fn a_number_that_is_not_known_is_no_panic() {
        for number in [19, u32::MAX] {
            let refusal = answered(number, 0).unwrap_err();
            assert_eq!(refusal, Refusal { reason: Reason::Unknown(number), offset: 0 });
            assert_eq!(refusal.to_string(), format!("refused {number}: a refusal that is not known here"));
        }
    }
}

//! Pairs of tables (document 02, request 6/14): how many differences they have, and the list in lent rooms.

use crate::guarded::Guarded;
use crate::questions::Questions;
use crate::refused::{said, Refused};
use crate::tally::Tally;
use crate::{same, Outcome};
use just_raw::{Answer, Table};
use reference::difference::{Kind, Mark};
use reference::generate::{self, PairCase};
use reference::Difference;

/// What a run has to meet.
const IN_OTHER_BYTES: &str = "tables that mean the same in other bytes";
const ONE: &str = "tables with one difference";
const MANY: &str = "tables with more than 100 differences";
const FIRST_REFUSED: &str = "a pair of which the first table is refused";
const SECOND_REFUSED: &str = "a pair of which the second table is refused";
const UNLIKE_REFUSALS: &str = "a pair of which both tables are refused, not alike";
pub const MARKS: [&str; 6] = [IN_OTHER_BYTES, ONE, MANY, FIRST_REFUSED, SECOND_REFUSED, UNLIKE_REFUSALS];

/// In the order of their numbers.
const KINDS: [Kind; 5] = [Kind::Sizes, Kind::GlyphClass, Kind::Cell, Kind::WidthRecord, Kind::ActionList];

pub fn draw(seed: u64, index: u64) -> PairCase {
    generate::pair(seed, index)
}

/// A difference as the library stores it.
fn raw(difference: &Difference) -> just_raw::Difference {
    let kind = KINDS.iter().position(|kind| *kind == difference.kind).expect("a kind") as u16;
    let mark = match difference.mark {
        Mark::Changed => 0,
        Mark::OnlyFirst => 1,
        Mark::OnlySecond => 2,
    };
    let numbers = difference.numbers.map(|number| number as u16);
    just_raw::Difference { direction: difference.direction.index() as u16, kind, mark, numbers }
}

/// The same difference where first and second change places.
fn turned(difference: just_raw::Difference) -> just_raw::Difference {
    just_raw::Difference { mark: [0, 2, 1][usize::from(difference.mark)], ..difference }
}

/// Compares all that is said of a pair, both ways round.
pub fn compare(case: &PairCase, asked: &mut Questions, tally: &mut Tally) -> Outcome {
    let list = reference::differences(&case.first, &case.second, case.n).map_err(Refused::fault);
    let list = list.map(|list| list.iter().map(raw).collect::<Vec<_>>());
    note(case, &list, tally);
    let (first, second) = (Table { bytes: &case.first, glyph_count: case.n }, &case.second[..]);
    let count = list.as_ref().map(Vec::len).map_err(|&refused| refused);
    same("difference_count", counted(first.difference_count(second)), count)?;
    let length = count.unwrap_or(4);
    for room in [length, length.saturating_sub(1), 0, length + 7, case.room] {
        compare_room(first, second, &list, room, asked)?;
    }
    for numbers in [(5 * length).saturating_sub(1), 5 * length + 4] {
        compare_numbers(first, second, &list, numbers, asked)?;
    }
    let Ok(list) = list else { return Ok(()) };
    let sheets = [&case.first, &case.second].map(|table| reference::write_sheet(table, case.n));
    same("whether nothing differs, by the sheets", list.is_empty(), sheets[0] == sheets[1])?;
    let list = Ok(list.into_iter().map(turned).collect());
    compare_room(Table { bytes: second, ..first }, &case.first, &list, length, asked)
}

type List = Result<Vec<just_raw::Difference>, Refused>;

/// The list, or 16 where so much room does not hold it.
fn within(list: &List, room: usize) -> Result<&[just_raw::Difference], Refused> {
    match list {
        Ok(list) if list.len() <= room => Ok(list),
        Ok(_) => Err(Refused::plain(16)),
        Err(refused) => Err(*refused),
    }
}

/// The answer and every number of one room of noise, guards included.
fn compare_room(first: Table, second: &[u8], list: &List, room: usize, asked: &mut Questions) -> Outcome {
    let list = within(list, room);
    let noise = || {
        let [direction, kind, mark, one, two] = [(); 5].map(|_| asked.number() as u16);
        just_raw::Difference { direction, kind, mark, numbers: [one, two] }
    };
    let mut lent = Guarded::new(room, noise);
    let wanted = lent.clone().filled(list.into_iter().flatten().copied());
    let what = format!("differences with room for {room}");
    same(&what, counted(first.differences(second, lent.room())), list.map(<[_]>::len))?;
    lent.compare(&what, &wanted)
}

/// The same of a room of numbers that ends within a difference.
fn compare_numbers(first: Table, second: &[u8], list: &List, numbers: usize, asked: &mut Questions) -> Outcome {
    let list = within(list, numbers / 5);
    let mut lent = Guarded::new(numbers, || asked.number() as u16);
    let stored = list.into_iter().flatten().flat_map(|difference| {
        let just_raw::Difference { direction, kind, mark, numbers: [one, two] } = *difference;
        [direction, kind, mark, one, two]
    });
    let wanted = lent.clone().filled(stored);
    let what = format!("differences with room for {numbers} numbers");
    same(&what, counted(first.difference_numbers(second, lent.room())), list.map(<[_]>::len))?;
    lent.compare(&what, &wanted)
}

/// The count that an answer says, or its refusal.
fn counted(answer: Answer<u32>) -> Result<usize, Refused> {
    said(answer).map(|count| count as usize)
}

fn note(case: &PairCase, list: &List, tally: &mut Tally) {
    let refused = [&case.first, &case.second].map(|table| reference::check_table(table, case.n).err());
    let count = list.as_ref().map(Vec::len).ok();
    let met = [
        (IN_OTHER_BYTES, count == Some(0) && case.first != case.second),
        (ONE, count == Some(1)),
        (MANY, count.is_some_and(|count| count > 100)),
        (FIRST_REFUSED, refused[0].is_some() && refused[1].is_none()),
        (SECOND_REFUSED, refused[0].is_none() && refused[1].is_some()),
        (UNLIKE_REFUSALS, refused.iter().all(Option::is_some) && refused[0] != refused[1]),
    ];
    met.iter().filter(|(_, shown)| *shown).for_each(|(mark, _)| tally.note(mark.to_string()));
}

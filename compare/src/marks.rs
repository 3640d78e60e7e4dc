//! What a drawn line shows, by name, and how often a long run has to meet each.

use crate::tally::Tally;
use crate::{edges, finds, fonts, pairs};
use reference::generate::LineCase;
use reference::line::{classes_of, rooms_of, MOST_TOTAL, MOST_WIDTH};
use reference::meaning::DELETED;
use reference::share::STAGES;
use reference::{justify, read_table, totals, Fault, Justified};

/// How many lines a run has at least before marks are asked of it.
pub const LONG_RUN: u64 = 20_000;

/// The refusals of a line beside its table's, in their order.
pub const REFUSALS: [u32; 9] = [9, 10, 18, 11, 12, 13, 14, 15, 16];

const EDITIONS: [u32; 5] = [0, 1, 2, 3, u32::MAX];
const SIZES: [i64; 4] = [0, 1, 67_108_864, 67_108_865];
const PLACES: [usize; 3] = [0, 1_024, 1_025];
const WAYS: [&str; 2] = ["growing", "shrinking"];
const BESIDE: [&str; 3] = ["one below", "at", "one above"];
const BUFFERS: [&str; 5] = ["sizes", "advances", "classes", "before", "after"];
const FULL_FACTOR: &str = "a factor of 16 em at 1,024 pt";
const ROOMS: [&str; 3] = ["one short", "exact", "long"];

/// What an accepted line may show, and the test for it.
type Shown = (&'static str, fn(&LineCase, &Justified) -> bool);

const SHOWN: [Shown; 8] = [
    ("a line in one size", |case, _| case.sizes.len() > 1 && !in_two_sizes(case)),
    ("a line in two sizes", |case, _| in_two_sizes(case)),
    ("a walk that stays and ends", |case, answer| answer.entries > case.glyphs.len() as u64 + 1),
    ("a deleted glyph with a class", |case, answer| {
        case.glyphs.iter().zip(&answer.classes).any(|(&glyph, &class)| glyph == DELETED && class > 0)
    }),
    ("a remainder", |_, answer| answer.remainder != 0),
    ("left at the limits, growing", |_, answer| is_stretched(answer) && answer.remainder > 0),
    ("left at the limits, shrinking", |_, answer| is_stretched(answer) && answer.remainder < 0),
    ("a substituting verdict", |_, answer| answer.verdicts.iter().any(|verdict| verdict.substituting)),
];

/// Whether something moves.
fn is_stretched(answer: &Justified) -> bool {
    answer.before.iter().chain(&answer.after).any(|&units| units != 0)
}

fn in_two_sizes(case: &LineCase) -> bool {
    case.sizes.windows(2).any(|two| two[0] != two[1])
}

/// The sizes at and beside their limits, of glyphs that are not deleted and of deleted ones.
fn sizes() -> impl Iterator<Item = (i64, bool)> {
    SIZES.into_iter().flat_map(|size| [(size, false), (size, true)])
}

fn size_mark(size: i64, deleted: bool) -> String {
    format!("size {size}{}", if deleted { " of a deleted glyph" } else { "" })
}

fn widest_mark(way: &str, at_cap: bool) -> String {
    format!("the widest gap, {way}{}", if at_cap { ", and a total at the cap" } else { "" })
}

fn cap_mark(beside: &str, stage: usize) -> String {
    format!("a total of stage {stage} {beside} the cap")
}

fn gap_mark(way: &str, beside: &str, stage: usize) -> String {
    format!("{way} gap {beside} the totals of stages 0 to {stage}")
}

fn length_mark(buffer: &str, longer: bool) -> String {
    format!("{buffer} {} than glyphs", if longer { "longer" } else { "shorter" })
}

/// Every mark, and how often it is wanted.
pub fn wanted() -> Vec<(String, u64)> {
    let mut wanted: Vec<(String, u64)> = REFUSALS.iter().map(|number| (format!("refusal {number}"), 100)).collect();
    let mut want = |mark: String| wanted.push((mark, 20));
    EDITIONS.iter().for_each(|edition| want(format!("edition {edition}")));
    sizes().for_each(|(size, deleted)| want(size_mark(size, deleted)));
    PLACES.iter().for_each(|count| want(format!("{count} glyphs")));
    ROOMS.iter().for_each(|room| want(format!("room {room}")));
    SHOWN.iter().for_each(|(shown, _)| want(shown.to_string()));
    edges::marks().for_each(&mut want);
    finds::MARKS.iter().for_each(|mark| want(mark.to_string()));
    pairs::MARKS.iter().for_each(|mark| want(mark.to_string()));
    fonts::marks().into_iter().for_each(&mut want);
    for stage in 0..STAGES {
        BESIDE.iter().for_each(|beside| want(cap_mark(beside, stage)));
    }
    for buffer in BUFFERS {
        [false, true].iter().for_each(|&longer| want(length_mark(buffer, longer)));
    }
    want(FULL_FACTOR.into());
    for way in WAYS {
        [false, true].iter().for_each(|&at_cap| want(widest_mark(way, at_cap)));
        for stage in 0..STAGES {
            BESIDE.iter().for_each(|beside| want(gap_mark(way, beside, stage)));
        }
    }
    wanted
}

/// Notes what a line shows.
pub fn note(case: &LineCase, second: &Result<Justified, Fault>, tally: &mut Tally) {
    match second {
        Ok(answer) => {
            tally.note("accepted".into());
            let shown = SHOWN.iter().filter(|(_, shows)| shows(case, answer));
            shown.for_each(|(shown, _)| tally.note(shown.to_string()));
        }
        Err(fault) => tally.note(format!("refusal {}", fault.number)),
    }
    tally.note(format!("edition {}", case.edition));
    for (size, deleted) in sizes() {
        let mut places = case.sizes.iter().zip(&case.glyphs);
        if places.any(|(&own, &glyph)| own == size && (glyph == DELETED) == deleted) {
            tally.note(size_mark(size, deleted));
        }
    }
    if PLACES.contains(&case.glyphs.len()) {
        tally.note(format!("{} glyphs", case.glyphs.len()));
    }
    match second.as_ref().map_err(|fault| fault.number) {
        Err(9) => note_lengths(case, tally),
        Ok(_) | Err(15 | 16) => {
            note_room(case, tally);
            note_totals(case, tally);
        }
        Err(_) => {}
    }
}

fn note_lengths(case: &LineCase, tally: &mut Tally) {
    let lengths = [case.sizes.len(), case.advances.len(), case.classes_len, case.before_len, case.after_len];
    for (buffer, length) in BUFFERS.iter().zip(lengths) {
        if length != case.glyphs.len() {
            tally.note(length_mark(buffer, length > case.glyphs.len()));
        }
    }
}

fn note_room(case: &LineCase, tally: &mut Tally) {
    let all = justify(&case.input(), case.classes_len, case.before_len, case.after_len, usize::MAX);
    let fired = all.map_or(0, |answer| answer.verdicts.len());
    if fired > 0 && case.room + 1 >= fired {
        tally.note(format!("room {}", ROOMS[(case.room + 1 - fired).min(2)]));
    }
}

/// How a number stands beside another: one below, at it or one above.
fn beside(number: u64, of: u64) -> Option<&'static str> {
    BESIDE.get((number + 1).checked_sub(of)? as usize).copied()
}

fn note_totals(case: &LineCase, tally: &mut Tally) {
    let Ok(table) = read_table(&case.table, case.n) else { return };
    let line = case.line();
    let Some((classes, _)) = classes_of(&table, &line) else { return };
    let gap = case.target - case.advances.iter().sum::<i64>();
    let rooms = rooms_of(&table, &line, &classes, gap >= 0);
    let totals = totals(&rooms);
    let way = WAYS[usize::from(gap < 0)];
    if rooms.iter().flatten().any(|room| room.before.max(room.after) == 1 << 30) {
        tally.note(FULL_FACTOR.into());
    }
    if gap.abs() == MOST_WIDTH {
        tally.note(widest_mark(way, totals.contains(&MOST_TOTAL)));
    }
    let mut so_far = 0;
    for (stage, total) in totals.into_iter().enumerate() {
        if let Some(beside) = beside(total, MOST_TOTAL) {
            tally.note(cap_mark(beside, stage));
        }
        so_far += total;
        if let (true, Some(beside)) = (total > 0, beside(gap.unsigned_abs(), so_far)) {
            tally.note(gap_mark(way, beside, stage));
        }
    }
}

//! Document 01's sample lines, lines at each limit, and lines of document 02's requests, with the values that the pages state.

use crate::drafts::{self, empty, grows, machine, table};
use crate::{lines, questions::Questions, Outcome};
use reference::examples::Fields;
use reference::generate::LineCase;
use reference::meaning::LIMIT;
use reference::one_size;
use std::sync::LazyLock;

const POINT: i64 = 65_536;
const HALF_EM: i64 = 393_216; // at 12 pt
const WIDEST: i64 = 1_073_741_823;

/// What the page says of a line: its refusal, or its movements before and after, the remainder and how many verdicts.
#[derive(Clone, Debug, PartialEq)]
pub enum Says {
    Refused(u32),
    Moves(Vec<i64>, Vec<i64>, i64, usize),
}

pub struct Sample {
    pub name: &'static str,
    pub case: LineCase,
    pub says: Says,
}

/// A line of advances 0 with ample room for verdicts.
fn line(table: Vec<u8>, n: u32, glyphs: &[u16], target: i64, size: i64) -> LineCase {
    LineCase { target, sizes: one_size(size, glyphs.len()), room: 8, ..drafts::line(table, n, glyphs.to_vec()) }
}

fn with(mut case: LineCase, change: impl FnOnce(&mut LineCase)) -> LineCase {
    change(&mut case);
    case
}

/// One glyph on the empty table.
fn bare() -> LineCase {
    line(empty(), 1, &[0], 0, POINT)
}

/// Sides of one priority with factors 3, 3, 3 at one point, and a gap.
fn threes(priority: u16, gap: i64) -> LineCase {
    line(table(&[grows(3, 3, priority), grows(3, 0, priority)], &[], &[]), 2, &[0, 1], gap, POINT)
}

fn of_edition(edition: u32, case: LineCase) -> LineCase {
    LineCase { edition, ..case }
}

/// The line with other sizes.
fn sized(case: LineCase, sizes: &[i64]) -> LineCase {
    LineCase { sizes: sizes.to_vec(), ..case }
}

/// Unlimited glyphs of these sizes, ligatures that break outside 0 to 0.5 em.
fn ligatures(sizes: &[i64], gap: i64) -> LineCase {
    let list = Fields::new().l(1).ws(&[0, 0]).l(24).l(0).l(32_768).ws(&[0, 1, 0, 0]).done();
    sized(line(table(&[grows(0, 0, 0x1000)], &list, &[]), 1, &vec![0; sizes.len()], gap, POINT), sizes)
}

fn ligature(gap: i64) -> LineCase {
    ligatures(&[12 * POINT], gap)
}

/// Eight sides of 16 em at 1,024 pt are the cap of a stage's total; one unit of an em more is above it.
fn cap(priority: u16, past: bool) -> LineCase {
    let records = [grows(LIMIT, LIMIT, priority), grows(0, 1, priority)];
    line(table(&records, &[], &[]), 2, if past { &[0, 0, 0, 0, 1] } else { &[0, 0, 0, 0] }, 0, 67_108_864)
}

/// An entry of row 1 that stays and leads to row 1.
fn endless(starts: bool) -> LineCase {
    let machine = machine(&[[0; 4], [0, 1, 0, 0]], &[(0, 0), (1, 0x4000)]);
    with(line(table(&[], &[], &machine), 1, &[0], 0, POINT), |case| case.starts = starts)
}

fn sharing() -> Vec<(&'static str, LineCase, Says)> {
    let tall = table(&[grows(0, 163_840, 0), grows(0, 163_840, 1)], &[], &[]);
    let flat = table(&[grows(0, 0, 0)], &[], &[]);
    let open = table(&[grows(0, 0, 0x1001)], &[], &[]);
    let breaks = Says::Moves(vec![0], vec![HALF_EM + 1], 0, 1);
    vec![
        ("2.5 em at 12 pt", line(tall, 2, &[0, 1], 1_966_081, 12 * POINT), moves(&[0, 0], &[1_966_080, 1])),
        ("factors 3, 3, 3, gap 7", threes(0, 7), moves(&[2, 3], &[2, 0])),
        ("factors 3, 3, 3, gap 9", threes(0, 9), moves(&[3, 3], &[3, 0])),
        ("factors 3, 3, 3, gap 10", threes(0, 10), moves(&[3, 4], &[3, 0])),
        ("all factors 0", line(flat, 1, &[0, 0], 5, POINT), Says::Moves(vec![0, 0], vec![0, 0], 5, 0)),
        ("two unlimited", line(open, 2, &[0, 1, 0], 5, POINT), moves(&[0, 0, 0], &[2, 0, 3])),
        ("half an em keeps the ligature", ligature(HALF_EM), moves(&[0], &[HALF_EM])),
        ("one unit more breaks it", ligature(HALF_EM + 1), breaks.clone()),
        ("an empty line", line(empty(), 1, &[], 4, POINT), Says::Moves(vec![], vec![], 4, 0)),
        ("the walk starts elsewhere", endless(true), moves(&[0], &[0])),
        ("a total at the cap", cap(2, false), moves(&[0; 4], &[0; 4])),
        ("room for just that verdict", with(ligature(HALF_EM + 1), |case| case.room = 1), breaks),
        ("the smallest size", with(bare(), |case| case.sizes[0] = 1), moves(&[0], &[0])),
        ("the greatest size", with(bare(), |case| case.sizes[0] = 67_108_864), moves(&[0], &[0])),
        ("1,024 glyphs", line(empty(), 1, &[0; 1_024], 0, POINT), moves(&[0; 1_024], &[0; 1_024])),
        ("a deleted glyph", with(bare(), |case| case.glyphs[0] = 0xFFFF), moves(&[0], &[0])),
        ("the widest line", with(bare(), |case| (case.advances[0], case.target) = (WIDEST, WIDEST)), moves(&[0], &[0])),
    ]
}

/// Lines of document 02, request 2/14.
fn null_priority() -> Vec<(&'static str, LineCase, Says)> {
    let after_others = table(&[grows(1, 5, 3), grows(0, 4, 0)], &[], &[]);
    let open = table(&[grows(0, 0, 0x1003)], &[], &[]);
    vec![
        ("stage 3 alone, gap 7", threes(3, 7), moves(&[2, 3], &[2, 0])),
        ("stage 3 alone, gone back to", threes(3, 10), moves(&[3, 4], &[3, 0])),
        ("stage 3 after stage 0", line(after_others, 2, &[0, 1], 7, POINT), moves(&[0, 0], &[3, 4])),
        ("two unlimited of priority 3", line(open, 2, &[0, 1, 0], 5, POINT), moves(&[0, 0, 0], &[2, 0, 3])),
        ("a total of stage 3 at the cap", cap(3, false), moves(&[0; 4], &[0; 4])),
    ]
}

/// Lines of document 02, request 5/14. Half an em is 458,752 at 14 pt and 294,912 at 9 pt.
fn two_sizes() -> Vec<(&'static str, LineCase, Says)> {
    let (headword, gloss) = (14 * POINT, 9 * POINT);
    let halves = |sizes| sized(line(table(&[grows(0, 32_768, 0)], &[], &[]), 1, &[0, 0], 23, POINT), sizes);
    let broken = Says::Moves(vec![0, 0], vec![300_000, 300_000], 0, 1);
    vec![
        ("half an em at 14 and at 9 pt", halves(&[headword, gloss]), moves(&[0, 0], &[14, 9])),
        ("half an em at 9 and at 14 pt", halves(&[gloss, headword]), moves(&[0, 0], &[9, 14])),
        ("of two ligatures that at 9 pt breaks", ligatures(&[headword, gloss], 600_000), broken),
        ("an empty line has no size", line(empty(), 1, &[], 0, 0), moves(&[], &[])),
    ]
}

/// Lines of document 02, request 7/14: each is the second edition's.
fn within_limits() -> Vec<(&'static str, LineCase, Says)> {
    let open = table(&[grows(0, 0, 0x1001)], &[], &[]);
    let one_left = Says::Moves(vec![3, 3], vec![3, 0], 1, 0);
    let answered = vec![
        ("within the limits, gap 7", threes(0, 7), moves(&[2, 3], &[2, 0])),
        ("within the limits, gap 9", threes(0, 9), moves(&[3, 3], &[3, 0])),
        ("within the limits, gap 10", threes(0, 10), one_left.clone()),
        ("within the limits of stage 3, gap 10", threes(3, 10), one_left),
        ("unlimited within the limits", line(open, 2, &[0, 1, 0], 5, POINT), moves(&[0, 0, 0], &[2, 0, 3])),
        ("an empty line, within the limits", line(empty(), 1, &[], 4, POINT), Says::Moves(vec![], vec![], 4, 0)),
    ];
    answered.into_iter().map(|(name, case, says)| (name, of_edition(2, case), says)).collect()
}

/// Movements with no remainder and no verdict.
fn moves(before: &[i64], after: &[i64]) -> Says {
    Says::Moves(before.to_vec(), after.to_vec(), 0, 0)
}

fn refusals() -> Vec<(&'static str, LineCase, u32)> {
    let pair = line(empty(), 1, &[0, 0], 0, POINT);
    vec![
        ("fewer advances", with(bare(), |case| case.advances.clear()), 9),
        ("fewer classes", with(bare(), |case| case.classes_len = 0), 9),
        ("more movements before", with(bare(), |case| case.before_len = 2), 9),
        ("fewer movements after", with(bare(), |case| case.after_len = 0), 9),
        ("1,025 glyphs", line(empty(), 1, &[0; 1_025], 0, POINT), 10),
        ("edition 0", of_edition(0, bare()), 18),
        ("edition 3", of_edition(3, bare()), 18),
        ("edition 2^32 - 1", of_edition(u32::MAX, bare()), 18),
        ("edition 0 of an empty line", of_edition(0, line(empty(), 1, &[], 0, POINT)), 18),
        ("glyphs before the edition", of_edition(0, line(empty(), 1, &[0; 1_025], 0, POINT)), 10),
        ("edition before size", of_edition(0, line(empty(), 1, &[0], 0, 0)), 18),
        ("a total above the cap, within the limits", of_edition(2, cap(2, true)), 15),
        ("size 0", with(bare(), |case| case.sizes[0] = 0), 11),
        ("size 67,108,865", with(bare(), |case| case.sizes[0] = 67_108_865), 11),
        ("size 0 at the second glyph", with(pair.clone(), |case| case.sizes[1] = 0), 11),
        ("size 0 of a deleted glyph", with(pair.clone(), |case| (case.sizes[1], case.glyphs[1]) = (0, 0xFFFF)), 11),
        ("fewer sizes, one of them 0", with(pair.clone(), |case| case.sizes = vec![0]), 9),
        ("a size more", with(line(empty(), 1, &[], 0, POINT), |case| case.sizes = vec![POINT]), 9),
        ("advances 5 and -5", with(pair.clone(), |case| case.advances = vec![5, -5]), 12),
        ("a sum of 2^30", with(pair, |case| case.advances = vec![WIDEST, 1]), 12),
        ("target -1", with(bare(), |case| case.target = -1), 12),
        ("glyph N", with(bare(), |case| case.glyphs[0] = 1), 13),
        ("an endless walk", endless(false), 14),
        ("a total above the cap", cap(2, true), 15),
        ("a total of stage 3 above the cap", cap(3, true), 15),
        ("no room for the verdict", with(ligature(HALF_EM + 1), |case| case.room = 0), 16),
        ("size before advances", with(bare(), |case| (case.sizes[0], case.target) = (0, -1)), 11),
    ]
}

/// All samples, in a fixed order.
pub static ALL: LazyLock<Vec<Sample>> = LazyLock::new(|| {
    let refused = refusals().into_iter().map(|(name, case, number)| (name, case, Says::Refused(number)));
    let answered = sharing().into_iter().chain(null_priority()).chain(two_sizes()).chain(within_limits());
    answered.chain(refused).map(|(name, case, says)| Sample { name, case, says }).collect()
});

/// The second program says what the page says, and the library what the second program says.
pub fn compare(sample: &Sample, asked: &mut Questions) -> Outcome {
    let second = sample.case.justify();
    let answered = match &second {
        Ok(answer) => Says::Moves(answer.before.clone(), answer.after.clone(), answer.remainder, answer.verdicts.len()),
        Err(fault) => Says::Refused(fault.number),
    };
    if answered != sample.says {
        return Err(format!("{}: the page says {:?}, the second program {answered:?}", sample.name, sample.says));
    }
    lines::compare(&sample.case, &second, asked).map_err(|difference| format!("{}: {difference}", sample.name))
}

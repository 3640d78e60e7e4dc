//! Lines: a table, a line on it, and the lent lengths; some with a fault.

use super::greatest;
use super::parts::{Style, ALL_PRIORITIES};
use super::rng::Rng;
use super::tables;
use crate::actions;
use crate::bytes::Fault;
use crate::line::{classes_of, justify, one_size, rooms_of, Justified, Line, LineInput, MOST_SIZE, MOST_WIDTH};
use crate::meaning::{Direction, DELETED};
use crate::share::totals;
use crate::table::read_table;

/// All that a line's call is given.
#[derive(Clone, Debug)]
pub struct LineCase {
    pub table: Vec<u8>,
    pub n: u32,
    pub direction: Direction,
    pub starts: bool,
    pub ends: bool,
    pub edition: u32,
    pub sizes: Vec<i64>,
    pub glyphs: Vec<u16>,
    pub advances: Vec<i64>,
    pub target: i64,
    pub classes_len: usize,
    pub before_len: usize,
    pub after_len: usize,
    pub room: usize,
}

impl LineCase {
    pub fn line(&self) -> Line<'_> {
        Line {
            direction: self.direction,
            starts: self.starts,
            ends: self.ends,
            edition: self.edition,
            sizes: &self.sizes,
            glyphs: &self.glyphs,
            advances: &self.advances,
            target: self.target,
        }
    }

    pub fn input(&self) -> LineInput<'_> {
        LineInput { table: &self.table, n: self.n, line: self.line() }
    }

    /// The answer to the call.
    pub fn justify(&self) -> Result<Justified, Fault> {
        justify(&self.input(), self.classes_len, self.before_len, self.after_len, self.room)
    }
}

/// What a draw aims at; what comes out is for the call to say.
#[derive(Clone, Copy, PartialEq)]
enum Aim {
    Sound,
    Table,
    Lengths,
    Places,
    Edition,
    Size,
    Width,
    Glyph,
    Stay,
    Wide,
    Greatest,
    Room,
}

const AIMS: [(Aim, u64); 12] = [
    (Aim::Sound, 42),
    (Aim::Table, 8),
    (Aim::Lengths, 6),
    (Aim::Places, 3),
    (Aim::Edition, 3),
    (Aim::Size, 5),
    (Aim::Width, 7),
    (Aim::Glyph, 5),
    (Aim::Stay, 8),
    (Aim::Wide, 8),
    (Aim::Greatest, 8),
    (Aim::Room, 7),
];

/// A line.
pub fn draw(rng: &mut Rng) -> LineCase {
    let aim = AIMS[rng.weighted(&AIMS.map(|(_, weight)| weight))].0;
    let mut case = if aim == Aim::Greatest { greatest::draw(rng) } else { fitting(rng, aim) };
    if rng.chance(40) {
        sharpen(rng, &mut case);
    }
    let fired = count_fired(&case);
    case.room = match rng.below(4) {
        0 => fired,
        1 => fired + 1,
        _ => fired + rng.below(20) as usize,
    };
    spoil(rng, &mut case, aim, fired);
    if rng.chance(4) {
        // A second fault, so that the order of refusals shows.
        let other = AIMS[rng.below(AIMS.len() as u64) as usize].0;
        spoil(rng, &mut case, other, fired);
    }
    case
}

/// A sound line. Where the verdict list is to be too short, some verdict
/// should fire.
fn fitting(rng: &mut Rng, aim: Aim) -> LineCase {
    let mut tries = if aim == Aim::Room { 12 } else { 1 };
    loop {
        let mut case = plain(rng, aim);
        choose_target(rng, &mut case, aim);
        tries -= 1;
        if tries == 0 || count_fired(&case) > 0 {
            return case;
        }
    }
}

/// How many verdicts fire, whatever the room.
fn count_fired(case: &LineCase) -> usize {
    unbounded(case).map_or(0, |answer| answer.verdicts.len())
}

fn unbounded(case: &LineCase) -> Result<Justified, Fault> {
    justify(&case.input(), case.classes_len, case.before_len, case.after_len, usize::MAX)
}

fn plain(rng: &mut Rng, aim: Aim) -> LineCase {
    let (table, n) = table_for(rng, aim);
    let count = match aim {
        Aim::Wide => rng.between(2, 7) as usize,
        Aim::Places => rng.pick(&[1_023, 1_024, 1_025, 1_030]),
        _ => match rng.weighted(&[8, 70, 19, 2, 1]) {
            0 => 0,
            1 => rng.between(1, 12) as usize,
            2 => rng.between(13, 60) as usize,
            3 => rng.between(61, 1_024) as usize,
            _ => 1_024,
        },
    };
    let glyphs: Vec<u16> = (0..count).map(|_| glyph(rng, n)).collect();
    let advances = advances(rng, count);
    LineCase {
        table,
        n,
        direction: rng.pick(&Direction::BOTH),
        starts: rng.chance(50),
        ends: rng.chance(50),
        edition: edition(rng),
        sizes: sizes(rng, aim, count),
        glyphs,
        advances,
        target: 0,
        classes_len: count,
        before_len: count,
        after_len: count,
        room: 0,
    }
}

fn table_for(rng: &mut Rng, aim: Aim) -> (Vec<u8>, u32) {
    if aim == Aim::Table {
        return tables::draw(rng);
    }
    let (n, most_units) = match rng.weighted(&[77, 15, 5, 3]) {
        0 => (rng.between(1, 12) as u32, 0),
        1 => (rng.between(13, 300) as u32, 0),
        2 => (tables::glyph_count(rng), 0),
        _ => (tables::long_glyph_count(rng), Style::LONG.most_units),
    };
    let priorities = priorities(rng, aim);
    let style = match aim {
        Aim::Stay => Style { stays: 50, priorities, ..Style::LINE },
        Aim::Wide => Style { wide: true, stays: 2, priorities, ..Style::LINE },
        _ => Style { stays: rng.pick(&[0, 4, 10]), priorities, ..Style::LINE },
    };
    (tables::sound(rng, n, Style { most_units, ..style }).bytes, n)
}

/// All priorities, or the null priority alone or with one other. A wide line
/// has few, so that one stage's total may pass its cap.
fn priorities(rng: &mut Rng, aim: Aim) -> &'static [u32] {
    const NULL_AND_ONE: [&[u32]; 4] = [&[3], &[0, 3], &[1, 3], &[2, 3]];
    match aim {
        Aim::Wide => rng.pick(&[&[0, 1], &[0, 1], &[2, 3], &[3]]),
        _ if rng.chance(60) => ALL_PRIORITIES,
        _ => rng.pick(&NULL_AND_ONE),
    }
}

fn glyph(rng: &mut Rng, n: u32) -> u16 {
    let n = n.clamp(1, 0xFFFF);
    match rng.weighted(&[8, 5, 87]) {
        0 => DELETED,
        1 => (n - 1) as u16,
        _ => rng.below(n as u64) as u16,
    }
}

/// Either edition.
pub fn edition(rng: &mut Rng) -> u32 {
    rng.pick(&[1, 2])
}

/// One size for the whole line, two sizes in stretches or mixed, or a size of
/// its own for each glyph.
fn sizes(rng: &mut Rng, aim: Aim, count: usize) -> Vec<i64> {
    let two = [size(rng, aim), size(rng, aim)];
    match rng.weighted(&[40, 25, 20, 15]) {
        0 => one_size(two[0], count),
        1 => {
            let turn = rng.below(count as u64 + 1) as usize;
            (0..count).map(|place| two[(place >= turn) as usize]).collect()
        }
        2 => (0..count).map(|_| rng.pick(&two)).collect(),
        _ => (0..count).map(|_| size(rng, aim)).collect(),
    }
}

fn size(rng: &mut Rng, aim: Aim) -> i64 {
    if aim == Aim::Wide {
        return rng.pick(&[MOST_SIZE, MOST_SIZE, MOST_SIZE - 1, MOST_SIZE / 2]);
    }
    match rng.weighted(&[50, 10, 20, 5, 15]) {
        0 => 786_432,
        1 => rng.pick(&[1, 2, 65_535, 65_536, 65_536, 65_536, 65_537]),
        2 => rng.between(1, 20) as i64 * 65_536,
        3 => MOST_SIZE,
        _ => rng.between(1, MOST_SIZE as u64) as i64,
    }
}

fn advances(rng: &mut Rng, count: usize) -> Vec<i64> {
    let most = match rng.weighted(&[20, 60, 20]) {
        0 => 0,
        1 => 1_000_000,
        _ => MOST_WIDTH as u64 / count.max(1) as u64,
    };
    (0..count).map(|_| rng.below(most + 1) as i64).collect()
}

/// Chooses the target for a gap worth trying: none, small, at the totals of
/// the stages or one beside them, far past them, or anything.
fn choose_target(rng: &mut Rng, case: &mut LineCase, aim: Aim) {
    let sum: i64 = case.advances.iter().sum();
    let grow = rng.chance(50);
    let none = if aim == Aim::Wide { 40 } else { 6 };
    let gap = match rng.weighted(&[none, 12, 52, 20, 10]) {
        0 => 0,
        1 => rng.below(10) as i64,
        2 => rng.pick(&landmarks(case, grow)) + rng.below(3) as i64 - 1,
        3 => (rng.below(1 << 30) >> rng.below(26)) as i64,
        _ if grow => MOST_WIDTH - sum,
        _ => sum,
    };
    let gap = if grow { gap } else { -gap };
    case.target = (sum + gap).clamp(0, MOST_WIDTH);
    // A shrinking line needs advances to shrink; widen one where they fall short.
    if sum + gap < 0 {
        if let Some(last) = case.advances.last_mut() {
            *last = (*last - (sum + gap)).min(MOST_WIDTH - (sum - *last));
        }
    }
}

/// The sums of the stages' totals so far, places within each stage, and one
/// past all of them.
fn landmarks(case: &LineCase, grow: bool) -> Vec<i64> {
    let Ok(table) = read_table(&case.table, case.n) else { return vec![1] };
    let Some((classes, _)) = classes_of(&table, &case.line()) else { return vec![1] };
    let mut gaps = Vec::new();
    let mut so_far = 0;
    for total in totals(&rooms_of(&table, &case.line(), &classes, grow)) {
        gaps.extend([so_far + total, so_far + total, so_far + total / 2]);
        so_far += total;
    }
    gaps.push(so_far + so_far / 2 + 7);
    gaps.into_iter().map(|gap| gap.min(1 << 40) as i64).collect()
}

/// Moves one limit or threshold of an action right to the growth of its glyph,
/// or beside it. Nothing but verdicts can change.
fn sharpen(rng: &mut Rng, case: &mut LineCase) {
    let Ok(answer) = unbounded(case) else { return };
    let Ok(table) = read_table(&case.table, case.n) else { return };
    let mut found = Vec::new();
    for (place, &glyph) in case.glyphs.iter().enumerate().filter(|&(_, &glyph)| glyph != DELETED) {
        let Some(list) = table.list_at(case.direction, glyph as u32) else { continue };
        let own = actions::list(table.bytes(), list).filter(|a| a.class == answer.classes[place] as u16);
        for action in own.filter(|a| a.kind == 0 || a.kind == 2) {
            let growth = answer.before[place] + answer.after[place];
            found.push((action.at as usize, action.kind, growth, case.sizes[place]));
        }
    }
    if found.is_empty() {
        return;
    }
    let growing: Vec<_> = found.iter().copied().filter(|&(_, kind, growth, _)| kind == 2 && growth > 0).collect();
    let (at, kind, growth, size) = rng.pick(if growing.is_empty() { &found } else { &growing });
    let at = if kind == 0 && rng.chance(50) { at + 4 } else { at };
    let ems = (growth as i128 * 65_536).div_euclid(size as i128) + rng.pick(&[0, 0, 0, 1, -1]);
    if let Ok(ems) = i32::try_from(ems) {
        case.table[at..at + 4].copy_from_slice(&ems.to_be_bytes());
    }
}

/// Brings in the fault that is aimed at.
fn spoil(rng: &mut Rng, case: &mut LineCase, aim: Aim, fired: usize) {
    match aim {
        Aim::Lengths => spoil_lengths(rng, case),
        Aim::Edition => case.edition = rng.pick(&[0, 3, u32::MAX]),
        Aim::Size => spoil_size(rng, case),
        Aim::Width => spoil_width(rng, case),
        Aim::Glyph => spoil_glyph(rng, case),
        Aim::Room => case.room = fired.saturating_sub(rng.between(1, 2) as usize),
        _ => {}
    }
}

/// Gives one glyph, often a deleted one, a size at or past its limits; an empty
/// line has none to spoil.
fn spoil_size(rng: &mut Rng, case: &mut LineCase) {
    let deleted: Vec<usize> = (0..case.glyphs.len()).filter(|&place| case.glyphs[place] == DELETED).collect();
    let place = if !deleted.is_empty() && rng.chance(40) {
        rng.pick(&deleted)
    } else {
        rng.below(case.sizes.len().max(1) as u64) as usize
    };
    let bad = rng.pick(&[0, MOST_SIZE + 1, 0, MOST_SIZE + 1, -1, i64::from(i32::MAX), i64::from(i32::MIN)]);
    let value = if rng.chance(90) { bad } else { rng.pick(&[1, MOST_SIZE]) };
    if let Some(size) = case.sizes.get_mut(place) {
        *size = value;
    }
}

fn spoil_lengths(rng: &mut Rng, case: &mut LineCase) {
    let off = |rng: &mut Rng, length: usize| if length > 0 && rng.chance(50) { length - 1 } else { length + 1 };
    match rng.below(7) {
        0 => case.classes_len = off(rng, case.classes_len),
        1 => case.before_len = off(rng, case.before_len),
        2 => case.after_len = off(rng, case.after_len),
        3 => case.advances.push(0),
        4 => case.sizes.push(65_536),
        5 => drop(case.sizes.pop()),
        _ => case.glyphs.push(0),
    }
}

fn spoil_width(rng: &mut Rng, case: &mut LineCase) {
    let count = case.advances.len();
    match rng.below(4) {
        0 => case.target = rng.pick(&[-1, MOST_WIDTH + 1, i64::from(i32::MIN), MOST_WIDTH]),
        1 if count > 0 => {
            let place = rng.below(count as u64) as usize;
            case.advances[place] = rng.pick(&[-1, MOST_WIDTH + 1, i64::from(i32::MIN), i64::from(i32::MAX)]);
        }
        2 if count > 1 => {
            // One negative advance that the others make up for.
            case.advances[0] = -5;
            case.advances[1] = 5;
        }
        _ if count > 1 => {
            // Each advance is within the limit; the sum is at it or one past.
            case.advances.iter_mut().for_each(|advance| *advance = 0);
            case.advances[0] = MOST_WIDTH - 10;
            case.advances[count - 1] = rng.pick(&[10, 11]);
        }
        _ => case.target = -1,
    }
}

fn spoil_glyph(rng: &mut Rng, case: &mut LineCase) {
    let n = case.n;
    let bad = rng.pick(&[n, n.saturating_add(1), 0xFFFE]);
    if let (false, true) = (case.glyphs.is_empty(), bad < 0xFFFF) {
        let place = rng.below(case.glyphs.len() as u64) as usize;
        case.glyphs[place] = bad as u16;
    }
}

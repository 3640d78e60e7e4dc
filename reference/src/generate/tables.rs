//! Whole tables: sound ones in any layout, and spoiled ones.

use super::draft::{Draft, Kind, Mark};
use super::parts::{self, LookupDraft, Style};
use super::rng::Rng;
use crate::meaning::LIMIT;
use crate::table::{check_table, MOST_GLYPHS, MOST_LENGTH};

/// A glyph count: mostly small, sometimes as great as it can be.
pub fn glyph_count(rng: &mut Rng) -> u32 {
    match rng.weighted(&[6, 45, 25, 8, 5, 11]) {
        0 => 1,
        1 => rng.between(2, 12) as u32,
        2 => rng.between(13, 300) as u32,
        3 => rng.between(301, 5_000) as u32,
        4 => rng.pick(&[MOST_GLYPHS, MOST_GLYPHS - 1]),
        _ => rng.between(1, MOST_GLYPHS as u64) as u32,
    }
}

/// A glyph count for long lookups: their units may all be below it, or hardly
/// any.
pub fn long_glyph_count(rng: &mut Rng) -> u32 {
    match rng.weighted(&[30, 5, 30, 35]) {
        0 => rng.pick(&[MOST_GLYPHS, MOST_GLYPHS - 1]),
        1 => rng.between(1, 12) as u32,
        2 => rng.between(13, 5_000) as u32,
        _ => rng.between(1, MOST_GLYPHS as u64) as u32,
    }
}

/// The places of parts that a later direction may use again.
#[derive(Default)]
struct Places {
    directions: Vec<usize>,
    machines: Vec<usize>,
    clusters: Vec<usize>,
    actions: Vec<usize>,
}

/// A table that keeps every rule.
pub fn sound(rng: &mut Rng, n: u32, style: Style) -> Draft {
    let mut style = style;
    loop {
        let draft = compose(rng, n, style);
        if draft.len() <= MOST_LENGTH {
            return draft;
        }
        style = Style { large: false, most_units: style.most_units / 2, ..style };
    }
}

fn compose(rng: &mut Rng, n: u32, style: Style) -> Draft {
    let mut table = Draft::default();
    table.put(Kind::Version, 4, 0x0001_0000);
    table.put(Kind::Format, 2, 0);
    let offsets = [table.put(Kind::DirectionOffset, 2, 0), table.put(Kind::DirectionOffset, 2, 0)];
    let mut places = Places::default();
    for at in offsets {
        let absent = if style.dense { 3 } else { 30 };
        let offset = if rng.chance(absent) {
            0
        } else if !places.directions.is_empty() && rng.chance(15) {
            rng.pick(&places.directions)
        } else {
            direction(rng, &mut table, n, style, &mut places)
        };
        table.set(at, 2, offset as u32);
    }
    pad(rng, &mut table, style);
    table
}

/// Bytes after all parts: mostly none, sometimes up to the greatest length.
fn pad(rng: &mut Rng, table: &mut Draft, style: Style) {
    let room = MOST_LENGTH.saturating_sub(table.len());
    let count = match rng.weighted(&[70, 28, if style.large { 2 } else { 0 }]) {
        0 => 0,
        1 => room.min(rng.below(9) as usize),
        _ => room,
    };
    table.garbage(rng, count);
}

/// What stands in the table for one direction.
enum Piece {
    Direction(Draft),
    Machine(Draft),
    Clusters(Draft, Vec<usize>),
    Actions(Draft),
}

/// Puts one direction down and gives its place.
fn direction(rng: &mut Rng, table: &mut Draft, n: u32, style: Style, places: &mut Places) -> usize {
    let (machine, new_machine) = reuse_or_new(rng, &places.machines, 35, style);
    let (actions, new_actions) = reuse_or_new(rng, &places.actions, 35, style);
    let mut pieces = Vec::new();
    if new_machine {
        pieces.push(Piece::Machine(parts::machine(rng, n, style)));
    }
    if new_actions {
        pieces.push(Piece::Actions(parts::action_part(rng, n, style)));
    }
    let old: Vec<usize> = if rng.chance(30) { places.clusters.clone() } else { Vec::new() };
    let fresh = cluster_pieces(rng, style);
    let count = old.len() + fresh.iter().map(|(_, inner)| inner.len()).sum::<usize>();
    pieces.extend(fresh.into_iter().map(|(draft, inner)| Piece::Clusters(draft, inner)));
    let LookupDraft { draft: lookup, choices } = parts::lookup(rng, n, style, count);
    let mut head = Draft::default();
    for _ in 0..3 {
        head.put(Kind::PartOffset, 2, 0);
    }
    head.append(&lookup);
    pieces.insert(0, Piece::Direction(head));
    if rng.chance(60) {
        rng.shuffle(&mut pieces);
    }
    let mut clusters = old;
    let (mut here, mut machine, mut actions) = (0, machine, actions);
    for piece in &pieces {
        let gap = if rng.chance(60) { table.len().next_multiple_of(4) - table.len() } else { rng.below(4) as usize };
        table.garbage(rng, gap);
        match piece {
            Piece::Direction(draft) => here = table.append(draft),
            Piece::Machine(draft) => machine = table.append(draft),
            Piece::Actions(draft) => actions = table.append(draft),
            Piece::Clusters(draft, inner) => {
                let start = table.append(draft);
                clusters.extend(inner.iter().map(|place| start + place));
            }
        }
    }
    let used = choices.iter().map(|&(_, part)| clusters[part]).min();
    let base = cluster_base(rng, used);
    table.set(here, 2, machine as u32);
    table.set(here + 2, 2, base as u32);
    table.set(here + 4, 2, actions as u32);
    for (at, part) in choices {
        table.set(here + 6 + at, 2, (clusters[part] - base) as u32);
    }
    places.directions.push(here);
    places.clusters = clusters;
    places.machines.extend((machine != 0).then_some(machine));
    places.actions.extend((actions != 0).then_some(actions));
    here
}

/// The place of an older part (0 for none), and whether a new one is wanted.
fn reuse_or_new(rng: &mut Rng, places: &[usize], none: u64, style: Style) -> (usize, bool) {
    let none = if style.dense { 8 } else { none };
    if rng.chance(none) {
        (0, false)
    } else if !places.is_empty() && rng.chance(40) {
        (rng.pick(places), false)
    } else {
        (0, true)
    }
}

/// Clusters by themselves, inside each other, and equal ones in two places.
fn cluster_pieces(rng: &mut Rng, style: Style) -> Vec<(Draft, Vec<usize>)> {
    let count = rng.between(1, if style.large { 5 } else { 3 });
    let mut pieces: Vec<(Draft, Vec<usize>)> = Vec::new();
    for _ in 0..count {
        if rng.chance(20) && !style.wide {
            pieces.push(parts::nested_clusters(rng, style));
        } else {
            pieces.push((parts::cluster(rng, style), vec![0]));
        }
    }
    if rng.chance(35) {
        let plain: Vec<usize> = (0..pieces.len()).filter(|&k| pieces[k].1.len() == 1).collect();
        if !plain.is_empty() {
            let original = pieces[rng.pick(&plain)].0.clone();
            pieces.push((parts::disguised(rng, &original), vec![0]));
        }
    }
    pieces
}

/// Where the width values count from: the first cluster used, the start of the
/// table, or anything between. With no cluster used it may be anything.
fn cluster_base(rng: &mut Rng, used: Option<usize>) -> usize {
    match used {
        None => rng.u16() as usize,
        Some(first) => match rng.weighted(&[60, 15, 25]) {
            0 => first,
            1 => 0,
            _ => rng.below(first as u64 + 1) as usize,
        },
    }
}

/// A value worth trying in a field: its limits, one past them, and neighbours.
fn tempting(rng: &mut Rng, mark: &Mark, value: u32, length: u32, n: u32) -> u32 {
    let near = [value.wrapping_add(1), value.wrapping_sub(1)];
    let mut values: Vec<u32> = match mark.kind {
        Kind::Version => vec![0, 0x0001_0001, 0x0002_0000, 0x0000_0001],
        Kind::Format => vec![1, 2, 0xFFFF],
        Kind::DirectionOffset | Kind::PartOffset => {
            vec![0, 1, 9, length - 1, length, length.saturating_sub(7), 0xFFFF, rng.below(length as u64) as u32]
        }
        Kind::LookupFormat => vec![0, 1, 2, 3, 4, 5, 6, 7, 8, 9, 10, 0xFFFF],
        Kind::UnitSize => vec![0, 4, 5, 6, 7, 8, 0xFFFF],
        Kind::UnitCount => vec![0, 1, 0xFFFF],
        Kind::UnitBound | Kind::ClassBound | Kind::TrimBound => vec![0, n - 1, n, 0xFFFE, 0xFFFF, rng.u32()],
        Kind::LastBeforeClosing => vec![0xFFFF, 0xFFFF, 0xFFFE, 0],
        Kind::Value | Kind::ArrayOffset | Kind::MachineOffset => {
            vec![0, 4, length, 0xFFFF, rng.below(length as u64) as u32, rng.u32()]
        }
        Kind::ClusterCount => vec![0, 1, 128, 129, 0x1_0000, u32::MAX],
        Kind::PairClass => vec![0, 0x7F, 0x80, value ^ 0x80, u32::MAX, value ^ 1],
        Kind::Grow => vec![0, LIMIT, LIMIT + 1, u32::MAX, 0x8000_0000, LIMIT.wrapping_neg()],
        Kind::Shrink => vec![
            0,
            LIMIT,
            LIMIT + 1,
            LIMIT.wrapping_neg(),
            (LIMIT + 1).wrapping_neg(),
            0x8000_0000,
            0x8000_0000,
            0x7FFF_FFFF,
            u32::MAX,
        ],
        Kind::Flags => vec![0, 3, 4, 5, 8, 15, 0x1003, 0x1004, 0xEFF3, 0xFFFF, 0xFFF4],
        Kind::ActionCount => vec![0, 1, 64, 65, u32::MAX],
        Kind::ActionClass => vec![0, 127, 128, 0xFFFF],
        Kind::ActionKind => vec![0, 1, 2, 3, 4, 5, 6, 0xFFFF],
        Kind::ActionLength => vec![
            0,
            4,
            8,
            12,
            20,
            value.wrapping_sub(4),
            value.wrapping_add(4),
            value.wrapping_add(2),
            0xFFFF_FFFC,
            u32::MAX,
        ],
        Kind::InnerLength => vec![8, value.wrapping_add(4), value + 2, 0xFFFF_FFFC, 0xFFFF_FFF8, 0x8000_0000],
        // The greatest multiple of 4 below what the data needs, and around it.
        Kind::DecomposeLength => {
            let short = (mark.aux[0] - 1) & !3;
            vec![short, short, short + 4, short + 2, 16, 20, 0xFFFF_FFFC]
        }
        Kind::ComponentCount => vec![0, 1, 32, 33, 0xFFFF, value + 1, value + 1, value + 2],
        Kind::Glyph | Kind::AddedGlyph => vec![0, mark.aux[0].wrapping_sub(1), mark.aux[0], 0xFFFE, 0xFFFF],
        Kind::ClassCount => vec![0, 3, 4, 255, 256, 0x104],
        Kind::ClassByte => vec![0, 1, mark.aux[0] - 1, mark.aux[0], 255],
        Kind::CellByte => vec![0, mark.aux[0] - 1, mark.aux[0], 255],
        Kind::EntryRow => {
            let [start, classes] = mark.aux;
            {
                let past = start + 256 * classes;
                vec![0, start.wrapping_sub(classes), start + 255 * classes, past, past, 0xFFFF]
            }
        }
        Kind::EntryFlags => vec![0, 0x4000, 0xC000, 0xFFFF, rng.u32()],
        Kind::Data | Kind::Ignored => vec![0, u32::MAX, rng.u32(), 0x8000_0000],
    };
    values.extend(near);
    rng.pick(&values)
}

/// Spoils a table in one place, or leaves it sound by chance.
pub fn spoil(rng: &mut Rng, table: &mut Draft, n: &mut u32) {
    match rng.weighted(&[66, 9, 12, 4, 6, 3]) {
        0 => spoil_field(rng, table, *n),
        1 => spoil_bytes(rng, table),
        2 => truncate(rng, table),
        3 => *n = rng.pick(&[0, 65_536, 65_537, u32::MAX, 0x1_0001]),
        4 => *n = other_count(rng, *n),
        _ => resize(rng, table),
    }
}

fn spoil_field(rng: &mut Rng, table: &mut Draft, n: u32) {
    change_field(rng, table, n, |_| true);
}

/// Sets one field of a kind that is wanted to a value worth trying.
pub fn change_field(rng: &mut Rng, table: &mut Draft, n: u32, wanted: impl Fn(Kind) -> bool) {
    if let Some(mark) = table.any_mark_of(rng, wanted) {
        let value = table.get(mark.at, mark.size);
        let value = tempting(rng, &mark, value, table.len() as u32, n);
        let kept = if mark.size == 4 { value } else { value & ((1 << (8 * mark.size)) - 1) };
        table.set(mark.at, mark.size, kept);
    }
}

fn spoil_bytes(rng: &mut Rng, table: &mut Draft) {
    for _ in 0..rng.between(1, 3) {
        let at = rng.below(table.len() as u64) as usize;
        table.bytes[at] = rng.draw() as u8;
    }
}

/// Cuts a table short, often inside or right after a field.
fn truncate(rng: &mut Rng, table: &mut Draft) {
    let length = match table.any_mark(rng) {
        Some(mark) if rng.chance(70) => mark.at + rng.below(mark.size as u64 + 1) as usize,
        _ => rng.below(table.len() as u64) as usize,
    };
    // Under 10 bytes every table is refused for the same reason.
    let length = if rng.chance(80) { length.max(10) } else { length };
    table.bytes.truncate(length);
}

/// The same table with another glyph count.
fn other_count(rng: &mut Rng, n: u32) -> u32 {
    let other = match rng.below(4) {
        0 => n - 1,
        1 => n + 1,
        2 => rng.between(1, n as u64) as u32,
        _ => rng.between(n as u64, MOST_GLYPHS as u64) as u32,
    };
    other.clamp(1, MOST_GLYPHS)
}

/// A length at or past its limits.
fn resize(rng: &mut Rng, table: &mut Draft) {
    let length = rng.pick(&[0, 1, 9, 10, MOST_LENGTH, MOST_LENGTH + 1, 40_000]);
    while table.len() < length {
        table.bytes.push(rng.draw() as u8);
    }
    table.bytes.truncate(length);
}

/// Random bytes behind a sound header.
fn noise(rng: &mut Rng) -> Draft {
    let mut table = Draft::default();
    table.put(Kind::Version, 4, 0x0001_0000);
    table.put(Kind::Format, 2, 0);
    for _ in 0..2 {
        let offset = rng.below(40) as u32;
        table.put(Kind::DirectionOffset, 2, offset);
    }
    let length = rng.below(200) as usize;
    for _ in 0..length {
        let byte = if rng.chance(60) { rng.below(9) as u8 } else { rng.draw() as u8 };
        table.bytes.push(byte);
    }
    table
}

/// A table that refusal 4, 5, 6, 7 or 8 bars, with a note of its fields, and
/// its glyph count. Where it is spoiled in several places, the first in the
/// order of reading is the one to be named (document 02, request 4/14).
pub fn faulty(rng: &mut Rng) -> (Draft, u32) {
    loop {
        let n = glyph_count(rng);
        let mut table = sound(rng, n, Style::SMALL);
        for _ in 0..rng.between(1, 3) {
            spoil_field(rng, &mut table, n);
        }
        if rng.chance(25) {
            truncate(rng, &mut table);
        }
        if check_table(&table.bytes, n).is_err_and(|fault| (4..=8).contains(&fault.number)) {
            return (table, n);
        }
    }
}

/// A table and its glyph count.
pub fn draw(rng: &mut Rng) -> (Vec<u8>, u32) {
    let (mut n, style) = match rng.weighted(&[66, 28, 6]) {
        0 => (glyph_count(rng), Style::PLAIN),
        1 => (glyph_count(rng), Style::SMALL),
        _ => (long_glyph_count(rng), Style::LONG),
    };
    if rng.chance(2) {
        return (noise(rng).bytes, n);
    }
    let mut table = sound(rng, n, style);
    if rng.chance(72) {
        spoil(rng, &mut table, &mut n);
    }
    (table.bytes, n)
}

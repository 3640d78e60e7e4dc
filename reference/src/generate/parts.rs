//! The parts of a table that keep every rule: lookups, clusters, action lists
//! and machines.

use super::draft::{Draft, Kind};
use super::rng::Rng;
use crate::meaning::{DELETED, LIMIT};
use crate::walk::{SET_MARK, STAY};

/// What a table is wanted for.
#[derive(Clone, Copy, Debug)]
pub struct Style {
    /// Lookups cover most glyphs, and classes are few, so that a line meets
    /// records and actions.
    pub dense: bool,
    /// How many entries in a hundred stay.
    pub stays: u64,
    /// Limits are at or near their greatest.
    pub wide: bool,
    /// Large parts may turn up.
    pub large: bool,
    /// The priorities that flags choose from.
    pub priorities: &'static [u32],
    /// Where lookups are to be long, the most units that one may have; else 0.
    pub most_units: u64,
}

pub const ALL_PRIORITIES: &[u32] = &[0, 1, 2, 3];

impl Style {
    pub const PLAIN: Style =
        Style { dense: false, stays: 15, wide: false, large: true, priorities: ALL_PRIORITIES, most_units: 0 };
    pub const SMALL: Style = Style { large: false, ..Style::PLAIN };
    pub const LONG: Style = Style { most_units: 5_000, ..Style::SMALL };
    pub const LINE: Style = Style { dense: true, stays: 12, ..Style::SMALL };
}

/// A lookup whose values are still choices between parts: the places of the
/// value fields with the number of the part.
pub struct LookupDraft {
    pub draft: Draft,
    pub choices: Vec<(usize, usize)>,
}

/// A lookup for glyphs below `n` in any format, its values chosen between
/// `parts` parts.
pub fn lookup(rng: &mut Rng, n: u32, style: Style, parts: usize) -> LookupDraft {
    let most_values = if style.large { 5_000 } else { 300 };
    let formats: &[u16] = match style.most_units {
        0 if n <= most_values => &[0, 2, 4, 6, 8],
        0 => &[2, 4, 6, 8],
        _ => &[2, 4, 6],
    };
    let mut out = LookupDraft { draft: Draft::default(), choices: Vec::new() };
    let format = rng.pick(formats);
    out.draft.put(Kind::LookupFormat, 2, format as u32);
    match format {
        0 => (0..n).for_each(|_| choice(rng, &mut out, parts)),
        2 | 4 => segments(rng, &mut out, n, style, parts, format == 4),
        6 => singles(rng, &mut out, n, style, parts),
        _ => trimmed(rng, &mut out, n, style, parts),
    }
    out
}

/// A value field that some glyph uses.
fn choice(rng: &mut Rng, out: &mut LookupDraft, parts: usize) {
    let at = out.draft.put(Kind::Value, 2, 0);
    out.choices.push((at, rng.below(parts as u64) as usize));
}

/// How a list of units closes.
#[derive(Clone, Copy, PartialEq)]
enum Closing {
    None,
    Counted,
    Uncounted,
}

fn closing(rng: &mut Rng) -> Closing {
    rng.pick(&[Closing::None, Closing::Counted, Closing::Uncounted])
}

/// The kind of a unit's end: that of the last unit ahead of a counted closing
/// one is a kind of its own, as it may not be FFFF too.
fn before_closing(close: Closing, last: bool) -> Kind {
    if last && close == Closing::Counted {
        Kind::LastBeforeClosing
    } else {
        Kind::UnitBound
    }
}

/// Rising stretches of glyphs, some of them past N.
fn stretches(rng: &mut Rng, n: u32, style: Style) -> Vec<(u32, u32)> {
    let none = if style.dense { 1 } else { 5 };
    let wanted = match rng.weighted(&[none, 60, 25, if style.large { 10 } else { 0 }]) {
        0 => 0,
        1 => rng.between(1, 3),
        2 => rng.between(4, 12),
        _ => rng.between(13, 300),
    };
    let mut units = Vec::new();
    let mut next = if style.dense || rng.chance(50) { 0 } else { rng.below(n as u64 + 1) as u32 };
    for _ in 0..wanted {
        let gap = match rng.weighted(&[50, 40, 10]) {
            0 => 0,
            1 => rng.below(4),
            _ => rng.below(n as u64 + 2),
        };
        let long = match rng.weighted(if style.dense { &[20, 20, 60] } else { &[40, 40, 20] }) {
            0 => 0,
            1 => rng.below(6),
            _ => rng.below(n as u64 + 2),
        };
        let first = next as u64 + gap;
        let last = first + long;
        if last > 0xFFFE {
            break;
        }
        units.push((first as u32, last as u32));
        next = last as u32 + 1;
    }
    // A unit may reach FFFF without being the closing one.
    if rng.chance(5) && next < 0xFFFF {
        let first = rng.between(next as u64, 0xFFFE) as u32;
        units.push((first, 0xFFFF));
    }
    units
}

/// How many units a long lookup has: the looks of a find change at the powers
/// of two.
fn unit_count(rng: &mut Rng, style: Style) -> u64 {
    let count = match rng.weighted(&[5, 25, 30, 30, 10]) {
        0 => 0,
        1 => rng.between(1, 20),
        2 => (1 << rng.between(1, 10)) + rng.below(3) - 1,
        3 => rng.between(21, 1_000),
        _ => 5_000,
    };
    count.min(style.most_units)
}

/// The stretches of a long lookup, each of up to `longest` glyphs, close
/// together or far apart.
fn long_stretches(rng: &mut Rng, n: u32, style: Style, longest: u64) -> Vec<(u32, u32)> {
    let count = unit_count(rng, style);
    let room = 0xFFFF / count.max(1);
    let any = rng.between(1, room);
    let step = rng.pick(&[1, 2, any, room]).min(room);
    let mut units = Vec::new();
    let mut next = 0;
    for _ in 0..count {
        let taken = rng.between(1, step);
        let length = rng.between(1, taken.min(longest));
        units.push(((next + taken - length) as u32, (next + taken - 1) as u32));
        next += taken;
    }
    let shift = shift_to_edge(rng, n, &units, 0xFFFF - next as u32);
    units.iter_mut().for_each(|unit| *unit = (unit.0 + shift, unit.1 + shift));
    let least = (next + shift as u64).max(0x1_0000 - longest);
    if least < 0xFFFF && rng.chance(10) {
        units.push((rng.between(least, 0xFFFE) as u32, 0xFFFF));
    }
    units
}

/// How far units are moved up, `most` at most: often so far that N is the
/// first glyph, the last one, or the one after the last of some unit.
fn shift_to_edge(rng: &mut Rng, n: u32, units: &[(u32, u32)], most: u32) -> u32 {
    if units.is_empty() || rng.chance(40) {
        return 0;
    }
    let (first, last) = rng.pick(units);
    n.saturating_sub(rng.pick(&[first, last, last + 1])).min(most)
}

/// The search header: the three last fields are not read.
fn unit_header(rng: &mut Rng, draft: &mut Draft, size: u32, count: u32) {
    draft.put(Kind::UnitSize, 2, size);
    draft.put(Kind::UnitCount, 2, count);
    for _ in 0..3 {
        let field = rng.u16() as u32;
        draft.put(Kind::Ignored, 2, field);
    }
}

/// Formats 2 and 4.
fn segments(rng: &mut Rng, out: &mut LookupDraft, n: u32, style: Style, parts: usize, arrays: bool) {
    let mut units = match style.most_units {
        0 => stretches(rng, n, style),
        _ => long_stretches(rng, n, style, if arrays { 20 } else { 0x1_0000 }),
    };
    if arrays {
        units.iter_mut().for_each(|unit| unit.1 = unit.1.min(unit.0 + if style.large { 4_000 } else { 300 }));
    }
    let reaches_end = units.last().is_some_and(|unit| unit.1 == 0xFFFF);
    let close = if reaches_end { Closing::None } else { closing(rng) };
    let counted = units.len() as u32 + (close == Closing::Counted) as u32;
    unit_header(rng, &mut out.draft, 6, counted);
    let mut windows = Vec::new();
    for (index, &(first, last)) in units.iter().enumerate() {
        out.draft.put(before_closing(close, index + 1 == units.len()), 2, last);
        out.draft.put(Kind::UnitBound, 2, first);
        if first >= n {
            let unused = rng.u16() as u32;
            out.draft.put(Kind::Ignored, 2, unused);
        } else if arrays {
            let at = out.draft.put(Kind::ArrayOffset, 2, 0);
            windows.push((at, (last.min(n - 1) - first + 1) as usize));
        } else {
            choice(rng, out, parts);
        }
    }
    if close != Closing::None {
        out.draft.put(Kind::UnitBound, 2, 0xFFFF);
        out.draft.put(Kind::UnitBound, 2, 0xFFFF);
        let unused = rng.u16() as u32;
        out.draft.put(Kind::Ignored, 2, unused);
    }
    put_arrays(rng, out, &windows, style, parts);
}

/// The arrays of format 4: windows on one store of values, which may be
/// shared, overlap, or stand by themselves.
fn put_arrays(rng: &mut Rng, out: &mut LookupDraft, windows: &[(usize, usize)], style: Style, parts: usize) {
    let padding = rng.below(3) as usize;
    out.draft.garbage(rng, padding);
    let start = out.draft.len();
    let most = match style.most_units {
        0 if style.large => 6_000,
        0 => 400,
        _ => 64,
    };
    let mut stored = 0;
    for &(at, length) in windows {
        let fresh = stored + length <= most && rng.chance(50);
        let from = if fresh { stored } else { rng.below(stored.min(64) as u64 + 1) as usize };
        while stored < from + length {
            choice(rng, out, parts);
            stored += 1;
        }
        out.draft.set(at, 2, ((start + 2 * from) as u32).min(0xFFFF));
    }
}

/// Rising glyphs, some of them past N.
fn scattered(rng: &mut Rng, n: u32, style: Style) -> Vec<u32> {
    let step = if style.dense || rng.chance(60) { 2 } else { n as u64 + 1 };
    let most = if style.large && rng.chance(20) { 2_000 } else { 40 };
    let mut glyphs = Vec::new();
    let mut next = rng.below(step);
    while glyphs.len() < most && next < 0xFFFF && (next < n as u64 || rng.chance(60)) {
        glyphs.push(next as u32);
        next += 1 + rng.below(step);
    }
    glyphs
}

/// Format 6.
fn singles(rng: &mut Rng, out: &mut LookupDraft, n: u32, style: Style, parts: usize) {
    let glyphs = match style.most_units {
        0 => scattered(rng, n, style),
        _ => long_stretches(rng, n, style, 1).iter().map(|unit| unit.0).collect(),
    };
    let close = closing(rng);
    let counted = glyphs.len() as u32 + (close == Closing::Counted) as u32;
    unit_header(rng, &mut out.draft, 4, counted);
    for (index, &glyph) in glyphs.iter().enumerate() {
        out.draft.put(before_closing(close, index + 1 == glyphs.len()), 2, glyph);
        if glyph < n {
            choice(rng, out, parts);
        } else {
            let unused = rng.u16() as u32;
            out.draft.put(Kind::Ignored, 2, unused);
        }
    }
    if close != Closing::None {
        out.draft.put(Kind::UnitBound, 2, 0xFFFF);
        let unused = rng.u16() as u32;
        out.draft.put(Kind::Ignored, 2, unused);
    }
}

/// Format 8: the count may go past N and past 65,536.
fn trimmed(rng: &mut Rng, out: &mut LookupDraft, n: u32, style: Style, parts: usize) {
    let most = if style.large { 4_000 } else { 300 };
    let often = if style.dense { 200 } else { 50 };
    let first = match rng.weighted(&[often, 30, 20]) {
        0 => 0,
        1 => rng.below(n as u64) as u32,
        _ => rng.below(0x10000) as u32,
    };
    let first = if n.saturating_sub(first) > most { n - rng.below(most as u64) as u32 } else { first };
    let room = n.saturating_sub(first);
    let count = match rng.weighted(&[often, 40, 20]) {
        0 => room,
        1 => rng.below(room as u64 + 1) as u32,
        _ => count_past(rng, first, room),
    };
    out.draft.put(Kind::TrimBound, 2, first);
    out.draft.put(Kind::TrimBound, 2, count);
    (0..count.min(room)).for_each(|_| choice(rng, out, parts));
}

/// A count that goes past N, often past 65,536 with the first glyph.
fn count_past(rng: &mut Rng, first: u32, room: u32) -> u32 {
    let other = rng.between(room as u64, 0xFFFF) as u32;
    rng.pick(&[0xFFFF, (0x1_0000 - first).min(0xFFFF), other])
}

/// Numbers at and near a limit, or anything up to it.
fn limit(rng: &mut Rng, style: Style) -> u32 {
    if style.wide {
        return if rng.chance(85) { LIMIT } else { rng.pick(&[1, LIMIT - 1]) };
    }
    match rng.weighted(&[20, 10, 40, 30]) {
        0 => 0,
        1 => LIMIT,
        2 => rng.below(0x10000) as u32,
        _ => rng.below(LIMIT as u64 + 1) as u32,
    }
}

/// A shrink limit of either sign.
fn shrink(rng: &mut Rng, style: Style) -> u32 {
    let size = limit(rng, style);
    if rng.chance(50) {
        size.wrapping_neg()
    } else {
        size
    }
}

/// Flags with any ignored bits.
fn flags(rng: &mut Rng, style: Style) -> u32 {
    let priority = rng.pick(style.priorities);
    let unlimited = if rng.chance(25) { 0x1000 } else { 0 };
    let ignored = if rng.chance(30) { rng.u32() & 0xEFF0 } else { 0 };
    priority | unlimited | ignored
}

/// Rising classes of a cluster.
fn pair_classes(rng: &mut Rng, style: Style) -> Vec<u32> {
    let count = match rng.weighted(&[70, 25, if style.large { 5 } else { 0 }]) {
        0 => rng.between(1, 3),
        1 => rng.between(1, 8),
        _ => rng.pick(&[127, 128, 64]),
    };
    let mut classes: Vec<u32> = if style.dense && count <= 8 {
        (0..4).filter(|_| rng.chance(85)).collect()
    } else {
        (0..count).map(|_| if rng.chance(70) { rng.below(8) } else { rng.below(128) } as u32).collect()
    };
    if count >= 127 {
        classes = (0..count as u32).collect();
    }
    classes.sort();
    classes.dedup();
    if classes.is_empty() {
        classes.push(0);
    }
    classes
}

/// A cluster.
pub fn cluster(rng: &mut Rng, style: Style) -> Draft {
    let classes = pair_classes(rng, style);
    let mut draft = Draft::default();
    draft.put(Kind::ClusterCount, 4, classes.len() as u32);
    for class in classes {
        pair(rng, &mut draft, class, style);
    }
    draft
}

fn pair(rng: &mut Rng, draft: &mut Draft, class: u32, style: Style) {
    let ignored = if rng.chance(20) { rng.u32() & !0x7F } else { 0 };
    draft.put(Kind::PairClass, 4, class | ignored);
    for _ in 0..2 {
        let grow = limit(rng, style);
        draft.put(Kind::Grow, 4, grow);
        let shrink = shrink(rng, style);
        draft.put(Kind::Shrink, 4, shrink);
    }
    for _ in 0..2 {
        let flags = flags(rng, style);
        draft.put(Kind::Flags, 2, flags);
    }
}

/// The same cluster in other bytes: other ignored bits, other signs.
pub fn disguised(rng: &mut Rng, cluster: &Draft) -> Draft {
    let mut copy = cluster.clone();
    for mark in cluster.marks.clone() {
        let value = copy.get(mark.at, mark.size);
        let other = match mark.kind {
            Kind::PairClass => value ^ (rng.u32() & !0x7F),
            Kind::Shrink if rng.chance(50) => value.wrapping_neg(),
            Kind::Flags => value ^ (rng.u32() & 0xEFF0),
            _ => value,
        };
        copy.set(mark.at, mark.size, other);
    }
    copy
}

/// Clusters inside each other: one row of pairs whose flags fields, read as a
/// count, start further clusters. Gives the row and the clusters' places.
pub fn nested_clusters(rng: &mut Rng, style: Style) -> (Draft, Vec<usize>) {
    let pairs = if style.large { rng.between(3, 128) } else { rng.between(2, 6) } as u32;
    let mut draft = Draft::default();
    let mut places = vec![0];
    draft.put(Kind::ClusterCount, 4, pairs);
    for class in 0..pairs {
        draft.put(Kind::PairClass, 4, class);
        for _ in 0..2 {
            let grow = limit(rng, style);
            draft.put(Kind::Grow, 4, grow);
            let shrink = shrink(rng, style);
            draft.put(Kind::Shrink, 4, shrink);
        }
        let left = pairs - class - 1;
        let counts: Vec<u32> = (1..=left).filter(|count| count & 15 <= 3).collect();
        let count = if counts.is_empty() { 0 } else { rng.pick(&counts) };
        if count > 0 {
            places.push(draft.len());
        }
        draft.put(Kind::Flags, 2, 0);
        draft.put(Kind::Flags, 2, count);
    }
    (draft, places)
}

/// A glyph below N, often the last.
fn glyph(rng: &mut Rng, n: u32) -> u32 {
    match rng.weighted(&[20, 10, 70]) {
        0 => n - 1,
        1 => 0,
        _ => rng.below(n as u64) as u32,
    }
}

/// A signed number of ems, often small.
fn ems(rng: &mut Rng) -> u32 {
    match rng.weighted(&[15, 50, 15, 10, 10]) {
        0 => 0,
        1 => (rng.below(0x4000) as u32).wrapping_sub(0x1000),
        2 => rng.below(0x40000) as u32,
        3 => rng.pick(&[0x7FFF_FFFF, 0x8000_0000, 0xFFFF_FFFF, 1]),
        _ => rng.u32(),
    }
}

/// An action list. The last action's length may go far past the table.
pub fn action_list(rng: &mut Rng, n: u32, style: Style) -> Draft {
    let count = match rng.weighted(&[8, 70, 20, if style.large { 3 } else { 1 }]) {
        0 => 0,
        1 if style.dense => rng.between(2, 6),
        1 => rng.between(1, 3),
        2 => rng.between(2, 8),
        _ => 64,
    };
    let mut draft = Draft::default();
    draft.put(Kind::ActionCount, 4, count as u32);
    for index in 0..count {
        action(rng, &mut draft, n, style, index + 1 == count);
    }
    draft
}

fn action(rng: &mut Rng, draft: &mut Draft, n: u32, style: Style, last: bool) {
    let class = if style.dense { rng.pick(&[0, 0, 0, 1, 1, 2]) } else { rng.pick(&[0, 1, 2, 3, 4, 64, 126, 127]) };
    let kind = rng.below(6) as u32;
    draft.put(Kind::ActionClass, 2, class as u32);
    draft.put(Kind::ActionKind, 2, kind);
    let length_kind = if kind == 0 {
        Kind::DecomposeLength
    } else if last {
        Kind::ActionLength
    } else {
        Kind::InnerLength
    };
    let length_at = draft.put(length_kind, 4, 0);
    let mark = draft.marks.len() - 1;
    let start = draft.len() - 8;
    action_data(rng, draft, kind, n);
    let used = draft.len() - start;
    draft.marks[mark].aux[0] = used as u32;
    let padded = used.next_multiple_of(4) + if rng.chance(20) { 4 * rng.below(4) as usize } else { 0 };
    if last && rng.chance(30) {
        let length = rng.pick(&[0xFFFF_FFFC, 0x8000_0000, padded as u32]);
        draft.set(length_at, 4, length);
    } else {
        draft.set(length_at, 4, padded as u32);
        draft.garbage(rng, padded - used);
    }
}

fn action_data(rng: &mut Rng, draft: &mut Draft, kind: u32, n: u32) {
    match kind {
        0 => {
            let (lower, upper, order) = (ems(rng), ems(rng), rng.u16() as u32);
            draft.put(Kind::Data, 4, lower);
            draft.put(Kind::Data, 4, upper);
            draft.put(Kind::Data, 2, order);
            let count = if rng.chance(10) { 32 } else { rng.between(1, 4) as u32 };
            draft.put(Kind::ComponentCount, 2, count);
            for _ in 0..count {
                let component = glyph(rng, n);
                draft.put_with(Kind::Glyph, 2, component, [n, 0]);
            }
        }
        1 => {
            let added = glyph(rng, n);
            draft.put_with(Kind::Glyph, 2, added, [n, 0]);
        }
        2 => {
            let threshold = ems(rng);
            let added = if rng.chance(40) { DELETED as u32 } else { glyph(rng, n) };
            let substitute = glyph(rng, n);
            draft.put(Kind::Data, 4, threshold);
            draft.put_with(Kind::AddedGlyph, 2, added, [n, 0]);
            draft.put_with(Kind::Glyph, 2, substitute, [n, 0]);
        }
        3 => {}
        4 => {
            for _ in 0..4 {
                let field = rng.u32();
                draft.put(Kind::Data, 4, field);
            }
        }
        _ => {
            let ignored = if rng.chance(50) { 0 } else { rng.u16() as u32 };
            let added = glyph(rng, n);
            draft.put(Kind::Ignored, 2, ignored);
            draft.put_with(Kind::Glyph, 2, added, [n, 0]);
        }
    }
}

/// The action part of a direction: a lookup, then lists; some lists in two
/// places, some lists empty, some glyphs with none.
pub fn action_part(rng: &mut Rng, n: u32, style: Style) -> Draft {
    let kept = rng.between(1, if style.large { 5 } else { 3 }) as usize;
    let mut lists: Vec<Draft> = (0..kept).map(|_| action_list(rng, n, style)).collect();
    if rng.chance(30) {
        let mut copy = lists[rng.below(kept as u64) as usize].clone();
        for mark in copy.marks.clone() {
            if mark.kind == Kind::Ignored {
                copy.set(mark.at, mark.size, rng.u32());
            }
        }
        lists.push(copy);
    }
    let LookupDraft { mut draft, choices } = lookup(rng, n, style, lists.len() + 1);
    let mut places = vec![0];
    for list in &lists {
        let padding = if rng.chance(60) { 0 } else { rng.below(4) as usize };
        draft.garbage(rng, padding);
        places.push(draft.append(list));
    }
    for (at, part) in choices {
        draft.set(at, 2, places[part] as u32);
    }
    draft
}

/// The four inner fields of a machine and where its parts are.
struct MachinePlan {
    classes: u32,
    rows: u32,
    entries: u32,
    first: u32,
    count: u32,
}

fn machine_plan(rng: &mut Rng, n: u32, style: Style) -> MachinePlan {
    let large = style.large && rng.chance(8);
    let classes = match rng.weighted(&[30, 60, if large { 60 } else { 0 }]) {
        0 => 4,
        1 => rng.between(4, 9),
        _ => rng.pick(&[255, 254, 100]),
    } as u32;
    let most_rows = (9_000 / classes).min(256);
    let rows = match rng.weighted(&[70, 25, if large { 60 } else { 0 }]) {
        0 => rng.between(2, 4) as u32,
        1 => rng.between(2, 9) as u32,
        _ => rng.pick(&[most_rows, most_rows.max(3) - 1]),
    };
    let entries = if large && rng.chance(40) { 256 } else { rng.between(1, 12) as u32 };
    let first = if style.dense || rng.chance(60) { rng.below(3) } else { rng.below(n as u64 + 2) } as u32;
    let most = if style.large { 3_000 } else { 300 };
    let room = n.saturating_sub(first);
    let count = match rng.weighted(&[50, 40, 10]) {
        0 => room.min(most),
        1 => rng.below(room as u64 + 1).min(most as u64) as u32,
        _ if room <= most => count_past(rng, first, room),
        _ => most,
    };
    MachinePlan { classes, rows: rows.max(entries.div_ceil(classes).min(256)), entries, first, count }
}

/// A machine. Its class table, state array and entry table stand in any order.
pub fn machine(rng: &mut Rng, n: u32, style: Style) -> Draft {
    let plan = machine_plan(rng, n, style);
    let mut draft = Draft::default();
    draft.garbage(rng, 8);
    draft.put(Kind::ClassCount, 2, plan.classes);
    let fields: Vec<usize> = (0..3).map(|_| draft.put(Kind::MachineOffset, 2, 0)).collect();
    let mut order = [0, 1, 2];
    rng.shuffle(&mut order);
    let state_size = (plan.classes * plan.rows) as usize;
    let class_size = 4 + plan.count.min(n.saturating_sub(plan.first)) as usize;
    let sizes = [class_size, state_size, 4 * plan.entries as usize];
    let gap = if rng.chance(60) { 0 } else { rng.below(4) as usize };
    let mut places = [0; 3];
    let mut at = 8;
    for part in order {
        places[part] = at;
        at += sizes[part] + gap;
    }
    for part in 0..3 {
        draft.set(fields[part], 2, places[part] as u32);
    }
    for part in order {
        match part {
            0 => class_table(rng, &mut draft, &plan, n),
            1 => state_array(rng, &mut draft, &plan),
            _ => entry_table(rng, &mut draft, &plan, places[1] as u32, style),
        }
        draft.garbage(rng, gap);
    }
    draft
}

fn class_table(rng: &mut Rng, draft: &mut Draft, plan: &MachinePlan, n: u32) {
    draft.put(Kind::ClassBound, 2, plan.first);
    draft.put(Kind::ClassBound, 2, plan.count);
    let mut class = rng.below(plan.classes as u64) as u32;
    for _ in 0..plan.count.min(n.saturating_sub(plan.first)) {
        if rng.chance(50) {
            class = rng.below(plan.classes as u64) as u32;
        }
        draft.put_with(Kind::ClassByte, 1, class, [plan.classes, 0]);
    }
}

fn state_array(rng: &mut Rng, draft: &mut Draft, plan: &MachinePlan) {
    let cells = plan.classes * plan.rows;
    for cell in 0..cells {
        // With as many entries as there can be, each is used.
        let number = if plan.entries == 256 && cell < 256 { cell } else { rng.below(plan.entries as u64) as u32 };
        draft.put_with(Kind::CellByte, 1, number, [plan.entries, 0]);
    }
}

fn entry_table(rng: &mut Rng, draft: &mut Draft, plan: &MachinePlan, state_array: u32, style: Style) {
    let mut known: Vec<(u32, u32)> = Vec::new();
    for index in 0..plan.entries {
        let row = match rng.weighted(&[60, 20, 20]) {
            0 => rng.below(plan.rows as u64) as u32,
            1 => (index + 1).min(plan.rows - 1),
            _ => plan.rows - 1,
        };
        let mut entry = (row, entry_flags(rng, style));
        if rng.chance(15) && !known.is_empty() {
            entry = rng.pick(&known);
        }
        if plan.entries == 256 {
            // All different, so that the sheet has as many entries as it can.
            entry.1 = entry.1 & 0xFF00 | index;
        }
        known.push(entry);
        draft.put_with(Kind::EntryRow, 2, state_array + plan.classes * entry.0, [state_array, plan.classes]);
        draft.put(Kind::EntryFlags, 2, entry.1);
    }
}

fn entry_flags(rng: &mut Rng, style: Style) -> u32 {
    let class = |rng: &mut Rng| match rng.weighted(&[40, 50, 10]) {
        0 => 0,
        1 => rng.below(if style.dense { 3 } else { 5 }) as u32,
        _ if style.dense => 0,
        _ => rng.below(128) as u32,
    };
    let mark = if rng.chance(40) { SET_MARK as u32 } else { 0 };
    let stay = if rng.chance(style.stays) { STAY as u32 } else { 0 };
    mark | stay | class(rng) << 7 | class(rng)
}

//! Sheets: those of tables, those of meanings that no table could hold, and
//! near misses of both.

use super::parts::Style;
use super::rng::Rng;
use super::tables;
use crate::bytes::{put_u16, put_u32};
use crate::meaning::{Cell, DELETED, LIMIT};
use crate::sheet_write::write_sheet;

/// A sheet taken apart, so that one piece can be put wrong.
#[derive(Clone, Debug)]
struct Model {
    n: u32,
    sides: [Side; 2],
}

#[derive(Clone, Debug, Default)]
struct Side {
    machine: Vec<(u32, u32)>,
    classes: Vec<Run>,
    entries: Vec<Cell>,
    cells: Vec<u8>,
    clusters: Vec<Vec<Pair>>,
    cluster_runs: Vec<Run>,
    lists: Vec<Vec<Deed>>,
    list_runs: Vec<Run>,
}

type Run = (u16, u16, u16);

#[derive(Clone, Debug, PartialEq)]
struct Pair {
    class: u32,
    limits: [u32; 4],
    flags: [u16; 2],
}

#[derive(Clone, Debug, PartialEq)]
struct Deed {
    class: u16,
    kind: u16,
    data: Vec<u8>,
}

impl Model {
    fn bytes(&self) -> Vec<u8> {
        let mut out = Vec::new();
        put_u32(&mut out, self.n);
        self.sides.iter().for_each(|side| side.write(&mut out));
        out
    }
}

impl Side {
    fn write(&self, out: &mut Vec<u8>) {
        put_u32(out, self.machine.len() as u32);
        for &(rows, classes) in &self.machine {
            put_u32(out, rows);
            put_u32(out, classes);
        }
        write_runs(&self.classes, out);
        put_u32(out, self.entries.len() as u32);
        for entry in &self.entries {
            put_u16(out, entry.row);
            put_u16(out, entry.flags);
        }
        put_u32(out, self.cells.len() as u32);
        out.extend_from_slice(&self.cells);
        put_u32(out, self.clusters.len() as u32);
        self.clusters.iter().for_each(|cluster| write_cluster(cluster, out));
        write_runs(&self.cluster_runs, out);
        put_u32(out, self.lists.len() as u32);
        self.lists.iter().for_each(|list| write_list(list, out));
        write_runs(&self.list_runs, out);
    }
}

fn write_runs(runs: &[Run], out: &mut Vec<u8>) {
    put_u32(out, runs.len() as u32);
    for &(first, last, value) in runs {
        put_u16(out, first);
        put_u16(out, last);
        put_u16(out, value);
    }
}

fn write_cluster(cluster: &[Pair], out: &mut Vec<u8>) {
    put_u32(out, cluster.len() as u32);
    for pair in cluster {
        put_u32(out, pair.class);
        pair.limits.iter().for_each(|&limit| put_u32(out, limit));
        pair.flags.iter().for_each(|&flags| put_u16(out, flags));
    }
}

fn write_list(list: &[Deed], out: &mut Vec<u8>) {
    put_u32(out, list.len() as u32);
    for deed in list {
        put_u16(out, deed.class);
        put_u16(out, deed.kind);
        put_u32(out, deed.data.len() as u32);
        out.extend_from_slice(&deed.data);
    }
}

/// A sound model; `large` allows parts that outgrow any table.
fn model(rng: &mut Rng, large: bool) -> Model {
    let n = if large { tables::glyph_count(rng) } else { rng.between(1, 20) as u32 };
    Model { n, sides: [side(rng, n, large), side(rng, n, large)] }
}

fn side(rng: &mut Rng, n: u32, large: bool) -> Side {
    let mut side = Side::default();
    if rng.chance(70) {
        machine(rng, &mut side, n, large);
    }
    let count = pieces(rng, n, large);
    side.clusters = distinct(count, || cluster(rng, large));
    side.cluster_runs = numbered_runs(rng, n, &mut side.clusters);
    let count = pieces(rng, n, large);
    side.lists = distinct(count, || list(rng, n, large));
    side.list_runs = numbered_runs(rng, n, &mut side.lists);
    side
}

fn pieces(rng: &mut Rng, n: u32, large: bool) -> usize {
    let most = if large && rng.chance(3) { 3_000 } else { 6 };
    rng.below((n as u64).min(most) + 1) as usize
}

/// Up to `count` pieces, no two alike.
fn distinct<T: PartialEq + std::fmt::Debug>(count: usize, mut make: impl FnMut() -> T) -> Vec<T> {
    let mut seen = std::collections::HashSet::new();
    let mut kept = Vec::new();
    for _ in 0..count {
        let piece = make();
        if seen.insert(format!("{piece:?}")) {
            kept.push(piece);
        }
    }
    kept
}

/// Rising stretches below N.
fn stretches(rng: &mut Rng, n: u32, most: usize) -> Vec<(u32, u32)> {
    let mut found = Vec::new();
    let mut next = 0u64;
    let spread = (n as u64 / (most as u64 + 1)).max(1);
    while found.len() < most {
        let first = next + if rng.chance(60) { 0 } else { rng.below(spread + 1) };
        let last = first + if rng.chance(50) { 0 } else { rng.below(spread + 1) };
        if last >= n as u64 {
            break;
        }
        found.push((first as u32, last as u32));
        next = last + 1;
    }
    found
}

/// Runs that use the pieces in their order; pieces left over are dropped.
fn numbered_runs<T>(rng: &mut Rng, n: u32, pieces: &mut Vec<T>) -> Vec<Run> {
    let mut runs: Vec<Run> = Vec::new();
    let mut used = 0;
    let wanted = pieces.len() + if pieces.is_empty() { 0 } else { rng.below(4) as usize };
    for (first, last) in stretches(rng, n, wanted) {
        let fresh = used < pieces.len() && (used == 0 || rng.chance(75));
        let number = if fresh { used } else { rng.below(used as u64) as usize };
        let touching = runs.last().is_some_and(|run| run.1 as u32 + 1 == first && run.2 as usize == number);
        if touching {
            continue;
        }
        used = used.max(number + 1);
        runs.push((first as u16, last as u16, number as u16));
    }
    pieces.truncate(used);
    runs
}

fn machine(rng: &mut Rng, side: &mut Side, n: u32, large: bool) {
    let huge = large && rng.chance(10);
    let classes = if huge { rng.pick(&[4, 200, 255]) } else { rng.between(4, 7) } as u32;
    let rows = if huge { rng.pick(&[255, 256, 100]) } else { rng.between(2, 6) } as u32;
    side.machine = vec![(rows, classes)];
    let most = rng.below(12) as usize;
    for (first, last) in stretches(rng, n, most) {
        let class = rng.below(classes as u64) as u16;
        let touching = side.classes.last().is_some_and(|run| run.1 as u32 + 1 == first && run.2 == class);
        if class != 1 && !touching {
            side.classes.push((first as u16, last as u16, class));
        }
    }
    let most = if huge && rng.chance(50) { 256 } else { rng.between(1, 10) as usize };
    let mut cells: Vec<Cell> = Vec::new();
    let mut known: Vec<Cell> = Vec::new();
    for index in 0..rows * classes {
        // The first cell of a row leads one row on, as far as entries last.
        let row = index / classes;
        let next = (row + 1).min(rows - 1) as u16;
        let cell = if index == 0 {
            Cell { row: (rows - 1) as u16, flags: rng.u16() }
        } else if known.len() < most && rng.chance(60) {
            let target = if rng.chance(30) { next } else { rng.below(rows as u64) as u16 };
            Cell { row: target, flags: if rng.chance(50) { rng.u16() } else { rng.below(3) as u16 } }
        } else {
            rng.pick(&known)
        };
        if !known.contains(&cell) {
            known.push(cell);
        }
        cells.push(cell);
    }
    let number = |cell: &Cell| known.iter().position(|k| k == cell).expect("known") as u8;
    side.cells = cells.iter().map(number).collect();
    side.entries = known;
}

fn cluster(rng: &mut Rng, large: bool) -> Vec<Pair> {
    let count = if large && rng.chance(10) { 128 } else { rng.between(1, 4) as u32 };
    let mut class = 0;
    let mut pairs = Vec::new();
    for index in 0..count {
        class += if count == 128 { (index > 0) as u32 } else { rng.below(30) as u32 + (index > 0) as u32 };
        if class > 127 {
            break;
        }
        let limits = [0; 4].map(|_| match rng.below(4) {
            0 => 0,
            1 => LIMIT,
            _ => rng.below(LIMIT as u64 + 1) as u32,
        });
        let flags = [0; 2].map(|_| rng.pick(&[0, 1, 2, 3, 0x1000, 0x1001, 0x1002, 0x1003]));
        pairs.push(Pair { class, limits, flags });
    }
    pairs
}

fn list(rng: &mut Rng, n: u32, large: bool) -> Vec<Deed> {
    let count = if large && rng.chance(5) { 64 } else { rng.between(1, 4) };
    (0..count).map(|_| deed(rng, n)).collect()
}

fn deed(rng: &mut Rng, n: u32) -> Deed {
    let kind = rng.below(6) as u16;
    let mut data = Vec::new();
    let glyph = |rng: &mut Rng| rng.below(n as u64) as u16;
    match kind {
        0 => {
            put_u32(&mut data, rng.u32());
            put_u32(&mut data, rng.u32());
            put_u16(&mut data, rng.u16());
            let count = if rng.chance(10) { 32 } else { rng.between(1, 3) as u16 };
            put_u16(&mut data, count);
            (0..count).for_each(|_| put_u16(&mut data, glyph(rng)));
        }
        1 => put_u16(&mut data, glyph(rng)),
        2 => {
            put_u32(&mut data, rng.u32());
            put_u16(&mut data, if rng.chance(40) { DELETED } else { glyph(rng) });
            put_u16(&mut data, glyph(rng));
        }
        3 => {}
        4 => (0..4).for_each(|_| put_u32(&mut data, rng.u32())),
        _ => {
            put_u16(&mut data, 0);
            put_u16(&mut data, glyph(rng));
        }
    }
    Deed { class: rng.below(128) as u16, kind, data }
}

/// An index into a list that is not empty.
fn any<T>(rng: &mut Rng, items: &[T]) -> Option<usize> {
    (!items.is_empty()).then(|| rng.below(items.len() as u64) as usize)
}

/// Puts one piece of the model wrong; `None` where there is no such piece.
fn near_miss(rng: &mut Rng, model: &mut Model) -> Option<()> {
    let n = model.n;
    let index = rng.below(2) as usize;
    let side = &mut model.sides[index];
    match rng.below(10) {
        0 => model.n = rng.pick(&[0, 65_536, n | 0x1_0000, u32::MAX, n - 1]),
        1 | 2 => miss_machine(rng, side)?,
        3 if rng.chance(50) => miss_class(rng, side)?,
        3 => miss_runs(rng, n, &mut side.classes)?,
        4 => miss_runs(rng, n, &mut side.cluster_runs)?,
        5 => miss_runs(rng, n, &mut side.list_runs)?,
        6 => miss_cluster(rng, side)?,
        7 => miss_list(rng, n, side)?,
        8 => miss_order(rng, &mut side.clusters, &mut side.cluster_runs)?,
        _ => miss_order(rng, &mut side.lists, &mut side.list_runs)?,
    }
    Some(())
}

fn miss_machine(rng: &mut Rng, side: &mut Side) -> Option<()> {
    let (rows, classes) = *side.machine.first()?;
    match rng.below(12) {
        0 => side.machine.push((rows, classes)),
        1 => side.machine.clear(),
        2 => side.machine[0].0 = rng.pick(&[rows + 1, rows - 1, 257, 1, 0]),
        3 => side.machine[0].1 = rng.pick(&[classes + 1, classes - 1, 3, 256]),
        4 => {
            // Another row that nothing leads to: S is not the least.
            side.machine[0].0 += 1;
            side.cells.extend(vec![0; classes as usize]);
        }
        5 => {
            side.cells.pop();
        }
        6 => side.cells.push(0),
        7 => {
            let at = any(rng, &side.entries)?;
            side.entries[at].row = rng.pick(&[rows as u16, 256, 0xFFFF, 0]);
        }
        8 => {
            // An entry twice, with its own number in a later cell.
            let at = any(rng, &side.entries)?;
            side.entries.push(side.entries[at]);
            let number = side.entries.len() as u8 - 1;
            *side.cells.last_mut()? = number;
        }
        9 => side.entries.push(Cell { row: 0, flags: rng.u16() }),
        10 => {
            let (a, b) = (any(rng, &side.entries)?, any(rng, &side.entries)?);
            side.entries.swap(a, b);
            let swapped = |&c: &u8| {
                if c as usize == a {
                    b as u8
                } else if c as usize == b {
                    a as u8
                } else {
                    c
                }
            };
            side.cells = side.cells.iter().map(swapped).collect();
        }
        _ => {
            let at = any(rng, &side.cells)?;
            side.cells[at] = rng.pick(&[0, 1, side.entries.len() as u8, 255]);
        }
    }
    Some(())
}

fn miss_runs(rng: &mut Rng, n: u32, runs: &mut Vec<Run>) -> Option<()> {
    let at = any(rng, runs)?;
    let run = runs[at];
    match rng.below(9) {
        0 => runs[at].1 = rng.pick(&[n as u16, (n - 1) as u16, 0xFFFF, run.1.wrapping_add(1)]),
        1 => runs[at].0 = rng.pick(&[run.0.wrapping_sub(1), run.1.wrapping_add(1), run.0.wrapping_add(1)]),
        2 => runs[at].2 = rng.pick(&[1, 0, run.2.wrapping_add(1), 0xFFFF, 255, 256]),
        3 if run.0 < run.1 => {
            // One run as two that touch.
            runs[at].1 = run.0;
            runs.insert(at + 1, (run.0 + 1, run.1, run.2));
        }
        4 => runs.insert(at, run),
        5 => {
            runs.remove(at);
        }
        6 => {
            let other = any(rng, runs)?;
            runs.swap(at, other);
        }
        7 => runs[at] = (run.1, run.0, run.2),
        _ => runs.push((run.1.wrapping_add(1), run.1.wrapping_add(1), run.2)),
    }
    Some(())
}

/// A run of a class that no run may have, or of the last that it may.
fn miss_class(rng: &mut Rng, side: &mut Side) -> Option<()> {
    let classes = side.machine.first()?.1 as u16;
    let at = any(rng, &side.classes)?;
    side.classes[at].2 = rng.pick(&[1, 1, classes, classes - 1, 255, 256 + side.classes[at].2]);
    Some(())
}

fn miss_cluster(rng: &mut Rng, side: &mut Side) -> Option<()> {
    let at = any(rng, &side.clusters)?;
    let cluster = &mut side.clusters[at];
    let pair = any(rng, cluster)?;
    match rng.below(6) {
        0 => cluster[pair].class = rng.pick(&[128, 127, 0, 0x80 | cluster[pair].class, u32::MAX]),
        1 => {
            cluster[pair].limits[rng.below(4) as usize] = rng.pick(&[LIMIT, LIMIT + 1, u32::MAX, LIMIT.wrapping_neg()])
        }
        2 => cluster[pair].flags[rng.below(2) as usize] = rng.pick(&[3, 4, 15, 16, 0x2000, 0x8001, 0x1003, 0x1004]),
        3 => cluster.clear(),
        4 => cluster.insert(pair, cluster[pair].clone()),
        _ => {
            while cluster.len() < 129 {
                let mut next = cluster[cluster.len() - 1].clone();
                next.class += 1;
                cluster.push(next);
            }
        }
    }
    Some(())
}

fn miss_list(rng: &mut Rng, n: u32, side: &mut Side) -> Option<()> {
    // Each type that is there is as likely as the others.
    let places = |kind: u16| {
        let lists = side.lists.iter().enumerate();
        let all =
            lists.flat_map(|(at, list)| list.iter().enumerate().map(move |(number, deed)| (at, number, deed.kind)));
        all.filter(move |&(_, _, k)| k == kind).map(|(at, number, _)| (at, number)).collect::<Vec<_>>()
    };
    let kinds: Vec<Vec<(usize, usize)>> = (0..6).map(places).filter(|found| !found.is_empty()).collect();
    let kind = any(rng, &kinds)?;
    let (at, number) = rng.pick(&kinds[kind]);
    let list = &mut side.lists[at];
    let deed = &mut list[number];
    match rng.below(9) {
        0 => deed.class = rng.pick(&[127, 128, 0xFFFF]),
        1 => deed.kind = rng.pick(&[0, 1, 2, 3, 4, 5, 6, 0xFFFF]),
        2 => {
            deed.data.pop();
        }
        3 => deed.data.push(0),
        4 => deed.data.extend([0, 0]),
        5 => list.clear(),
        6 => {
            let copy = deed.clone();
            list.extend(vec![copy; 64]);
        }
        _ => miss_field(rng, n, deed)?,
    }
    Some(())
}

/// A glyph, a count or type 5's flags at or past what is allowed.
fn miss_field(rng: &mut Rng, n: u32, deed: &mut Deed) -> Option<()> {
    let count = deed.data.len() / 2;
    let fields: Vec<usize> = match deed.kind {
        0 => (5..count).collect(),
        1 => vec![0],
        2 => vec![2, 3],
        5 => vec![0, 0, 1],
        _ => return None,
    };
    let at = 2 * rng.pick(&fields);
    let value: u16 = rng.pick(&[n as u16, (n - 1) as u16, 0xFFFF, 0xFFFE, 1, 0, 33]);
    deed.data.get_mut(at..at + 2)?.copy_from_slice(&value.to_be_bytes());
    Some(())
}

/// Order, distinctness and use of pieces.
fn miss_order<T: Clone>(rng: &mut Rng, pieces: &mut Vec<T>, runs: &mut [Run]) -> Option<()> {
    let at = any(rng, pieces)?;
    let other = any(rng, pieces)?;
    match rng.below(4) {
        0 => pieces.push(pieces[at].clone()),
        1 => {
            // Two numbers changed for each other in pieces and runs alike.
            pieces.swap(at, other);
            for run in runs.iter_mut() {
                if run.2 as usize == at {
                    run.2 = other as u16;
                } else if run.2 as usize == other {
                    run.2 = at as u16;
                }
            }
        }
        2 => {
            // The same piece under two numbers.
            pieces.push(pieces[at].clone());
            let last = runs.last_mut()?;
            last.2 = pieces.len() as u16 - 1;
        }
        _ => {
            pieces.remove(at);
        }
    }
    Some(())
}

/// Changes bytes without regard to what they are.
fn miss_bytes(rng: &mut Rng, sheet: &mut Vec<u8>) {
    match rng.below(5) {
        0 => {
            let more = rng.between(1, 4) as usize;
            sheet.extend(vec![0; more]);
        }
        1 => {
            let length = rng.below(sheet.len() as u64) as usize;
            sheet.truncate(length);
        }
        2 => {
            // A 32-bit count far beyond what is there.
            let at = 4 * rng.below(sheet.len() as u64 / 4) as usize;
            sheet[at..at + 4].copy_from_slice(&rng.pick(&[u32::MAX, 0x8000_0000, 0x1_0000, 1]).to_be_bytes());
        }
        3 => {
            let at = rng.below(sheet.len() as u64) as usize;
            sheet[at] = rng.draw() as u8;
        }
        _ => {
            let at = rng.below(sheet.len() as u64) as usize;
            sheet[at] ^= 1 << rng.below(8);
        }
    }
}

fn table_sheet(rng: &mut Rng) -> Vec<u8> {
    let n = tables::glyph_count(rng);
    let style = if rng.chance(20) { Style::PLAIN } else { Style::SMALL };
    let table = tables::sound(rng, n, style).bytes;
    write_sheet(&table, n).unwrap_or_default()
}

/// Bytes that are a sheet about half of the time.
pub fn draw(rng: &mut Rng) -> Vec<u8> {
    let mut sheet = if rng.chance(25) {
        table_sheet(rng)
    } else {
        let large = rng.chance(30);
        let mut model = model(rng, large);
        if rng.chance(64) {
            for _ in 0..8 {
                if near_miss(rng, &mut model).is_some() {
                    break;
                }
            }
        }
        model.bytes()
    };
    if rng.chance(16) && sheet.len() >= 4 {
        miss_bytes(rng, &mut sheet);
    }
    sheet
}

//! Lines whose numbers are as great as they can be: factors of 2^30, totals at
//! their cap, and gaps as wide as a line.
//!
//! Document 02, request 3/14, is about these: there the product of what is
//! left and a running total comes close to 2^63.

use super::lines::{edition, LineCase};
use super::rng::Rng;
use crate::cluster::write_record;
use crate::examples::Fields;
use crate::line::{one_size, MOST_PLACES, MOST_SIZE, MOST_WIDTH};
use crate::meaning::{Direction, WidthRecord, DELETED, LIMIT, UNLIMITED};
use crate::share::STAGES;

/// A size, and how many glyphs of 16 em on both sides with one more glyph of
/// which limits have a total at the cap, or one past it.
struct Cap {
    size: i64,
    copies: usize,
    at: [u32; 2],
    past: [u32; 2],
}

const CAPS: [Cap; 6] = [
    Cap { size: 786_500, copies: 341, at: [637_048, 113], past: [637_161, 0] },
    Cap { size: 2_162_742, copies: 124, at: [247_580, 121], past: [247_701, 0] },
    Cap { size: 6_553_796, copies: 40, at: [LIMIT - 1, 962_122], past: [LIMIT, 962_121] },
    Cap { size: 33_560_203, copies: 7, at: [1_048_553, 1_045_714], past: [LIMIT, 1_045_691] },
    Cap { size: 50_922_342, copies: 5, at: [569_259, 49], past: [569_308, 0] },
    Cap { size: 67_043_879, copies: 4, at: [8_087, 44], past: [8_131, 0] },
];

/// The limits and flags of a glyph, before and after, alike for both ways of a
/// gap.
type Sides = ([u32; 2], u16);

/// What each glyph has, at which point size, and the glyphs.
struct Plan {
    records: Vec<Sides>,
    sizes: Vec<i64>,
    glyphs: Vec<u16>,
}

impl Plan {
    fn new(size: i64, records: Vec<Sides>, glyphs: Vec<u16>) -> Plan {
        Plan { sizes: one_size(size, records.len()), records, glyphs }
    }

    fn add(&mut self, record: Sides, size: i64) -> u16 {
        self.records.push(record);
        self.sizes.push(size);
        (self.records.len() - 1) as u16
    }
}

/// A line.
pub fn draw(rng: &mut Rng) -> LineCase {
    let stage = rng.below(STAGES as u64) as u16;
    let mut plan = match rng.weighted(&[30, 20, 25, 25]) {
        0 => full(rng, stage),
        1 => many(rng, stage),
        2 => capped(rng, stage),
        _ => low(rng),
    };
    if rng.chance(40) {
        halve_sizes(rng, &mut plan);
    }
    add_others(rng, &mut plan, stage);
    rng.shuffle(&mut plan.glyphs);
    let count = plan.glyphs.len();
    let (advances, target) = widths(rng, count);
    LineCase {
        table: table(rng, &plan.records),
        n: plan.records.len() as u32,
        direction: rng.pick(&Direction::BOTH),
        starts: rng.chance(50),
        ends: rng.chance(50),
        edition: edition(rng),
        sizes: sizes_of(rng, &plan),
        glyphs: plan.glyphs,
        advances,
        target,
        classes_len: count,
        before_len: count,
        after_len: count,
        room: 0,
    }
}

/// Sides of 16 em at 1,024 pt; eight of them are at the cap.
fn full(rng: &mut Rng, stage: u16) -> Plan {
    let records = [[LIMIT, LIMIT], [LIMIT, 0], [0, LIMIT], [LIMIT - 1, 1], [0, 1]];
    let mut glyphs = vec![0; rng.between(1, 4) as usize];
    for _ in 0..rng.below(3) {
        glyphs.push(rng.between(1, 4) as u16);
    }
    Plan::new(MOST_SIZE, records.map(|limits| (limits, stage)).into(), glyphs)
}

/// Many equal sides that come up to the cap together, or nearly so.
fn many(rng: &mut Rng, stage: u16) -> Plan {
    let any = rng.between(5, 1_000) as usize;
    let count = rng.pick(&[8, 64, 512, MOST_PLACES, any, any]);
    let limit = 4 * LIMIT / count as u32;
    Plan::new(MOST_SIZE, vec![([limit, limit], stage)], vec![0; count])
}

/// A total at the cap or one past it.
fn capped(rng: &mut Rng, stage: u16) -> Plan {
    let cap = &CAPS[rng.below(CAPS.len() as u64) as usize];
    let last = if rng.chance(60) { cap.at } else { cap.past };
    let mut glyphs = vec![0; cap.copies];
    glyphs.push(1);
    Plan::new(cap.size, vec![([LIMIT, LIMIT], stage), (last, stage)], glyphs)
}

/// Small totals, so that nearly all goes back to the first stage or to
/// unlimited glyphs.
fn low(rng: &mut Rng) -> Plan {
    let record = |rng: &mut Rng| ([rng.below(4) as u32, rng.below(4) as u32], rng.below(STAGES as u64) as u16);
    let records: Vec<Sides> = (0..rng.between(1, 4)).map(|_| record(rng)).collect();
    let some = rng.between(1, 40) as usize;
    let count = rng.pick(&[some, some, some, MOST_PLACES - 4]);
    let glyphs = (0..count).map(|_| rng.below(records.len() as u64) as u16).collect();
    Plan::new(65_536, records, glyphs)
}

/// Puts some glyphs at half the size with twice the limits: every factor stays
/// as it is, and the line is in two sizes (document 02, request 5/14).
fn halve_sizes(rng: &mut Rng, plan: &mut Plan) {
    for number in 0..plan.records.len() {
        let (limits, flags) = plan.records[number];
        let size = plan.sizes[number];
        if size % 2 == 0 && limits.iter().all(|&limit| 2 * limit <= LIMIT) {
            let twin = plan.add((limits.map(|limit| 2 * limit), flags), size / 2);
            let own = plan.glyphs.iter_mut().filter(|glyph| **glyph as usize == number);
            own.for_each(|glyph| *glyph = if rng.chance(50) { twin } else { *glyph });
        }
    }
}

/// The size of each glyph's record; a deleted glyph has any size.
fn sizes_of(rng: &mut Rng, plan: &Plan) -> Vec<i64> {
    let size = |&glyph: &u16| match plan.sizes.get(glyph as usize) {
        Some(&size) => size,
        None => rng.pick(&[1, 65_536, MOST_SIZE]),
    };
    plan.glyphs.iter().map(size).collect()
}

/// Brings in a few glyphs of another stage with small limits, a deleted glyph,
/// and unlimited glyphs, as far as there are places.
fn add_others(rng: &mut Rng, plan: &mut Plan, stage: u16) {
    if plan.glyphs.len() + 3 <= MOST_PLACES && rng.chance(60) {
        let other = (stage + rng.between(1, STAGES as u64 - 1) as u16) % STAGES as u16;
        let limits = [rng.below(3) as u32, rng.below(3) as u32];
        let size = plan.sizes[0];
        let number = plan.add((limits, other), size);
        plan.glyphs.extend([number, number, DELETED]);
    }
    for (_, flags) in &mut plan.records {
        *flags |= if rng.chance(15) { UNLIMITED } else { 0 };
    }
}

/// Advances and a target that lie as far apart as they can, or nearly so, on
/// either side.
fn widths(rng: &mut Rng, count: usize) -> (Vec<i64>, i64) {
    let short = match rng.weighted(&[60, 25, 15]) {
        0 => 0,
        1 => rng.below(5) as i64,
        _ => rng.below(MOST_WIDTH as u64) as i64,
    };
    let growing = rng.chance(50);
    let sum = if growing { short } else { MOST_WIDTH };
    let each = if rng.chance(50) { sum / count as i64 } else { 0 };
    let mut advances = vec![each; count];
    advances[0] += sum - each * count as i64;
    (advances, if growing { MOST_WIDTH } else { short })
}

/// A table in which glyph k has the k-th record for class 0, in both
/// directions; shrink limits are of either sign.
fn table(rng: &mut Rng, records: &[Sides]) -> Vec<u8> {
    let count = records.len() as u16;
    let head = Fields::new().l(0x0001_0000).ws(&[0, 10, 10]).ws(&[0, 22 + 2 * count, 0]).ws(&[8, 0, count]);
    let mut fields = (0..count).fold(head, |fields, glyph| fields.w(28 * glyph));
    for &([before, after], flags) in records {
        let mut signed = |limit: u32| if rng.chance(50) { limit.wrapping_neg() } else { limit };
        let record = WidthRecord {
            before_grow: before,
            before_shrink: signed(before),
            after_grow: after,
            after_shrink: signed(after),
            grow_flags: flags,
            shrink_flags: flags,
        };
        fields = fields.l(1).l(0);
        write_record(&record, &mut fields.0);
    }
    fields.done()
}

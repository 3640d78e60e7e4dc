//! Lines in which a stage's total is at its cap, one below or one above: drawn lines hardly ever hit these.

use crate::drafts;
use crate::questions::Questions;
use reference::generate::LineCase;
use reference::line::{MOST_SIZE, MOST_TOTAL, MOST_WIDTH};
use reference::meaning::LIMIT;
use reference::share::STAGES;
use reference::{factor, WidthRecord};

/// Two limits whose factors sum to `total`; none where a short search finds none.
fn limits_for(total: u64, size: u32) -> Option<(u32, u32)> {
    let least_limit = |factor: u64| (factor * 65_536).div_ceil(size.into());
    let first = least_limit(total).min(LIMIT.into()) as u32;
    (first.saturating_sub(20_000)..=first).rev().find_map(|first| {
        let rest = total.checked_sub(factor(first, size))?;
        let second = least_limit(rest);
        (second <= LIMIT.into() && factor(second as u32, size) == rest).then_some((first, second as u32))
    })
}

/// A record with these limits in the gap's direction, and any others in the other one.
fn record(limits: (u32, u32), flags: u16, grow: bool, asked: &mut Questions) -> WidthRecord {
    let mut any = || asked.below(u64::from(LIMIT) + 1) as u32;
    let (given, other) = ((limits, flags), ((any(), any()), 0));
    let (grows, shrinks) = if grow { (given, other) } else { (other, given) };
    let ((before_grow, after_grow), grow_flags) = grows;
    let ((before_shrink, after_shrink), shrink_flags) = shrinks;
    WidthRecord { before_grow, before_shrink, after_grow, after_shrink, grow_flags, shrink_flags }
}

fn size(asked: &mut Questions) -> u32 {
    (1 << 19) + asked.below(MOST_SIZE as u64 - (1 << 19) + 1) as u32
}

/// How many glyphs of 16 em on each side at one size, with one glyph of what limits at another, or the same, give the total.
struct Shape {
    full: u32,
    copies: u64,
    rest: u32,
    limits: (u32, u32),
}

impl Shape {
    fn of(total: u64, asked: &mut Questions) -> Shape {
        loop {
            let full = size(asked);
            let rest = if asked.below(2) == 0 { full } else { size(asked) };
            let most = 2 * factor(LIMIT, full);
            if let Some(limits) = limits_for(total % most, rest) {
                return Shape { full, copies: total / most, rest, limits };
            }
        }
    }
}

/// Advances and a target for a gap of 0 to 99, or for the widest that there is.
fn widths(places: usize, grow: bool, asked: &mut Questions) -> (Vec<i64>, i64) {
    let mut advances: Vec<i64> = (0..places).map(|_| asked.below(1_000) as i64 + 1).collect();
    let sum: i64 = advances.iter().sum();
    let (widest, gap) = (asked.below(3) == 0, asked.below(100) as i64);
    match (grow, widest) {
        (true, true) => (vec![0; places], MOST_WIDTH),
        (true, false) => (advances, sum + gap),
        (false, true) => {
            advances[0] += MOST_WIDTH - sum;
            (advances, 0)
        }
        (false, false) => (advances, (sum - 1 - gap).max(0)),
    }
}

/// A line whose total in one stage is within one of the cap.
pub fn draw(asked: &mut Questions) -> LineCase {
    let Shape { full, copies, rest, limits } = Shape::of(MOST_TOTAL - 1 + asked.below(3), asked);
    let stages = STAGES as u64;
    let (stage, grow) = (asked.below(stages), asked.below(2) == 0);
    let unlimited = [0, 0x1000][asked.below(2) as usize];
    let other = (stage + 1 + asked.below(stages - 1)) % stages;
    let (stage, other) = (stage as u16, other as u16);
    let records = [((LIMIT, LIMIT), stage), (limits, stage | unlimited), ((LIMIT, 1), other)];
    let records = records.map(|(limits, flags)| record(limits, flags, grow, asked));
    let mut glyphs = vec![0; copies as usize];
    glyphs.extend([1, 2, 2, 0xFFFF]);
    for end in (1..glyphs.len()).rev() {
        glyphs.swap(end, asked.below(end as u64 + 1) as usize);
    }
    let mut size_of = |&glyph: &u16| match glyph {
        0 => full.into(),
        1 => rest.into(),
        _ => 1 + asked.below(MOST_SIZE as u64) as i64,
    };
    let sizes = glyphs.iter().map(&mut size_of).collect();
    let (advances, target) = widths(glyphs.len(), grow, asked);
    let edition = 1 + asked.below(2) as u32;
    LineCase { edition, sizes, advances, target, ..drafts::line(drafts::table(&records, &[], &[]), 3, glyphs) }
}

//! Width clusters.

use super::{Side, Walk};
use crate::field::Place;

/// 16 em.
const MOST_LIMIT: u64 = 16 << 16;

fn is_grow(limit: u64) -> bool {
    limit <= MOST_LIMIT
}

/// A shrink limit may have either sign: its size counts.
fn is_shrink(limit: u64) -> bool {
    u64::from((limit as i32).unsigned_abs()) <= MOST_LIMIT
}

/// Of flags the priority has a rule.
fn is_flags(flags: u64) -> bool {
    flags & 0xF <= 3
}

impl Side<'_> {
    pub(super) fn cluster(self, glyph: u16, start: u64) -> Walk<()> {
        let head = self.part(Place::Cluster { glyph }, start);
        let count = head.long(0, "pair count", |count| (1..=128).contains(&count))?;
        let mut least = 0;
        for number in 0..count {
            let pair = self.part(Place::Pair { glyph, number: number as u16 }, start + 4 + 24 * number);
            let class = pair.long(0, "class", |class| class & 0x7F >= least)?;
            pair.long(4, "before grow", is_grow)?;
            pair.long(8, "before shrink", is_shrink)?;
            pair.long(12, "after grow", is_grow)?;
            pair.long(16, "after shrink", is_shrink)?;
            pair.word(20, "grow flags", is_flags)?;
            pair.word(22, "shrink flags", is_flags)?;
            least = (class & 0x7F) + 1;
        }
        Ok(())
    }
}

//! Questions to a table or a sheet, at random and at the edges.

use reference::Sizes;

/// How many of each kind are asked of a direction.
pub const EACH: usize = 3;

/// A small generator of its own, so that questions do not change with the drawn tables.
pub struct Questions(u64);

impl Questions {
    pub fn new(seed: u64, index: u64) -> Questions {
        Questions(seed.wrapping_mul(0x9E37_79B9_7F4A_7C15) ^ index)
    }

    /// Any number.
    pub fn number(&mut self) -> u64 {
        self.0 = self.0.wrapping_add(0x9E37_79B9_7F4A_7C15);
        let mut mixed = self.0;
        mixed = (mixed ^ (mixed >> 30)).wrapping_mul(0xBF58_476D_1CE4_E5B9);
        mixed = (mixed ^ (mixed >> 27)).wrapping_mul(0x94D0_49BB_1331_11EB);
        mixed ^ (mixed >> 31)
    }

    /// A number below the end.
    pub fn below(&mut self, end: u64) -> u64 {
        self.number() % end
    }

    /// A number below the end, or one at an edge.
    fn near(&mut self, end: u64) -> u16 {
        let edges = [0, 1, end.wrapping_sub(1), end, end + 1, 0xFFFE, 0xFFFF];
        match self.number() % 4 {
            0 => edges[(self.number() % 7) as usize] as u16,
            _ => (self.number() % end.max(1)) as u16,
        }
    }

    pub fn glyph(&mut self, glyphs: u32) -> u16 {
        let small = self.number() % 3 == 0;
        self.near(if small { 12 } else { glyphs.into() })
    }

    pub fn cell(&mut self, sizes: Option<Sizes>) -> (u16, u16) {
        let sizes = sizes.unwrap_or(Sizes { rows: 2, classes: 4 });
        (self.near(sizes.rows.into()), self.near(sizes.classes.into()))
    }

    pub fn class(&mut self) -> u8 {
        match self.number() % 4 {
            0 => self.number() as u8,
            _ => (self.number() % 4) as u8,
        }
    }

    pub fn action(&mut self) -> u16 {
        match self.number() % 8 {
            0 => self.number() as u16,
            1 => [63, 64, 65][(self.number() % 3) as usize],
            _ => (self.number() % 3) as u16,
        }
    }
}

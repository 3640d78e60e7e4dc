//! Tables as fonts of Arabic script have them.

use reference::examples::Fields;

/// How many there are of what a font's table has. A unit is for two letters of three; there is one unit of widths and one of
/// actions for each, and a class of the machine for each letter.
#[derive(Clone, Copy)]
pub struct Font {
    pub units: u16,
    pub clusters: u16,
    pub lists: u16,
    pub rows: u16,
    pub classes: u16,
    pub entries: u16,
}

/// A table of 3.7 KB.
pub const SMALL: Font = Font { units: 200, clusters: 4, lists: 1, rows: 8, classes: 19, entries: 24 };

/// A table of 30 KB.
pub const LARGE: Font = Font { units: 1_200, clusters: 80, lists: 40, rows: 40, classes: 60, entries: 200 };

const PAIRS: u16 = 4;

/// The bytes of a cluster and of a list.
const CLUSTER: u16 = 4 + 24 * PAIRS;
const LIST: u16 = 16;

/// A lookup of format 2 with `units` units, each for two letters of three; the values begin at `from` and come in turn, `count` of
/// them, `step` apart.
fn lookup(fields: Fields, units: u16, (from, count, step): (u16, u16, u16)) -> Fields {
    let unit = |fields: Fields, unit: u16| fields.ws(&[3 * unit + 1, 3 * unit, from + step * (unit % count)]);
    (0..units).fold(fields.ws(&[2, 6, units, 0, 0, 0]), unit)
}

/// A cluster with a pair for each class, of all priorities but the null one; each fourth is unlimited.
fn cluster(fields: Fields, number: u16) -> Fields {
    (0..PAIRS).fold(fields.l(PAIRS.into()), |fields, class| {
        let (kind, wide) = (number + class, u32::from(number + class) * 0x300);
        let unlimited = if kind % 4 == 0 { 0x1000 } else { 0 };
        fields.l(class.into()).ls(&[wide, 0x400, 2 * wide, 0x400]).ws(&[kind % 3 | unlimited, kind % 3])
    })
}

/// A list of one action: a kashida for letters of class 1.
fn list(fields: Fields, number: u16) -> Fields {
    fields.l(1).ws(&[1, 5]).l(12).ws(&[0, number])
}

impl Font {
    /// A font with so many units, whose other parts do not grow with them.
    pub fn of_units(units: u16) -> Font {
        Font { units, clusters: 8, lists: 40, ..SMALL }
    }

    /// How many glyphs it has.
    pub fn glyphs(self) -> u32 {
        3 * u32::from(self.units)
    }

    /// A machine that looks at each letter once: every class of a letter comes up, marks are set and mark classes given.
    fn machine(self, fields: Fields) -> Fields {
        let Font { rows, classes, entries, .. } = self;
        let glyphs = self.glyphs() as u16;
        let states = 12 + glyphs;
        let head = fields.ws(&[0, 0, 0, 0]).ws(&[classes, 8, states, states + rows * classes]).ws(&[0, glyphs]);
        let classed = (0..glyphs).fold(head, |fields, glyph| fields.b((4 + glyph % (classes - 4)) as u8));
        let cells = (0..rows * classes).fold(classed, |fields, cell| fields.b((cell * 7 % entries) as u8));
        (0..entries).fold(cells, |fields, entry| {
            let mark = if entry % 3 == 0 { 0x8000 } else { 0 };
            fields.ws(&[states + classes * (entry % rows), mark | (entry / 3 % 3) << 7 | entry % 4])
        })
    }

    /// Its table: a horizontal direction with all parts.
    pub fn table(self) -> Vec<u8> {
        let Font { units, clusters: count, lists, .. } = self;
        let size = 12 + 6 * units;
        let clusters = 16 + size;
        let actions = clusters + count * CLUSTER;
        let head = Fields::new().l(0x0001_0000).ws(&[0, 10, 0]).ws(&[actions + size + lists * LIST, clusters, actions]);
        let widths = (0..count).fold(lookup(head, units, (0, count, CLUSTER)), cluster);
        self.machine((0..lists).fold(lookup(widths, units, (size, lists, LIST)), list)).done()
    }
}

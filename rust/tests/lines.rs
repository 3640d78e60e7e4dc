//! Lines in two sizes and by both editions: the README's, and what is refused of them. The numbers are worked out by hand from
//! document 01's rule, with each glyph's own size and with the second edition as document 02 has them (requests 5 and 7/14).

mod common;

use common::{simple, with_ligature, GLYPHS};
use just::{one_size, Direction, Justified, Line, Reason, Refusal, Table, DELETED, GX_RULE, POINT, WITHIN_LIMITS};

/// An eighth of a point.
const EIGHTH: i32 = POINT as i32 / 8;

const HEADWORD: u32 = 14 * POINT;
const GLOSS: u32 = 9 * POINT;

/// A line of glyph 0, which starts and ends the text, of advances 0.
fn line<'a>(sizes: &'a [u32], glyphs: &'a [u16], target: i32) -> Line<'a> {
    let advances = &[0; 8][..glyphs.len()];
    let direction = Direction::Horizontal;
    Line { direction, starts: true, ends: true, edition: GX_RULE, sizes, glyphs, advances, target }
}

/// The README's line: a letter and a space at 14 pt, then letter, space and letter at 9 pt, 21.75 pt wide in all.
fn entry(target: i32) -> Line<'static> {
    Line {
        direction: Direction::Horizontal,
        starts: true,
        ends: false,
        edition: GX_RULE,
        sizes: &[HEADWORD, HEADWORD, GLOSS, GLOSS, GLOSS],
        glyphs: &[3, 2, 3, 2, 3],
        advances: &[56 * EIGHTH, 28 * EIGHTH, 36 * EIGHTH, 18 * EIGHTH, 36 * EIGHTH],
        target,
    }
}

fn justified(line: &Line) -> Justified {
    Table::new(&simple(), GLYPHS).expect("a table").justify(line).expect("a justified line")
}

#[test]
fn spaces_grow_by_their_own_size() {
    // Both spaces are of stage 1. By half an em on each side, the first may grow by 7 pt, the second by 4.5 pt: 23 pt in
    // all. The gap is half of that.
    let answer = justified(&entry(266 * EIGHTH));
    let half = [0, 28 * EIGHTH, 0, 18 * EIGHTH, 0];
    assert_eq!((answer.before, answer.after), (half.into(), half.into()));
    assert_eq!((answer.remainder, answer.entries, answer.verdicts.len()), (0, 0, 0));
    // In one size, 14 pt, each side of a space may grow by 7 pt, and gets a quarter of the gap.
    let one = Line { sizes: &one_size(HEADWORD, entry(0).glyphs), ..entry(266 * EIGHTH) };
    assert_eq!(justified(&one).after, [0, 23 * EIGHTH, 0, 23 * EIGHTH, 0]);
}

#[test]
fn the_editions_side_by_side() {
    // The spaces of stage 1 may grow by 23 pt, the letters of stage 2 by 2 × 132,608 units and 4 × 85,248, which is 9.25 pt:
    // 32.25 pt in all. The gap is 43.75 pt, so 11.5 pt are left: half of what stage 1 may grow by.
    let wide = entry(524 * EIGHTH);
    let gx = justified(&wide);
    let passed = [132_608, (56 + 28) * EIGHTH, 85_248, (36 + 18) * EIGHTH, 85_248];
    assert_eq!((gx.before, gx.after, gx.remainder), (passed.into(), passed.into(), 0));
    let within = justified(&Line { edition: WITHIN_LIMITS, ..wide });
    let full = [132_608, 56 * EIGHTH, 85_248, 36 * EIGHTH, 85_248];
    assert_eq!((within.before, within.after, within.remainder), (full.into(), full.into(), 92 * EIGHTH));
    // A gap that the limits can take is shared alike.
    let narrow = entry(266 * EIGHTH);
    assert_eq!(justified(&narrow), justified(&Line { edition: WITHIN_LIMITS, ..narrow }));
}

#[test]
fn editions_are_1_and_2() {
    let bytes = simple();
    let table = Table::new(&bytes, GLYPHS).expect("a table");
    for edition in [0, 3, u32::MAX] {
        let of = |line: Line| table.justify(&Line { edition, ..line }).expect_err("a refusal").reason;
        assert_eq!(of(line(&[POINT], &[0], 0)), Reason::UnknownEdition);
        assert_eq!(of(line(&[], &[], 0)), Reason::UnknownEdition);
        // Between 10 and 11.
        assert_eq!(of(line(&[0], &[0], 0)), Reason::UnknownEdition);
        assert_eq!(of(line(&[], &[0], 0)), Reason::UnequalLengths);
    }
}

#[test]
fn a_ligature_breaks_by_its_own_size() {
    // Each of the two gets 300,000 units. Half an em is 458,752 at 14 pt and 294,912 at 9 pt.
    let bytes = with_ligature();
    let table = Table::new(&bytes, 2).expect("a table");
    let broken = |sizes| {
        let answer = table.justify(&line(sizes, &[0, 0], 600_000)).expect("a justified line");
        assert_eq!(answer.after, [300_000; 2]);
        answer.verdicts.iter().map(|verdict| verdict.place).collect::<Vec<_>>()
    };
    assert_eq!(broken(&[HEADWORD, GLOSS]), [1]);
    assert_eq!(broken(&[GLOSS, HEADWORD]), [0]);
    assert_eq!(broken(&[HEADWORD; 2]), [0u16; 0]);
}

#[test]
fn every_size_is_judged() {
    let bytes = simple();
    let table = Table::new(&bytes, GLYPHS).expect("a table");
    let refused = |sizes: &[u32], glyphs: &[u16]| match table.justify(&line(sizes, glyphs, 0)) {
        Ok(_) => None,
        Err(Refusal { reason, .. }) => Some(reason),
    };
    assert_eq!(refused(&[1, 67_108_864], &[0, 0]), None);
    assert_eq!(refused(&[POINT, 0], &[0, 0]), Some(Reason::PointSize));
    assert_eq!(refused(&[67_108_865, POINT], &[0, 0]), Some(Reason::PointSize));
    assert_eq!(refused(&[POINT, 0], &[0, DELETED]), Some(Reason::PointSize));
    assert_eq!(refused(&[0], &[0, 0]), Some(Reason::UnequalLengths));
    assert_eq!(refused(&[POINT; 3], &[0, 0]), Some(Reason::UnequalLengths));
    assert_eq!(refused(&[], &[]), None);
}

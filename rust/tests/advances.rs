//! The advances of small fonts, and what is said of fonts that have none.

mod common;

use common::{font, font_with_advances, head, hhea, hmtx, simple};
use just::{Advances, NoAdvances, DELETED};

const POINT: u32 = 65_536;

#[test]
fn advances_at_a_size() {
    let bytes = font_with_advances(&simple(), 280, &[500, 601, 0]);
    let advances = Advances::of(&bytes).expect("advances");
    assert_eq!(advances.at_size(0, 12 * POINT), 6 * POINT as i32);
    // 601 x 7 / 1,000 is 4.207.
    assert_eq!(advances.at_size(1, 7), 4);
    assert_eq!([2, 3, 65_534, DELETED].map(|glyph| advances.at_size(glyph, 12 * POINT)), [0; 4]);
}

#[test]
fn glyphs_past_the_last_advance_have_it() {
    let bytes = font_with_advances(&simple(), 280, &[500, 250]);
    let advances = Advances::of(&bytes).expect("advances");
    assert_eq!([1, 2, 279].map(|glyph| advances.at_size(glyph, 4)), [1; 3]);
    assert_eq!(advances.at_size(DELETED, 4), 0);
}

#[test]
fn what_is_too_great_for_a_line() {
    let tables = [(b"head", &head(1)[..]), (b"hhea", &hhea(1)), (b"hmtx", &hmtx(&[65_535]))];
    let bytes = font(&tables);
    let advances = Advances::of(&bytes).expect("advances");
    assert_eq!(advances.at_size(0, 1_024 * POINT), i32::MAX);
    assert_eq!(advances.at_size(0, 1), 65_535);
}

#[test]
fn fonts_without_advances() {
    let (head, hhea, hmtx) = (head(1_000), hhea(2), hmtx(&[1, 2]));
    let none = |head: &[u8], hhea: &[u8], hmtx: &[u8]| {
        Advances::of(&font(&[(b"head", head), (b"hhea", hhea), (b"hmtx", hmtx)])).err()
    };
    assert_eq!(none(&head, &hhea, &hmtx), None);
    assert_eq!(none(&head[..20], &hhea, &hmtx), None);
    assert_eq!(none(&head[..19], &hhea, &hmtx), Some(NoAdvances::Short("head")));
    assert_eq!(none(&head, &hhea[..35], &hmtx), Some(NoAdvances::Short("hhea")));
    assert_eq!(none(&head, &hhea, &hmtx[..7]), Some(NoAdvances::Short("hmtx")));
    assert_eq!(none(&common::head(0), &hhea, &hmtx), Some(NoAdvances::NoEm));
    assert_eq!(none(&head, &common::hhea(0), &hmtx), Some(NoAdvances::NoMetrics));
    assert_eq!(Advances::of(&font(&[(b"head", &head)])).err(), Some(NoAdvances::Missing("hhea")));
    assert_eq!(Advances::of(&[]).err(), Some(NoAdvances::Directory));
    assert_eq!(NoAdvances::Missing("hmtx").to_string(), "no advances: the font has no 'hmtx' table");
}

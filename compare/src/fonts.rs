//! Whole fonts (document 02, request 12/14): every field of the answer, what the Rust layer names beside a refusal, and that
//! the table which is found is accepted as that very stretch of the font.

use crate::refused::{said, Refused};
use crate::tally::Tally;
use crate::{same, Outcome};
use just_raw::{Font, Opened, Table};
use reference::generate;

const NUMBERS: [u32; 11] = [1, 2, 3, 4, 5, 6, 7, 8, 21, 22, 23];
const OPENED: &str = "a font that is opened";

/// What a run has to meet.
pub fn marks() -> Vec<String> {
    let refused = NUMBERS.iter().map(|number| mark(*number));
    refused.chain([OPENED.to_string()]).collect()
}

fn mark(number: u32) -> String {
    format!("a font refused {number}")
}

pub fn draw(seed: u64, index: u64) -> Vec<u8> {
    generate::font(seed, index)
}

/// Compares what is said of one font.
pub fn compare(font: &[u8], tally: &mut Tally) -> Outcome {
    let second = reference::open_font(font).map_err(Refused::fault);
    let opened = said(Font { bytes: font }.open());
    let wanted = second.map(|found| Opened {
        table_offset: found.offset as u32,
        table_length: found.length as u32,
        glyph_count: found.n,
    });
    same("open_font", opened, wanted)?;
    match opened {
        Ok(opened) => {
            tally.note(OPENED.into());
            let bytes = &font[opened.table_offset as usize..][..opened.table_length as usize];
            same(
                "check_table of a font's table",
                said(Table { bytes, glyph_count: opened.glyph_count }.check()),
                Ok(()),
            )
        }
        Err(refused) => {
            tally.note(mark(refused.number));
            compare_place(font, refused)
        }
    }
}

/// The Rust layer names a place for refusals 4 to 8 and 21 to 23, and for no others.
fn compare_place(font: &[u8], refused: Refused) -> Outcome {
    let refusal = just::Font::open(font).err();
    let place = refusal.and_then(|refusal| just::FontPlace::of(font, refusal));
    same("a place in a font", place.is_some(), matches!(refused.number, 4..=8 | 21..=23))
}

//! The words of a picture.

use super::UNITS_PER_POINT;
use just::Act;

/// What an action that fires does to its glyph.
pub fn deed(act: &Act, substitutes: bool) -> String {
    match act {
        Act::Decompose { components, .. } => {
            let glyphs: Vec<String> = components.iter().map(u16::to_string).collect();
            format!("breaks into {}", glyphs.join(" "))
        }
        Act::Add { glyph } => format!("adds glyph {glyph}"),
        Act::AddOrSubstitute { added, substitute, .. } => {
            let adds = added.map_or("adds nothing".into(), |glyph| format!("adds glyph {glyph}"));
            if substitutes {
                format!("becomes glyph {substitute}, {adds}")
            } else {
                adds
            }
        }
        Act::Stretch => "is stretched".into(),
        Act::Ductile { axis, .. } => format!("is stretched along axis {}", axis.to_be_bytes().escape_ascii()),
        Act::Repeat { glyph } => format!("adds glyph {glyph} repeatedly"),
    }
}

/// Units in points, to three places.
pub fn thousandths(units: i64) -> String {
    let text = format!("{:.3}", units as f64 / UNITS_PER_POINT);
    if text == "-0.000" {
        "0.000".into()
    } else {
        text
    }
}

/// The same without zeros at the end.
pub fn points(units: i64) -> String {
    thousandths(units).trim_end_matches('0').trim_end_matches('.').into()
}

/// The same with a plus sign.
pub fn signed(units: i64) -> String {
    let text = points(units);
    if text.starts_with('-') || text == "0" {
        text
    } else {
        format!("+{text}")
    }
}

/// A text in lines of at most so many letters, unless a word is longer.
pub fn wrapped(text: &str, most: usize) -> Vec<String> {
    let mut lines: Vec<String> = Vec::new();
    for word in text.split(' ') {
        match lines.last_mut() {
            Some(line) if line.len() + 1 + word.len() <= most => *line += &format!(" {word}"),
            _ => lines.push(word.into()),
        }
    }
    lines
}

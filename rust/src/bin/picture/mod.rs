//! `just-sheet --picture [--rtl] FONT GLYPHS WIDTH SIZE [EDITION]`: a line of glyph numbers, justified by a font's 'just' table
//! to a width and at a size in points, by an edition of the rule, as an SVG. The line is a text of its own: it starts and ends the text. With `--rtl` its first
//! glyph stands at the right; a glyph's before side is its left one all the same.

mod draw;
mod svg;
mod words;

use crate::Input;
use just::{one_size, Advances, Direction, Justified, Line, Meaning, Refusal, Table, Verdict, GX_RULE};

const UNITS_PER_POINT: f64 = 65_536.0;

/// The line that is asked for; width and size in units.
struct Wanted {
    glyphs: Vec<u16>,
    width: i32,
    size: u32,
    edition: u32,
}

/// A line as it is drawn; lengths in units.
struct Picture<'a> {
    file: &'a str,
    rtl: bool,
    width: i32,
    size: u32,
    edition: u32,
    remainder: i32,
    glyphs: Vec<Glyph>,
}

/// A glyph of a justified line, and what its actions that fire do.
struct Glyph {
    number: u16,
    class: u8,
    advance: i32,
    before: i32,
    after: i32,
    fires: Vec<String>,
}

/// The picture that some words ask for.
pub fn picture(words: &[&str]) -> Result<String, String> {
    let (rtl, words) = match *words {
        ["--rtl", ref words @ ..] => (true, words),
        _ => (false, words),
    };
    let (words, edition) = match *words {
        [ref words @ .., edition] if words.len() == 4 => (words, numbered(edition, "edition")?),
        _ => (words, GX_RULE),
    };
    let [file, glyphs, width, size] = *words else { return Err(crate::USAGE.into()) };
    let wanted = Wanted {
        glyphs: glyphs.split_whitespace().map(|word| numbered(word, "glyph number")).collect::<Result<_, _>>()?,
        width: units(width)? as i32,
        size: units(size)? as u32,
        edition,
    };
    let input = Input::one(file, &[])?;
    let table = input.table()?;
    let advances = Advances::of(&input.bytes).map_err(|none| format!("{file}: {none}"))?;
    let advances: Vec<i32> = wanted.glyphs.iter().map(|&glyph| advances.at_size(glyph, wanted.size)).collect();
    let justified =
        justified(&table, &wanted, &advances).map_err(|refusal| format!("{file}: the line is {refusal}"))?;
    let glyphs = glyphs_of(&table, &wanted.glyphs, &advances, &justified);
    let Wanted { width, size, .. } = wanted;
    Ok(draw::draw(&Picture { file, rtl, width, size, edition, remainder: justified.remainder, glyphs }))
}

fn numbered<T: std::str::FromStr>(word: &str, what: &str) -> Result<T, String> {
    word.parse().map_err(|_| format!("{word} is no {what}"))
}

/// A number of points in units, rounded; what no line may have, the library refuses.
fn units(word: &str) -> Result<f64, String> {
    let points = word.parse::<f64>().ok().filter(|points| points.is_finite());
    points.map(|points| (points * UNITS_PER_POINT).round()).ok_or_else(|| format!("{word} is no number of points"))
}

fn justified(table: &Table, wanted: &Wanted, advances: &[i32]) -> Result<Justified, Refusal> {
    table.justify(&Line {
        direction: Direction::Horizontal,
        starts: true,
        ends: true,
        edition: wanted.edition,
        sizes: &one_size(wanted.size, &wanted.glyphs),
        glyphs: &wanted.glyphs,
        advances,
        target: wanted.width,
    })
}

fn glyphs_of(table: &Table, numbers: &[u16], advances: &[i32], justified: &Justified) -> Vec<Glyph> {
    let fires = |place: usize| {
        let own = justified.verdicts.iter().filter(move |verdict| usize::from(verdict.place) == place);
        own.filter_map(|verdict| fired(table, numbers[place], verdict)).collect()
    };
    let glyph = |place: usize| Glyph {
        number: numbers[place],
        class: justified.classes[place],
        advance: advances[place],
        before: justified.before[place],
        after: justified.after[place],
        fires: fires(place),
    };
    (0..numbers.len()).map(glyph).collect()
}

fn fired(table: &Table, glyph: u16, verdict: &Verdict) -> Option<String> {
    let action = table.action(Direction::Horizontal, glyph, verdict.action)?;
    Some(words::deed(&action.act, verdict.substitutes))
}

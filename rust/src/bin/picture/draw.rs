//! A picture of a line: its glyphs by their advances alone and as justified, the column's edges, a ruler, a legend, and a table
//! of all numbers.

use super::svg::{width, Area, Svg};
use super::words::{points, signed, thousandths, wrapped};
use super::{Glyph, Picture, UNITS_PER_POINT};
use just::WITHIN_LIMITS;

/// The paper, and what of it a line may take across.
const PAPER: f64 = 960.0;
const MARGIN: f64 = 30.0;
const ACROSS: f64 = PAPER - 2.0 * MARGIN;

/// Where things stand down the paper.
const TITLE: f64 = 34.0;
const SUBTITLE: f64 = 54.0;
const ORDER: f64 = 71.0;
const EDGE_LABEL: f64 = 98.0;
const PLAIN: f64 = 126.0;
const JUSTIFIED: f64 = 204.0;
const BOX: f64 = 46.0;
const RULER: f64 = 262.0;
const LEGEND: f64 = 308.0;
const TABLE: f64 = 348.0;
const STEP: f64 = 18.0;

/// How far a row's name stands from the column's edge and from its boxes, and a dot from the top of its box.
const INSET: f64 = 6.0;

/// The right ends of the table's columns of numbers, and where its words begin.
const COLUMNS: [(&str, f64); 8] = [
    ("place", 66.0),
    ("glyph", 120.0),
    ("class", 172.0),
    ("advance", 252.0),
    ("before", 332.0),
    ("after", 412.0),
    ("from", 492.0),
    ("to", 572.0),
];
const WORDS: f64 = 600.0;
const MOST_LETTERS: usize = 48;

/// The least distance of two numbers on the ruler.
const TICK: f64 = 60.0;

/// From where to where, in units from the start of the line.
type Span = (i64, i64);

/// A glyph of the justified line, the movements at its sides, and all three together; a movement back ends before it begins.
struct Placed {
    all: Span,
    glyph: Span,
    before: Span,
    after: Span,
}

/// How lengths of the line are laid on paper.
struct Axis {
    scale: f64,
    longest: i64,
    rtl: bool,
}

impl Axis {
    fn of(picture: &Picture, placed: &[Placed]) -> Axis {
        let advances: i64 = picture.glyphs.iter().map(|glyph| i64::from(glyph.advance)).sum();
        let ends = placed.iter().flat_map(|at| [at.glyph.1, at.before.1, at.after.1]);
        let longest = ends.chain([advances, picture.width.into(), 1]).max().unwrap_or(1);
        Axis { scale: ACROSS / longest as f64, longest, rtl: picture.rtl }
    }

    fn x(&self, units: i64) -> f64 {
        let from_left = if self.rtl { self.longest - units } else { units };
        MARGIN + from_left as f64 * self.scale
    }

    fn area(&self, (from, to): Span, y: f64) -> Area {
        let (a, b) = (self.x(from), self.x(to));
        Area { x: a.min(b), y, width: (a - b).abs(), height: BOX }
    }
}

pub fn draw(picture: &Picture) -> String {
    let placed = placed(picture);
    let axis = Axis::of(picture, &placed);
    let mut svg = Svg::default();
    put_head(&mut svg, picture);
    put_plain(&mut svg, picture, &axis);
    put_justified(&mut svg, picture, &placed, &axis);
    put_edges(&mut svg, picture, &axis);
    put_ruler(&mut svg, &axis);
    put_legend(&mut svg);
    let end = put_table(&mut svg, &picture.glyphs, &placed);
    svg.file(PAPER, end + MARGIN)
}

/// Where each glyph of the justified line stands. From right to left its right side, the after one, is met first.
fn placed(picture: &Picture) -> Vec<Placed> {
    let mut at = 0;
    let mut step = |length: i32| {
        let from = at;
        at += i64::from(length);
        (from, at)
    };
    let place = |glyph: &Glyph| {
        let (first, last) = if picture.rtl { (glyph.after, glyph.before) } else { (glyph.before, glyph.after) };
        let (first, glyph, last) = (step(first), step(glyph.advance), step(last));
        let (before, after) = if picture.rtl { (last, first) } else { (first, last) };
        Placed { all: (first.0, last.1), glyph, before, after }
    };
    picture.glyphs.iter().map(place).collect()
}

fn put_head(svg: &mut Svg, picture: &Picture) {
    let Picture { file, rtl, width, size, edition, remainder, ref glyphs } = *picture;
    let name = file.rsplit('/').next().unwrap_or(file);
    let count = if glyphs.len() == 1 { "1 glyph".into() } else { format!("{} glyphs", glyphs.len()) };
    let (size, column) = (points(size.into()), points(width.into()));
    let rule = if edition == WITHIN_LIMITS { ", within the limits" } else { "" };
    svg.text("title", MARGIN, TITLE, &format!("{name}: {count} at {size} pt in a column of {column} pt{rule}"));
    let advances: i64 = glyphs.iter().map(|glyph| i64::from(glyph.advance)).sum();
    let gap = signed(i64::from(width) - advances);
    let left = signed(remainder.into());
    let sums = format!("advances {} pt, gap {gap} pt, of which {left} pt are left over", points(advances));
    svg.text("", MARGIN, SUBTITLE, &sums);
    let order = if rtl { "right to left" } else { "left to right" };
    let order = format!("the line runs from {order}; before is the left side of a glyph, after its right side");
    svg.text("small", MARGIN, ORDER, &order);
}

/// The glyphs by their advances alone.
fn put_plain(svg: &mut Svg, picture: &Picture, axis: &Axis) {
    svg.text("small", MARGIN + INSET, PLAIN - INSET, "by advances alone");
    let mut at = 0;
    for (place, glyph) in picture.glyphs.iter().enumerate() {
        let span = (at, at + i64::from(glyph.advance));
        at = span.1;
        let area = axis.area(span, PLAIN);
        svg.area("box", area, &told(place, glyph, span));
        svg.label(area, &glyph.number.to_string());
    }
}

fn told(place: usize, glyph: &Glyph, (from, to): Span) -> String {
    format!("place {place}, glyph {}: from {} to {} pt", glyph.number, points(from), points(to))
}

fn put_justified(svg: &mut Svg, picture: &Picture, placed: &[Placed], axis: &Axis) {
    svg.text("small", MARGIN + INSET, JUSTIFIED - INSET, "justified");
    let glyphs = || picture.glyphs.iter().zip(placed).enumerate();
    for (place, (glyph, at)) in glyphs() {
        svg.area("box", axis.area(at.glyph, JUSTIFIED), &told(place, glyph, at.glyph));
    }
    for (place, (glyph, at)) in glyphs() {
        put_movement(svg, "before", place, glyph.before, axis.area(at.before, JUSTIFIED));
        put_movement(svg, "after", place, glyph.after, axis.area(at.after, JUSTIFIED));
    }
    for (place, (glyph, at)) in glyphs() {
        let area = axis.area(clear(placed, place).unwrap_or(at.glyph), JUSTIFIED);
        if clear(placed, place).is_some() {
            svg.label(area, &glyph.number.to_string());
        }
        if !glyph.fires.is_empty() {
            svg.dot("fires", area.x + area.width / 2.0, area.y + INSET);
        }
    }
}

/// What of a glyph's box no movement back and no other box covers.
fn clear(placed: &[Placed], place: usize) -> Option<Span> {
    let at = &placed[place];
    let begin = placed[..place].last().map_or(0, |last| last.glyph.1).max(at.glyph.0).max(at.all.0);
    let end = placed.get(place + 1).map_or(at.glyph.1, |next| next.glyph.0).min(at.glyph.1).min(at.all.1);
    (begin < end).then_some((begin, end))
}

fn put_movement(svg: &mut Svg, side: &str, place: usize, movement: i32, area: Area) {
    if movement == 0 {
        return;
    }
    let class = if movement < 0 { format!("{side} back") } else { side.into() };
    let amount = signed(movement.into());
    svg.area(&class, area, &format!("place {place}, {side}: {amount} pt"));
    if movement > 0 {
        svg.label(area, &amount);
    }
}

/// The column's edges, where the line begins and where it should end.
fn put_edges(svg: &mut Svg, picture: &Picture, axis: &Axis) {
    let end = axis.x(picture.width.into());
    for x in [axis.x(0), end] {
        svg.line("edge", (x, EDGE_LABEL + 4.0), (x, RULER));
    }
    let text = format!("column edge, {} pt", points(picture.width.into()));
    let (class, x) = if end + width(&text) > PAPER - MARGIN { ("end", end) } else { ("", end) };
    svg.text(class, x, EDGE_LABEL, &text);
}

fn put_ruler(svg: &mut Svg, axis: &Axis) {
    let longest = axis.longest as f64 / UNITS_PER_POINT;
    let step = nice(TICK / (axis.scale * UNITS_PER_POINT));
    svg.line("ruler", (MARGIN, RULER), (PAPER - MARGIN, RULER));
    for tick in 0..=(longest / step) as i64 {
        let units = (tick as f64 * step * UNITS_PER_POINT).round() as i64;
        let x = axis.x(units);
        svg.line("ruler", (x, RULER), (x, RULER + 5.0));
        svg.text("small mid", x, RULER + 18.0, &format!("{} pt", points(units)));
    }
}

/// The least of 1, 2, 5, 10, 20, .. thousandths that is not below a number.
fn nice(least: f64) -> f64 {
    let steps = (0..).flat_map(|power| [1.0, 2.0, 5.0].map(|step| step * 0.001 * 10_f64.powi(power)));
    steps.into_iter().find(|&step| step >= least).expect("there is always a greater one")
}

fn put_legend(svg: &mut Svg) {
    let entries = [
        ("box", "a glyph, by its advance"),
        ("before", "moved before it"),
        ("after", "moved after it"),
        ("before back", "pulled back before it"),
        ("after back", "pulled back after it"),
    ];
    let mut x = MARGIN;
    for (class, text) in entries {
        svg.area(class, Area { x, y: LEGEND - 10.0, width: 16.0, height: 12.0 }, text);
        svg.text("", x + 22.0, LEGEND, text);
        x += 22.0 + width(text);
    }
    svg.dot("fires", x + 4.0, LEGEND - 4.0);
    svg.text("", x + 12.0, LEGEND, "an action fires");
}

/// A row for each glyph; where the last one ends.
fn put_table(svg: &mut Svg, glyphs: &[Glyph], placed: &[Placed]) -> f64 {
    for (name, x) in COLUMNS {
        svg.text("head end", x, TABLE, name);
    }
    svg.text("head", WORDS, TABLE, "what fires (all lengths in points)");
    let mut y = TABLE;
    for (place, (glyph, at)) in glyphs.iter().zip(placed).enumerate() {
        svg.line("rule", (MARGIN, y + 5.0), (PAPER - MARGIN, y + 5.0));
        for ((_, x), cell) in COLUMNS.into_iter().zip(cells(place, glyph, at)) {
            svg.text("end", x, y + STEP, &cell);
        }
        let lines: Vec<String> = glyph.fires.iter().flat_map(|deed| wrapped(deed, MOST_LETTERS)).collect();
        for (number, line) in lines.iter().enumerate() {
            svg.text("", WORDS, y + STEP * (number + 1) as f64, line);
        }
        y += STEP * lines.len().max(1) as f64;
    }
    y
}

fn moved(movement: i32) -> String {
    match movement {
        0 => "0".into(),
        1.. => format!("+{}", thousandths(movement.into())),
        _ => thousandths(movement.into()),
    }
}

fn cells(place: usize, glyph: &Glyph, at: &Placed) -> [String; COLUMNS.len()] {
    [
        place.to_string(),
        glyph.number.to_string(),
        glyph.class.to_string(),
        thousandths(glyph.advance.into()),
        moved(glyph.before),
        moved(glyph.after),
        thousandths(at.glyph.0),
        thousandths(at.glyph.1),
    ]
}

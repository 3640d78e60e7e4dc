//! `just-sheet FONT`: the sheet of a font's 'just' table, read with the font's glyph count, in hex, four bytes a line.
//! `just-sheet TABLE N`: the sheet of a table file read with N glyphs.
//! `just-sheet --text ..`: the same, to be read, and how many units each lookup of the table has, which tables that mean the
//! same need not have alike, and at most how many of them a find looks at.
//! `just-sheet --same A B [N [M]]`: whether two fonts, or tables, mean the same. With both counts A and B are tables, read with
//! N and M glyphs; else those with another format than 0, where a font has its table count, are fonts, and others are read
//! with N. A font is compared only with what has as many glyphs.
//! `just-sheet --diff [--each] A B [N]`: what changed from A to B, in runs of glyphs or of each glyph; they are told apart as
//! for `--same`, and have one glyph count.
//! `just-sheet --table FONT FILE`: writes the 'just' table of a font into a file of its own.
//! `just-sheet --picture [--rtl] FONT GLYPHS WIDTH SIZE [EDITION]`: a line of glyph numbers, justified by a font, as an SVG;
//! width and size in points, and the edition of the rule, 1 where it is not named.
//!
//! Exit status: 0, or 1 where two tables do not mean the same, or 2 where something is refused or cannot be read. Of a font or
//! table that is refused standard error says why, at which byte of the table, and which field stands there; what has a
//! number counts from 0.

mod diff;
mod picture;

use just::{
    Act, Action, Direction, Entry, Field, Font, FontPlace, Limits, Lookup, Machine, Meaning, Pair, Refusal, Rule, Run,
    Sheet, Side, Table, Units,
};
use std::fmt::Write as _;
use std::io::Write as _;
use std::process::ExitCode;

const USAGE: &str = "usage: just-sheet [--text] FONT, just-sheet [--text] TABLE N, just-sheet --same A B [N [M]], \
                     just-sheet --diff [--each] A B [N], just-sheet --table FONT FILE, \
                     or just-sheet --picture [--rtl] FONT GLYPHS WIDTH SIZE [EDITION]";

/// What is printed, and whether the answer is yes.
type Answered = Result<(String, bool), String>;

fn main() -> ExitCode {
    let words: Vec<String> = std::env::args().skip(1).collect();
    let words: Vec<&str> = words.iter().map(String::as_str).collect();
    match answer(&words).and_then(print) {
        Ok(true) => ExitCode::SUCCESS,
        Ok(false) => ExitCode::from(1),
        Err(wrong) => {
            eprintln!("just-sheet: {wrong}");
            ExitCode::from(2)
        }
    }
}

fn print((text, yes): (String, bool)) -> Result<bool, String> {
    std::io::stdout().write_all(text.as_bytes()).map_err(|wrong| wrong.to_string())?;
    Ok(yes)
}

fn answer(words: &[&str]) -> Answered {
    match *words {
        ["--text", file, ref counts @ ..] => Ok((text(&Input::one(file, counts)?)?, true)),
        ["--same", a, b, ref counts @ ..] => compared(&Input::all([a, b], counts)?),
        ["--diff", "--each", a, b, ref count @ ..] if count.len() < 2 => changed(&Input::all([a, b], count)?, false),
        ["--diff", a, b, ref count @ ..] if count.len() < 2 && !a.starts_with("--") => {
            changed(&Input::all([a, b], count)?, true)
        }
        ["--table", font, file] => take_out(&Input::one(font, &[])?, file),
        ["--picture", ref words @ ..] => Ok((picture::picture(words)?, true)),
        [file, ref counts @ ..] if !file.starts_with("--") => Ok((hex(&Input::one(file, counts)?.sheet()?), true)),
        _ => Err(USAGE.into()),
    }
}

/// What a file holds: a font, or a table and the glyph count that it is read with.
struct Input<'a> {
    file: &'a str,
    bytes: Vec<u8>,
    glyphs: Option<u32>,
}

impl<'a> Input<'a> {
    fn one(file: &'a str, counts: &[&str]) -> Result<Input<'a>, String> {
        Input::all([file], counts).map(|[input]| input)
    }

    /// With a count for each file all are tables. Otherwise a file is a table only if it has a table's format, 0, and all tables
    /// are read with the last count.
    fn all<const N: usize>(files: [&'a str; N], counts: &[&str]) -> Result<[Input<'a>; N], String> {
        let mut glyphs = Vec::new();
        for count in counts {
            glyphs.push(count.parse::<u32>().map_err(|_| format!("{count} is no glyph count"))?);
        }
        let mut inputs = Vec::new();
        for (place, file) in files.into_iter().enumerate() {
            let bytes = std::fs::read(file).map_err(|wrong| format!("{file}: {wrong}"))?;
            let is_table = glyphs.len() == N || bytes.get(4..6) == Some(&[0, 0]);
            let count = is_table.then(|| glyphs.get(place).or(glyphs.last()).copied());
            if count == Some(None) {
                return Err(format!("{file}: a table that is in no font wants its glyph count; {USAGE}"));
            }
            inputs.push(Input { file, bytes, glyphs: count.flatten() });
        }
        let idle = !glyphs.is_empty() && inputs.iter().all(|input| input.glyphs.is_none());
        if glyphs.len() > N || idle {
            return Err(format!("more glyph counts than tables; {USAGE}"));
        }
        inputs.try_into().map_err(|_| USAGE.into())
    }

    fn table(&self) -> Result<Table<'_>, String> {
        match self.glyphs {
            Some(glyphs) => Table::new(&self.bytes, glyphs).map_err(|refusal| self.refused(refusal)),
            None if self.bytes.starts_with(b"ttcf") => {
                Err(format!("{}: a collection of fonts (ttcf), which is not read: take one font out of it", self.file))
            }
            None => Font::open(&self.bytes).map(|font| font.table()).map_err(|refusal| self.refused(refusal)),
        }
    }

    /// What is said of a refused table or font: the refusal and, where it speaks of one, the field or the part.
    fn refused(&self, refusal: Refusal) -> String {
        let place = match self.glyphs {
            Some(glyphs) => Field::of(&self.bytes, glyphs, refusal).map(FontPlace::Field),
            None => FontPlace::of(&self.bytes, refusal),
        };
        let of = if self.glyphs.is_some() || refusal.reason.is_of_font() { "" } else { ", table 'just'" };
        match place {
            Some(place) => format!("{}{of}: {refusal} ({place})", self.file),
            None if of.is_empty() && Font::open(&self.bytes).is_ok() => {
                format!("{}: {refusal}; it is a font, which is read without N", self.file)
            }
            None => format!("{}{of}: {refusal}", self.file),
        }
    }

    fn sheet(&self) -> Result<Vec<u8>, String> {
        self.table()?.write_sheet().map_err(|refusal| self.refused(refusal))
    }
}

/// The tables of two inputs; fonts with different glyph counts cannot be held against each other.
fn tables<'a>([a, b]: &'a [Input; 2]) -> Result<[Table<'a>; 2], String> {
    let [first, second] = [a.table()?, b.table()?];
    let (n, m) = (first.glyph_count(), second.glyph_count());
    if n != m && (a.glyphs.is_none() || b.glyphs.is_none()) {
        return Err(format!("{} has {n} glyphs and {} has {m}: they cannot be compared", a.file, b.file));
    }
    Ok([first, second])
}

fn compared(inputs: &[Input; 2]) -> Answered {
    tables(inputs)?;
    let [a, b] = inputs;
    same(&a.sheet()?, &b.sheet()?)
}

/// What changed from the first input to the second.
fn changed(inputs: &[Input; 2], folds: bool) -> Answered {
    let [a, b] = tables(inputs)?;
    diff::diff(&a, &b, folds)
}

/// Tables mean the same exactly when their sheets are equal.
fn same(a: &[u8], b: &[u8]) -> Answered {
    let said = if a == b { "the same\n" } else { "not the same\n" };
    Ok((said.into(), a == b))
}

/// Writes a font's table into a file.
fn take_out(font: &Input, file: &str) -> Answered {
    let table = font.table()?;
    std::fs::write(file, table.bytes()).map_err(|wrong| format!("{file}: {wrong}"))?;
    Ok((format!("{} bytes, to be read with {} glyphs\n", table.bytes().len(), table.glyph_count()), true))
}

fn hex(bytes: &[u8]) -> String {
    let mut out = String::new();
    for line in bytes.chunks(4) {
        line.iter().for_each(|byte| put(&mut out, format_args!("{byte:02x}")));
        out.push('\n');
    }
    out
}

/// Writing into a string cannot fail.
fn put(out: &mut String, what: std::fmt::Arguments) {
    out.write_fmt(what).expect("a string grows");
}

fn text(input: &Input) -> Result<String, String> {
    let table = input.table()?;
    table_text(&table).map_err(|refusal| input.refused(refusal))
}

fn table_text(table: &Table) -> Result<String, Refusal> {
    let bytes = table.write_sheet()?;
    let sheet = Sheet::new(&bytes)?;
    let mut out = format!("glyphs: {}\n", sheet.glyph_count());
    for (name, direction) in [("horizontal", Direction::Horizontal), ("vertical", Direction::Vertical)] {
        put(&mut out, format_args!("{name}\n"));
        put_units(&mut out, "width", table.units(direction, Lookup::Width)?);
        put_units(&mut out, "action", table.units(direction, Lookup::Action)?);
        put_side(&mut out, &sheet.side(direction));
    }
    Ok(out)
}

/// A lookup without units, absent or not, is not searched.
fn put_units(out: &mut String, name: &str, Units { units, most }: Units) {
    if units != 0 {
        put(out, format_args!("  {name} lookup: units {units}, looks at most {most}\n"));
    }
}

fn put_side(out: &mut String, side: &Side) {
    if *side == Side::default() {
        out.push_str("  nothing\n");
    }
    if let Some(machine) = &side.machine {
        put_machine(out, machine);
    }
    for (number, pairs) in side.clusters.iter().enumerate() {
        put(out, format_args!("  cluster {number}, glyphs {}\n", glyphs_of(&side.cluster_runs, number)));
        pairs.iter().for_each(|pair| put(out, format_args!("    {}\n", pair_text(pair))));
    }
    for (number, actions) in side.lists.iter().enumerate() {
        put(out, format_args!("  actions {number}, glyphs {}\n", glyphs_of(&side.list_runs, number)));
        actions.iter().for_each(|action| put(out, format_args!("    {}\n", action_text(action))));
    }
}

fn put_machine(out: &mut String, machine: &Machine) {
    put(out, format_args!("  machine of {} rows and {} classes\n", machine.sizes.rows, machine.sizes.classes));
    for run in &machine.classes {
        put(out, format_args!("    class {}: glyphs {}\n", run.value, run_text(run)));
    }
    for (number, entry) in machine.entries.iter().enumerate() {
        put(out, format_args!("    entry {number}: {}\n", entry_text(*entry)));
    }
    for (row, cells) in machine.cells.chunks(machine.sizes.classes.into()).enumerate() {
        let cells: Vec<String> = cells.iter().map(u8::to_string).collect();
        put(out, format_args!("    row {row}: {}\n", cells.join(" ")));
    }
}

fn run_text(run: &Run) -> String {
    if run.first == run.last {
        run.first.to_string()
    } else {
        format!("{}-{}", run.first, run.last)
    }
}

/// The glyphs that have the cluster or the list of a number.
fn glyphs_of(runs: &[Run], number: usize) -> String {
    let own = runs.iter().filter(|run| usize::from(run.value) == number);
    own.map(run_text).collect::<Vec<_>>().join(", ")
}

fn entry_text(entry: Entry) -> String {
    let mut text = format!("to row {}", entry.row);
    if entry.stays() {
        text += ", stays";
    }
    if entry.mark_class() != 0 {
        put(&mut text, format_args!(", class {} to the marked glyph", entry.mark_class()));
    }
    if entry.current_class() != 0 {
        put(&mut text, format_args!(", class {} to the current glyph", entry.current_class()));
    }
    if entry.sets_mark() {
        text += ", marks";
    }
    text
}

/// A number of ems as a decimal; 16 binary places have an exact one.
fn ems(fixed: i64) -> String {
    format!("{}", fixed as f64 / 65_536.0)
}

fn pair_text(pair: &Pair) -> String {
    format!("class {}: {}", pair.class, record_text(pair))
}

/// A record without its class.
fn record_text(pair: &Pair) -> String {
    let side = |limits: Limits| format!("+{} -{}", ems(limits.grow.into()), ems(limits.shrink.into()));
    let rule = |rule: Rule| format!("{}{}", rule.priority, if rule.unlimited { " unlimited" } else { "" });
    format!(
        "before {}, after {} em, priority growing {}, shrinking {}",
        side(pair.before),
        side(pair.after),
        rule(pair.grow),
        rule(pair.shrink)
    )
}

fn action_text(action: &Action) -> String {
    let em = |fixed: &i32| ems((*fixed).into());
    let act = match &action.act {
        Act::Decompose { lower, upper, order, components } => {
            let glyphs: Vec<String> = components.iter().map(u16::to_string).collect();
            format!("decompose below {} or above {} em, order {order}, into {}", em(lower), em(upper), glyphs.join(" "))
        }
        Act::Add { glyph } => format!("add glyph {glyph}"),
        Act::AddOrSubstitute { threshold, added, substitute } => {
            let added = added.map_or("nothing".into(), |glyph| format!("glyph {glyph}"));
            format!("add {added}, from {} em substitute glyph {substitute}", em(threshold))
        }
        Act::Stretch => "stretch".into(),
        Act::Ductile { axis, minimum, default, maximum } => {
            let axis = axis.to_be_bytes().escape_ascii().to_string();
            format!("ductile along axis {axis} from {} by {} to {}", em(minimum), em(default), em(maximum))
        }
        Act::Repeat { glyph } => format!("add glyph {glyph} repeatedly"),
    };
    format!("class {}: {act}", action.class)
}

//! The generators: the same draw for the same seed and index, about half of
//! the draws accepted, and every refusal among 5,000.

use std::collections::BTreeMap;

use reference::bytes::{get_u16, get_u32};
use reference::generate;
use reference::generate::rng::Rng;
use reference::line::{classes_of, rooms_of};
use reference::*;

const DRAWS: u64 = 5_000;
const SEED: u64 = 7;

fn about_half(accepted: usize) {
    let share = accepted * 100 / DRAWS as usize;
    assert!((40..=62).contains(&share), "{share} in a hundred");
}

#[test]
fn draws_are_fixed() {
    for index in 0..50 {
        assert_eq!(generate::table(SEED, index), generate::table(SEED, index));
        assert_eq!(generate::sheet(SEED, index), generate::sheet(SEED, index));
        let (a, b) = (generate::line(SEED, index), generate::line(SEED, index));
        assert_eq!(format!("{a:?}"), format!("{b:?}"));
    }
    assert_ne!(generate::table(SEED, 0), generate::table(SEED, 1));
    assert_ne!(generate::table(SEED, 0), generate::table(SEED + 1, 0));
}

#[test]
fn sound_tables_are_accepted() {
    for index in 0..DRAWS {
        let (table, n) = generate::sound_table(SEED, index);
        assert_eq!(check_table(&table, n), Ok(()), "draw {index}");
    }
}

#[test]
fn sound_tables_reach_every_limit() {
    let mut reached = [0usize; 12];
    let mut formats = [0usize; 9];
    for index in 0..DRAWS {
        let (table, n) = generate::sound_table(SEED, index);
        let read = read_table(&table, n).unwrap();
        let mut note = |limit: usize, met: bool| reached[limit] += met as usize;
        note(0, table.len() == 32_768);
        note(1, n == 65_535);
        note(2, n == 1);
        for direction in Direction::BOTH {
            let sizes = read.sizes(direction).unwrap_or(Sizes { rows: 0, classes: 0 });
            note(3, sizes.rows == 256);
            note(4, sizes.classes == 255);
            note(5, sizes.classes == 4);
            note(6, read.machine(direction).map_or(0, |machine| distinct(&machine.cells)) == 256);
            let count = |at| read.bytes().known_u32(at);
            note(7, read.cluster_runs(direction).any(|(_, at)| count(at) == 128));
            note(8, read.list_runs(direction).any(|(_, at)| count(at) == 64));
            note(9, read.list_runs(direction).any(|(_, at)| count(at) == 0));
            let whole = |at| actions::list(read.bytes(), at).any(|found| found.components().length == 64);
            note(10, read.list_runs(direction).any(|(_, at)| whole(at)));
            if let Some(base) = width_lookup(&table, direction) {
                formats[get_u16(&table, base) as usize] += 1;
            }
        }
        note(11, sheet_length(&table, n).unwrap() > 65_536);
    }
    println!("length, N = 65,535, N = 1, rows, classes 255 and 4, entries, pairs, actions 64 and 0, components, long sheet: {reached:?}");
    println!("width lookups of formats 0, 2, 4, 6, 8: {:?}", [0, 2, 4, 6, 8].map(|format| formats[format]));
    assert!(reached.iter().all(|&count| count >= 10), "{reached:?}");
    assert!([0, 2, 4, 6, 8].iter().all(|&format| formats[format] > 200), "{formats:?}");
}

/// Where the width lookup of a direction stands.
fn width_lookup(table: &[u8], direction: Direction) -> Option<usize> {
    let offset = get_u16(table, 6 + 2 * direction.index()) as usize;
    (offset != 0).then_some(offset + 6)
}

/// What a lookup of format 2, 4 or 6 shows.
fn note_units(table: &[u8], n: u32, base: usize, kinds: &mut Kinds) {
    let format = get_u16(table, base);
    let step = if format == 6 { 4 } else { 6 };
    let counted = get_u16(table, base + 4) as usize;
    let bounds = |unit: usize| {
        let at = base + 12 + step * unit;
        (get_u16(table, at + step - 4) as u32, get_u16(table, at) as u32)
    };
    let mut note =
        |kind: &str, met: bool| *kinds.entry(format!("format {format}: {kind}")).or_default() += met as usize;
    let closed = counted > 0 && bounds(counted - 1).0 == 0xFFFF;
    let count = counted - closed as usize;
    note("no units", count == 0);
    note("up to 20 units", (1..=20).contains(&count));
    note("up to 1,000 units", (21..=1_000).contains(&count));
    note("5,000 units", count >= 5_000);
    note("a counted closing unit", closed);
    note("N begins a unit", (0..count).any(|unit| bounds(unit).0 == n));
    note("N is past a unit", (0..count).any(|unit| bounds(unit).1 + 1 == n));
    if format != 6 {
        note("N within a unit", (0..count).any(|unit| bounds(unit).0 < n && n <= bounds(unit).1));
        note("a unit that reaches FFFF", count > 0 && bounds(count - 1).1 == 0xFFFF);
    }
}

#[test]
fn long_tables_have_many_units() {
    let mut kinds = Kinds::new();
    for index in 0..600 {
        let (table, n) = generate::long_table(SEED, index);
        assert_eq!(check_table(&table, n), Ok(()), "draw {index}");
        for direction in Direction::BOTH {
            if let Some(base) = width_lookup(&table, direction) {
                note_units(&table, n, base, &mut kinds);
            }
        }
    }
    println!("{kinds:?}");
    assert_eq!(kinds.len(), 9 + 9 + 7);
    assert!(kinds.values().all(|&met| met >= 5), "{kinds:?}");
}

/// How many units the longest lookup of a table has.
fn most_units(table: &[u8], n: u32) -> usize {
    let Ok(read) = read_table(table, n) else { return 0 };
    let counts = |direction| [Which::Width, Which::Action].map(|which| read.unit_count(direction, which));
    Direction::BOTH.map(counts).concat().into_iter().max().unwrap_or(0)
}

#[test]
fn tables_and_lines_have_long_lookups_at_times() {
    let table = |index| {
        let (table, n) = generate::table(SEED, index);
        most_units(&table, n)
    };
    let line = |index| {
        let case = generate::line(SEED, index);
        most_units(&case.table, case.n)
    };
    let tables: Vec<usize> = (0..DRAWS).map(table).collect();
    let lines: Vec<usize> = (0..DRAWS).map(line).collect();
    for counts in [tables, lines] {
        let above = |least: usize| counts.iter().filter(|&&count| count > least).count();
        println!("above 100, 500, 4,000 units: {:?}", [100, 500, 4_000].map(above));
        assert!(above(100) >= 50 && above(500) >= 20 && above(4_000) >= 5);
    }
}

fn distinct(cells: &[Cell]) -> usize {
    cells.iter().collect::<std::collections::HashSet<_>>().len()
}

#[test]
fn tables_meet_every_refusal() {
    let mut counts = [0usize; 9];
    let (mut greatest, mut small) = (0, 0);
    for index in 0..DRAWS {
        let (table, n) = generate::table(SEED, index);
        counts[check_table(&table, n).map_or_else(|fault| fault.number as usize, |()| 0)] += 1;
        greatest += (n == 65_535) as u32;
        small += (n <= 12) as u32;
    }
    println!("tables accepted {}, refused 1 to 8: {:?}", counts[0], &counts[1..]);
    about_half(counts[0]);
    assert!(counts.iter().all(|&count| count >= 20), "{counts:?}");
    assert!(greatest > 20 && small > 1_000);
}

#[test]
fn faults_fall_on_every_kind_of_field() {
    let mut met: BTreeMap<(u32, String), usize> = BTreeMap::new();
    let mut note = |number: u32, kind: String| *met.entry((number, kind)).or_default() += 1;
    for index in 0..DRAWS {
        let (table, n) = generate::tables::faulty(&mut Rng::new(SEED, index, 6));
        assert_eq!((table.bytes.clone(), n), generate::faulty_table(SEED, index));
        let fault = check_table(&table.bytes, n).unwrap_err();
        if fault.number == 4 {
            let length = table.len() as u64;
            let past = [fault.at < length, fault.at == length, fault.at > 65_536, fault.at > 1 << 32];
            let names = ["begins inside", "at the end", "past 16 bits", "past 32 bits"];
            names.iter().zip(past).filter(|(_, met)| *met).for_each(|(name, _)| note(4, name.to_string()));
        } else if let Some(mark) = table.marks.iter().find(|mark| mark.at as u64 == fault.at) {
            note(fault.number, format!("{:?}", mark.kind));
        }
    }
    println!("{met:?}");
    let wanted: [(u32, &[&str]); 5] = [
        (4, &["begins inside", "at the end", "past 16 bits", "past 32 bits"]),
        (5, &["LookupFormat", "UnitSize", "UnitBound"]),
        (6, &["ClusterCount", "PairClass", "Grow", "Shrink", "Flags"]),
        (7, &["ClassCount", "ClassByte", "EntryRow"]),
        (8, &["ActionCount", "ActionClass", "ActionKind", "InnerLength", "ComponentCount", "Glyph", "AddedGlyph"]),
    ];
    for (number, kinds) in wanted {
        for kind in kinds {
            assert!(met.get(&(number, kind.to_string())).is_some_and(|&count| count >= 10), "{number} {kind}");
        }
    }
}

#[test]
fn lines_meet_every_refusal() {
    let mut counts = [0usize; 19];
    let mut kinds = Kinds::new();
    let mut past = [0usize; 4];
    for index in 0..DRAWS {
        let case = generate::line(SEED, index);
        match case.justify() {
            Ok(answer) => {
                counts[0] += 1;
                note_kinds(&case, &answer, &mut kinds);
            }
            Err(fault) => {
                counts[fault.number as usize] += 1;
                if fault.number == 15 {
                    stages_past_the_cap(&case).iter().for_each(|&stage| past[stage] += 1);
                }
            }
        }
    }
    println!("lines accepted {}, refused 1 to 8: {:?}, 9 to 18: {:?}", counts[0], &counts[1..9], &counts[9..]);
    println!("past the cap in stages 0 to 3: {past:?}; {kinds:?}");
    about_half(counts[0]);
    assert_eq!(counts[17], 0);
    assert!((9..=18).all(|number| number == 17 || counts[number] >= 20), "{counts:?}");
    assert!(past.iter().all(|&count| count >= 10), "{past:?}");
    let rare: Vec<String> =
        wanted_kinds().into_iter().filter(|kind| kinds.get(kind).is_none_or(|&met| met < 15)).collect();
    assert!(rare.is_empty(), "{rare:?}");
}

/// What a line showed, by name.
type Kinds = BTreeMap<String, usize>;

/// The ways through the sharing and what else has to turn up.
fn wanted_kinds() -> Vec<String> {
    let ways = ["done in", "unlimited in", "back to"];
    let stages = ways.iter().flat_map(|way| (0..4).map(move |stage| format!("{way} stage {stage}")));
    let others = [
        "remainder",
        "at the limits, growing",
        "at the limits, shrinking",
        "stage 3 after another",
        "classes",
        "verdicts",
        "substituting",
    ];
    stages.chain(others.map(String::from)).collect()
}

/// Which way through the sharing a gap takes under an edition.
fn way_of(rooms: &[Option<Room>], gap: u64, edition: u32) -> String {
    let sums = totals(rooms);
    let open = |stage: usize| rooms.iter().flatten().any(|room| room.stage as usize == stage && room.unlimited);
    let mut left = gap;
    for (stage, &sum) in sums.iter().enumerate() {
        if left <= sum {
            return format!("done in stage {stage}");
        }
        left -= sum;
        if open(stage) {
            return format!("unlimited in stage {stage}");
        }
    }
    match sums.iter().position(|&sum| sum > 0) {
        None => "remainder".into(),
        Some(stage) if edition == 1 => format!("back to stage {stage}"),
        Some(_) => "at the limits".into(),
    }
}

fn note_kinds(case: &generate::LineCase, answer: &Justified, kinds: &mut Kinds) {
    let mut note = |kind: &str, met: bool| *kinds.entry(kind.into()).or_default() += met as usize;
    let gap = case.target - case.advances.iter().sum::<i64>();
    let table = read_table(&case.table, case.n).unwrap();
    let (classes, _) = classes_of(&table, &case.line()).unwrap();
    let rooms = rooms_of(&table, &case.line(), &classes, gap >= 0);
    let way = way_of(&rooms, gap.unsigned_abs(), case.edition);
    note(&way, gap != 0);
    note("at the limits, growing", way == "at the limits" && gap > 0);
    note("at the limits, shrinking", way == "at the limits" && gap < 0);
    note("stage 3 after another", way == "done in stage 3" && totals(&rooms)[..3].iter().any(|&sum| sum > 0));
    note("classes", answer.classes.iter().any(|&class| class != 0));
    note("verdicts", !answer.verdicts.is_empty());
    note("substituting", answer.verdicts.iter().any(|verdict| verdict.substituting));
}

/// The stages whose totals are too great in the gap's direction.
fn stages_past_the_cap(case: &generate::LineCase) -> Vec<usize> {
    let gap = case.target - case.advances.iter().sum::<i64>();
    let table = read_table(&case.table, case.n).unwrap();
    let (classes, _) = classes_of(&table, &case.line()).unwrap();
    let sums = totals(&rooms_of(&table, &case.line(), &classes, gap >= 0));
    (0..sums.len()).filter(|&stage| sums[stage] > 1 << 33).collect()
}

#[test]
fn lines_name_every_edition() {
    let mut counts: BTreeMap<u32, usize> = BTreeMap::new();
    for index in 0..DRAWS {
        *counts.entry(generate::line(SEED, index).edition).or_default() += 1;
    }
    println!("{counts:?}");
    assert_eq!(counts.keys().copied().collect::<Vec<_>>(), [0, 1, 2, 3, u32::MAX]);
    assert!(counts.values().all(|&count| count >= 15), "{counts:?}");
}

#[test]
fn lines_have_sizes_of_every_kind() {
    let mut kinds = Kinds::new();
    for index in 0..DRAWS {
        let case = generate::line(SEED, index);
        let mut note = |kind: &str, met: bool| *kinds.entry(kind.into()).or_default() += met as usize;
        let count = case.glyphs.len();
        let mut distinct = case.sizes.clone();
        distinct.sort();
        distinct.dedup();
        note("fewer sizes than glyphs", case.sizes.len() < count);
        note("more sizes than glyphs", case.sizes.len() > count);
        for (name, size) in [("0", 0), ("1", 1), ("the greatest", 67_108_864), ("one past", 67_108_865)] {
            note(&format!("size {name}"), case.sizes.contains(&size));
        }
        let answer = case.justify();
        let good = |size: &i64| (1..=67_108_864).contains(size);
        if answer.clone().is_err_and(|fault| fault.number == 11) {
            let places = (0..count).filter(|&place| !good(&case.sizes[place]));
            note("a deleted glyph's size alone refused", places.into_iter().all(|place| case.glyphs[place] == 0xFFFF));
        }
        if let Ok(answer) = answer {
            note("accepted, empty", count == 0);
            note("accepted, one size", distinct.len() == 1 && count > 1);
            note("accepted, two sizes", distinct.len() == 2);
            note("accepted, more sizes", distinct.len() > 2);
            let fired: Vec<i64> = answer.verdicts.iter().map(|verdict| case.sizes[verdict.place as usize]).collect();
            note("accepted, verdicts at two sizes", fired.iter().any(|&size| size != fired[0]));
        }
    }
    println!("{kinds:?}");
    assert_eq!(kinds.len(), 12);
    assert!(kinds.values().all(|&met| met >= 15), "{kinds:?}");
}

/// What the greatest numbers of a line are; document 02, request 3/14.
const GREATEST: [&str; 9] = [
    "a factor of 2^30",
    "a total of 2^33, the widest gap growing",
    "a total of 2^33, the widest gap shrinking",
    "a total of 2^33 and one",
    "the widest gap growing",
    "the widest gap shrinking",
    "the widest gap to unlimited glyphs",
    "the widest gap back to a stage",
    "the widest gap left at the limits",
];

fn note_greatest(case: &generate::LineCase, notes: &mut [usize; GREATEST.len()]) -> Option<()> {
    const WIDEST: i64 = (1 << 30) - 1;
    let table = read_table(&case.table, case.n).ok()?;
    let (classes, _) = classes_of(&table, &case.line())?;
    let gap = case.target - case.advances.iter().sum::<i64>();
    let rooms = rooms_of(&table, &case.line(), &classes, gap >= 0);
    let (sums, way) = (totals(&rooms), way_of(&rooms, gap.unsigned_abs(), case.edition));
    let (at_cap, widest) = (sums.contains(&(1 << 33)), gap.abs() == WIDEST);
    let shown = [
        rooms.iter().flatten().any(|room| room.before == 1 << 30 || room.after == 1 << 30),
        at_cap && gap == WIDEST,
        at_cap && gap == -WIDEST,
        sums.contains(&((1 << 33) + 1)),
        gap == WIDEST,
        gap == -WIDEST,
        widest && way.starts_with("unlimited"),
        widest && way.starts_with("back"),
        widest && way.starts_with("at the limits"),
    ];
    notes.iter_mut().zip(shown).for_each(|(note, shown)| *note += shown as usize);
    Some(())
}

#[test]
fn lines_meet_the_greatest_numbers() {
    let mut notes = [0; GREATEST.len()];
    for index in 0..DRAWS {
        let case = generate::line(SEED, index);
        if matches!(case.justify(), Ok(_) | Err(Fault { number: 15, at: 0 })) {
            note_greatest(&case, &mut notes);
        }
    }
    println!("{:?}", GREATEST.iter().zip(notes).collect::<Vec<_>>());
    assert!(notes.iter().all(|&count| count >= 15), "{notes:?}");
    // Three lines in a hundred at least.
    assert!(notes[4] + notes[5] >= DRAWS as usize * 3 / 100, "{notes:?}");
}

/// The differences that can be: classes and cells only change.
fn wanted_differences() -> Vec<String> {
    let marks = |kind: &str, marks: &[&str]| marks.iter().map(|mark| format!("{kind} {mark}")).collect::<Vec<_>>();
    let all = ["Changed", "OnlyFirst", "OnlySecond"];
    let changed = ["GlyphClass", "Cell"].map(|kind| marks(kind, &["Changed"])).concat();
    let any = ["Sizes", "WidthRecord", "ActionList"].map(|kind| marks(kind, &all)).concat();
    let kinds = [changed, any].concat();
    Direction::BOTH.iter().flat_map(|direction| kinds.iter().map(move |kind| format!("{direction:?} {kind}"))).collect()
}

#[test]
fn pairs_show_every_difference() {
    let mut kinds = Kinds::new();
    let mut refused = [0usize; 17];
    for index in 0..DRAWS {
        let case = generate::pair(SEED, index);
        assert!(index > 50 || case == generate::pair(SEED, index));
        let mut note = |kind: &str| *kinds.entry(kind.into()).or_default() += 1;
        if let Err(fault) = case.differences() {
            refused[fault.number as usize] += 1;
        }
        let Ok(list) = differences(&case.first, &case.second, case.n) else { continue };
        match list.len() {
            0 if case.first == case.second => note("the same bytes"),
            0 => note("the same meaning in other bytes"),
            1 => note("one difference"),
            2..=20 => note("a few"),
            _ => note("many"),
        }
        note(if list.len() == case.room { "room just enough" } else { "other room" });
        let mut shown: Vec<String> =
            list.iter().map(|d| format!("{:?} {:?} {:?}", d.direction, d.kind, d.mark)).collect();
        shown.sort();
        shown.dedup();
        shown.iter().for_each(|kind| note(kind));
        if let [single] = &list[..] {
            note(&format!("{:?} alone", single.kind));
        }
    }
    println!("{kinds:?}; refused 1 to 8, 16: {refused:?}");
    let alone = ["Sizes", "GlyphClass", "Cell", "WidthRecord", "ActionList"].map(|kind| format!("{kind} alone"));
    let others = ["the same meaning in other bytes", "a few", "many", "room just enough"].map(String::from);
    let wanted = [wanted_differences(), alone.to_vec(), others.to_vec()].concat();
    let rare: Vec<&String> = wanted.iter().filter(|&kind| kinds.get(kind).is_none_or(|&met| met < 15)).collect();
    assert!(rare.is_empty(), "{rare:?}");
    assert!((1..=8).chain([16]).all(|number| refused[number] >= 3), "{refused:?}");
}

/// What a font shows, besides its answer.
fn note_font(font: &[u8], note: &mut impl FnMut(&str, bool)) {
    let there = (font.len().saturating_sub(12)) / 16;
    if font.len() < 12 || there < get_u16(font, 4) as usize {
        note("a header that is cut short", font.len() < 12);
        note("a directory that is cut short", font.len() >= 12);
        return;
    }
    let records: Vec<&[u8]> = font[12..].chunks(16).take(get_u16(font, 4) as usize).collect();
    let of = |tag: &[u8]| records.iter().filter(|record| &record[..4] == tag).copied().collect::<Vec<_>>();
    let place = |record: &[u8]| (get_u32(record, 8) as u64, get_u32(record, 12) as u64);
    let (just, maxp) = (of(b"just"), of(b"maxp"));
    note("'just' twice", just.len() > 1);
    note("'maxp' twice", maxp.len() > 1);
    note("'just' missing", just.is_empty());
    note("'maxp' missing", maxp.is_empty());
    if let (Some(just), Some(maxp)) = (just.first(), maxp.first()) {
        let (a, b) = (place(just), place(maxp));
        let inside = |(at, length): (u64, u64)| at + length <= font.len() as u64;
        note("'just' outside", !inside(a));
        note("'maxp' outside", !inside(b));
        note("a sum past 32 bits", a.0 + a.1 > 1 << 32 || b.0 + b.1 > 1 << 32);
        note("one byte past the end", a.0 + a.1 == font.len() as u64 + 1 || b.0 + b.1 == font.len() as u64 + 1);
        note("'just' of length 0 at the end", a == (font.len() as u64, 0));
        (4..=6).for_each(|length| note(&format!("'maxp' of {length} bytes"), b.1 == length));
        let overlap = inside(a) && inside(b) && a.0 < b.0 + b.1 && b.0 < a.0 + a.1;
        note("overlapping", overlap);
        note("overlapping and accepted", overlap && open_font(font).is_ok());
        let odd = (1..4).map(|rest| a.1 % 4 == rest).collect::<Vec<_>>();
        (1..4).for_each(|rest| note(&format!("length past a multiple of four by {rest}"), odd[rest - 1]));
    }
}

#[test]
fn fonts_meet_every_refusal() {
    let mut kinds = Kinds::new();
    let mut counts = [0usize; 24];
    for index in 0..DRAWS {
        let font = generate::font(SEED, index);
        assert!(index > 50 || font == generate::font(SEED, index));
        counts[open_font(&font).map_or_else(|fault| fault.number as usize, |_| 0)] += 1;
        note_font(&font, &mut |kind, met| *kinds.entry(kind.into()).or_default() += met as usize);
    }
    println!("fonts accepted {}, refused: {:?}; {kinds:?}", counts[0], &counts[1..]);
    assert!((35..=60).contains(&(counts[0] * 100 / DRAWS as usize)), "{}", counts[0]);
    assert!((1..=8).chain(21..=23).all(|number| counts[number] >= 20), "{counts:?}");
    assert_eq!(kinds.len(), 19);
    assert!(kinds.values().all(|&met| met >= 15), "{kinds:?}");
}

#[test]
fn sheets_meet_refusal_17() {
    let mut accepted = 0;
    let mut past_any_table = 0;
    for index in 0..DRAWS {
        let sheet = generate::sheet(SEED, index);
        if let Some(meaning) = read_sheet(&sheet) {
            accepted += 1;
            let cells = |direction| meaning.sizes(direction).map_or(0, |sizes| sizes.rows * sizes.classes);
            past_any_table += Direction::BOTH.iter().any(|&direction| cells(direction) > 32_768) as u32;
        }
    }
    println!("sheets accepted {accepted}, refused 17: {}", DRAWS as usize - accepted);
    about_half(accepted);
    assert!(past_any_table > 5, "{past_any_table}");
}

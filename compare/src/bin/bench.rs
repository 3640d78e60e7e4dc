//! `bench [WORDS]`: the proved library against the second program, and for the two calls that it has against the peer, a
//! program in C, on the same input in the same run. Prints tables of times and ratios (the library's time over the second
//! program's and over the peer's, medians of several rounds taken in turn), and the library's time for each byte of table
//! and sheet; for hostile tables and sheets also how many times that of an ordinary one of about as many bytes it is, of
//! several the one that costs least. With words, only cases whose name has them are run.

use compare::letters::{self, Font};
use compare::ordinary::{self, Ordinary};
use compare::questions::Questions;
use compare::{cases, clock, drafts, library, lines, peer};
use just_raw::{Answer, Difference, Lent, Line, Said, Sheet, Table, Verdict};
use reference::examples::{complex, simple};
use reference::generate::LineCase;
use reference::{Direction, Parts};
use std::hint::black_box;

/// One line of a table.
struct Case {
    name: String,
    /// The bytes of table and sheet.
    bytes: usize,
    library: Box<dyn FnMut()>,
    second: Box<dyn FnMut()>,
    peer: Option<Box<dyn FnMut()>>,
    /// The same call on ordinary inputs.
    beside: Vec<Case>,
}

impl Case {
    fn new<A, B>(
        name: String,
        bytes: usize,
        mut library: impl FnMut() -> A + 'static,
        mut second: impl FnMut() -> B + 'static,
    ) -> Case {
        let library = Box::new(move || drop(black_box(library())));
        let second = Box::new(move || drop(black_box(second())));
        Case { name, bytes, library, second, peer: None, beside: Vec::new() }
    }

    fn against<C>(self, mut peer: impl FnMut() -> C + 'static) -> Case {
        Case { peer: Some(Box::new(move || drop(black_box(peer())))), ..self }
    }

    fn beside(self, ordinary: Vec<Case>) -> Case {
        Case { beside: ordinary, ..self }
    }

    /// The library's time for a byte, in nanoseconds, as the median of nine rounds.
    fn each(&mut self) -> f64 {
        let mut times: Vec<f64> = (0..9).map(|_| once(&mut self.library)).collect();
        times.sort_by(f64::total_cmp);
        times[4] / self.bytes as f64
    }
}

/// The time of one call in nanoseconds: as many calls as fill about 20 ms.
fn once(call: &mut dyn FnMut()) -> f64 {
    let mut calls = 1u32;
    loop {
        let began = clock::spent();
        for _ in 0..calls {
            call();
        }
        let spent = clock::spent() - began;
        if spent.as_millis() >= 20 {
            return spent.as_nanos() as f64 / f64::from(calls);
        }
        calls *= 2;
    }
}

/// The medians of calls that are timed in turn, nine rounds, or three where the first takes longer than 100 ms.
fn medians(calls: &mut [&mut Box<dyn FnMut()>]) -> Vec<f64> {
    let mut times: Vec<Vec<f64>> = calls.iter_mut().map(|call| vec![once(call)]).collect();
    let rounds = if times[0][0] > 1e8 { 3 } else { 9 };
    for _ in 1..rounds {
        calls.iter_mut().zip(&mut times).for_each(|(call, times)| times.push(once(call)));
    }
    times.iter_mut().for_each(|times| times.sort_by(f64::total_cmp));
    times.iter().map(|times| times[times.len() / 2]).collect()
}

/// Prints a line of a table: medians and their ratios.
fn print_case(mut case: Case) {
    let mut calls = vec![&mut case.library, &mut case.second];
    calls.extend(&mut case.peer);
    let times = medians(&mut calls);
    let ours = times[0];
    let against = |time: f64| format!("{:.2} | {:.2}", time / 1000.0, ours / time);
    let peer = times.get(2).map_or(" | ".to_string(), |&time| against(time));
    let each = ours / case.bytes as f64;
    let least = case.beside.iter_mut().map(Case::each).reduce(f64::min);
    let beside = least.map_or(String::new(), |least| format!("{:.1}", each / least));
    println!("| {} | {:.2} | {} | {peer} | {each:.2} | {beside} |", case.name, ours / 1000.0, against(times[1]));
}

fn print_group(title: &str, cases: Vec<Case>) {
    print_by(title, ["ns a byte", "times an ordinary one"], cases);
}

/// A group whose last two columns, the library's time for each of something and beside something else, are these.
fn print_by(title: &str, [each, beside]: [&str; 2], cases: Vec<Case>) {
    let words = std::env::args().skip(1).collect::<Vec<_>>().join(" ");
    println!(
        "\n{title}\n\n| case | library, µs | second program, µs | ratio | C, µs | library over C \
        | library, {each} | {beside} |"
    );
    println!("|---|---|---|---|---|---|---|---|");
    cases.into_iter().filter(|case| case.name.contains(&words)).for_each(print_case);
}

/// The bytes of a table and of its sheet.
fn bytes(table: &[u8], n: u32) -> usize {
    table.len() + reference::sheet_length(table, n).expect("an accepted table")
}

fn check(name: &str, table: &[u8], n: u32) -> Case {
    let [ours, theirs, in_c] = [table.to_vec(), table.to_vec(), table.to_vec()];
    let library = move || Table { bytes: black_box(&ours), glyph_count: n }.check();
    let second = move || reference::check_table(black_box(&theirs), n);
    let peer = move || peer::check(Table { bytes: black_box(&in_c), glyph_count: n });
    Case::new(format!("check_table: {name}"), bytes(table, n), library, second).against(peer)
}

fn write(name: &str, table: &[u8], n: u32) -> Case {
    let [ours, theirs] = [table.to_vec(), table.to_vec()];
    let length = reference::sheet_length(table, n).expect("an accepted table");
    let mut room = vec![0; length];
    let library = move || Table { bytes: black_box(&ours), glyph_count: n }.write_sheet(black_box(&mut room));
    let second = move || reference::write_sheet(black_box(&theirs), n);
    Case::new(format!("write_sheet: {name}, sheet of {length} bytes"), bytes(table, n), library, second)
}

fn length(name: &str, table: &[u8], n: u32) -> Case {
    let [ours, theirs] = [table.to_vec(), table.to_vec()];
    let library = move || Table { bytes: black_box(&ours), glyph_count: n }.sheet_length();
    let second = move || reference::sheet_length(black_box(&theirs), n);
    Case::new(format!("sheet_length: {name}"), bytes(table, n), library, second)
}

fn sheet(name: &str, sheet: &[u8]) -> Case {
    let [ours, theirs] = [sheet.to_vec(), sheet.to_vec()];
    let library = move || Sheet { bytes: black_box(&ours) }.check();
    let second = move || reference::check_sheet(black_box(&theirs));
    Case::new(format!("check_sheet: {name}"), sheet.len(), library, second)
}

/// A record of a sheet: the sheet is judged first, on both sides.
fn record(name: &str, sheet: &[u8], glyph: u16) -> Case {
    let [ours, theirs] = [sheet.to_vec(), sheet.to_vec()];
    let library = move || library::record(Sheet { bytes: black_box(&ours) }, Direction::Horizontal, glyph, 0);
    let second = move || {
        let read = reference::read_sheet(black_box(&theirs));
        read.map(|read| read.width_record(Direction::Horizontal, glyph.into(), 0))
    };
    Case::new(format!("sheet_record: {name}"), sheet.len(), library, second)
}

/// The list of what two tables differ in, beside judging both. What is counted for each is the differences, or the bytes of
/// both tables where there are none.
fn differences(name: &str, first: &[u8], second: &[u8], n: u32) -> Case {
    let count = reference::differences(first, second, n).expect("accepted tables").len();
    let each = if count == 0 { first.len() + second.len() } else { count };
    let [ours, theirs, judged] = [(); 3].map(|_| [first.to_vec(), second.to_vec()]);
    let mut room = vec![Difference::default(); count];
    let library = move || {
        let [first, second] = black_box(&ours);
        Table { bytes: first, glyph_count: n }.differences(second, black_box(&mut room))
    };
    let second = move || {
        let [first, second] = black_box(&theirs);
        reference::differences(first, second, n)
    };
    let both = move || black_box(&judged).each_ref().map(|bytes| Table { bytes, glyph_count: n }.check());
    let judging = Case::new("judging both".into(), each, both, || ());
    Case::new(format!("differences: {name}, {count} of them"), each, library, second).beside(vec![judging])
}

/// A call that justifies a line again and again, into buffers of its own.
fn justifies(case: &LineCase, call: fn(Table, &Line, Lent) -> Answer<Said>) -> impl FnMut() -> Answer<Said> {
    let (case, count) = (case.clone(), case.glyphs.len());
    let inputs = lines::Inputs::new(&case, &mut Questions::new(1, 1));
    let (mut classes, mut before, mut after) = (vec![0; count], vec![0; count], vec![0; count]);
    let mut verdicts = vec![Verdict::default(); case.room];
    move || {
        let lent = Lent { classes: &mut classes, before: &mut before, after: &mut after, verdicts: &mut verdicts };
        let case = black_box(&case);
        call(lines::table(case), &inputs.line(case), lent)
    }
}

/// The whole call, with the table's check.
fn line(name: &str, table: Vec<u8>, n: u32, count: usize) -> Case {
    let bytes = bytes(&table, n);
    let case = cases::line(table, n, count);
    assert!(case.justify().is_ok(), "{name} is refused");
    let library = justifies(&case, |table, line, lent| table.justify(line, lent));
    let peer = justifies(&case, peer::justify);
    let second = move || black_box(&case).justify();
    let glyphs = if count == 1 { "1 glyph".to_string() } else { format!("{count} glyphs") };
    Case::new(format!("justify: {name}, {glyphs}"), bytes, library, second).against(peer)
}

/// A line by a table with so many units for its letters.
fn line_of_letters(units: u16, count: usize) -> Case {
    let font = Font::of_units(units);
    line(&format!("{units} units of letters"), font.table(), font.glyphs(), count)
}

/// Judging the tables of a small and of a large font, and lines by them.
fn of_fonts() -> Vec<Case> {
    let (small, large) = (("200 units, 3.7 KB", letters::SMALL), ("1,200 units, 30 KB", letters::LARGE));
    let check = |(name, font): (&str, Font)| check(name, &font.table(), font.glyphs());
    let line = |(name, font): (&str, Font), count| line(name, font.table(), font.glyphs(), count);
    vec![check(small), check(large), line(small, 8), line(small, 60), line(large, 60)]
}

fn sheet_by_reference(table: &[u8], n: u32) -> Vec<u8> {
    reference::write_sheet(table, n).expect("an accepted table")
}

fn ordinary() -> Vec<Case> {
    let (apple, units, spread) = (complex(), cases::ranges(5_000, 13, 8), cases::ranges(1_500, 40, 500));
    let lists = cases::lists(600, 300);
    vec![
        check("Apple's simple example, N 280", &simple(), 280),
        check("Apple's complex example, N 280", &apple, 280),
        check("5,000 format 2 units, N 65,000", &units, 65_000),
        check("1,500 units, 500 distinct clusters, N 60,000", &spread, 60_000),
        check("600 units, 300 distinct lists, N 6,000", &lists, 6_000),
        line("Apple's simple example", simple(), 280, 1),
        line("Apple's simple example", simple(), 280, 60),
        line("Apple's complex example", apple.clone(), 280, 60),
        line("Apple's complex example", apple.clone(), 280, 1_024),
        line("the same without its machine", cases::without_machine(), 280, 60),
        line("the same without its machine", cases::without_machine(), 280, 1_024),
        line_of_letters(200, 60),
        line_of_letters(200, 1_024),
        line_of_letters(1_200, 60),
        line_of_letters(1_200, 1_024),
        line("16 actions a glyph, all fire", cases::many_actions(16), 4, 60),
        length("Apple's complex example, N 280", &apple, 280),
        write("Apple's simple example, N 280", &simple(), 280),
        write("Apple's complex example, N 280", &apple, 280),
        write("1,500 units, 500 distinct clusters, N 60,000", &spread, 60_000),
        write("600 units, 300 distinct lists, N 6,000", &lists, 6_000),
        write("5,000 format 2 units, N 65,000", &units, 65_000),
        sheet("Apple's complex example", &sheet_by_reference(&apple, 280)),
        sheet("1,500 units, 500 distinct clusters", &sheet_by_reference(&spread, 60_000)),
        sheet("65,535 glyphs, 20,000 distinct clusters", &cases::sheet(65_535, 20_000)),
        record("65,535 glyphs, 20,000 distinct clusters", &cases::sheet(65_535, 20_000), 40_000),
    ]
}

/// Judging and writing a hostile table, each beside the same call on ordinary ones.
fn hostile_table(name: &str, table: &[u8], n: u32) -> [Case; 2] {
    let bytes = bytes(table, n);
    let ordinary = |call: fn(&str, &[u8], u32) -> Case, tables: Vec<Ordinary>| {
        tables.iter().map(|(table, count)| call("ordinary", table, *count)).collect()
    };
    [
        check(name, table, n).beside(ordinary(check, ordinary::judged(bytes))),
        write(name, table, n).beside(ordinary(write, ordinary::written(bytes))),
    ]
}

fn hostile_sheet(name: &str, bytes: &[u8]) -> Case {
    let glyphs = (bytes.len() / 34) as u32;
    let beside = [glyphs, glyphs / 4].map(|distinct| sheet("ordinary", &cases::sheet(glyphs, distinct)));
    sheet(name, bytes).beside(beside.into())
}

/// Tables whose clusters overlap or whose units share arrays, and one with a large machine.
fn hostile_clusters() -> Vec<Case> {
    let (pairs, rows, shared) = (cases::overlapping_pairs(3_200), cases::nested_rows(), cases::shared_lookup(148));
    let both = cases::both_ways(shared.clone());
    let tables: [(&str, Vec<u8>, u32); 13] = [
        ("a machine of 120 rows and 255 classes", cases::wide_machine(), 1),
        ("one cluster, N 65,535", cases::shared_array(255, 1), 65_535),
        ("one cluster at two places in turn, N 65,535", cases::shared_array(255, 2), 65_535),
        ("arrays that begin one value after each other", cases::shifted_arrays(148, 1), 65_416),
        ("arrays that begin nine values after each other", cases::shifted_arrays(148, 9), 65_416),
        ("16 arrays of 4,000 values", cases::shifted_arrays(4_000, 1), 64_000),
        ("one lookup for clusters and lists, N 65,535", shared, 65_535),
        ("one lookup for clusters and lists, both directions, N 65,535", both, 65_535),
        ("clusters inside each other", rows, 1_152),
        ("clusters inside each other, nine times the same", cases::equal_rows(9, 128), 1_152),
        ("clusters inside each other, 17 times the same", cases::equal_rows(17, 64), 1_088),
        ("3,200 clusters at each eighth byte, all different", pairs, 3_200),
        ("3,200 clusters at each eighth byte, all with one slot", cases::one_print(3_200), 3_200),
    ];
    tables.iter().flat_map(|(name, table, n)| hostile_table(name, table, *n)).collect()
}

/// Tables whose action lists overlap.
fn hostile_lists() -> Vec<Case> {
    let (equal, ligatures) = (cases::equal_lists(2_800), cases::ligature_lists(1_330));
    let [equal_both, ligatures_both] = [&equal, &ligatures].map(|table| cases::both_ways(table.clone()));
    let tables: [(&str, Vec<u8>, u32); 16] = [
        ("148 lists of 64 actions for 65,416 glyphs in turn", cases::shared_lists(148), 65_416),
        ("2,800 equal lists at each eighth byte", equal, 2_800),
        ("2,800 equal lists at each eighth byte, both directions", equal_both, 2_800),
        ("2,800 equal lists in an order that leaps", cases::leaping_lists(2_800), 2_800),
        ("2,300 equal lists, a lookup for each direction", cases::twice_lists(2_300), 2_300),
        ("2,800 lists at each eighth byte in 32 phases", cases::phased_lists(2_800, 64, 32), 2_800),
        ("3,000 lists of 32 actions at each eighth byte in 8 phases", cases::phased_lists(3_000, 32, 8), 3_000),
        ("3,000 lists of 16 actions at each eighth byte in 8 phases", cases::phased_lists(3_000, 16, 8), 3_000),
        ("3,000 lists of 8 actions at each eighth byte in 4 phases", cases::phased_lists(3_000, 8, 4), 3_000),
        ("2,800 lists at each eighth byte with long common beginnings", cases::alike_lists(2_800), 2_800),
        (
            "3,200 lists of 8 actions, all alike, both directions",
            cases::both_ways(cases::drawn_lists(3_200, 8, 1, 1)),
            3_200,
        ),
        (
            "3,200 lists of 8 actions, drawn, both directions",
            cases::both_ways(cases::drawn_lists(3_200, 8, 3, 1)),
            3_200,
        ),
        ("3,200 lists of 16 actions, drawn", cases::drawn_lists(3_200, 16, 2, 1), 3_200),
        (
            "2,700 lists of 64 actions, drawn, with long common beginnings",
            cases::drawn_lists(2_700, 64, 128, 60),
            2_700,
        ),
        ("1,330 equal lists of ligatures", ligatures, 1_330),
        ("1,330 equal lists of ligatures, both directions", ligatures_both, 1_330),
    ];
    tables.iter().flat_map(|(name, table, n)| hostile_table(name, table, *n)).collect()
}

fn hostile_rest() -> Vec<Case> {
    vec![
        write("the empty table, N 65,535", &drafts::empty(), 65_535),
        hostile_sheet("clusters inside each other", &sheet_by_reference(&cases::nested_rows(), 1_152)),
        hostile_sheet("20,000 clusters that find one slot", &cases::one_slot(20_000)),
        hostile_sheet("20,000 lists that differ in one component", &cases::ligature_sheet(20_000)),
        hostile_sheet("lists with long common beginnings", &sheet_by_reference(&cases::alike_lists(2_800), 2_800)),
        line("64 actions a glyph, all fire", cases::many_actions(64), 4, 1_024),
        line("256 entries a glyph", cases::long_walk(), 1, 1_024),
        line("5,000 format 2 units", cases::ranges(5_000, 13, 8), 65_000, 1_024),
        line("clusters of up to 128 pairs", cases::nested_rows(), 1_152, 1_024),
    ]
}

/// A table and the same with a byte after its end.
fn twice(name: &str, table: &[u8], n: u32) -> Case {
    differences(name, table, &[table, &[7]].concat(), n)
}

/// Pairs of tables that mean the same, in other bytes but for one.
fn equal_pairs() -> Vec<Case> {
    let units = cases::ranges(5_000, 13, 8);
    vec![
        twice("Apple's complex example, N 280", &complex(), 280),
        twice("5,000 format 2 units, N 65,535", &units, 65_535),
        differences("the same bytes, 5,000 format 2 units, N 65,535", &units, &units, 65_535),
        twice("clusters inside each other", &cases::nested_rows(), 1_152),
        twice("clusters of 128 pairs at two places in turn, N 65,535", &cases::turned_rows(255), 65_535),
        twice("148 lists of 64 actions for 65,416 glyphs in turn", &cases::shared_lists(148), 65_416),
    ]
}

/// Pairs of tables that do not.
fn unlike_pairs() -> Vec<Case> {
    let (one, other) = (cases::one_unit(7), cases::one_unit(8));
    let (units, fewer) = (cases::ranges(5_000, 13, 8), cases::ranges(5_000, 13, 7));
    vec![
        differences("Apple's complex example, a second delivery, N 280", &complex(), &cases::delivered(), 280),
        differences("Apple's simple and complex examples, N 280", &simple(), &complex(), 280),
        differences("one changed cluster, N 65,535", &one, &other, 65_535),
        differences("all of 5,000 units changed but an eighth, N 65,535", &units, &fewer, 65_535),
        differences(
            "a cluster of 128 pairs in one table alone, N 65,535",
            &cases::turned_rows(255),
            &drafts::empty(),
            65_535,
        ),
    ]
}

fn doubled() -> Vec<Case> {
    let mut cases = Vec::new();
    for units in [625, 1_250, 2_500, 5_000] {
        cases.push(check(&format!("{units} format 2 units, N 65,000"), &cases::ranges(units, 13, 8), 65_000));
    }
    for n in [8_192, 16_384, 32_768, 65_535] {
        cases.push(check(&format!("format 4 units that share one array, N {n}"), &cases::shared_array(255, 1), n));
    }
    for n in [8_192, 16_384, 32_768, 65_535] {
        cases.push(write(&format!("format 4 units that share one array, N {n}"), &cases::shared_array(255, 1), n));
    }
    for count in [128, 256, 512, 1_024] {
        cases.push(line("Apple's complex example", complex(), 280, count));
    }
    for units in [625, 1_250, 2_500, 5_000] {
        cases.push(line(&format!("{units} format 2 units"), cases::ranges(units, 13, 8), 65_000, 1_024));
    }
    for distinct in [112, 225, 450, 900] {
        let table = cases::ranges(900, 10, distinct);
        cases.push(write(&format!("900 units, {distinct} distinct clusters, N 9,000"), &table, 9_000));
    }
    for distinct in [2_500, 5_000, 10_000, 20_000] {
        cases.push(sheet(&format!("65,535 glyphs, {distinct} distinct clusters"), &cases::sheet(65_535, distinct)));
    }
    cases
}

fn main() {
    print_group("Ordinary inputs", ordinary());
    print_group("Tables of fonts, and lines by them", of_fonts());
    print_group("Clusters that overlap, units that share arrays, and a large machine", hostile_clusters());
    print_group("Lists that overlap", hostile_lists());
    print_group("Other hostile inputs", hostile_rest());
    print_by("Two deliveries that mean the same", ["ns a byte", "times judging both"], equal_pairs());
    print_by("Two deliveries that do not", ["ns a difference", "times judging both"], unlike_pairs());
    print_group("Bytes, N, glyphs and distinct clusters doubled", doubled());
}

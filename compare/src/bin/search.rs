//! `search SEED SECONDS`: draws hostile tables and times judging and writing them, and prints for both calls those that cost
//! most beside an ordinary table of about as many bytes, with its sheet: of several kinds the one that costs least for a byte.

use compare::ordinary::Ordinary;
use compare::questions::Questions;
use compare::{clock, hostile, ordinary};
use just_raw::Table;
use std::collections::HashMap;
use std::hint::black_box;

/// How many are printed.
const KEPT: usize = 10;

/// A table, its glyph count, and its bytes with those of its sheet.
struct Timed {
    table: Vec<u8>,
    glyphs: u32,
    bytes: usize,
}

impl Timed {
    fn new(table: Vec<u8>, glyphs: u32) -> Option<Timed> {
        let sheet = reference::sheet_length(&table, glyphs).ok()?;
        Some(Timed { bytes: table.len() + sheet, table, glyphs })
    }

    /// The least time of some calls of judging for a byte, in nanoseconds.
    fn judging(&self, calls: u32) -> f64 {
        let table = Table { bytes: &self.table, glyph_count: self.glyphs };
        least(calls, || black_box(table.check())) / self.bytes as f64
    }

    /// The same of writing.
    fn writing(&self, calls: u32) -> f64 {
        let table = Table { bytes: &self.table, glyph_count: self.glyphs };
        let mut room = vec![0; self.bytes - self.table.len()];
        least(calls, || black_box(table.write_sheet(&mut room))) / self.bytes as f64
    }

    fn each(&self, calls: u32) -> [f64; 2] {
        [self.judging(calls), self.writing(calls)]
    }
}

fn least<A>(calls: u32, mut call: impl FnMut() -> A) -> f64 {
    let once = |_| {
        let began = clock::spent();
        call();
        (clock::spent() - began).as_nanos() as f64
    };
    (0..calls).map(once).fold(f64::MAX, f64::min)
}

/// What ordinary tables of about so many bytes cost for a byte, timed once for sizes within a tenth of each other.
fn ordinary(known: &mut HashMap<u32, [f64; 2]>, bytes: usize) -> [f64; 2] {
    let size = ((bytes as f64).ln() * 10.0) as u32;
    let least = |tables: Vec<Ordinary>, each: fn(&Timed, u32) -> f64| {
        let timed = tables.into_iter().filter_map(|(table, glyphs)| Timed::new(table, glyphs));
        timed.map(|table| each(&table, 60)).fold(f64::MAX, f64::min)
    };
    let time = || [least(ordinary::judged(bytes), Timed::judging), least(ordinary::written(bytes), Timed::writing)];
    *known.entry(size).or_insert_with(time)
}

fn times(each: [f64; 2], beside: [f64; 2]) -> [f64; 2] {
    [each[0] / beside[0], each[1] / beside[1]]
}

/// The table and ordinary ones in turn, five rounds, by the least times of each.
fn in_turn(timed: &Timed) -> [f64; 2] {
    let lower = |a: [f64; 2], b: [f64; 2]| [a[0].min(b[0]), a[1].min(b[1])];
    let round = |(own, beside), _| {
        let again = ordinary(&mut HashMap::new(), timed.bytes);
        (lower(own, timed.each(20)), lower(beside, again))
    };
    let (own, beside) = (0..5).fold(([f64::MAX; 2], [f64::MAX; 2]), round);
    times(own, beside)
}

fn main() {
    let mut numbers = std::env::args().skip(1).map(|word| word.parse::<u64>().expect("a number"));
    let (seed, seconds) = (numbers.next().unwrap_or(1), numbers.next().unwrap_or(60));
    let (mut worst, mut known, mut index) = ([Vec::new(), Vec::new()], HashMap::new(), 0);
    while clock::spent().as_secs() < seconds {
        let drawn = hostile::draw(&mut Questions::new(seed, index));
        index += 1;
        let Some(timed) = Timed::new(drawn.table, drawn.glyphs) else { continue };
        let floor = |list: &Vec<(f64, String)>| list.get(KEPT - 1).map_or(0.0, |last| last.0);
        let mut found = times(timed.each(4), ordinary(&mut known, timed.bytes));
        // What would be printed is timed again, in turn with ordinary ones: the machine's speed changes.
        if (0..2).any(|call| found[call] > floor(&worst[call])) {
            found = in_turn(&timed);
        }
        for (list, found) in worst.iter_mut().zip(found) {
            list.push((found, format!("{} ({} bytes)", drawn.name, timed.bytes)));
            list.sort_by(|a, b| b.0.total_cmp(&a.0));
            list.truncate(KEPT);
        }
    }
    println!("{index} tables drawn");
    for (call, list) in ["check_table", "write_sheet"].iter().zip(worst) {
        println!("\n{call}, times an ordinary one");
        list.iter().for_each(|(times, name)| println!("{times:5.1}  {name}"));
    }
}

//! Times the main calls over fixed draws.

use std::time::Instant;

use reference::generate;
use reference::*;

const DRAWS: u64 = 3_000;

fn time<T>(name: &str, items: &[T], mut call: impl FnMut(&T) -> usize) {
    let start = Instant::now();
    let total: usize = items.iter().map(&mut call).sum();
    let each = start.elapsed().as_nanos() as usize / items.len().max(1);
    println!("{name:<12} {:>6} calls, {each:>9} ns each, {total} in all", items.len());
}

fn main() {
    let tables: Vec<_> = (0..DRAWS).map(|index| generate::sound_table(1, index)).collect();
    let sheets: Vec<_> = tables.iter().filter_map(|(table, n)| write_sheet(table, *n).ok()).collect();
    let long: Vec<_> = (0..DRAWS / 10).map(|index| generate::long_table(1, index)).collect();
    let lines: Vec<_> = (0..DRAWS).map(|index| generate::line(1, index)).collect();
    time("check_table", &tables, |(table, n)| check_table(table, *n).is_ok() as usize);
    time("check_long", &long, |(table, n)| check_table(table, *n).is_ok() as usize);
    time("write_sheet", &tables, |(table, n)| write_sheet(table, *n).map_or(0, |sheet| sheet.len()));
    time("check_sheet", &sheets, |sheet| check_sheet(sheet) as usize);
    let pairs: Vec<_> = (0..DRAWS / 10).map(|index| generate::pair(1, index)).collect();
    let fonts: Vec<_> = (0..DRAWS).map(|index| generate::font(1, index)).collect();
    time("differences", &pairs, |case| case.differences().map_or(0, |list| list.len()));
    time("open_font", &fonts, |font| open_font(font).is_ok() as usize);
    time("justify", &lines, |case| case.justify().map_or(0, |answer| answer.verdicts.len()));
}

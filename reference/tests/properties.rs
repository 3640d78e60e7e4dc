//! Properties that hold of every draw, held against plain definitions that
//! share no code with what they check.

mod common;

use std::collections::HashMap;

use reference::bytes::Bytes;
use reference::generate;
use reference::generate::rng::Rng;
use reference::line::{classes_of, rooms_of};
use reference::lookup::Lookup;
use reference::*;

const SEED: u64 = 20;

/// Asks both for every part of glyphs `glyphs` and holds the answers together.
fn same_parts(a: &impl Parts, b: &impl Parts, glyphs: &[u32]) {
    assert_eq!(a.glyph_count(), b.glyph_count());
    for direction in Direction::BOTH {
        assert_eq!(a.sizes(direction), b.sizes(direction));
        let sizes = a.sizes(direction).unwrap_or(Sizes { rows: 2, classes: 4 });
        for row in 0..=sizes.rows {
            for class in 0..=sizes.classes {
                assert_eq!(a.cell(direction, row, class), b.cell(direction, row, class));
            }
        }
        for &glyph in glyphs {
            assert_eq!(a.glyph_class(direction, glyph), b.glyph_class(direction, glyph));
            for class in (0..9).chain([63, 64, 126, 127, 128, u32::MAX]) {
                assert_eq!(a.width_record(direction, glyph, class), b.width_record(direction, glyph, class));
            }
            for number in (0..10).chain([63, 64, u32::MAX]) {
                assert_eq!(a.action(direction, glyph, number), b.action(direction, glyph, number));
            }
        }
    }
}

/// All glyphs of a small meaning, some of a great one, and some past N.
fn some_glyphs(rng: &mut Rng, n: u32) -> Vec<u32> {
    let mut glyphs: Vec<u32> = (0..n.min(12)).collect();
    glyphs.extend((0..8).map(|_| rng.below(n as u64) as u32));
    glyphs.extend([n - 1, n, n + 1, 0xFFFF, 0x1_0000, u32::MAX]);
    glyphs
}

#[test]
fn a_tables_sheet_reads_back() {
    let mut rng = Rng::new(SEED, 0, 0);
    for index in 0..2_000 {
        let (table, n) = generate::table(SEED, index);
        let Ok(read) = read_table(&table, n) else { continue };
        let sheet = write_sheet(&table, n).unwrap();
        assert_eq!(sheet_length(&table, n), Ok(sheet.len()));
        let meaning = read_sheet(&sheet).expect("a table's sheet is a sheet");
        same_parts(&read, &meaning, &some_glyphs(&mut rng, n));
        if n <= 300 {
            assert_eq!(sheet_of(&read), sheet, "draw {index}");
            assert_eq!(sheet_of(&meaning), sheet, "draw {index}");
        }
    }
}

#[test]
fn an_accepted_sheet_is_the_sheet_of_its_meaning() {
    for index in 0..2_000 {
        let sheet = generate::sheet(SEED, index);
        if let Some(meaning) = read_sheet(&sheet) {
            if meaning.glyph_count() <= 300 {
                assert_eq!(sheet_of(&meaning), sheet, "draw {index}");
            }
        }
    }
}

#[test]
fn every_changed_byte_of_a_sheet_shows() {
    // A changed sheet is no sheet, or one of another meaning.
    let mut rng = Rng::new(SEED, 1, 0);
    for index in 0..600 {
        let sheet = generate::sheet(SEED, index);
        if !check_sheet(&sheet) || sheet.len() > 3_000 {
            continue;
        }
        for _ in 0..8 {
            let mut changed = sheet.clone();
            changed[rng.below(sheet.len() as u64) as usize] ^= 1 << rng.below(8);
            if let Some(meaning) = read_sheet(&changed) {
                if meaning.glyph_count() <= 300 {
                    assert_eq!(sheet_of(&meaning), changed);
                }
            }
        }
    }
}

#[test]
fn a_shortened_table_lacks_a_field() {
    let mut rng = Rng::new(SEED, 2, 0);
    for index in 0..2_000 {
        let (table, n) = generate::sound_table(SEED, index);
        let length = rng.below(table.len() as u64) as usize;
        match check_table(&table[..length], n) {
            Ok(()) => assert!(length >= 10),
            Err(fault) if length < 10 => assert_eq!(fault.number, 1),
            Err(fault) => {
                assert_eq!(fault.number, 4);
                assert!(fault.at + 4 > length as u64);
            }
        }
    }
}

#[test]
fn faults_are_where_they_say() {
    for index in 0..4_000 {
        let (table, n) = generate::table(SEED, index);
        if let Err(fault) = check_table(&table, n) {
            let length = table.len() as u64;
            match fault.number {
                1..=3 => assert_eq!(fault.at, 0),
                4 => assert!(fault.at + 4 > length),
                5..=8 => assert!(fault.at < length),
                number => panic!("{number}"),
            }
        }
    }
}

#[test]
fn refusal_4_names_the_field_that_is_missing() {
    // With the table filled up to the field, but not into it, nothing changes;
    // with all of the field there, something does.
    let mut filled = 0;
    for index in 0..3_000 {
        let (table, n) = generate::faulty_table(SEED, index);
        let fault = check_table(&table, n).unwrap_err();
        if fault.number != 4 || fault.at + 4 > 32_768 {
            continue;
        }
        let long = |length: usize| {
            let mut long = table.clone();
            long.resize(length.max(table.len()), 0);
            check_table(&long, n)
        };
        assert_eq!(long(fault.at as usize), Err(fault), "draw {index}");
        assert_ne!(long(fault.at as usize + 4), Err(fault), "draw {index}");
        filled += 1;
    }
    assert!(filled > 300, "{filled}");
}

#[test]
fn refusals_5_to_8_name_a_field_that_is_judged() {
    // Bytes that end ahead of the field are refused 4 there, or at another
    // field that is read earlier and lies past the cut.
    for index in 0..3_000 {
        let (table, n) = generate::faulty_table(SEED, index);
        let fault = check_table(&table, n).unwrap_err();
        if fault.number == 4 || fault.at < 10 {
            continue;
        }
        let cut = check_table(&table[..fault.at as usize], n).unwrap_err();
        assert!(cut.number == 4 && cut.at + 4 > fault.at, "draw {index}: {cut:?}");
        // Bytes past the field that is judged, and past all read before it,
        // cannot matter: a whole tail of zeros changes nothing.
        let mut long = table.clone();
        long.resize(32_768, 0);
        assert_eq!(check_table(&long, n), Err(fault), "draw {index}");
    }
}

/// The value of a glyph by going through the bytes from the front.
fn plain_value(table: &[u8], base: usize, n: u32, glyph: u32) -> Option<u16> {
    let word = |at: usize| u16::from_be_bytes([table[at], table[at + 1]]);
    let unit = |size: usize| (0..word(base + 4) as usize).map(move |k| base + 12 + size * k);
    if glyph >= n {
        return None;
    }
    match word(base) {
        0 => Some(word(base + 2 + 2 * glyph as usize)),
        2 => unit(6).find(|&u| (word(u + 2) as u32..=word(u) as u32).contains(&glyph)).map(|u| word(u + 4)),
        4 => unit(6)
            .find(|&u| (word(u + 2) as u32..=word(u) as u32).contains(&glyph))
            .map(|u| word(base + word(u + 4) as usize + 2 * (glyph as usize - word(u + 2) as usize))),
        6 => unit(4).find(|&u| word(u) as u32 == glyph).map(|u| word(u + 2)),
        _ => {
            let (first, count) = (word(base + 2) as u32, word(base + 4) as u32);
            (first..first + count).contains(&glyph).then(|| word(base + 6 + 2 * (glyph - first) as usize))
        }
    }
}

#[test]
fn lookups_agree_with_a_plain_search() {
    let mut formats = [0; 9];
    for index in 0..2_000 {
        let (table, n) = generate::sound_table(SEED, index);
        for field in [6, 8] {
            let offset = u16::from_be_bytes([table[field], table[field + 1]]) as usize;
            if offset == 0 {
                continue;
            }
            let base = offset + 6;
            formats[table[base + 1] as usize] += 1;
            let lookup = Lookup::read(Bytes(&table), base as u64, n).unwrap();
            let mut by_run = HashMap::new();
            let mut next = 0;
            for run in lookup.runs() {
                assert!(next <= run.first && run.first <= run.last && run.last < n);
                next = run.last + 1;
                by_run.extend((run.first..=run.last.min(run.first + 400)).map(|glyph| (glyph, run.value)));
            }
            for glyph in (0..n.min(300)).chain([n - 1, n, 0xFFFF]) {
                let value = plain_value(&table, base, n, glyph);
                assert_eq!(lookup.value(glyph), value);
                if glyph < 300 {
                    assert_eq!(by_run.get(&glyph).copied(), value);
                }
            }
        }
    }
    assert!([0, 2, 4, 6, 8].iter().all(|&format| formats[format] > 100), "{formats:?}");
}

/// The walk by the letter, given up after more steps than any walk that ends.
fn plain_walk(machine: &Machine, glyphs: &[u8], starts: bool, ends: bool) -> Option<(Vec<u8>, u64)> {
    let most = machine.rows as u64 * (glyphs.len() as u64 + 1);
    let (mut row, mut place, mut marked) = (if starts { 0 } else { 1 }, 0, usize::MAX);
    let mut classes = vec![0; glyphs.len()];
    for taken in 1..=most {
        let class = if place < glyphs.len() {
            glyphs[place]
        } else if ends {
            0
        } else {
            3
        };
        let cell = machine.cell(row, class as u32).unwrap();
        let (mark, stay) = (cell.flags & 0x8000 != 0, cell.flags & 0x4000 != 0);
        let (mark_class, current_class) = ((cell.flags / 128 % 128) as u8, (cell.flags % 128) as u8);
        if mark_class != 0 && marked != usize::MAX {
            classes[marked] = mark_class;
        }
        if current_class != 0 && place < glyphs.len() {
            classes[place] = current_class;
        }
        if mark && place < glyphs.len() {
            marked = place;
        }
        row = cell.row as u32;
        if !stay {
            if place == glyphs.len() {
                return Some((classes, taken));
            }
            place += 1;
        }
    }
    None
}

#[test]
fn walks_agree_with_plain_steps() {
    let mut rng = Rng::new(SEED, 3, 0);
    let (mut ended, mut endless) = (0, 0);
    for _ in 0..20_000 {
        let (rows, classes) = (rng.between(2, 6) as u32, rng.between(4, 6) as u32);
        let stays = rng.pick(&[5, 20, 50, 80]);
        let cells = (0..rows * classes).map(|_| {
            let stay = if rng.chance(stays) { 0x4000 } else { 0 };
            Cell { row: rng.below(rows as u64) as u16, flags: rng.u16() & 0x818F | stay }
        });
        let machine = Machine { rows, classes, cells: cells.collect() };
        let glyphs: Vec<u8> = (0..rng.below(8)).map(|_| rng.below(classes as u64) as u8).collect();
        let (starts, ends) = (rng.chance(50), rng.chance(50));
        let found = walk(&machine, &glyphs, starts, ends);
        assert_eq!(found, plain_walk(&machine, &glyphs, starts, ends));
        match found {
            Some((_, taken)) => {
                assert!(taken > glyphs.len() as u64 && taken <= rows as u64 * (glyphs.len() as u64 + 1));
                ended += 1;
            }
            None => endless += 1,
        }
    }
    assert!(ended > 2_000 && endless > 2_000, "{ended} {endless}");
}

#[test]
fn row_counts_are_the_least() {
    for index in 0..1_000 {
        let (table, n) = generate::sound_table(SEED, index);
        let read = read_table(&table, n).unwrap();
        for direction in Direction::BOTH {
            let Some(machine) = read.machine(direction) else { continue };
            let closed = |rows: u32| {
                let cells = &machine.cells[..(rows * machine.classes) as usize];
                cells.iter().all(|cell| (cell.row as u32) < rows)
            };
            assert_eq!((2..=machine.rows).find(|&rows| closed(rows)), Some(machine.rows));
        }
    }
}

/// The sharing by the letter, over a plain list of sides.
fn plain_share(rooms: &[Option<Room>], gap: u64, edition: u32) -> (Vec<u64>, u64) {
    let side = |k: usize| rooms[k / 2].map(|room| (room.stage, if k % 2 == 1 { room.after } else { room.before }));
    let of = |k: usize, stage: u8| side(k).filter(|&(s, _)| s == stage).map_or(0, |(_, factor)| factor as u128);
    let count = 2 * rooms.len();
    let total = |stage: u8| (0..count).map(|k| of(k, stage)).sum::<u128>();
    let portion = |stage: u8, left: u128, k: usize| {
        let running: u128 = (0..=k).map(|j| of(j, stage)).sum();
        let ahead = running - of(k, stage);
        (left * running / total(stage) - left * ahead / total(stage)) as u64
    };
    let mut given = vec![0u64; count];
    let mut left = gap as u128;
    for stage in 0..4 {
        if left <= total(stage) {
            if left > 0 {
                (0..count).for_each(|k| given[k] += portion(stage, left, k));
            }
            return (given, 0);
        }
        (0..count).for_each(|k| given[k] += of(k, stage) as u64);
        left -= total(stage);
        let open: Vec<usize> =
            (0..rooms.len()).filter(|&p| rooms[p].is_some_and(|room| room.stage == stage && room.unlimited)).collect();
        if !open.is_empty() {
            let n = open.len() as u128;
            for (k, &place) in open.iter().enumerate() {
                let k = k as u128 + 1;
                given[2 * place + 1] += (left * k / n - left * (k - 1) / n) as u64;
            }
            return (given, 0);
        }
    }
    match (0..4).find(|&stage| total(stage) > 0 && edition == 1) {
        Some(stage) => (0..count).for_each(|k| given[k] += portion(stage, left, k)),
        None => return (given, left as u64),
    }
    (given, 0)
}

#[test]
fn shares_agree_with_plain_sums() {
    let mut rng = Rng::new(SEED, 4, 0);
    for _ in 0..20_000 {
        let most = rng.pick(&[1, 2, 10, 1_000, 1 << 30]);
        let open = rng.pick(&[0, 0, 30]);
        let stages: &[u8] = rng.pick(&[&[0, 1, 2, 3], &[0, 1, 2, 3], &[3], &[1, 3]]);
        let rooms: Vec<Option<Room>> = (0..rng.below(8))
            .map(|_| {
                let (before, after) = (rng.below(most), rng.below(most));
                let room = Room { stage: rng.pick(stages), unlimited: rng.chance(open), before, after };
                rng.chance(85).then_some(room)
            })
            .collect();
        let sums = totals(&rooms);
        let marks: Vec<u64> = (0..=sums.len()).map(|end| sums[..end].iter().sum()).collect();
        let gap = match rng.below(3) {
            0 => (rng.pick(&marks) + rng.below(3)).saturating_sub(1),
            1 => rng.below(2 * marks[4] + 10),
            _ => rng.below(1 << 30),
        };
        for (edition, shares) in [(1, share(&rooms, gap)), (2, share_to_limits(&rooms, gap))] {
            let sides: Vec<u64> = shares.before.iter().zip(&shares.after).flat_map(|(&b, &a)| [b, a]).collect();
            assert_eq!(sides.iter().sum::<u64>() + shares.remainder, gap);
            if edition == 2 && shares.remainder > 0 {
                // Every side has its full factor, and nothing is unlimited.
                let full = rooms.iter().flat_map(|room| room.map_or([0, 0], |room| [room.before, room.after]));
                assert_eq!(sides, full.collect::<Vec<_>>());
                assert!(!rooms.iter().flatten().any(|room| room.unlimited));
            }
            assert_eq!((sides, shares.remainder), plain_share(&rooms, gap, edition));
        }
    }
}

/// A line's answer worked out again from the questions that its sheet answers.
fn from_sheet(meaning: &Meaning, line: &Line) -> Justified {
    let direction = line.direction;
    let deleted = |glyph: u16| glyph == 0xFFFF;
    let (classes, entries) = match meaning.sizes(direction) {
        None => (vec![0; line.glyphs.len()], 0),
        Some(Sizes { rows, classes }) => {
            let all = (0..rows).flat_map(|row| (0..classes).map(move |class| (row, class)));
            let cells = all.map(|(row, class)| meaning.cell(direction, row, class).unwrap()).collect();
            let class = |&g: &u16| if deleted(g) { 2 } else { meaning.glyph_class(direction, g as u32).unwrap() };
            let glyphs: Vec<u8> = line.glyphs.iter().map(class).collect();
            plain_walk(&Machine { rows, classes, cells }, &glyphs, line.starts, line.ends).unwrap()
        }
    };
    let gap = line.target - line.advances.iter().sum::<i64>();
    let room = |place: usize| {
        let glyph = line.glyphs[place];
        let record =
            meaning.width_record(direction, glyph as u32, classes[place] as u32).filter(|_| !deleted(glyph))?;
        let (before, after, flags) = match gap < 0 {
            false => (record.before_grow, record.after_grow, record.grow_flags),
            true => (record.before_shrink, record.after_shrink, record.shrink_flags),
        };
        let factor = |limit: u32| (limit as u128 * line.sizes[place] as u128 / 65_536) as u64;
        let stage = (flags % 16) as u8;
        Some(Room { stage, unlimited: flags & 0x1000 != 0, before: factor(before), after: factor(after) })
    };
    let rooms: Vec<_> = (0..line.glyphs.len()).map(room).collect();
    let (sides, left) = plain_share(&rooms, gap.unsigned_abs(), line.edition);
    let sign = if gap < 0 { -1 } else { 1 };
    let before: Vec<i64> = sides.iter().step_by(2).map(|&side| sign * side as i64).collect();
    let after: Vec<i64> = sides.iter().skip(1).step_by(2).map(|&side| sign * side as i64).collect();
    let mut verdicts = Vec::new();
    for (place, &glyph) in line.glyphs.iter().enumerate() {
        for number in 0..64 {
            let Some(action) = meaning.action(direction, glyph as u32, number) else { break };
            let fired = fires(&action, before[place] + after[place], line.sizes[place]);
            if action.class == classes[place] as u16 && fired != Fires::No && !deleted(glyph) {
                let substituting = fired == Fires::Substituting;
                verdicts.push(VerdictRecord { place: place as u32, number, substituting });
            }
        }
    }
    Justified { classes, before, after, remainder: sign * left as i64, entries, verdicts }
}

#[test]
fn lines_agree_with_their_sheets() {
    let mut checked = 0;
    for index in 0..3_000 {
        let case = generate::line(SEED, index);
        let Ok(answer) = case.justify() else { continue };
        let gap = case.target - case.advances.iter().sum::<i64>();
        let moved: i64 = answer.before.iter().chain(&answer.after).sum();
        assert_eq!(moved + answer.remainder, gap);
        if gap == 0 {
            assert!(answer.before.iter().chain(&answer.after).all(|&movement| movement == 0));
        }
        if case.glyphs.len() <= 100 {
            let sheet = write_sheet(&case.table, case.n).unwrap();
            assert_eq!(answer, from_sheet(&read_sheet(&sheet).unwrap(), &case.line()), "draw {index}");
            checked += 1;
        }
    }
    assert!(checked > 1_000);
}

#[test]
fn a_size_that_no_factor_uses_changes_nothing() {
    // Places without a record and without a list may have any size.
    let mut rng = Rng::new(SEED, 5, 0);
    let mut changed = 0;
    for index in 0..2_000 {
        let case = generate::line(SEED, index);
        let Ok(answer) = case.justify() else { continue };
        let table = read_table(&case.table, case.n).unwrap();
        let mut other = case.clone();
        for place in 0..case.glyphs.len() {
            let (glyph, class) = (case.glyphs[place] as u32, answer.classes[place] as u32);
            let record = table.width_record(case.direction, glyph, class);
            if record.is_none() && table.list_at(case.direction, glyph).is_none() {
                other.sizes[place] = rng.between(1, 67_108_864) as i64;
                changed += 1;
            }
        }
        assert_eq!(other.justify(), Ok(answer), "draw {index}");
    }
    assert!(changed > 500, "{changed}");
}

#[test]
fn lines_are_refused_for_their_first_fault() {
    for index in 0..3_000 {
        let case = generate::line(SEED, index);
        let mut faults = Vec::new();
        let mut note = |faulty: bool, number: u32| faults.extend(faulty.then_some(number));
        let count = case.glyphs.len();
        let lent = [case.advances.len(), case.sizes.len(), case.classes_len, case.before_len, case.after_len];
        note(lent != [count; 5], 9);
        note(count > 1_024, 10);
        note(case.edition != 1 && case.edition != 2, 18);
        note(case.sizes.iter().any(|&size| !(1..=67_108_864).contains(&size)), 11);
        let sum: i64 = case.advances.iter().sum();
        let negative = case.advances.iter().any(|&advance| advance < 0) || case.target < 0;
        note(negative || sum > 1_073_741_823 || case.target > 1_073_741_823, 12);
        note(case.glyphs.iter().any(|&glyph| glyph != 0xFFFF && glyph as u32 >= case.n), 13);
        let table = read_table(&case.table, case.n);
        let expected = match (&table, faults.first()) {
            (Err(fault), _) => Some(*fault),
            (_, Some(&number)) => Some(Fault::plain(number)),
            (Ok(table), None) => late_fault(table, &case, sum).map(Fault::plain),
        };
        assert_eq!(case.justify().err(), expected, "draw {index}");
    }
}

/// Refusals 14 to 16 of a line that has no earlier fault.
fn late_fault(table: &Table, case: &generate::LineCase, sum: i64) -> Option<u32> {
    let line = case.line();
    let Some((classes, _)) = classes_of(table, &line) else { return Some(14) };
    let rooms = rooms_of(table, &line, &classes, case.target >= sum);
    if totals(&rooms).iter().any(|&total| total > 1 << 33) {
        return Some(15);
    }
    let count = case.glyphs.len();
    let whole = justify(&case.input(), count, count, count, usize::MAX).unwrap();
    (whole.verdicts.len() > case.room).then_some(16)
}

#[test]
fn component_lists_are_the_data_of_type_0() {
    let mut found = 0;
    for index in 0..1_500 {
        let (table, n) = generate::table(SEED, index);
        let read = read_table(&table, n).ok();
        for direction in Direction::BOTH {
            for glyph in (0..n.min(6)).chain([0xFFFF]) {
                for number in 0..5 {
                    let bytes = component_bytes(&table, n, direction, glyph, number);
                    let action = read.as_ref().and_then(|read| read.action(direction, glyph, number));
                    match action {
                        Some(action) if action.kind == 0 => {
                            assert_eq!(bytes, &action.data[12..]);
                            found += 1;
                        }
                        _ => assert!(bytes.is_empty()),
                    }
                }
            }
        }
    }
    assert!(found > 50, "{found}");
}

//! The sample lines of document 01, with the values it states, and lines for
//! the requests of document 02.

mod common;

use common::*;
use reference::*;

fn side(stage: u8, before: u64, after: u64) -> Option<Room> {
    Some(Room { stage, unlimited: false, before, after })
}

/// All shares in line order, before ahead of after.
fn in_order(shares: &Shares) -> Vec<u64> {
    shares.before.iter().zip(&shares.after).flat_map(|(&b, &a)| [b, a]).collect()
}

#[test]
fn factor_of_two_and_a_half_ems() {
    assert_eq!(factor(2 * 65_536 + 32_768, TWELVE_POINTS as u32), 1_966_080);
    assert_eq!(1_966_080, 30 * 65_536);
}

#[test]
fn three_equal_factors() {
    // Three sides of 3: two of one glyph, and the before side of the next.
    let rooms = [side(0, 3, 3), side(0, 3, 0)];
    assert_eq!(in_order(&share(&rooms, 7)), [2, 2, 3, 0]);
    assert_eq!(in_order(&share(&rooms, 9)), [3, 3, 3, 0]);
    assert_eq!(in_order(&share(&rooms, 10)), [3, 3, 4, 0]);
    for gap in [7, 9, 10] {
        assert_eq!(share(&rooms, gap).remainder, 0);
    }
    // The same in each stage, and with one side to a glyph.
    for stage in 0..4 {
        let rooms = [side(stage, 0, 3), side(stage, 0, 3), side(stage, 0, 3)];
        assert_eq!(share(&rooms, 7).after, [2, 2, 3]);
        assert_eq!(share(&rooms, 9).after, [3, 3, 3]);
        assert_eq!(share(&rooms, 10).after, [3, 3, 4]);
    }
}

#[test]
fn three_equal_factors_on_a_line() {
    // A limit of 3 units of an em at 1 pt is a factor of 3.
    let table = table_with_records(&[([3, 3, 3, 3], [0, 0]), ([3, 0, 3, 0], [0, 0])]);
    for (gap, shares) in [(7, [2, 2, 3]), (9, [3, 3, 3]), (10, [3, 3, 4])] {
        let answer = run(&table, 2, line(&[0, 1], &[100, 50], 150 + gap, 65_536), 0).unwrap();
        assert_eq!((answer.before[0], answer.after[0], answer.before[1]), (shares[0], shares[1], shares[2]));
        assert_eq!((answer.after[1], answer.remainder), (0, 0));
        let answer = run(&table, 2, line(&[0, 1], &[100, 50], 150 - gap, 65_536), 0).unwrap();
        assert_eq!((answer.before[0], answer.after[0], answer.before[1]), (-shares[0], -shares[1], -shares[2]));
        assert_eq!((answer.after[1], answer.remainder), (0, 0));
    }
}

#[test]
fn no_room_at_all() {
    let rooms = [side(0, 0, 0), side(1, 0, 0), None];
    assert_eq!(share(&rooms, 5), Shares { before: vec![0; 3], after: vec![0; 3], remainder: 5 });
    let table = table_with_records(&[([0; 4], [0, 0])]);
    let answer = run(&table, 1, line(&[0, 0], &[0, 10], 15, 65_536), 0).unwrap();
    assert_eq!((answer.before, answer.after, answer.remainder), (vec![0, 0], vec![0, 0], 5));
    let answer = run(&table, 1, line(&[0, 0], &[0, 10], 5, 65_536), 0).unwrap();
    assert_eq!((answer.before, answer.after, answer.remainder), (vec![0, 0], vec![0, 0], -5));
}

#[test]
fn two_unlimited_glyphs() {
    let room = Some(Room { stage: 1, unlimited: true, before: 0, after: 0 });
    assert_eq!(share(&[room, None, room], 5).after, [2, 0, 3]);
    let table = table_with_records(&[([0; 4], [0x1001, 0])]);
    let answer = run(&table, 2, line(&[0, 1, 0], &[0, 0, 0], 5, 65_536), 0).unwrap();
    assert_eq!(answer.after, [2, 0, 3]);
    assert_eq!((answer.before, answer.remainder), (vec![0; 3], 0));
}

#[test]
fn ligature_breaks_past_half_an_em() {
    let data = Fields::new().l(0).l(32_768).w(0).w(1).w(0).done();
    let action = Action { class: 0, kind: 0, data };
    assert_eq!(fires(&action, 393_216, TWELVE_POINTS), Fires::No);
    assert_eq!(fires(&action, 393_217, TWELVE_POINTS), Fires::Plain);
    assert_eq!(fires(&action, 0, TWELVE_POINTS), Fires::No);
    assert_eq!(fires(&action, -1, TWELVE_POINTS), Fires::Plain);
}

#[test]
fn other_types_fire() {
    let action = |kind, data: Vec<u8>| Action { class: 0, kind, data };
    let add = action(1, vec![0, 0]);
    let repeat = action(5, vec![0; 4]);
    let stretch = action(3, vec![]);
    let ductile = action(4, vec![0; 16]);
    for (growth, added, stretched) in
        [(1, Fires::Plain, Fires::Plain), (0, Fires::No, Fires::No), (-1, Fires::No, Fires::Plain)]
    {
        assert_eq!(fires(&add, growth, 1), added);
        assert_eq!(fires(&repeat, growth, 1), added);
        assert_eq!(fires(&stretch, growth, 1), stretched);
        assert_eq!(fires(&ductile, growth, 1), stretched);
    }
    // Threshold half an em at 12 pt: 393,216 units.
    let conditional = action(2, Fields::new().l(32_768).ws(&[0xFFFF, 0]).done());
    assert_eq!(fires(&conditional, 393_216, TWELVE_POINTS), Fires::Substituting);
    assert_eq!(fires(&conditional, 393_215, TWELVE_POINTS), Fires::Plain);
    assert_eq!(fires(&conditional, 0, TWELVE_POINTS), Fires::No);
    // A negative threshold does not make a shrinking glyph fire.
    let negative = action(2, Fields::new().l(u32::MAX).ws(&[0xFFFF, 0]).done());
    assert_eq!(fires(&negative, -1, TWELVE_POINTS), Fires::No);
    assert_eq!(fires(&negative, 1, TWELVE_POINTS), Fires::Substituting);
}

#[test]
fn an_empty_line() {
    let answer = run(&empty_table(), 1, line(&[], &[], 4, 65_536), 0).unwrap();
    assert_eq!(answer.remainder, 4);
    assert_eq!(answer.entries, 0);
    assert!(answer.classes.is_empty() && answer.before.is_empty() && answer.after.is_empty());
    assert!(answer.verdicts.is_empty());
}

/// A machine of four classes and two rows, all of whose cells use entry 0 but
/// those listed; glyph 0 is class 1. Entries lead to rows given by number.
fn machine(cells: &[(usize, usize, u8)], entries: &[(u16, u16)]) -> Vec<u8> {
    let mut rows = vec![0u8; 8];
    for &(row, class, number) in cells {
        rows[4 * row + class] = number;
    }
    let fields = Fields::new().to(8).w(4).ws(&[8, 12, 20]).ws(&[0, 0]).bs(&rows);
    entries.iter().fold(fields, |fields, &(row, flags)| fields.w(12 + 4 * row).w(flags)).done()
}

#[test]
fn a_walk_that_never_ends() {
    let table = table_with_machine(&machine(&[(1, 1, 1)], &[(0, 0), (1, 0x4000)]));
    let mut one = line(&[0], &[0], 0, 65_536);
    one.starts = false;
    assert_eq!(run(&table, 1, one, 0), Err(14));
    one.starts = true;
    let answer = run(&table, 1, one, 0).unwrap();
    assert_eq!(answer.entries, 2);
    // In row 0 nothing stays, and the one entry leads to row 0.
    assert_eq!(answer.classes, [0]);
}

#[test]
fn an_empty_line_is_walked_at_its_end() {
    // Row 0, class 0 (end of text) stays and leads to row 1, which does not.
    let table = table_with_machine(&machine(&[(0, 0, 1)], &[(0, 0), (1, 0x4000)]));
    let empty = line(&[], &[], 0, 65_536);
    assert_eq!(run(&table, 1, empty, 0).unwrap().entries, 2);
    let mut within = empty;
    within.ends = false;
    assert_eq!(run(&table, 1, within, 0).unwrap().entries, 1);
    // Where the end position stays for good, the empty line is refused too.
    let table = table_with_machine(&machine(&[(0, 0, 1)], &[(0, 0), (0, 0x4000)]));
    assert_eq!(run(&table, 1, empty, 0), Err(14));
}

#[test]
fn marks() {
    // Entry 1 marks, gives the marked glyph class 5 and the current one 6.
    // At the first glyph there is no mark yet: it gets 6, is marked, and then
    // the second glyph's entry gives it 5. At the end only the mark class
    // counts: the second glyph, marked by now, gets 5.
    let flags = 0x8000 | 5 << 7 | 6;
    let table = table_with_machine(&machine(&[], &[(0, flags)]));
    let answer = run(&table, 1, line(&[0, 0], &[0, 0], 0, 65_536), 0).unwrap();
    assert_eq!(answer.classes, [5, 5]);
    assert_eq!(answer.entries, 3);
    // Without the end position's entry the second glyph would keep its 6: the
    // end class uses an entry that gives nothing.
    let table = table_with_machine(&machine(&[(0, 0, 1)], &[(0, flags), (0, 0)]));
    let answer = run(&table, 1, line(&[0, 0], &[0, 0], 0, 65_536), 0).unwrap();
    assert_eq!(answer.classes, [5, 6]);
    // A deleted glyph is class 2 and walked like any other.
    let table = table_with_machine(&machine(&[(0, 2, 1)], &[(0, 0), (0, 9)]));
    let answer = run(&table, 1, line(&[0xFFFF, 0], &[0, 0], 0, 65_536), 0).unwrap();
    assert_eq!(answer.classes, [9, 0]);
}

#[test]
fn point_sizes() {
    let at = |size| run(&empty_table(), 1, line(&[0], &[0], 0, size), 0).map(|_| ());
    assert_eq!(at(0), Err(11));
    assert_eq!(at(1), Ok(()));
    assert_eq!(at(67_108_864), Ok(()));
    assert_eq!(at(67_108_865), Err(11));
    assert_eq!(at(-1), Err(11));
}

#[test]
fn glyph_counts() {
    let of = |count: usize| {
        let (glyphs, advances) = (vec![0u16; count], vec![0i64; count]);
        run(&empty_table(), 1, line(&glyphs, &advances, 0, 65_536), 0).map(|_| ())
    };
    assert_eq!(of(1_024), Ok(()));
    assert_eq!(of(1_025), Err(10));
}

#[test]
fn line_refusals_in_order() {
    let table = empty_table();
    let wide = 1_073_741_823;
    let check = |line: Line| run(&table, 1, line, 0).map(|_| ());
    assert_eq!(check(line(&[0], &[wide], wide, 1)), Ok(()));
    assert_eq!(check(line(&[0], &[wide + 1], 0, 1)), Err(12));
    assert_eq!(check(line(&[0], &[0], wide + 1, 1)), Err(12));
    assert_eq!(check(line(&[0], &[0], -1, 1)), Err(12));
    assert_eq!(check(line(&[0, 0], &[5, -5], 0, 1)), Err(12));
    assert_eq!(check(line(&[0, 0], &[wide, 1], 0, 1)), Err(12));
    assert_eq!(check(line(&[1], &[0], 0, 1)), Err(13));
    assert_eq!(check(line(&[0xFFFF], &[0], 0, 1)), Ok(()));
    assert_eq!(check(line(&[1], &[-1], 0, 0)), Err(11));
    assert_eq!(check(line(&[1], &[-1], 0, 1)), Err(12));
    let input = LineInput { table: &table, n: 1, line: line(&[1], &[0], 0, 0) };
    for (classes, before, after) in [(0, 1, 1), (1, 2, 1), (1, 1, 0), (2, 2, 2)] {
        assert_eq!(justify(&input, classes, before, after, 0), Err(Fault::plain(9)));
    }
    assert_eq!(justify(&input, 1, 1, 1, 0), Err(Fault::plain(11)));
    assert_eq!(run(&table[..9], 0, line(&[1], &[], 0, 0), 0), Err(1));
    assert_eq!(run(&table, 0, line(&[1], &[], 0, 0), 0), Err(2));
}

#[test]
fn stage_totals_at_their_limit() {
    // 16 em at 1,024 pt is 2^30 a side: eight sides are the limit, 2^33.
    // Stage 3 has the same limit (document 02, request 2/14).
    let limit = 16 << 16;
    let size = 67_108_864;
    for stage in 0..4 {
        let flags = [stage, stage];
        let table = table_with_records(&[([limit, limit, 0, 0], flags), ([0, 1, 0, 0], flags)]);
        let of = |glyphs: &[u16], target: i64| {
            let mut advances = vec![0; glyphs.len()];
            advances[0] = 10;
            run(&table, 2, line(glyphs, &advances, target, size), 0).map(|answer| answer.remainder)
        };
        assert_eq!(of(&[0, 0, 0, 0], 10), Ok(0));
        assert_eq!(of(&[0, 0, 0, 0, 1], 10), Err(15));
        assert_eq!(of(&[0, 0, 0, 0, 1], 11), Err(15));
        // Shrinking, the totals are 0, and nothing can move.
        assert_eq!(of(&[0, 0, 0, 0, 1], 9), Ok(-1));
    }
}

#[test]
fn stage_totals_one_past_their_limit() {
    // At this size eight sides of 16 em lack just what a last glyph adds.
    let (full, size) = (16 << 16, 65_541_460);
    let [at, past] = [[200_604, 7], [200_611, 0]];
    let total = |last: [u32; 2]| 8 * factor(full, size) + factor(last[0], size) + factor(last[1], size);
    assert_eq!((total(at), total(past)), (1 << 33, (1 << 33) + 1));
    for stage in 0..4 {
        let record = |[before, after]: [u32; 2]| ([before, after, before, after], [stage, stage]);
        let table = table_with_records(&[record([full, full]), record(at), record(past)]);
        let of = |last: u16, gap: i64| {
            let (glyphs, advances) = ([0, 0, 0, 0, last], [0, 0, 0, 0, 10]);
            run(&table, 3, line(&glyphs, &advances, 10 + gap, size.into()), 0).map(|answer| answer.remainder)
        };
        for gap in [-10, 0, 10] {
            assert_eq!((of(1, gap), of(2, gap)), (Ok(0), Err(15)));
        }
    }
}

#[test]
fn stages_in_turn() {
    // Stage 0: 4 and 6; stage 2: 5 unlimited; stage 3 is never reached.
    let table = table_with_records(&[([4, 6, 0, 0], [0, 3]), ([0, 5, 0, 0], [0x1002, 3]), ([9, 9, 0, 0], [0x1003, 3])]);
    let of = |gap: i64| run(&table, 3, line(&[2, 0, 1], &[0, 0, 0], gap, 65_536), 0).unwrap();
    let sides = |gap: i64| (of(gap).before, of(gap).after, of(gap).remainder);
    assert_eq!(sides(0), (vec![0, 0, 0], vec![0, 0, 0], 0));
    assert_eq!(sides(5), (vec![0, 2, 0], vec![0, 3, 0], 0));
    assert_eq!(sides(10), (vec![0, 4, 0], vec![0, 6, 0], 0));
    assert_eq!(sides(11), (vec![0, 4, 0], vec![0, 6, 1], 0));
    assert_eq!(sides(15), (vec![0, 4, 0], vec![0, 6, 5], 0));
    assert_eq!(sides(100), (vec![0, 4, 0], vec![0, 6, 90], 0));
}

// Document 02, request 2/14.

#[test]
fn stage_three_comes_after_the_others() {
    // Stages 0 to 3 with factors 4, 3, 2 and, on two sides, 1 and 5.
    let rooms = [side(3, 1, 5), side(2, 0, 2), side(1, 0, 3), side(0, 0, 4)];
    assert_eq!(in_order(&share(&rooms, 9)), [0, 0, 0, 2, 0, 3, 0, 4]);
    assert_eq!(in_order(&share(&rooms, 12)), [0, 3, 0, 2, 0, 3, 0, 4]);
    assert_eq!(in_order(&share(&rooms, 15)), [1, 5, 0, 2, 0, 3, 0, 4]);
    // What is left goes back to stage 0, the first with a total.
    assert_eq!(in_order(&share(&rooms, 20)), [1, 5, 0, 2, 0, 3, 0, 9]);
    // On a line, growing and shrinking.
    let table = table_with_records(&[([1, 5, 1, 5], [3, 3]), ([0, 4, 0, 4], [0, 0])]);
    for sign in [1, -1] {
        let answer = run(&table, 2, line(&[0, 1], &[50, 50], 100 + sign * 7, 65_536), 0).unwrap();
        assert_eq!((answer.before, answer.after), (vec![0, 0], vec![sign * 3, sign * 4]));
        let answer = run(&table, 2, line(&[0, 1], &[50, 50], 100 + sign * 12, 65_536), 0).unwrap();
        assert_eq!((answer.before, answer.after), (vec![sign, 0], vec![sign * 5, sign * 6]));
        assert_eq!(answer.remainder, 0);
    }
}

#[test]
fn stage_three_alone_is_gone_back_to() {
    let rooms = [side(3, 2, 4), side(0, 0, 0), None];
    assert_eq!(share(&rooms, 6), Shares { before: vec![2, 0, 0], after: vec![4, 0, 0], remainder: 0 });
    // 10 more over 2 and 4: floor(20/6) = 3, and the rest is 7.
    assert_eq!(share(&rooms, 16), Shares { before: vec![5, 0, 0], after: vec![11, 0, 0], remainder: 0 });
}

#[test]
fn a_remainder_needs_four_empty_stages() {
    let empty = [side(0, 0, 0), side(1, 0, 0), side(2, 0, 0), side(3, 0, 0), None];
    assert_eq!(share(&empty, 5), Shares { before: vec![0; 5], after: vec![0; 5], remainder: 5 });
    for place in 0..4 {
        let mut rooms = empty;
        rooms[place] = side(place as u8, 0, 1);
        let shares = share(&rooms, 5);
        assert_eq!((shares.after[place], shares.remainder), (5, 0));
    }
    // A glyph without a record takes no part still.
    let table = table_with_records(&[([9, 9, 9, 9], [3, 3])]);
    let answer = run(&table, 2, line(&[1, 0xFFFF], &[5, 5], 17, 65_536), 0).unwrap();
    assert_eq!((answer.before, answer.after, answer.remainder), (vec![0; 2], vec![0; 2], 7));
}

#[test]
fn unlimited_glyphs_of_priority_three() {
    let open = |stage| Some(Room { stage, unlimited: true, before: 0, after: 0 });
    assert_eq!(share(&[open(3), side(0, 0, 2), open(3)], 7).after, [2, 2, 3]);
    // An unlimited glyph of an earlier stage takes all first.
    assert_eq!(share(&[open(3), open(2)], 7).after, [0, 7]);
    let table = table_with_records(&[([1, 2, 0, 0], [0x1003, 0x1003])]);
    let answer = run(&table, 1, line(&[0, 0], &[50, 50], 111, 65_536), 0).unwrap();
    assert_eq!((answer.before, answer.after, answer.remainder), (vec![1, 1], vec![4, 5], 0));
    let answer = run(&table, 1, line(&[0, 0], &[50, 50], 95, 65_536), 0).unwrap();
    assert_eq!((answer.before, answer.after, answer.remainder), (vec![0, 0], vec![-2, -3], 0));
}

#[test]
fn what_is_left_goes_to_the_first_stage_with_room() {
    // Stage 1: 2 and 4; stage 2: 3. Gap 19: 6 and 3, then 10 over 2 and 4 is
    // floor(20/6) = 3 and 10 - 3 = 7.
    let rooms = [side(2, 0, 3), side(1, 2, 4)];
    assert_eq!(share(&rooms, 19), Shares { before: vec![0, 5], after: vec![3, 11], remainder: 0 });
}

// Document 02, request 5/14.

/// A line with a size for each glyph.
fn sized<'a>(sizes: &'a [i64], glyphs: &'a [u16], advances: &'a [i64], target: i64) -> Line<'a> {
    Line { sizes, ..line(glyphs, advances, target, 1) }
}

#[test]
fn every_size_is_judged() {
    let table = empty_table();
    let of = |sizes: &[i64], glyphs: &[u16]| {
        let advances = vec![0; glyphs.len()];
        run(&table, 1, sized(sizes, glyphs, &advances, 0), 0).map(|_| ())
    };
    assert_eq!(of(&[1, 67_108_864], &[0, 0]), Ok(()));
    for bad in [0, 67_108_865, -1, i64::MAX, i64::MIN] {
        assert_eq!(of(&[bad, 1], &[0, 0]), Err(11));
        assert_eq!(of(&[1, bad], &[0, 0]), Err(11));
        // A deleted glyph's size too.
        assert_eq!(of(&[1, bad], &[0, 0xFFFF]), Err(11));
    }
    // An empty line has no size that could be wrong.
    assert_eq!(of(&[], &[]), Ok(()));
    // As many sizes as glyphs, also where the sizes are wrong.
    assert_eq!(of(&[1], &[0, 0]), Err(9));
    assert_eq!(of(&[1, 1, 0], &[0, 0]), Err(9));
    assert_eq!(of(&[], &[0]), Err(9));
    assert_eq!(of(&[1], &[]), Err(9));
    // 10 before 11 before 12 before 13.
    assert_eq!(of(&[0; 1_025], &[0; 1_025]), Err(10));
    assert_eq!(run(&table, 1, sized(&[0], &[1], &[-1], 0), 0).map(|_| ()), Err(11));
    assert_eq!(run(&table, 1, sized(&[1], &[1], &[-1], 0), 0).map(|_| ()), Err(12));
}

#[test]
fn factors_are_at_the_glyphs_own_size() {
    // A limit of 0.5 em: at 14 pt a factor of 458,752, at 9 pt of 294,912.
    let (fourteen, nine) = (14 * 65_536, 9 * 65_536);
    let table = table_with_records(&[([0, 32_768, 0, 32_768], [0, 0])]);
    let (glyphs, advances) = ([0, 0, 0], [600_000, 600_000, 600_000]);
    let sizes = [fourteen, nine, nine];
    let total = 458_752 + 2 * 294_912;
    let of = |gap: i64| run(&table, 1, sized(&sizes, &glyphs, &advances, 1_800_000 + gap), 0).unwrap();
    assert_eq!(of(total).after, [458_752, 294_912, 294_912]);
    assert_eq!(of(-total).after, [-458_752, -294_912, -294_912]);
    // 14 : 9 : 9 of a gap of 32 units.
    assert_eq!(of(32).after, [14, 9, 9]);
    // 3 units: floor(3 x 14 / 32) = 1, floor(3 x 23 / 32) = 2, 3.
    assert_eq!(of(3).after, [1, 1, 1]);
    // One past the total goes back: floor(14/32) = 0, floor(23/32) = 0, 1.
    assert_eq!(of(total + 1).after, [458_752, 294_912, 294_913]);
    // The deleted glyph's size is of no account.
    let sizes = [fourteen, 1, nine];
    let answer = run(&table, 1, sized(&sizes, &[0, 0xFFFF, 0], &advances, 1_800_023), 0).unwrap();
    assert_eq!(answer.after, [14, 0, 9]);
    // A factor is rounded down by itself: 0.5 em at 1 unit is 0, at 3 is 1.
    let answer = run(&table, 1, sized(&[1, 3, 2], &[0, 0, 0], &advances, 1_800_002), 0).unwrap();
    assert_eq!(answer.after, [0, 1, 1]);
}

#[test]
fn totals_over_sizes_at_their_limit() {
    // 16 em at 1,024 pt is 2^30 a side, at 512 pt 2^29: seven of the first and
    // two of the second are 2^33. A last side of 1 unit is one too many.
    let table = table_with_records(&[([0, 16 << 16, 0, 0], [1, 1]), ([0, 65_536, 0, 0], [1, 1])]);
    let (full, half) = (67_108_864, 33_554_432);
    let mut sizes = vec![full; 7];
    sizes.extend([half, half]);
    let glyphs = [0; 9];
    assert!(run(&table, 2, sized(&sizes, &glyphs, &[0; 9], 5), 0).is_ok());
    sizes.push(1);
    let glyphs = [0, 0, 0, 0, 0, 0, 0, 0, 0, 1];
    assert_eq!(run(&table, 2, sized(&sizes, &glyphs, &[0; 10], 5), 0), Err(15));
}

#[test]
fn verdicts_are_at_the_glyphs_own_size() {
    // Glyph 0 is unlimited and has a ligature of 0 to 0.5 em and a threshold of
    // 0.5 em. Two glyphs get 300,000 units each: 0.5 em is 458,752 at 14 pt and
    // 294,912 at 9 pt.
    let cluster = Fields::new().l(1).l(0).ls(&[0; 4]).ws(&[0x1000, 0x1000]);
    let list = Fields::new().l(2).ws(&[0, 0]).l(24).ls(&[0, 32_768]).ws(&[0, 1, 0, 0]);
    let list = list.ws(&[0, 2]).l(16).l(32_768).ws(&[0xFFFF, 0]);
    let head = Fields::new().l(0x0001_0000).ws(&[0, 10, 0]).ws(&[0, 32, 24]).ws(&[8, 0, 1, 0]);
    let table = head.ws(&[8, 0, 1, 36]).bs(&cluster.done()).bs(&list.done()).done();
    let (fourteen, nine) = (14 * 65_536, 9 * 65_536);
    let of = |sizes: [i64; 2]| run(&table, 1, sized(&sizes, &[0, 0], &[0, 0], 600_000), 4).unwrap();
    let verdict = |place, number, substituting| VerdictRecord { place, number, substituting };
    assert_eq!(of([fourteen, nine]).after, [300_000, 300_000]);
    assert_eq!(of([fourteen, nine]).verdicts, [verdict(0, 1, false), verdict(1, 0, false), verdict(1, 1, true)]);
    assert_eq!(of([nine, fourteen]).verdicts, [verdict(0, 0, false), verdict(0, 1, true), verdict(1, 1, false)]);
    assert_eq!(of([fourteen, fourteen]).verdicts, [verdict(0, 1, false), verdict(1, 1, false)]);
}

// Document 02, request 7/14.

#[test]
fn editions_are_1_and_2() {
    let table = empty_table();
    let of = |edition: u32, line: Line| run(&table, 1, Line { edition, ..line }, 0).map(|_| ());
    let good = line(&[0], &[0], 0, 1);
    assert_eq!((of(1, good), of(2, good)), (Ok(()), Ok(())));
    let (glyphs, advances) = ([0; 1_025], [0; 1_025]);
    for edition in [0, 3, u32::MAX] {
        // Gap 0 as well as others, and empty lines too.
        assert_eq!(of(edition, good), Err(18));
        assert_eq!(of(edition, line(&[0], &[0], 5, 1)), Err(18));
        assert_eq!(of(edition, line(&[], &[], 0, 1)), Err(18));
        // After 9 and 10, before 11, 12 and 13.
        assert_eq!(of(edition, line(&[0], &[], 0, 1)), Err(9));
        assert_eq!(of(edition, line(&glyphs, &advances, 0, 1)), Err(10));
        assert_eq!(of(edition, line(&[1], &[-1], 0, 0)), Err(18));
    }
    assert_eq!(of(2, line(&[1], &[-1], 0, 0)), Err(11));
    // After the table too, and before the walk.
    let input = LineInput { table: &table[..9], n: 1, line: Line { edition: 0, ..good } };
    assert_eq!(justify(&input, 1, 1, 1, 0), Err(Fault::plain(1)));
    let table = table_with_machine(&machine(&[], &[(0, 0x4000)]));
    assert_eq!(run(&table, 1, good, 0), Err(14));
    assert_eq!(run(&table, 1, Line { edition: 3, ..good }, 0), Err(18));
}

#[test]
fn edition_2_stops_at_the_limits() {
    // Stages 0 to 3 with factors 4, 3, 2 and, on two sides, 1 and 5: 15 in all.
    let rooms = [side(3, 1, 5), side(2, 0, 2), side(1, 0, 3), side(0, 0, 4)];
    for gap in 0..=15 {
        assert_eq!(share_to_limits(&rooms, gap), share(&rooms, gap));
    }
    let shares = share_to_limits(&rooms, 20);
    assert_eq!((in_order(&shares), shares.remainder), (vec![1, 5, 0, 2, 0, 3, 0, 4], 5));
    // Factors 3, 3, 3 and R = 10: 3, 3, 3, and 1 is left.
    let table = table_with_records(&[([3, 3, 3, 3], [0, 0]), ([3, 0, 3, 0], [0, 0])]);
    for sign in [1, -1] {
        let long = Line { edition: 2, ..line(&[0, 1], &[100, 50], 150 + sign * 10, 65_536) };
        let answer = run(&table, 2, long, 0).unwrap();
        assert_eq!((answer.before, answer.after), (vec![3 * sign, 3 * sign], vec![3 * sign, 0]));
        assert_eq!(answer.remainder, sign);
    }
    // Without any room both editions leave the gap.
    let answer = run(&empty_table(), 1, Line { edition: 2, ..line(&[], &[], 4, 65_536) }, 0).unwrap();
    assert_eq!(answer.remainder, 4);
}

#[test]
fn edition_2_keeps_unlimited_glyphs() {
    let open = Some(Room { stage: 1, unlimited: true, before: 0, after: 0 });
    let rooms = [open, side(0, 2, 0), open, side(3, 0, 9)];
    let shares = share_to_limits(&rooms, 7);
    assert_eq!((in_order(&shares), shares.remainder), (vec![0, 2, 2, 0, 0, 3, 0, 0], 0));
    assert_eq!(shares, share(&rooms, 7));
}

#[test]
fn edition_2_is_capped_as_well() {
    // Five glyphs of two sides of 2^30 pass 2^33, though no gap can use them.
    let table = table_with_records(&[([16 << 16, 16 << 16, 0, 0], [3, 3])]);
    let long = |target| Line { edition: 2, ..line(&[0; 5], &[0; 5], target, 67_108_864) };
    assert_eq!(run(&table, 1, long(0), 0), Err(15));
    assert_eq!(run(&table, 1, long(5), 0), Err(15));
}

//! Sharing the gap (document 01, the section of that name; document 02,
//! request 2/14, for stage 3, and request 7/14 for the second edition).
//!
//! Everything here is on sizes; the line puts signs on at the end.

/// The number of stages, one for each priority: document 02, request 2/14,
/// brings in the null priority, 3.
pub const STAGES: usize = 4;

/// What one glyph brings to the sharing: its stage (0 to 3), whether it is
/// unlimited, and the factors of its two sides.
#[derive(Clone, Copy, Debug, PartialEq, Eq)]
pub struct Room {
    pub stage: u8,
    pub unlimited: bool,
    pub before: u64,
    pub after: u64,
}

/// What each side gets, and what is left over.
#[derive(Clone, Debug, PartialEq, Eq)]
pub struct Shares {
    pub before: Vec<u64>,
    pub after: Vec<u64>,
    pub remainder: u64,
}

/// A side's factor: limit times size, over 65,536, rounded down.
pub fn factor(limit: u32, size: u32) -> u64 {
    limit as u64 * size as u64 / 65_536
}

/// The factor total of each stage.
pub fn totals(rooms: &[Option<Room>]) -> [u64; STAGES] {
    let mut totals = [0; STAGES];
    for room in rooms.iter().flatten() {
        totals[room.stage as usize] += room.before + room.after;
    }
    totals
}

/// Shares `gap` under edition 1: what is left after the last stage goes back to
/// the first stage with a total. A place with `None` takes no part.
pub fn share(rooms: &[Option<Room>], gap: u64) -> Shares {
    let mut shares = share_to_limits(rooms, gap);
    let totals = totals(rooms);
    if let Some(stage) = totals.iter().position(|&total| total > 0) {
        let left = std::mem::take(&mut shares.remainder);
        add_portions(rooms, stage, left, totals[stage], &mut shares);
    }
    shares
}

/// Shares `gap` under edition 2, stage by stage: what is left after the last
/// stage is the remainder.
pub fn share_to_limits(rooms: &[Option<Room>], gap: u64) -> Shares {
    let totals = totals(rooms);
    let mut shares = Shares { before: vec![0; rooms.len()], after: vec![0; rooms.len()], remainder: 0 };
    let mut left = gap;
    for (stage, &total) in totals.iter().enumerate() {
        if left <= total {
            add_portions(rooms, stage, left, total, &mut shares);
            return shares;
        }
        add_factors(rooms, stage, &mut shares);
        left -= total;
        if add_unlimited(rooms, stage, left, &mut shares) {
            return shares;
        }
    }
    shares.remainder = left;
    shares
}

/// The places of a stage in line order.
fn of_stage(rooms: &[Option<Room>], stage: usize) -> impl Iterator<Item = (usize, Room)> + '_ {
    let present = rooms.iter().enumerate().filter_map(|(place, room)| room.map(|room| (place, room)));
    present.filter(move |(_, room)| room.stage as usize == stage)
}

/// Adds to each side of the stage its portion of `left`: the rounded-down part
/// up to and with this side, less the same up to the side ahead of it.
fn add_portions(rooms: &[Option<Room>], stage: usize, left: u64, total: u64, shares: &mut Shares) {
    if left == 0 {
        return;
    }
    let mut running = 0;
    let mut given = 0;
    let mut next = |side: u64| {
        running += side;
        let up_to = portion(left, running, total);
        let own = up_to - given;
        given = up_to;
        own
    };
    for (place, room) in of_stage(rooms, stage) {
        shares.before[place] += next(room.before);
        shares.after[place] += next(room.after);
    }
}

/// The product over the total, rounded down, whatever the size of the product.
fn portion(left: u64, part: u64, total: u64) -> u64 {
    match left.checked_mul(part) {
        Some(product) => product / total,
        None => (left as u128 * part as u128 / total as u128) as u64,
    }
}

/// Adds to each side of the stage its whole factor.
fn add_factors(rooms: &[Option<Room>], stage: usize, shares: &mut Shares) {
    for (place, room) in of_stage(rooms, stage) {
        shares.before[place] += room.before;
        shares.after[place] += room.after;
    }
}

/// Shares `left` evenly over the after sides of the stage's unlimited glyphs;
/// false where there are none.
fn add_unlimited(rooms: &[Option<Room>], stage: usize, left: u64, shares: &mut Shares) -> bool {
    let count = of_stage(rooms, stage).filter(|(_, room)| room.unlimited).count() as u64;
    let mut given = 0;
    let unlimited = of_stage(rooms, stage).filter(|(_, room)| room.unlimited);
    for (index, (place, _)) in (1..).zip(unlimited) {
        let up_to = portion(left, index, count);
        shares.after[place] += up_to - given;
        given = up_to;
    }
    count > 0
}

//! Fonts (document 02, request 12/14): drawn tables with a 'maxp' and others
//! around them, tags that stand twice, lengths of any kind, and fonts with a
//! fault in the directory, in where the two tables lie, or in a checksum.

use super::parts::Style;
use super::rng::Rng;
use super::tables;
use crate::font::{checksum, FontRecord, FONT_HEADER, FONT_RECORD, JUST, MAXP};

/// A font under construction: records in directory order, and all bytes past
/// the directory.
struct Plan {
    count: u16,
    records: Vec<FontRecord>,
    body: Vec<u8>,
    search: [u8; 10],
}

impl Plan {
    fn start(&self) -> usize {
        FONT_HEADER + FONT_RECORD * self.records.len()
    }

    fn end(&self) -> usize {
        self.start() + self.body.len()
    }

    /// The whole file.
    fn bytes(&self) -> Vec<u8> {
        let mut out = self.search[..4].to_vec();
        out.extend(self.count.to_be_bytes());
        out.extend(&self.search[4..]);
        for record in &self.records {
            out.extend(record.tag);
            for field in [record.checksum, record.offset, record.length] {
                out.extend(field.to_be_bytes());
            }
        }
        out.extend(&self.body);
        out
    }

    /// The first record with a tag.
    fn first(&mut self, tag: [u8; 4]) -> Option<&mut FontRecord> {
        self.records.iter_mut().find(|record| record.tag == tag)
    }

    /// Gives the first record with a tag the checksum of where it points to, if
    /// that is inside.
    fn sum_up(&mut self, tag: [u8; 4]) {
        let file = self.bytes();
        if let Some(record) = self.first(tag) {
            let end = record.offset as usize + record.length as usize;
            if let Some(bytes) = file.get(record.offset as usize..end) {
                record.checksum = checksum(bytes);
            }
        }
    }
}

/// What a draw aims at; what comes out is for the call to say.
#[derive(Clone, Copy)]
enum Aim {
    Sound,
    Directory,
    Missing,
    Outside,
    MaxpLength,
    Checksum,
    Overlap,
}

const AIMS: [(Aim, u64); 7] = [
    (Aim::Sound, 80),
    (Aim::Directory, 9),
    (Aim::Missing, 7),
    (Aim::Outside, 11),
    (Aim::MaxpLength, 7),
    (Aim::Checksum, 10),
    (Aim::Overlap, 10),
];

/// A font.
pub fn draw(rng: &mut Rng) -> Vec<u8> {
    let mut plan = sound(rng);
    let aim = AIMS[rng.weighted(&AIMS.map(|(_, weight)| weight))].0;
    spoil(rng, &mut plan, aim);
    if rng.chance(12) {
        // A second fault, so that the order of refusals shows.
        let other = AIMS[rng.below(AIMS.len() as u64) as usize].0;
        spoil(rng, &mut plan, other);
    }
    let mut font = plan.bytes();
    if matches!(aim, Aim::Directory) && rng.chance(50) {
        let start = plan.start() as u64;
        let any = rng.below(start);
        font.truncate(rng.pick(&[start - 1, start - 16, 0, 5, 6, 11, 12, any]) as usize);
    } else if rng.chance(3) {
        let length = rng.below(font.len() as u64);
        font.truncate(length as usize);
    }
    font
}

/// A directory and tables that keep the rules of a font; the 'just' table may
/// be one that is refused.
fn sound(rng: &mut Rng) -> Plan {
    let (table, n) = match rng.weighted(&[60, 20, 12, 8]) {
        0 => {
            let n = tables::glyph_count(rng);
            (tables::sound(rng, n, Style::SMALL).bytes, n)
        }
        1 => tables::draw(rng),
        2 => {
            let (table, n) = tables::faulty(rng);
            (table.bytes, n)
        }
        _ => (tables::sound(rng, 1, Style::SMALL).bytes, rng.pick(&[0, 1, 2, 65_535])),
    };
    let mut pieces = vec![(JUST, table), (MAXP, maxp(rng, n as u16))];
    for _ in 0..rng.below(5) {
        pieces.push(other(rng));
    }
    let mut doubles = Vec::new();
    if rng.chance(25) {
        doubles.push(double(rng, &pieces[0].1, n as u16));
    }
    rng.shuffle(&mut pieces);
    let count = (pieces.len() + doubles.len()) as u16;
    let mut search = [0; 10];
    search.iter_mut().for_each(|byte| *byte = rng.draw() as u8);
    let mut plan = Plan { count, records: Vec::new(), body: Vec::new(), search };
    let start = FONT_HEADER + FONT_RECORD * count as usize;
    for (tag, bytes) in pieces.iter().chain(&doubles) {
        let record = put(rng, &mut plan.body, start, *tag, bytes);
        plan.records.push(record);
    }
    match rng.weighted(&[60, 20, 20]) {
        // By tag; what stands twice keeps its order.
        0 => plan.records.sort_by_key(|record| record.tag),
        1 => rng.shuffle(&mut plan.records),
        _ => {}
    }
    if rng.chance(50) {
        garbage(rng, &mut plan.body, 7);
    }
    plan
}

/// Puts a table at the end, mostly at a multiple of four, and gives its record.
/// The bytes between are any: only zeros count for the last word.
fn put(rng: &mut Rng, body: &mut Vec<u8>, start: usize, tag: [u8; 4], bytes: &[u8]) -> FontRecord {
    while rng.chance(75) && !(start + body.len()).is_multiple_of(4) {
        body.push(rng.draw() as u8);
    }
    let offset = (start + body.len()) as u32;
    body.extend(bytes);
    FontRecord { tag, checksum: checksum(bytes), offset, length: bytes.len() as u32 }
}

fn garbage(rng: &mut Rng, body: &mut Vec<u8>, most: u64) {
    for _ in 0..rng.below(most + 1) {
        body.push(rng.draw() as u8);
    }
}

/// A 'maxp' of 6 bytes, of 32, or of any length from 6 on.
fn maxp(rng: &mut Rng, n: u16) -> Vec<u8> {
    let any = rng.between(6, 40) as usize;
    let length = rng.pick(&[6, 6, 32, any]);
    let mut bytes = 0x0000_5000u32.to_be_bytes().to_vec();
    bytes.extend(n.to_be_bytes());
    bytes.resize_with(length, || rng.draw() as u8);
    bytes
}

/// Another table, whose tag may be nearly one of the two.
fn other(rng: &mut Rng) -> ([u8; 4], Vec<u8>) {
    let tags = [*b"head", *b"glyf", *b"cmap", *b"kern", *b"Just", *b"jusu", *b"maxq", *b"lcar", *b"\0\0\0\0"];
    let mut bytes = Vec::new();
    garbage(rng, &mut bytes, 40);
    (rng.pick(&tags), bytes)
}

/// One of the two tags once more, with the same or with other bytes.
fn double(rng: &mut Rng, table: &[u8], n: u16) -> ([u8; 4], Vec<u8>) {
    let mut bytes = Vec::new();
    match rng.below(4) {
        0 => return (JUST, table.to_vec()),
        1 => return (MAXP, maxp(rng, n.wrapping_add(1))),
        _ => garbage(rng, &mut bytes, 30),
    }
    (rng.pick(&[JUST, MAXP]), bytes)
}

/// Either of the two.
fn either(rng: &mut Rng) -> [u8; 4] {
    rng.pick(&[JUST, MAXP])
}

/// Brings in the fault that is aimed at.
fn spoil(rng: &mut Rng, plan: &mut Plan, aim: Aim) {
    match aim {
        Aim::Sound => {}
        Aim::Directory => spoil_count(rng, plan),
        Aim::Missing => {
            let tag = either(rng);
            let near = [[tag[0], tag[1], tag[2], tag[3] ^ 0x20], [tag[0], tag[1], tag[2], 0], *b"tsuj", *b"JUST"];
            let other = rng.pick(&near);
            plan.records.iter_mut().filter(|record| record.tag == tag).for_each(|record| record.tag = other);
        }
        Aim::Outside => spoil_place(rng, plan),
        Aim::MaxpLength => {
            let length = rng.pick(&[0, 4, 5, 5, 6, 6, 7]);
            if let Some(record) = plan.first(MAXP) {
                record.length = length;
            }
            if rng.chance(80) {
                plan.sum_up(MAXP);
            }
        }
        Aim::Checksum => spoil_checksum(rng, plan),
        Aim::Overlap => overlap(rng, plan),
    }
}

/// A table count that is too great, or that leaves records out.
fn spoil_count(rng: &mut Rng, plan: &mut Plan) {
    let fits = ((plan.end() - FONT_HEADER) / FONT_RECORD) as u16;
    let any = rng.below(plan.count as u64 + 1) as u16;
    let (more, fewer) = (plan.count.wrapping_add(1), plan.count.wrapping_sub(1));
    plan.count = rng.pick(&[more, fewer, 0, 0xFFFF, fits, fits + 1, any]);
}

/// A place at the end of the file or past it, often beyond 32 bits. Length 0 is
/// inside up to the end.
fn spoil_place(rng: &mut Rng, plan: &mut Plan) {
    let tag = either(rng);
    let end = plan.end() as u32;
    let choice = rng.below(7);
    let Some(record) = plan.first(tag) else { return };
    match choice {
        0 => record.length = end.saturating_sub(record.offset) + 1,
        1 => record.length = end.saturating_sub(record.offset),
        2 => (record.offset, record.length) = (end, 0),
        3 => (record.offset, record.length) = (end + 1, 0),
        4 => record.offset = end.wrapping_sub(record.length).wrapping_add(1),
        // The sum of the two is small where it is kept to 32 bits.
        5 => record.offset = 0u32.wrapping_sub(record.length).wrapping_add(8),
        _ => record.length = u32::MAX,
    }
    if rng.chance(80) {
        plan.sum_up(tag);
    }
}

/// One checksum that is off: by one, by a bit, or by what follows the last
/// bytes; or one changed byte of a table.
fn spoil_checksum(rng: &mut Rng, plan: &mut Plan) {
    let tag = either(rng);
    let (choice, bit) = (rng.below(5), rng.below(32));
    let (file, start) = (plan.bytes(), plan.start());
    let Some(record) = plan.first(tag) else { return };
    let end = (record.offset as usize).saturating_add(record.length as usize);
    match choice {
        0 => record.checksum = record.checksum.wrapping_add(1),
        1 => record.checksum ^= 1 << bit,
        2 => record.checksum = record.checksum.swap_bytes(),
        3 => {
            let filled = file.get(record.offset as usize..end.next_multiple_of(4)).unwrap_or(&[]);
            record.checksum = checksum(filled);
        }
        _ => {
            let within = bit as usize % record.length.max(1) as usize;
            let at = (record.offset as usize).wrapping_sub(start).wrapping_add(within);
            if let Some(byte) = plan.body.get_mut(at) {
                *byte ^= 0x80;
            }
        }
    }
}

/// Tables on top of each other: one reaches over what follows it, 'maxp' lies
/// inside 'just', in the header (where its count is the table count), or
/// anywhere.
fn overlap(rng: &mut Rng, plan: &mut Plan) {
    let end = plan.end() as u32;
    let anywhere = rng.below(end as u64) as u32;
    let Some(just) = plan.first(JUST).copied() else { return };
    let (choice, more) = (rng.below(4), rng.below(60) as u32);
    match choice {
        0 => {
            if let Some(record) = plan.first(JUST) {
                record.length = record.length.saturating_add(more).min(end.saturating_sub(record.offset));
            }
        }
        _ => {
            let inside = just.offset.wrapping_add(more % just.length.max(1));
            let offset = [0, inside, anywhere][choice as usize - 1];
            if let Some(record) = plan.first(MAXP) {
                record.offset = offset;
                record.length = record.length.min(if offset == 0 { 12 } else { 6 });
            }
        }
    }
    plan.sum_up(JUST);
    plan.sum_up(MAXP);
}

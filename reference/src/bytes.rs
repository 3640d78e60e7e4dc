//! Big-endian fields of a table, and the fault that ends a call.
//!
//! Document 01, "Numbers of refusal": a field must lie wholly inside before
//! anything is said about its value. Positions are 64-bit sums, so no offset
//! ever wraps.

/// A refusal: its number and an offset (document 02, request 4/14). For 4 to 8
/// the offset is that of the first byte of the field that was being found or
/// judged, from the table's start; it may lie past the end. For all others it
/// is 0.
#[derive(Clone, Copy, Debug, PartialEq, Eq)]
pub struct Fault {
    pub number: u32,
    pub at: u64,
}

impl Fault {
    /// A refusal at a field, 4 to 8.
    pub fn new(number: u32, at: u64) -> Fault {
        Fault { number, at }
    }

    /// A refusal at no field, all but 4 to 8.
    pub fn plain(number: u32) -> Fault {
        Fault { number, at: 0 }
    }
}

pub const LENGTH: u32 = 1;
pub const GLYPH_COUNT: u32 = 2;
pub const HEADER: u32 = 3;
pub const OUTSIDE: u32 = 4;
pub const LOOKUP: u32 = 5;
pub const CLUSTER: u32 = 6;
pub const MACHINE: u32 = 7;
pub const ACTIONS: u32 = 8;
pub const ROOM: u32 = 16;
pub const SHEET: u32 = 17;
pub const EDITION: u32 = 18;
pub const FONT: u32 = 21;
pub const MISSING: u32 = 22;
pub const CHECKSUM: u32 = 23;

/// Passes over a field that keeps its rule; otherwise gives the fault.
pub fn judge(kept: bool, number: u32, at: u64) -> Result<(), Fault> {
    if kept {
        Ok(())
    } else {
        Err(Fault::new(number, at))
    }
}

/// The same for what is no field of a table.
pub fn refuse(faulty: bool, number: u32) -> Result<(), Fault> {
    judge(!faulty, number, 0)
}

/// The bytes of a table.
#[derive(Clone, Copy, Debug)]
pub struct Bytes<'a>(pub &'a [u8]);

impl<'a> Bytes<'a> {
    fn field<const SIZE: usize>(self, at: u64) -> Result<[u8; SIZE], Fault> {
        let start = usize::try_from(at).ok();
        start
            .and_then(|s| self.0.get(s..s.checked_add(SIZE)?))
            .and_then(|b| b.try_into().ok())
            .ok_or(Fault::new(OUTSIDE, at))
    }

    pub fn u8(self, at: u64) -> Result<u8, Fault> {
        self.field::<1>(at).map(|b| b[0])
    }

    pub fn u16(self, at: u64) -> Result<u16, Fault> {
        self.field(at).map(u16::from_be_bytes)
    }

    pub fn u32(self, at: u64) -> Result<u32, Fault> {
        self.field(at).map(u32::from_be_bytes)
    }

    /// A field that was found inside earlier.
    pub fn known_u16(self, at: u64) -> u16 {
        self.u16(at).expect("field was found inside")
    }

    /// A field that was found inside earlier.
    pub fn known_u32(self, at: u64) -> u32 {
        self.u32(at).expect("field was found inside")
    }

    /// Bytes that were found inside earlier.
    pub fn known(self, at: u64, length: u64) -> &'a [u8] {
        &self.0[at as usize..(at + length) as usize]
    }

    /// Pieces of one size that were found inside earlier. Without any, `at` may
    /// lie outside.
    pub fn known_pieces<const SIZE: usize>(self, at: u64, count: u64) -> &'a [[u8; SIZE]] {
        if count == 0 {
            return &[];
        }
        self.known(at, SIZE as u64 * count).as_chunks().0
    }
}

/// The 16-bit number at `at` of plain bytes.
pub fn get_u16(bytes: &[u8], at: usize) -> u16 {
    u16::from_be_bytes([bytes[at], bytes[at + 1]])
}

/// The 32-bit number at `at` of plain bytes.
pub fn get_u32(bytes: &[u8], at: usize) -> u32 {
    u32::from_be_bytes([bytes[at], bytes[at + 1], bytes[at + 2], bytes[at + 3]])
}

pub fn put_u16(out: &mut Vec<u8>, value: u16) {
    out.extend_from_slice(&value.to_be_bytes());
}

pub fn put_u32(out: &mut Vec<u8>, value: u32) {
    out.extend_from_slice(&value.to_be_bytes());
}

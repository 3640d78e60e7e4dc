//! The calls that take two tables.

use crate::answers::NUMBERS;
use crate::{Answer, Difference, Table};
use std::slice;

// `n` is the glyph count that both tables are read with.
extern "C" {
    fn just_difference_count(
        first: *const u8,
        first_length: usize,
        second: *const u8,
        second_length: usize,
        n: u32,
    ) -> Answer<u32>;
    fn just_differences(
        first: *const u8,
        first_length: usize,
        second: *const u8,
        second_length: usize,
        n: u32,
        numbers: *mut u16,
        numbers_length: usize,
    ) -> Answer<u32>;
}

// SAFETY: in each call pointer and length are of one slice; the tables are only read, the room is lent to be written.
impl Table<'_> {
    /// How many differences the table has from a second one, read with the same glyph count.
    pub fn difference_count(self, second: &[u8]) -> Answer<u32> {
        let (first, length, n) = self.lent();
        unsafe { just_difference_count(first, length, second.as_ptr(), second.len(), n) }
    }

    /// Lists them in the first numbers of the room, five for each, and answers how many differences there are.
    pub fn difference_numbers(self, second: &[u8], room: &mut [u16]) -> Answer<u32> {
        let (first, length, n) = self.lent();
        unsafe { just_differences(first, length, second.as_ptr(), second.len(), n, room.as_mut_ptr(), room.len()) }
    }

    /// Lists them in the first places of the room and answers their count.
    pub fn differences(self, second: &[u8], room: &mut [Difference]) -> Answer<u32> {
        // SAFETY: a difference is `NUMBERS` numbers and nothing else, and any numbers are one.
        let numbers = unsafe { slice::from_raw_parts_mut(room.as_mut_ptr().cast::<u16>(), NUMBERS * room.len()) };
        self.difference_numbers(second, numbers)
    }
}

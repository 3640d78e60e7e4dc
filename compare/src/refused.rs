//! Refusals, as both programs give them.

use just_raw::Answer;
use reference::Fault;

/// A refusal: its number, and for the faults of a table's fields, 4 to 8, the offset of the field; else 0.
#[derive(Clone, Copy, Debug, PartialEq, Eq)]
pub struct Refused {
    pub number: u32,
    pub offset: u64,
}

impl Refused {
    /// A refusal that speaks of no field of a table.
    pub fn plain(number: u32) -> Refused {
        Refused { number, offset: 0 }
    }

    /// What the second program says.
    pub fn fault(fault: Fault) -> Refused {
        Refused { number: fault.number, offset: fault.at }
    }
}

/// What the library answers, or its refusal. Beside a refusal there have to be zeros, and beside an answer offset 0.
pub fn said<T: Default + PartialEq>(answer: Answer<T>) -> Result<T, Refused> {
    if answer.refusal == 0 {
        assert!(answer.offset == 0, "an offset beside no refusal");
        return Ok(answer.said);
    }
    assert!(answer.said == T::default(), "no zeros beside a refusal");
    Err(Refused { number: answer.refusal, offset: answer.offset })
}

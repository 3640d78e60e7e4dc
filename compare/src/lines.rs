//! Lines: the answer and every lent buffer, after refusals too.

use crate::caps;
use crate::guarded::Guarded;
use crate::questions::Questions;
use crate::refused::{self, Refused};
use crate::{library, peer, same, Outcome};
use just_raw::{Answer, Lent, Line, Said, Table, Verdict};
use reference::generate::{self, LineCase};
use reference::{Direction, Fault, Justified};

/// The line of a case: one in 40 has a stage's total at its cap. Sizes are those that 32 bits hold.
pub fn draw(seed: u64, index: u64) -> LineCase {
    let mut case = match index % 40 {
        39 => caps::draw(&mut Questions::new(seed, index)),
        _ => generate::line(seed, index),
    };
    case.sizes.iter_mut().for_each(|size| *size = i64::from(*size as u32));
    case
}

/// The four buffers that the call fills.
#[derive(Clone)]
struct Buffers {
    classes: Guarded<u8>,
    before: Guarded<i32>,
    after: Guarded<i32>,
    verdicts: Guarded<Verdict>,
}

fn noise(asked: &mut Questions) -> Verdict {
    let number = asked.number();
    Verdict { place: number as u16, action: (number >> 16) as u16, substitutes: (number >> 32) as u16 }
}

fn verdict(record: &reference::VerdictRecord) -> Verdict {
    Verdict { place: record.place as u16, action: record.number as u16, substitutes: record.substituting.into() }
}

impl Buffers {
    fn new(case: &LineCase, asked: &mut Questions) -> Buffers {
        Buffers {
            classes: Guarded::new(case.classes_len, || asked.number() as u8),
            before: Guarded::new(case.before_len, || asked.number() as i32),
            after: Guarded::new(case.after_len, || asked.number() as i32),
            verdicts: Guarded::new(case.room, || noise(asked)),
        }
    }

    /// What has to stand in them after an accepted line.
    fn filled(self, answer: &Justified) -> Buffers {
        Buffers {
            classes: self.classes.filled(answer.classes.iter().copied()),
            before: self.before.filled(answer.before.iter().map(|&units| units as i32)),
            after: self.after.filled(answer.after.iter().map(|&units| units as i32)),
            verdicts: self.verdicts.filled(answer.verdicts.iter().map(verdict)),
        }
    }

    fn lend(&mut self) -> Lent<'_> {
        Lent {
            classes: self.classes.room(),
            before: self.before.room(),
            after: self.after.room(),
            verdicts: self.verdicts.room(),
        }
    }

    fn compare(&self, wanted: &Buffers) -> Outcome {
        self.classes.compare("classes", &wanted.classes)?;
        self.before.compare("movements before", &wanted.before)?;
        self.after.compare("movements after", &wanted.after)?;
        self.verdicts.compare("verdicts", &wanted.verdicts)
    }
}

/// The table that a case is set with.
pub fn table(case: &LineCase) -> Table<'_> {
    Table { bytes: &case.table, glyph_count: case.n }
}

/// The three buffers that the call reads, as the library takes them.
#[derive(Clone)]
pub struct Inputs {
    sizes: Guarded<u32>,
    glyphs: Guarded<u16>,
    advances: Guarded<i32>,
}

impl Inputs {
    pub fn new(case: &LineCase, asked: &mut Questions) -> Inputs {
        let sizes = case.sizes.iter().map(|&size| size as u32).collect();
        let advances = case.advances.iter().map(|&advance| advance as i32).collect();
        Inputs {
            sizes: Guarded::holding(sizes, || asked.number() as u32),
            glyphs: Guarded::holding(case.glyphs.clone(), || asked.number() as u16),
            advances: Guarded::holding(advances, || asked.number() as i32),
        }
    }

    /// The line of the case that they are of.
    pub fn line(&self, case: &LineCase) -> Line<'_> {
        Line {
            direction: library::number(case.direction),
            starts: case.starts,
            ends: case.ends,
            edition: case.edition,
            sizes: self.sizes.held(),
            glyphs: self.glyphs.held(),
            advances: self.advances.held(),
            target: case.target as i32,
        }
    }

    fn compare(&self, wanted: &Inputs) -> Outcome {
        self.sizes.compare("sizes", &wanted.sizes)?;
        self.glyphs.compare("glyphs", &wanted.glyphs)?;
        self.advances.compare("advances", &wanted.advances)
    }
}

/// The direction's number; for vertical any number but 0.
fn direction(case: &LineCase, asked: &mut Questions) -> u32 {
    match case.direction {
        Direction::Horizontal => 0,
        Direction::Vertical => [1, 1, 2, u32::MAX][asked.below(4) as usize],
    }
}

fn said(answer: &Justified) -> Said {
    Said { remainder: answer.remainder as i32, entries: answer.entries as u32, verdicts: answer.verdicts.len() as u32 }
}

/// Compares the call on one line, the library's and the peer's, with what the second program answers.
pub fn compare(case: &LineCase, second: &Result<Justified, Fault>, asked: &mut Questions) -> Outcome {
    compare_call(|table, line, lent| table.justify(line, lent), case, second, asked)?;
    peer::in_place(compare_call(peer::justify, case, second, asked))
}

/// What justifies a line.
type Call = fn(Table, &Line, Lent) -> Answer<Said>;

fn compare_call(call: Call, case: &LineCase, second: &Result<Justified, Fault>, asked: &mut Questions) -> Outcome {
    let mut lent = Buffers::new(case, asked);
    let wanted = match second {
        Ok(answer) => lent.clone().filled(answer),
        Err(_) => lent.clone(),
    };
    let inputs = Inputs::new(case, asked);
    let untouched = inputs.clone();
    let line = Line { direction: direction(case, asked), ..inputs.line(case) };
    let answer = call(table(case), &line, lent.lend());
    same("justify", refused::said(answer), second.as_ref().map(said).map_err(|&fault| Refused::fault(fault)))?;
    inputs.compare(&untouched)?;
    lent.compare(&wanted)
}

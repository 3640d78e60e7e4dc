//! A glyph's edges under a narrower and a wider target (document 02, request 1/14): none may lie further back under the wider, in either
//! edition (request 7/14).

use crate::questions::Questions;
use crate::refused::said;
use crate::tally::Tally;
use crate::{lines, lines::Inputs, Outcome};
use just_raw::{Lent, Line, Verdict};
use reference::generate::LineCase;
use reference::line::MOST_WIDTH;

/// The most actions that fire for one glyph.
const MOST_ACTIONS: usize = 64;

/// On which sides of the advances' sum two targets of one line stand.
const BOTH_GROW: &str = "both targets growing";
const BOTH_SHRINK: &str = "both targets shrinking";
const ONE_OF_EACH: &str = "one target shrinking and one growing";

/// What a run has to meet: two targets of one line that are both accepted, in each edition.
pub fn marks() -> impl Iterator<Item = String> {
    let all = [BOTH_GROW, BOTH_SHRINK, ONE_OF_EACH];
    [1, 2].into_iter().flat_map(move |edition| all.map(|sides| mark(edition, sides)))
}

fn mark(edition: u32, sides: &str) -> String {
    format!("edges in edition {edition}, {sides}")
}

/// The left and right edge of each glyph, in line order.
type Edges = Vec<(i64, i64)>;

/// Targets from narrow to wide: near the advances' sum, far from it, and at each end.
fn targets(sum: i64, asked: &mut Questions) -> Vec<i64> {
    let near = asked.below(1 << 20) as i64;
    let mut all = vec![0, asked.below(sum as u64 + 1) as i64, sum - near, sum - asked.below(9) as i64, sum];
    all.extend([sum + 1 + asked.below(9) as i64, sum + near, asked.below(MOST_WIDTH as u64) as i64, MOST_WIDTH]);
    all.retain(|target| (0..=MOST_WIDTH).contains(target));
    all.sort();
    all
}

/// The edges that the library's answer shows; none where it refuses.
fn edges(case: &LineCase, inputs: &Inputs, target: i64) -> Option<Edges> {
    let count = case.glyphs.len();
    let (mut classes, mut before, mut after) = (vec![0; count], vec![0; count], vec![0; count]);
    let mut verdicts = vec![Verdict::default(); count * MOST_ACTIONS];
    let lent = Lent { classes: &mut classes, before: &mut before, after: &mut after, verdicts: &mut verdicts };
    let line = Line { target: target as i32, ..inputs.line(case) };
    said(lines::table(case).justify(&line, lent)).ok()?;
    let mut ahead = 0;
    let sides = before.iter().zip(&after).zip(line.advances);
    Some(
        sides
            .map(|((&before, &after), &advance)| {
                let left = ahead + i64::from(before);
                ahead = left + i64::from(advance) + i64::from(after);
                (left, ahead)
            })
            .collect(),
    )
}

/// Fails at a glyph whose edge under the wider target lies before its place under the narrower.
fn hold(narrow: &Edges, wide: &Edges, targets: (i64, i64)) -> Outcome {
    let back = narrow.iter().zip(wide).position(|(narrow, wide)| wide.0 < narrow.0 || wide.1 < narrow.1);
    match back {
        Some(place) => Err(format!(
            "edges of glyph {place}: {:?} under {}, {:?} under {}",
            narrow[place], targets.0, wide[place], targets.1
        )),
        None => Ok(()),
    }
}

/// Justifies one line at several targets, and holds the edges of each two neighbours against each other. What holds of
/// neighbours holds of any two.
pub fn compare(case: &LineCase, asked: &mut Questions, tally: &mut Tally) -> Outcome {
    let sum = case.advances.iter().sum();
    if case.advances.len() != case.glyphs.len() || !(0..=MOST_WIDTH).contains(&sum) {
        return Ok(());
    }
    let inputs = Inputs::new(case, asked);
    let shown: Vec<(i64, Edges)> =
        targets(sum, asked).into_iter().filter_map(|target| Some((target, edges(case, &inputs, target)?))).collect();
    for pair in shown.windows(2) {
        let [(narrow, narrow_edges), (wide, wide_edges)] = pair else { continue };
        tally.note(mark(case.edition, sides(*narrow, *wide, sum)));
        hold(narrow_edges, wide_edges, (*narrow, *wide))?;
    }
    Ok(())
}

fn sides(narrow: i64, wide: i64, sum: i64) -> &'static str {
    if narrow >= sum {
        BOTH_GROW
    } else if wide < sum {
        BOTH_SHRINK
    } else {
        ONE_OF_EACH
    }
}

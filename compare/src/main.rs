//! `compare [--seed S] [--count N] [--minutes M] [NAME ..]`: compares the proved library with the second program on drawn
//! cases; with names, only on those cases. Exit status 1 where they differ.

use compare::questions::Questions;
use compare::tally::Tally;
use compare::{crowded, edges, finds, fonts, lines, marks, pairs, samples, sheets, tables, Outcome};
use just_raw::Table;
use std::process::ExitCode;
use std::time::{Duration, Instant};

/// What a run was asked for.
struct Asked {
    seed: u64,
    count: u64,
    limit: Option<Duration>,
    names: Vec<String>,
}

fn asked() -> Result<Asked, String> {
    let mut asked = Asked { seed: 1, count: 20_000, limit: None, names: Vec::new() };
    let mut words = std::env::args().skip(1);
    while let Some(word) = words.next() {
        let mut number = || -> Result<u64, String> {
            let text = words.next().ok_or(format!("{word} wants a number"))?;
            text.parse().map_err(|_| format!("{text} is not a number"))
        };
        match word.as_str() {
            "--seed" => asked.seed = number()?,
            "--count" => asked.count = number()?,
            "--minutes" => {
                asked.limit = Some(Duration::from_secs(60 * number()?));
                asked.count = u64::MAX;
            }
            _ if word.starts_with('-') => return Err(format!("{word} is not known")),
            _ => asked.names.push(word),
        }
    }
    Ok(asked)
}

/// The kinds of cases, each with its comparison.
type Kind = (&'static str, fn(u64, u64, &mut Tally) -> Outcome);

const KINDS: [Kind; 9] = [
    ("table", table_case),
    ("find", find_case),
    ("pair", pair_case),
    ("font", font_case),
    ("sheet", sheet_case),
    ("line", line_case),
    ("edges", edges_case),
    ("sample", sample_case),
    ("crowded", crowded_case),
];

fn table_case(seed: u64, index: u64, _: &mut Tally) -> Outcome {
    let (bytes, glyph_count) = tables::draw(seed, index);
    let mut asked = Questions::new(seed, index);
    tables::compare(Table { bytes: &bytes, glyph_count }, &mut asked)?;
    if index % 50 == 0 {
        tables::compare_counts(&bytes, &mut asked)?;
    }
    Ok(())
}

/// A table is judged for each find: every tenth case is one.
fn find_case(seed: u64, index: u64, tally: &mut Tally) -> Outcome {
    if index % 10 != 0 {
        return Ok(());
    }
    let (bytes, glyph_count) = finds::draw(seed, index);
    finds::compare(Table { bytes: &bytes, glyph_count }, &mut Questions::new(seed, index), tally)
}

/// The differences are listed eight times: every third case is one.
fn pair_case(seed: u64, index: u64, tally: &mut Tally) -> Outcome {
    if index % 3 != 0 {
        return Ok(());
    }
    pairs::compare(&pairs::draw(seed, index), &mut Questions::new(seed, index), tally)
}

fn font_case(seed: u64, index: u64, tally: &mut Tally) -> Outcome {
    fonts::compare(&fonts::draw(seed, index), tally)
}

fn sheet_case(seed: u64, index: u64, _: &mut Tally) -> Outcome {
    let bytes = sheets::draw(seed, index);
    sheets::compare(&bytes, &mut Questions::new(seed, index))?;
    if bytes.len() <= 200 && index % 40 == 0 {
        sheets::compare_changes(&bytes)?;
    }
    Ok(())
}

fn line_case(seed: u64, index: u64, tally: &mut Tally) -> Outcome {
    let case = lines::draw(seed, index);
    let second = case.justify();
    marks::note(&case, &second, tally);
    lines::compare(&case, &second, &mut Questions::new(seed, index))
}

/// A line is justified nine times: every fourth case is one.
fn edges_case(seed: u64, index: u64, tally: &mut Tally) -> Outcome {
    if index % 4 != 3 {
        return Ok(());
    }
    edges::compare(&lines::draw(seed, index), &mut Questions::new(seed, index), tally)
}

/// These are long: every fortieth case is one.
fn crowded_case(seed: u64, index: u64, _: &mut Tally) -> Outcome {
    if index % 40 != 0 {
        return Ok(());
    }
    let mut asked = Questions::new(seed, index);
    let (bytes, glyph_count) = crowded::draw(&mut asked);
    tables::compare(Table { bytes: &bytes, glyph_count }, &mut asked)
}

/// There are few samples; a case past them is none.
fn sample_case(seed: u64, index: u64, _: &mut Tally) -> Outcome {
    match samples::ALL.get(index as usize) {
        Some(sample) => samples::compare(sample, &mut Questions::new(seed, index)),
        None => Ok(()),
    }
}

/// One case by its name, `KIND-SEED-INDEX`.
fn replay(name: &str) -> Outcome {
    let parts: Vec<&str> = name.split('-').collect();
    let [kind, seed, index] = parts[..] else {
        return Err(format!("{name} is no case's name"));
    };
    let (_, case) = KINDS.iter().find(|(known, _)| *known == kind).ok_or(format!("{kind} is no kind of case"))?;
    let number = |text: &str| text.parse::<u64>().map_err(|_| format!("{text} is not a number"));
    case(number(seed)?, number(index)?, &mut Tally::default())
}

/// Saves a case in which the two differ, and says so.
fn report(name: &str, difference: &str) {
    let folder = concat!(env!("CARGO_MANIFEST_DIR"), "/differences");
    let _ = std::fs::create_dir_all(folder);
    let _ = std::fs::write(format!("{folder}/{name}"), format!("{difference}\n"));
    println!("{name}: {difference}");
}

fn main() -> ExitCode {
    let asked = match asked() {
        Ok(asked) => asked,
        Err(wrong) => {
            eprintln!("compare: {wrong}");
            return ExitCode::from(2);
        }
    };
    let mut differences = 0;
    for name in &asked.names {
        match replay(name) {
            Ok(()) => println!("{name}: the same"),
            Err(difference) => {
                println!("{name}: {difference}");
                differences += 1;
            }
        }
    }
    if asked.names.is_empty() {
        differences = run(&asked);
    }
    if differences == 0 {
        ExitCode::SUCCESS
    } else {
        ExitCode::FAILURE
    }
}

/// All kinds in turn, case by case, until the count or the time is used up.
fn run(asked: &Asked) -> u32 {
    let began = Instant::now();
    let mut tally = Tally::default();
    let mut differences = 0;
    let mut index = 0;
    while index < asked.count && asked.limit.is_none_or(|limit| began.elapsed() < limit) {
        for (kind, case) in KINDS {
            if let Err(difference) = case(asked.seed, index, &mut tally) {
                report(&format!("{kind}-{}-{index}", asked.seed), &difference);
                differences += 1;
            }
        }
        index += 1;
    }
    println!("compare: {index} cases of {} kinds, {differences} differences", KINDS.len());
    differences + missed(index, &tally)
}

/// Says how often lines were refused, and what a long run met too rarely; gives how many those are.
fn missed(lines: u64, tally: &Tally) -> u32 {
    let refused: Vec<u64> = marks::REFUSALS.iter().map(|number| tally.count(&format!("refusal {number}"))).collect();
    println!("compare: lines accepted {}, refused 9, 10, 18, 11 to 16: {refused:?}", tally.count("accepted"));
    if lines < marks::LONG_RUN {
        return 0;
    }
    let short = tally.short(&marks::wanted());
    short.iter().for_each(|mark| println!("compare: too rare: {mark}"));
    short.len() as u32
}

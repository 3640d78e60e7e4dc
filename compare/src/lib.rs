//! Holds the proved library against the second program, and the peer, a program in C, in its place.
//!
//! A case is a name, `KIND-SEED-INDEX`, from which its input is drawn again; a case in which the two differ is saved as a
//! file of that name.

pub mod caps;
pub mod cases;
pub mod clock;
pub mod crowded;
pub mod drafts;
pub mod edges;
pub mod finds;
pub mod fonts;
pub mod guarded;
pub mod hostile;
pub mod letters;
pub mod library;
pub mod lines;
pub mod marks;
pub mod ordinary;
pub mod pairs;
pub mod parts;
pub mod peer;
pub mod questions;
pub mod refused;
pub mod samples;
pub mod sheets;
pub mod tables;
pub mod tally;
pub mod written;

/// What a comparison finds: nothing, or in which way the two differ.
pub type Outcome = Result<(), String>;

/// Fails with a description where two answers differ.
pub fn same<T: PartialEq + std::fmt::Debug>(what: &str, library: T, second: T) -> Outcome {
    if library == second {
        Ok(())
    } else {
        Err(format!("{what}: the library says {library:?}, the second program {second:?}"))
    }
}

//! The layer follows the header.

fn header() -> String {
    std::fs::read_to_string(concat!(env!("CARGO_MANIFEST_DIR"), "/../include/just.h")).expect("the header")
}

#[test]
fn the_version_is_the_headers() {
    assert!(header().contains(&format!("#define JUST_VERSION {}\n", just_raw::VERSION)));
}

/// As `just_raw::Answer` has it. examples/boundary.c and rust/raw hold the sizes.
#[test]
fn every_answer_begins_with_refusal_and_offset() {
    let header = header();
    let bodies = header.split("\nstruct ").skip(1).filter_map(|text| text.split_once(" {\n"));
    let answers: Vec<(&str, &str)> =
        bodies.filter(|(name, _)| name.ends_with("_answer") || *name == "just_checked").collect();
    assert_eq!(answers.len(), 12);
    for (name, body) in answers {
        assert!(body.starts_with("    uint32_t refusal;\n    uint64_t offset;\n"), "{name}");
    }
}

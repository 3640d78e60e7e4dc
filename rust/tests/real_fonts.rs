//! Four real fonts, where Debian's package fonts-ukij-uyghur is installed: see examples/real-fonts. Where it is not, or has other
//! files, each test says so and ends.

use just::{Advances, Font, Meaning, Table};
use std::path::{Path, PathBuf};
use std::process::Command;

const FONTS: &str = "/usr/share/fonts/truetype/fonts-ukij-uyghur";

/// A font's file, how many bytes that has, where its 'just' table begins and ends, and its glyph count.
struct Known {
    name: &'static str,
    length: usize,
    table: (usize, usize),
    glyphs: u32,
}

const BASMA: Known = Known { name: "UKIJ_MacBasma.ttf", length: 240_984, table: (221_532, 225_216), glyphs: 1_200 };
const BASMA_BOLD: Known =
    Known { name: "UKIJ_MacBasmaBold.ttf", length: 238_524, table: (219_072, 222_756), glyphs: 1_200 };
const EKRAN: Known = Known { name: "UKIJ_MacEkran.ttf", length: 102_768, table: (83_316, 87_000), glyphs: 935 };
const EKRAN_BOLD: Known =
    Known { name: "UKIJ_MacEkranBold.ttf", length: 103_736, table: (84_788, 88_448), glyphs: 989 };

impl Known {
    fn path(&self) -> String {
        format!("{FONTS}/{}", self.name)
    }

    fn bytes(&self) -> Option<Vec<u8>> {
        let bytes = std::fs::read(self.path()).ok().filter(|bytes| bytes.len() == self.length);
        if bytes.is_none() {
            eprintln!("skipped: {} is not there, or is another file", self.path());
        }
        bytes
    }
}

/// The bytes of the fonts, if they are all there.
fn fonts<const N: usize>(known: [&Known; N]) -> Option<[Vec<u8>; N]> {
    let bytes: Option<Vec<Vec<u8>>> = known.into_iter().map(Known::bytes).collect();
    bytes?.try_into().ok()
}

/// What the command says, and its exit status.
fn says(words: &[&str]) -> (String, i32) {
    let output = Command::new(env!("CARGO_BIN_EXE_just-sheet")).args(words).output().expect("the command runs");
    let said = [output.stdout, output.stderr].concat();
    (String::from_utf8(said).expect("text"), output.status.code().expect("a status"))
}

#[test]
fn all_four_are_opened() {
    let all = [&BASMA, &BASMA_BOLD, &EKRAN, &EKRAN_BOLD];
    let Some(fonts) = fonts(all) else { return };
    for (known, bytes) in all.into_iter().zip(&fonts) {
        let font = Font::open(bytes).expect(known.name);
        let (from, to) = known.table;
        assert_eq!((font.table_offset(), font.table().bytes()), (from, &bytes[from..to]));
        assert_eq!(font.table().glyph_count(), known.glyphs);
        let text = says(&["--text", &known.path()]).0;
        assert!(
            text.starts_with(&format!("glyphs: {}\nhorizontal\n  width lookup: units 202", known.glyphs)),
            "{text}"
        );
    }
    // Three have one table, byte for byte; a sheet also has the glyph count, so that of Ekran differs.
    let [basma, bold, ekran, _] = [0, 1, 2, 3].map(|font| Font::open(&fonts[font]).expect("a font").table());
    assert_eq!((basma.bytes(), basma.bytes()), (bold.bytes(), ekran.bytes()));
    assert_eq!(basma.write_sheet(), bold.write_sheet());
    assert_ne!(basma.write_sheet(), ekran.write_sheet());
}

#[test]
fn fonts_with_one_count_are_compared() {
    let Some(_) = fonts([&BASMA, &BASMA_BOLD, &EKRAN, &EKRAN_BOLD]) else { return };
    assert_eq!(says(&["--same", &BASMA.path(), &BASMA_BOLD.path()]), ("the same\n".into(), 0));
    let (said, status) = says(&["--same", &EKRAN.path(), &EKRAN_BOLD.path()]);
    assert!(said.ends_with("UKIJ_MacEkranBold.ttf has 989: they cannot be compared\n"), "{said}");
    assert_eq!(status, 2);
}

/// The tables of Ekran and its bold, in files of a test's own.
fn tables(test: &str) -> [String; 2] {
    [&EKRAN, &EKRAN_BOLD].map(|known| {
        let file: PathBuf = Path::new(env!("CARGO_TARGET_TMPDIR")).join(format!("{test}-{}.just", known.name));
        let file = file.to_str().expect("a path").to_string();
        let bytes = known.bytes().expect("a font");
        std::fs::write(&file, Font::open(&bytes).expect("a font").table().bytes()).expect("a file");
        file
    })
}

#[test]
fn tables_are_compared_with_one_count() {
    let Some(_) = fonts([&EKRAN, &EKRAN_BOLD]) else { return };
    let [a, b] = tables("same");
    assert_eq!(says(&["--same", &a, &b, "989"]), ("not the same\n".into(), 1));
}

/// What `--diff` says in its last line where nothing differs.
const NOTHING: &str = "differences: 0 (sizes 0, class 0, cell 0, record 0, actions 0)\n";

/// The same machine over other glyphs: the tatweel is glyph 44 of the one and 71 of the other.
#[test]
fn what_changed() {
    let Some(_) = fonts([&BASMA, &BASMA_BOLD, &EKRAN, &EKRAN_BOLD]) else { return };
    assert_eq!(says(&["--diff", &BASMA.path(), &BASMA_BOLD.path()]), (NOTHING.into(), 0));
    let [a, b] = tables("diff");
    let (said, status) = says(&["--diff", &a, &b, "989"]);
    assert_eq!(status, 1);
    assert!(
        said.starts_with("horizontal class glyph 44 changed: 18 -> 1\nhorizontal class glyph 71 changed: 1 -> 18\n")
    );
    assert!(said.ends_with("\ndifferences: 1941 (sizes 0, class 699, cell 0, record 724, actions 518)\n"));
    assert_eq!(says(&["--diff", &a, &a, "935"]), (NOTHING.into(), 0));
}

/// The glyph that its letters add. That of Ekran is its kashida; the two with 1,200 glyphs have the same table, and there the
/// glyph of that number is another (by their 'cmap', U+00E0).
#[test]
fn the_glyph_that_is_added() {
    let all = [&BASMA, &BASMA_BOLD, &EKRAN, &EKRAN_BOLD];
    let Some(_) = fonts(all) else { return };
    for (known, added) in all.into_iter().zip([152, 152, 152, 165]) {
        let text = says(&["--text", &known.path()]).0;
        for class in [0, 1] {
            assert!(text.contains(&format!("    class {class}: add glyph {added} repeatedly\n")), "{}", known.name);
        }
    }
}

#[test]
fn the_picture_is_that_of_the_readme() {
    let Some([bytes]) = fonts([&EKRAN]) else { return };
    // The space is 690 of 2,212 units per em wide: 690 x 24 x 65,536 / 2,212 is 490,631.2.
    assert_eq!(Advances::of(&bytes).expect("advances").at_size(3, 24 << 16), 490_631);
    let line = "363 677 561 44 361 3 337 360 250 241 242";
    let (svg, status) = says(&["--picture", "--rtl", &EKRAN.path(), line, "170", "24"]);
    assert_eq!(status, 0);
    assert!(svg == include_str!("../../docs/line.svg"), "docs/line.svg is another picture");
}

#[test]
fn a_byte_changed_is_a_wrong_checksum() {
    let Some([bytes]) = fonts([&EKRAN]) else { return };
    let (from, to) = EKRAN.table;
    for at in [from, to - 1] {
        let mut changed = bytes.clone();
        changed[at] ^= 1;
        assert_eq!(Font::open(&changed).expect_err("a refusal").number(), 23);
    }
    assert_eq!(Font::open(&bytes[..to - 1]).expect_err("a refusal").number(), 21);
    assert!(Table::new(&bytes[from..to], EKRAN.glyphs).is_ok());
}

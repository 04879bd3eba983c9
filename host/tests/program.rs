//! The program as it is called: its job card, its files, its refusals and their status.
mod folder;

use folder::Folder;
use std::fs;
use std::path::{Path, PathBuf};
use std::process::{Command, Output};

/// The program, called in a folder of its own.
struct Program {
    folder: Folder,
}

impl Program {
    fn new(name: &str) -> Program {
        Program { folder: Folder::new(&format!("program-{name}")) }
    }

    fn path(&self, name: &str) -> PathBuf {
        self.folder.0.join(name)
    }

    fn names(&self) -> Vec<String> {
        self.folder.names()
    }

    fn run(&self, words: &[&str]) -> Output {
        Command::new(env!("CARGO_BIN_EXE_hoardmagpie")).args(words).current_dir(&self.folder.0).output().unwrap()
    }

    /// Runs the program, which must fail with this status, one line and no output; the line without the program's name.
    fn fails(&self, status: i32, words: &[&str]) -> String {
        let before = self.names();
        let output = self.run(words);
        assert_eq!(output.status.code(), Some(status), "{output:?}");
        assert!(output.stdout.is_empty(), "{output:?}");
        assert_eq!(self.names(), before, "something was left behind");
        let line = String::from_utf8(output.stderr).unwrap();
        assert_eq!(line.matches('\n').count(), 1, "{line}");
        line.trim_end().strip_prefix("hoardmagpie: ").expect("the program's name").to_string()
    }
}

/// 26 points of a ball, and one that cannot be used.
fn ball() -> String {
    let mut text = String::from("nan 0 0 0 0 1\n");
    for i in 0..27 {
        let d = [i / 9 - 1, i / 3 % 3 - 1, i % 3 - 1].map(f64::from);
        let length = (d[0] * d[0] + d[1] * d[1] + d[2] * d[2]).sqrt();
        if length > 0.0 {
            let n = d.map(|c| c / length);
            text += &format!("{} {} {} {} {} {}\n", 10.0 * n[0], 10.0 * n[1], 10.0 * n[2], n[0], n[1], n[2]);
        }
    }
    text
}

fn card_value(card: &str, name: &str) -> String {
    let line = card.lines().find(|l| l.split_whitespace().next() == Some(name)).expect(name);
    line[name.len()..].trim().to_string()
}

/// The number that a line of the card begins with.
fn card_number(card: &str, name: &str) -> f64 {
    card_value(card, name).split(' ').next().unwrap().parse().expect(card)
}

fn lines_of(path: &Path, start: &str) -> usize {
    fs::read_to_string(path).unwrap().lines().filter(|l| l.starts_with(start)).count()
}

#[test]
fn closes_a_scan_and_prints_the_job_card() {
    let program = Program::new("closes");
    fs::write(program.path("ball.txt"), ball()).unwrap();
    let output = program.run(&["close", "ball.txt", "-o", "ball.obj", "--depth", "4"]);
    assert!(output.status.success() && output.stderr.is_empty(), "{output:?}");
    let card = String::from_utf8(output.stdout).unwrap();
    assert_eq!(card_value(&card, "points"), "27 given, 26 used");
    assert_eq!(card_value(&card, "depth"), "4");
    assert_eq!(card_value(&card, "vertices"), lines_of(&program.path("ball.obj"), "v ").to_string());
    assert_eq!(card_value(&card, "faces"), lines_of(&program.path("ball.obj"), "f ").to_string());
    assert_eq!(card_value(&card, "closed"), "yes");
    assert!(card_value(&card, "volume").ends_with(" cubic units (computed by the host, not proved)"), "{card}");
    assert!(!card.contains("mass") && !card.contains("picture"), "{card}");
    for name in ["level", "box", "time"] {
        assert!(!card_value(&card, name).is_empty());
    }
    assert_eq!(program.names(), ["ball.obj", "ball.txt"]);
}

#[test]
fn closes_the_example() {
    let program = Program::new("example");
    let scan = concat!(env!("CARGO_MANIFEST_DIR"), "/../examples/ring.ply");
    let output = program.run(&["close", scan, "-o", "ring.ply", "--depth", "5", "--density", "7.1e-6"]);
    let card = String::from_utf8(output.stdout).unwrap();
    assert!(output.status.success(), "{card}");
    assert_eq!(card_value(&card, "points"), "4000 given, 4000 used");
    assert_eq!(card_value(&card, "closed"), "yes");
    // Two thirds of a ring of radius 100 and tube 35, which the cuts may round off.
    let (volume, mass) = (card_number(&card, "volume"), card_number(&card, "mass"));
    assert!((volume / 1_612_035.0 - 1.0).abs() < 0.05, "{card}");
    assert!((mass / (volume * 7.1e-6) - 1.0).abs() < 1e-6, "{card}");
    assert!(
        card_value(&card, "mass").ends_with(" at 0.0000071 a cubic unit (computed by the host, not proved)"),
        "{card}"
    );
}

#[test]
fn a_trimmed_mesh_is_told_open() {
    let program = Program::new("trimmed");
    fs::write(program.path("ball.txt"), ball()).unwrap();
    let words = ["close", "ball.txt", "-o", "ball.ply", "--depth", "4", "--trim", "2", "--density", "7.1"];
    let card = String::from_utf8(program.run(&words).stdout).unwrap();
    let closed = card_value(&card, "closed");
    assert!(closed.starts_with("no, ") && closed.ends_with(" open edges"), "{closed}");
    for name in ["volume", "mass"] {
        assert_eq!(card_value(&card, name), "left out: the mesh is not closed");
    }
}

#[test]
fn a_picture_is_drawn() {
    let program = Program::new("picture");
    fs::write(program.path("ball.txt"), ball()).unwrap();
    let words = ["close", "ball.txt", "-o", "ball.ply", "--depth", "4", "--picture", "ball.PNG"];
    let output = program.run(&words);
    assert!(output.status.success() && output.stderr.is_empty(), "{output:?}");
    assert_eq!(card_value(&String::from_utf8(output.stdout).unwrap(), "picture"), "ball.PNG");
    assert_eq!(program.names(), ["ball.PNG", "ball.ply", "ball.txt"]);
    let picture = fs::read(program.path("ball.PNG")).unwrap();
    assert_eq!(picture[..8], *b"\x89PNG\r\n\x1a\n");
    let side = |at: usize| u32::from_be_bytes(picture[at..at + 4].try_into().unwrap());
    assert_eq!((side(16), side(20)), (1280, 440));
    assert!((4_000..200_000).contains(&picture.len()), "{} bytes", picture.len());
}

/// The mesh is not lost with the picture.
#[test]
fn a_picture_that_cannot_be_written_leaves_the_mesh() {
    let program = Program::new("unpainted");
    fs::write(program.path("ball.txt"), ball()).unwrap();
    fs::write(program.path("scan.png"), ball()).unwrap();
    let close = |scan: &str, picture: &str| {
        program.fails(1, &["close", scan, "-o", "m.ply", "--depth", "3", "--picture", picture])
    };
    assert_eq!(close("scan.png", "./scan.png"), "scan.png: the picture would replace the scan");
    fs::write(program.path("m.ply"), "an older mesh").unwrap();
    let line = close("ball.txt", "none/p.png");
    assert!(line.starts_with("none/p.png: ") && line.ends_with("; the mesh is written"), "{line}");
    assert!(fs::read(program.path("m.ply")).unwrap().starts_with(b"ply\n"));
}

#[test]
fn every_setting_reaches_the_library() {
    let program = Program::new("settings");
    fs::write(program.path("ball.txt"), ball()).unwrap();
    let refused = |option: &str, value: &str, number: u32| {
        let words = ["close", "ball.txt", "-o", "m.ply", "--depth", "3", option, value];
        let line = program.fails(1, &words);
        assert!(line.starts_with(&format!("ball.txt: refused {number}: ")), "{line}");
    };
    refused("--depth", "9", 2);
    refused("--smoothing", "-1", 3);
    refused("--offset", "nan", 6);
    refused("--trim", "nan", 6);
    refused("--iterations", "0", 6);
    refused("--tolerance", "inf", 6);
}

#[test]
fn bad_scans_get_one_line() {
    let program = Program::new("bad");
    fs::write(program.path("few.txt"), "0 0 0 0 0 1\n").unwrap();
    fs::write(program.path("cut.ply"), "ply\nformat ascii 1.0\n").unwrap();
    fs::write(program.path("empty.txt"), "").unwrap();
    let close = |scan: &str| program.fails(1, &["close", scan, "-o", "m.ply", "--depth", "3"]);
    assert!(close("few.txt").starts_with("few.txt: refused 4: fewer than ten points can be used"));
    assert_eq!(close("cut.ply"), "cut.ply: the file ends inside its header");
    assert_eq!(close("empty.txt"), "empty.txt: refused 1: the scan holds no points");
    assert!(close("none.ply").starts_with("none.ply: No such file"));
    assert!(close("two\nlines.ply").starts_with("two?lines.ply: No such file"));
    assert!(close(".").starts_with(".: Is a directory"));
}

#[test]
fn a_mesh_that_cannot_be_written_leaves_nothing() {
    let program = Program::new("unwritten");
    fs::write(program.path("ball.txt"), ball()).unwrap();
    fs::write(program.path("scan.obj"), "x").unwrap();
    fs::create_dir(program.path("folder.ply")).unwrap();
    let close = |scan: &str, mesh: &str| program.fails(1, &["close", scan, "-o", mesh, "--depth", "3"]);
    assert!(close("ball.txt", "folder.ply").starts_with("folder.ply: "));
    assert!(close("ball.txt", "none/m.ply").starts_with("none/m.ply: "));
    assert_eq!(close("scan.obj", "./scan.obj"), "scan.obj: the mesh would replace the scan");
}

#[test]
fn wrong_words_get_one_line() {
    let program = Program::new("words");
    let usage = |words: &[&str], wanted: &str| {
        assert_eq!(program.fails(2, words), format!("{wanted}; hoardmagpie --help lists the options"));
    };
    usage(&[], "nothing to do");
    usage(&["open"], "`open` is no command");
    usage(&["close"], "no scan is named");
    usage(&["close", "a.ply"], "no mesh is named: -o MESH");
    usage(&["close", "a.ply", "-o"], "-o needs a value");
    usage(&["close", "a.ply", "-o", "b.stl"], "b.stl ends in neither .ply nor .obj");
    usage(&["close", "a.ply", "b.ply", "-o", "c.ply"], "one scan at a time, and `b.ply` is a second");
    usage(&["close", "a.ply", "-o", "c.ply", "--depth", "seven"], "--depth cannot be `seven`");
    usage(&["close", "a.ply", "-o", "c.ply", "--colour", "red"], "there is no option --colour");
    usage(&["close", "a.ply", "-o", "c.ply", "--picture", "c.jpg"], "c.jpg does not end in .png");
    usage(&["close", "a.ply", "-o", "c.ply", "--density", "iron"], "--density cannot be `iron`");
    for density in ["0", "-7.1", "NaN", "inf"] {
        let line = format!("--density cannot be `{density}`: it is a finite number above zero");
        usage(&["close", "a.ply", "-o", "c.ply", "--density", density], &line);
    }
}

#[test]
fn help_shows_the_librarys_own_defaults() {
    let output = Program::new("help").run(&["--help"]);
    let text = String::from_utf8(output.stdout).unwrap();
    let d = hoardmagpie::Settings::default();
    assert!(output.status.success());
    assert!(text.contains(&format!("3 to 8 (default {})", d.depth)), "{text}");
    assert!(["--density X", "--picture FILE", "not proved"].iter().all(|words| text.contains(words)), "{text}");
}

//! The words of the command: what they ask for, and what is wrong with them.
use crate::card::trimming_words;
use crate::Failure;
use hoardmagpie::mesh_file::Format;
use hoardmagpie::{Settings, Trimming};
use std::ffi::OsString;
use std::path::{Path, PathBuf};
use std::str::FromStr;

/// What was asked for.
pub struct Job {
    pub scan: PathBuf,
    pub mesh: PathBuf,
    pub format: Format,
    pub settings: Settings,
    /// The mass of a cube whose side is the scan's unit of length.
    pub density: Option<f64>,
    pub picture: Option<PathBuf>,
}

/// The words of the command are wrong.
pub fn usage<T>(line: impl Into<String>) -> Result<T, Failure> {
    Err(Failure { line: format!("{}; hoardmagpie --help lists the options", line.into()), status: 2 })
}

pub fn help() -> String {
    let d = Settings::default();
    let trimming = trimming_words(d.trimming);
    format!(
        "hoardmagpie close SCAN -o MESH [OPTION VALUE]...

Closes a scan into a solid and prints a job card.
SCAN is PLY with x y z nx ny nz, or text with six numbers a line; MESH ends in .ply or .obj.

  --depth N        grid of 2^N nodes per side, 3 to 8 (default {})
  --smoothing X    how far a normal is spread, in point spacings (default {})
  --offset X       added to the level; above zero shrinks the solid (default {})
  --trim X         drop faces farther than X from every point (default {trimming})
  --iterations N   most steps of the solver on each level (default {})
  --tolerance X    what may be left of the right side (default {})

  --density X      mass of one cubic unit of the scan; the card then tells the solid's mass.
                   A scan in millimetres, iron of 7.1 kg/dm3: 7.1e-6 gives kilograms
  --picture FILE   draw scan and mesh side by side; FILE ends in .png

The card's volume is in cubic units of the scan. Volume and mass are computed by this program in
double precision and are not proved; they are left out when the mesh is not closed.
",
        d.depth, d.smoothing, d.iso_offset, d.iterations, d.tolerance
    )
}

/// Reads the words after `close`.
pub fn read_job(words: &[OsString]) -> Result<Job, Failure> {
    let (mut scan, mut mesh, mut settings) = (None::<PathBuf>, None::<PathBuf>, Settings::default());
    let (mut density, mut picture) = (None, None);
    let mut words = words.iter();
    while let Some(word) = words.next() {
        let name = word.to_string_lossy();
        match name.as_ref() {
            "-o" => mesh = Some(word_after("-o", &mut words)?.into()),
            "--depth" => settings.depth = number_after(&name, &mut words)?,
            "--smoothing" => settings.smoothing = number_after(&name, &mut words)?,
            "--offset" => settings.iso_offset = number_after(&name, &mut words)?,
            "--trim" => settings.trimming = Trimming::Within(number_after(&name, &mut words)?),
            "--iterations" => settings.iterations = number_after(&name, &mut words)?,
            "--tolerance" => settings.tolerance = number_after(&name, &mut words)?,
            "--density" => density = Some(density_of(number_after(&name, &mut words)?)?),
            "--picture" => picture = Some(picture_file(word_after(&name, &mut words)?.into())?),
            _ if name.starts_with('-') => return usage(format!("there is no option {name}")),
            _ if scan.is_some() => return usage(format!("one scan at a time, and `{name}` is a second")),
            _ => scan = Some(word.into()),
        }
    }
    let Some(scan) = scan else { return usage("no scan is named") };
    let Some(mesh) = mesh else { return usage("no mesh is named: -o MESH") };
    let Some(format) = Format::of(&mesh) else {
        return usage(format!("{} ends in neither .ply nor .obj", mesh.display()));
    };
    Ok(Job { scan, mesh, format, settings, density, picture })
}

fn word_after<'a>(option: &str, words: &mut impl Iterator<Item = &'a OsString>) -> Result<&'a OsString, Failure> {
    words.next().map_or_else(|| usage(format!("{option} needs a value")), Ok)
}

fn number_after<'a, T: FromStr>(option: &str, words: &mut impl Iterator<Item = &'a OsString>) -> Result<T, Failure> {
    let word = word_after(option, words)?.to_string_lossy();
    word.parse().or_else(|_| usage(format!("{option} cannot be `{word}`")))
}

fn density_of(number: f64) -> Result<f64, Failure> {
    if number > 0.0 && number.is_finite() {
        return Ok(number);
    }
    usage(format!("--density cannot be `{number}`: it is a finite number above zero"))
}

fn picture_file(path: PathBuf) -> Result<PathBuf, Failure> {
    if is_png(&path) {
        return Ok(path);
    }
    usage(format!("{} does not end in .png", path.display()))
}

fn is_png(path: &Path) -> bool {
    path.extension().is_some_and(|ending| ending.eq_ignore_ascii_case("png"))
}

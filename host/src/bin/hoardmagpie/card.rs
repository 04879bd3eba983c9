//! The job card.
use crate::words::Job;
use hoardmagpie::{open_edges, volume, Mesh, NoVolume, Trimming};
use std::fmt::Write;
use std::time::Duration;

/// What was asked for, and what came of it: a name and a value a line.
pub fn card(job: &Job, given: usize, mesh: &Mesh, time: Duration) -> String {
    let s = &job.settings;
    let mut text = String::new();
    let mut line = |name: &str, value: String| writeln!(text, "{name:<10}{value}").expect("a string takes every line");
    line("scan", job.scan.display().to_string());
    line("points", format!("{given} given, {} used", mesh.usable));
    line("depth", s.depth.to_string());
    line("smoothing", s.smoothing.to_string());
    line("offset", s.iso_offset.to_string());
    line("trimming", trimming_words(s.trimming));
    line("solver", format!("at most {} steps, tolerance {}", s.iterations, s.tolerance));
    line("vertices", mesh.vertices.len().to_string());
    line("faces", mesh.faces.len().to_string());
    line("level", mesh.level.to_string());
    line("closed", closed_words(open_edges(&mesh.faces)));
    line("box", format!("{} to {}", corner(mesh.low), corner(mesh.high)));
    let volume = volume(mesh);
    line("volume", volume_words(volume));
    if let Some(density) = job.density {
        line("mass", mass_words(volume, density));
    }
    line("time", format!("{:.2} s", time.as_secs_f64()));
    line("mesh", job.mesh.display().to_string());
    if let Some(picture) = &job.picture {
        line("picture", picture.display().to_string());
    }
    text
}

pub fn trimming_words(trimming: Trimming) -> String {
    match trimming {
        Trimming::Off => "off".to_string(),
        Trimming::Within(distance) => format!("within {distance}"),
    }
}

/// Counted on the mesh itself, over vertex numbers.
fn closed_words(open: usize) -> String {
    match open {
        0 => "yes".to_string(),
        _ => format!("no, {open} open edges"),
    }
}

fn corner(c: [f32; 3]) -> String {
    c.map(|v| v.to_string()).join(" ")
}

/// How much the solid holds. A sign below zero is told in words.
fn volume_words(volume: Result<f64, NoVolume>) -> String {
    match volume {
        Ok(v) => {
            let inward = if v < 0.0 { ", and the faces look inward" } else { "" };
            format!("{} cubic units{inward} ({UNPROVED})", seven_digits(v.abs()))
        }
        Err(why) => format!("left out: {why}"),
    }
}

fn mass_words(volume: Result<f64, NoVolume>, density: f64) -> String {
    match volume {
        Ok(v) => format!("{} at {density} a cubic unit ({UNPROVED})", seven_digits(v.abs() * density)),
        Err(why) => format!("left out: {why}"),
    }
}

const UNPROVED: &str = "computed by the host, not proved";

/// As many digits as a coordinate of the mesh has.
fn seven_digits(number: f64) -> String {
    let rounded = format!("{number:.6e}").parse::<f64>();
    rounded.expect("a number is written as a number").to_string()
}

#[cfg(test)]
mod tests {
    use super::*;

    #[test]
    fn numbers_have_seven_digits() {
        let written = [1625480.9712, 0.000012345678, 7.1, 0.0, 99999999.0, 1.5e15, f64::INFINITY].map(seven_digits);
        assert_eq!(written, ["1625481", "0.00001234568", "7.1", "0", "100000000", "1500000000000000", "inf"]);
    }

    #[test]
    fn volumes_and_masses_in_words() {
        let end = "(computed by the host, not proved)";
        assert_eq!(volume_words(Ok(2.5)), format!("2.5 cubic units {end}"));
        assert_eq!(volume_words(Ok(-0.0)), format!("0 cubic units {end}"));
        assert_eq!(volume_words(Ok(-2.5)), format!("2.5 cubic units, and the faces look inward {end}"));
        assert_eq!(mass_words(Ok(-2.5), 0.5), format!("1.25 at 0.5 a cubic unit {end}"));
        for (why, words) in [
            (NoVolume::Open, "left out: the mesh is not closed"),
            (NoVolume::NotFinite, "left out: a vertex of the mesh is not finite"),
        ] {
            assert_eq!((volume_words(Err(why)), mass_words(Err(why), 7.1)), (words.into(), words.into()));
        }
    }
}

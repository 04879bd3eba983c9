//! Sheets of the preview program: what it prints for one, by document 01, "The preview program".
use crate::{answer, Outcome, PoissonConfig, Room};
use std::fmt::Write;

/// Bytes not yet taken, most significant first.
struct Fields<'a>(&'a [u8]);

impl Fields<'_> {
    fn take(&mut self, count: usize) -> Option<u64> {
        let (head, tail) = self.0.split_at_checked(count)?;
        self.0 = tail;
        Some(head.iter().fold(0, |value, &byte| value << 8 | byte as u64))
    }
    fn f32(&mut self) -> Option<f32> {
        self.take(4).map(|bits| f32::from_bits(bits as u32))
    }
}

/// `None` for a short or overlong sheet, or a count over 256.
fn read(bytes: &[u8]) -> Option<(PoissonConfig, Vec<f32>)> {
    let mut fields = Fields(bytes);
    let head = fields.take(2)?;
    let (depth, flag, count) = (head >> 12, head >> 11 & 1, head & 2047);
    let (smoothing, iso_offset) = (fields.f32()?, fields.f32()?);
    let trim_distance = if flag == 1 { Some(fields.f32()?) } else { None };
    let max_iterations = fields.take(2)? as usize;
    let tolerance = f64::from_bits(fields.take(8)?);
    let points = (0..6 * count).map(|_| fields.f32()).collect::<Option<Vec<f32>>>()?;
    let config = PoissonConfig { depth: depth as u32, smoothing, iso_offset, trim_distance, max_iterations, tolerance };
    (count <= 256 && fields.0.is_empty()).then_some((config, points))
}

fn mesh(outcome: &Outcome) -> String {
    let mut text = format!("mesh {} {}\n", outcome.vertices.len(), outcome.faces.len());
    for v in outcome.vertices.iter().map(|v| v.map(f32::to_bits)) {
        writeln!(text, "{:08X} {:08X} {:08X}", v[0], v[1], v[2]).expect("a string takes every line");
    }
    for f in &outcome.faces {
        writeln!(text, "{} {} {}", f[0], f[1], f[2]).expect("a string takes every line");
    }
    text
}

pub fn printed(sheet: &[u8]) -> String {
    let Some((config, points)) = read(sheet) else {
        return "sheet\n".to_string();
    };
    if (4..=8).contains(&config.depth) {
        return "preview only\n".to_string();
    }
    let outcome = answer(&points, &config, &Room::ample(config.depth, points.len() / 6));
    match outcome.number {
        0 => mesh(&outcome),
        number => format!("refused {number}\n"),
    }
}

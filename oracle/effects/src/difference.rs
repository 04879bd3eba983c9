//! In what the answers of two versions differ, and counts of that.
use oracle::Outcome;
use std::fmt;

/// The first of these that holds.
#[derive(Debug, Clone, Copy, PartialEq)]
pub enum Difference {
    Nothing,
    /// Another number is answered.
    Number,
    /// Both accept, and the faces differ.
    Faces,
    /// The faces are the same, and a vertex lies elsewhere: how far at most along an axis.
    Places(f64),
    /// The same answer, from another field or level.
    Field,
}

fn same<'a>(a: impl IntoIterator<Item = &'a f32>, b: impl IntoIterator<Item = &'a f32>) -> bool {
    a.into_iter().map(|v| v.to_bits()).eq(b.into_iter().map(|v| v.to_bits()))
}

/// The farthest that a coordinate is from where it was.
fn farthest(a: &Outcome, b: &Outcome) -> f64 {
    let moved = |(p, q): (&f32, &f32)| (f64::from(*p) - f64::from(*q)).abs();
    a.vertices.as_flattened().iter().zip(b.vertices.as_flattened()).map(moved).fold(0.0, f64::max)
}

impl Difference {
    pub fn of(a: &Outcome, b: &Outcome) -> Difference {
        if a.number != b.number {
            Difference::Number
        } else if a.faces != b.faces || a.vertices.len() != b.vertices.len() {
            Difference::Faces
        } else if !same(a.vertices.as_flattened(), b.vertices.as_flattened()) {
            Difference::Places(farthest(a, b))
        } else if !same(&a.seen.field, &b.seen.field) || !same([&a.seen.level], [&b.seen.level]) {
            Difference::Field
        } else {
            Difference::Nothing
        }
    }
}

/// Counts of differences.
#[derive(Debug, Clone, Default)]
pub struct Effect {
    pub calls: u64,
    pub number: u64,
    pub faces: u64,
    pub places: u64,
    pub field: u64,
    /// Of those whose faces stayed, the farthest that a vertex moved, as a part of the points' largest extent.
    pub farthest: f64,
}

impl Effect {
    pub fn add(&mut self, difference: Difference, extent: f64) {
        self.calls += 1;
        match difference {
            Difference::Nothing => {}
            Difference::Number => self.number += 1,
            Difference::Faces => self.faces += 1,
            Difference::Places(far) => {
                self.places += 1;
                self.farthest = self.farthest.max(far / extent);
            }
            Difference::Field => self.field += 1,
        }
    }
}

impl fmt::Display for Effect {
    fn fmt(&self, f: &mut fmt::Formatter) -> fmt::Result {
        let sum = self.number + self.faces + self.places + self.field;
        write!(f, "{sum} | {} | {} | {}", self.number, self.faces, self.places)?;
        if self.places > 0 {
            write!(f, " (at most {:.0e})", self.farthest)?;
        }
        write!(f, " | {}", self.field)
    }
}

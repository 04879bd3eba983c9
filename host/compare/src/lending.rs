//! Lends slices full of rubbish to the library and compares every element with what the oracle gives.
use calls::random::Random;
use calls::Call;
use hoardmagpie::lent::{self, Answer, Scratch};
use hoardmagpie::{Settings, Trimming};
use oracle::{Outcome, PoissonConfig};

/// f32 and u32, as the 32 bits that they are.
pub trait Element: Copy {
    fn of(bits: u32) -> Self;
    fn bits(self) -> u32;
}

impl Element for u32 {
    fn of(bits: u32) -> Self {
        bits
    }
    fn bits(self) -> u32 {
        self
    }
}

impl Element for f32 {
    fn of(bits: u32) -> Self {
        f32::from_bits(bits)
    }
    fn bits(self) -> u32 {
        self.to_bits()
    }
}

/// A slice with a fence on each side, which the library must not touch.
struct Fenced<T> {
    all: Vec<T>,
}

const FENCE: usize = 8;
const POST: u32 = 0xA5A5_5A5A;

impl<T: Element> Fenced<T> {
    /// Full of rubbish: any pattern, NaN and the numbers of vertices that are not there among them.
    fn new(length: usize, r: &mut Random) -> Self {
        let mut all = vec![T::of(POST); length + 2 * FENCE];
        let mut word = r.bits() | 1;
        for e in &mut all[FENCE..FENCE + length] {
            word = word.wrapping_mul(0x5851_F42D_4C95_7F2D).wrapping_add(0x1405_7B7E_F767_814F);
            *e = T::of((word >> 32) as u32);
        }
        Fenced { all }
    }

    fn lend(&mut self) -> &mut [T] {
        let end = self.all.len() - FENCE;
        &mut self.all[FENCE..end]
    }

    /// `used`, then zeros, between whole fences.
    fn compare(&self, name: &str, used: &[T]) -> Result<(), String> {
        let end = self.all.len() - FENCE;
        for (i, e) in self.all.iter().enumerate() {
            let wanted = if i < FENCE || i >= end { POST } else { used.get(i - FENCE).map_or(0, |e| e.bits()) };
            if e.bits() != wanted {
                let place = i as isize - FENCE as isize;
                return Err(format!("{name}[{place}] is {:08X} and should be {wanted:08X}", e.bits()));
            }
        }
        Ok(())
    }
}

struct Work {
    grids: [Fenced<f32>; 7],
    edges: Fenced<u32>,
    distances: Fenced<f32>,
}

impl Work {
    fn new(call: &Call, r: &mut Random) -> Self {
        Work {
            grids: call.room.grids.map(|length| Fenced::new(length, r)),
            edges: Fenced::new(call.room.edges, r),
            distances: Fenced::new(call.room.distances, r),
        }
    }

    fn lend(&mut self) -> Scratch<'_> {
        Scratch {
            grids: self.grids.each_mut().map(Fenced::lend),
            edges: self.edges.lend(),
            distances: self.distances.lend(),
        }
    }

    fn compare(&self) -> Result<(), String> {
        for (i, grid) in self.grids.iter().enumerate() {
            grid.compare(&format!("scratch {i}"), &[])?;
        }
        self.edges.compare("edges", &[])?;
        self.distances.compare("distances", &[])
    }
}

pub fn settings(c: &PoissonConfig) -> Settings {
    Settings {
        depth: c.depth,
        smoothing: c.smoothing,
        iso_offset: c.iso_offset,
        trimming: c.trim_distance.map_or(Trimming::Off, Trimming::Within),
        iterations: c.max_iterations,
        tolerance: c.tolerance,
    }
}

/// Both lists whole: also the entries that are kept for later.
fn compare_answer(got: &Answer, number: u32, counts: &[u64], values: &[f32]) -> Result<(), String> {
    let mut wanted = ([0; 8], [0; 8]);
    if number == 0 {
        wanted.0[..counts.len()].copy_from_slice(counts);
        wanted.1[..values.len()].copy_from_slice(&values.iter().map(|v| v.to_bits()).collect::<Vec<_>>());
    }
    let had = (got.number, got.counts, got.values.map(f32::to_bits));
    if had == (number, wanted.0, wanted.1) {
        Ok(())
    } else {
        Err(format!("the answer is {had:08X?} and should be {:08X?}", (number, wanted.0, wanted.1)))
    }
}

/// The whole call, through `run`: the library's function that is meant.
fn compare_mesh(
    call: &Call,
    want: &Outcome,
    r: &mut Random,
    run: impl FnOnce(&mut [f32], &mut [u32], Scratch) -> Answer,
) -> Result<(), String> {
    let mut work = Work::new(call, r);
    let mut vertices = Fenced::new(call.room.vertices, r);
    let mut faces = Fenced::new(call.room.faces, r);
    let got = run(vertices.lend(), faces.lend(), work.lend());
    let counts = [want.usable, want.vertices.len(), want.faces.len()].map(|c| c as u64);
    let values = [&[want.level], &want.low[..], &want.high[..]].concat();
    compare_answer(&got, want.number, &counts, &values)?;
    vertices.compare("vertices", want.vertices.as_flattened())?;
    faces.compare("faces", want.faces.as_flattened())?;
    work.compare()
}

/// The number that the call for the field answers: 6, 9 and 10 are for the mesh alone, and the field's slice is one more that 8
/// looks at.
fn number_for_field(call: &Call, number: u32) -> u32 {
    match number {
        7 | 1 | 2 | 3 | 8 => number,
        _ if call.field < 1 << (3 * call.config.depth) => 8,
        4 | 5 => number,
        _ => 0,
    }
}

fn compare_field(call: &Call, want: &Outcome, r: &mut Random) -> Result<(), String> {
    let mut work = Work::new(call, r);
    let mut field = Fenced::new(call.field, r);
    let got = lent::field(&call.points, &settings(&call.config), field.lend(), work.lend());
    let number = number_for_field(call, want.number);
    compare_answer(&got, number, &[want.seen.usable as u64], &[want.seen.level])?;
    field.compare("field", if number == 0 { &want.seen.field } else { &[] })?;
    work.compare()
}

/// One call and the field behind it, against the oracle.
pub fn compare(call: &Call, r: &mut Random) -> Result<Outcome, String> {
    let want = call.oracle();
    let settings = settings(&call.config);
    compare_mesh(call, &want, r, |v, f, s| lent::reconstruct(&call.points, &settings, v, f, s))?;
    compare_field(call, &want, r).map_err(|e| format!("field: {e}"))?;
    Ok(want)
}

/// The call without settings, against the oracle with the published defaults.
pub fn compare_default(points: Vec<f32>, r: &mut Random) -> Result<Outcome, String> {
    let call = Call::new(points, PoissonConfig::default());
    let want = call.oracle();
    compare_mesh(&call, &want, r, |v, f, s| lent::reconstruct_default(&call.points, v, f, s))?;
    Ok(want)
}

#[cfg(test)]
mod tests {
    use super::*;

    /// The comparison itself: it sees a wrong element, rubbish that stayed, and a touched fence.
    #[test]
    fn every_place_is_looked_at() {
        let lent = || Fenced::<u32>::new(5, &mut Random(9));
        assert!(lent().compare("rubbish", &[]).is_err());
        for place in 0..5 + 2 * FENCE {
            let mut slice = lent();
            slice.lend().copy_from_slice(&[7, 8, 0, 0, 0]);
            assert_eq!(slice.compare("whole", &[7, 8]), Ok(()));
            slice.all[place] ^= 1 << 31;
            assert!(slice.compare("touched", &[7, 8]).is_err(), "place {place}");
        }
    }

    #[test]
    fn every_entry_of_the_answer_is_looked_at() {
        let good =
            Answer { number: 0, counts: [1, 2, 3, 0, 0, 0, 0, 0], values: [0.5, 0.0, 0.0, 0.0, 0.0, 0.0, 0.0, 0.0] };
        assert_eq!(compare_answer(&good, 0, &[1, 2, 3], &[0.5]), Ok(()));
        assert!(compare_answer(&good, 4, &[1, 2, 3], &[0.5]).is_err());
        for i in 0..8 {
            let (mut a, mut b) = (good, good);
            a.counts[i] += 1;
            b.values[i] = f32::from_bits(b.values[i].to_bits() ^ 1 << 31);
            assert!(compare_answer(&a, 0, &[1, 2, 3], &[0.5]).is_err());
            assert!(compare_answer(&b, 0, &[1, 2, 3], &[0.5]).is_err());
        }
    }
}

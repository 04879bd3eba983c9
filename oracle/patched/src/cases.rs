//! Case files: a call, and the answer as text. `oracle/cases/README.md` has the layout.
use crate::{Outcome, PoissonConfig, Room};
use std::fmt::Write;

/// A library call.
#[derive(Debug, Clone)]
pub struct Case {
    pub config: PoissonConfig,
    pub room: Room,
    /// The lent point slice's length in elements; `stored` is repeated to fill it.
    pub length: usize,
    pub stored: Vec<f32>,
}

/// Little-endian words, one after the other; `None` past the end.
struct Words<'a>(&'a [u8]);

impl Words<'_> {
    fn bytes<const N: usize>(&mut self) -> Option<[u8; N]> {
        let (head, tail) = self.0.split_first_chunk::<N>()?;
        self.0 = tail;
        Some(*head)
    }
    fn u32(&mut self) -> Option<u32> {
        self.bytes().map(u32::from_le_bytes)
    }
    fn f32(&mut self) -> Option<f32> {
        self.u32().map(f32::from_bits)
    }
    fn u64(&mut self) -> Option<u64> {
        self.bytes().map(u64::from_le_bytes)
    }
    fn len(&mut self) -> Option<usize> {
        self.u64()?.try_into().ok()
    }
}

impl Case {
    pub fn points(&self) -> Vec<f32> {
        self.stored.iter().copied().cycle().take(self.length).collect()
    }

    /// `None` unless the bytes are exactly one case.
    pub fn read(bytes: &[u8]) -> Option<Case> {
        let mut w = Words(bytes.strip_prefix(b"PCAS")?);
        let length = w.u32()? as usize;
        let stored = w.u32()?;
        let config = read_config(&mut w)?;
        let room = read_room(&mut w, length / 6)?;
        let stored = (0..stored).map(|_| w.f32()).collect::<Option<Vec<f32>>>()?;
        w.0.is_empty().then_some(Case { config, room, length, stored })
    }

    pub fn write(&self) -> Vec<u8> {
        let (c, r) = (&self.config, &self.room);
        let mut out = b"PCAS".to_vec();
        let words = [
            self.length as u32,
            self.stored.len() as u32,
            c.depth,
            c.smoothing.to_bits(),
            c.iso_offset.to_bits(),
            c.trim_distance.is_some() as u32,
            c.trim_distance.unwrap_or(0.0).to_bits(),
        ];
        out.extend(words.iter().flat_map(|w| w.to_le_bytes()));
        out.extend((c.max_iterations as u64).to_le_bytes());
        out.extend(c.tolerance.to_le_bytes());
        let lengths = r.grids.iter().chain([&r.edges, &r.distances, &r.vertices, &r.faces]);
        out.extend(lengths.flat_map(|&l| (l as u64).to_le_bytes()));
        out.extend(self.stored.iter().flat_map(|v| v.to_bits().to_le_bytes()));
        out
    }
}

fn read_config(w: &mut Words) -> Option<PoissonConfig> {
    let (depth, smoothing, iso_offset) = (w.u32()?, w.f32()?, w.f32()?);
    let (flag, distance) = (w.u32()?, w.f32()?);
    Some(PoissonConfig {
        depth,
        smoothing,
        iso_offset,
        trim_distance: (flag != 0).then_some(distance),
        max_iterations: w.len()?,
        tolerance: w.bytes().map(f64::from_le_bytes)?,
    })
}

fn read_room(w: &mut Words, given: usize) -> Option<Room> {
    let mut grids = [0; 7];
    for g in &mut grids {
        *g = w.len()?;
    }
    Some(Room { grids, edges: w.len()?, distances: w.len()?, vertices: w.len()?, faces: w.len()?, given })
}

/// FNV-1a, 64 bits.
pub fn hash(bytes: impl IntoIterator<Item = u8>) -> u64 {
    bytes.into_iter().fold(0xCBF2_9CE4_8422_2325, |h, b| (h ^ b as u64).wrapping_mul(0x0100_0000_01B3))
}

pub(crate) fn hash_floats<'a>(values: impl IntoIterator<Item = &'a f32>) -> u64 {
    hash(values.into_iter().flat_map(|v| v.to_bits().to_le_bytes()))
}

fn patterns(v: &[f32; 3]) -> String {
    v.map(|c| format!("{:08X}", c.to_bits())).join(" ")
}

/// The answer as text. With `hashed`, one number in place of the vertices and one in place of the faces.
pub fn show(o: &Outcome, hashed: bool) -> String {
    let mut s = String::new();
    let mut line = |text: String| writeln!(s, "{text}").expect("a string takes every line");
    line(format!("number {}\nusable {}", o.number, o.usable));
    line(format!("vertices {}\nfaces {}", o.vertices.len(), o.faces.len()));
    line(format!("level {:08X}\nlow {}\nhigh {}", o.level.to_bits(), patterns(&o.low), patterns(&o.high)));
    if hashed {
        line(format!("hash-vertices {:016X}", hash_floats(o.vertices.as_flattened())));
        let bytes = o.faces.as_flattened().iter().flat_map(|f| f.to_le_bytes());
        line(format!("hash-faces {:016X}", hash(bytes)));
    } else {
        o.vertices.iter().for_each(|v| line(format!("v {}", patterns(v))));
        o.faces.iter().for_each(|f| line(format!("f {} {} {}", f[0], f[1], f[2])));
    }
    if !o.seen.field.is_empty() {
        line(format!("untrimmed {} {}", o.seen.untrimmed[0], o.seen.untrimmed[1]));
        line(format!("field-level {:08X}", o.seen.level.to_bits()));
        line(format!("hash-field {:016X}", hash_floats(&o.seen.field)));
    }
    s
}

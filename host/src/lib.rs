//! Closes a foundry's scan into a solid.
//!
//! The work is done by a library whose every function is proved to meet its contract; this crate lends it memory and hands
//! back what it answers. Points with normals go in, a mesh comes out, and without trimming that mesh is proved closed: for any
//! two vertices, as many faces run from the first to the second as from the second to the first.
//!
//! ```
//! use hoardmagpie::{reconstruct, Refusal, Settings};
//!
//! // A ball of radius 10, scanned at the 26 directions of a cube's corners, edges and sides.
//! let mut points = Vec::new();
//! for direction in 0..27 {
//!     let d = [direction / 9 - 1, direction / 3 % 3 - 1, direction % 3 - 1].map(|c| c as f32);
//!     let length = (d[0] * d[0] + d[1] * d[1] + d[2] * d[2]).sqrt();
//!     if length > 0.0 {
//!         let n = d.map(|c| c / length);
//!         points.push([10.0 * n[0], 10.0 * n[1], 10.0 * n[2], n[0], n[1], n[2]]);
//!     }
//! }
//! let settings = Settings { depth: 4, ..Settings::default() };
//! let mesh = reconstruct(&points, &settings)?;
//! assert_eq!(mesh.usable, 26);
//! assert_eq!(mesh.vertices.len() + mesh.faces.len(), mesh.faces.len() * 3 / 2 + 2); // Euler, for one closed part
//!
//! assert_eq!(reconstruct(&points[..9], &settings), Err(Refusal::TooFewUsable));
//! # Ok::<(), Refusal>(())
//! ```
//!
//! To build it, run `scripts/native-archive capi` in the repository's root, which proves the library and leaves its archive, then
//! `cargo build --offline --release` in `host`; `scripts/host-tests` tests it, and `scripts/close-example` closes a scan.
//!
//! [`scan`] reads scans from PLY and text, [`mesh_file`] writes meshes as PLY and OBJ, [`volume`] measures a closed mesh, and
//! [`picture`] draws; the program `hoardmagpie` is made of these. None of them is proved.
#![deny(missing_docs)]

mod exported;
pub mod lent;
pub mod mesh_file;
pub mod picture;
mod refusal;
pub mod scan;
mod settings;
mod volume;
mod whole_file;

pub use refusal::Refusal;
pub use settings::{Settings, Trimming};
pub use volume::{volume, NoVolume};

use lent::{Answer, Scratch};
use std::collections::HashMap;

/// A scanned point: position x, y, z and normal x, y, z. The normal points out of the part and may have any length.
pub type Point = [f32; 6];

/// What a scan was closed to.
#[derive(Debug, Clone, PartialEq)]
pub struct Mesh {
    /// Positions x, y, z.
    pub vertices: Vec<[f32; 3]>,
    /// Three vertex numbers each, counted from 0; seen from outside, anticlockwise.
    pub faces: Vec<[u32; 3]>,
    /// Points with a finite position and a usable normal; the others were skipped.
    pub usable: usize,
    /// The value of the field on the surface.
    pub level: f32,
    /// The low corner of the vertices' box.
    pub low: [f32; 3],
    /// The high corner of the vertices' box.
    pub high: [f32; 3],
}

/// Pairs of vertices along which more faces run one way than the other. A closed mesh has none.
pub fn open_edges(faces: &[[u32; 3]]) -> usize {
    let mut balance = HashMap::new();
    for &[a, b, c] in faces {
        for (from, to) in [(a, b), (b, c), (c, a)] {
            *balance.entry((from.min(to), from.max(to))).or_insert(0i64) += if from < to { 1 } else { -1 };
        }
    }
    balance.values().filter(|&&sum| sum != 0).count()
}

/// The scalar field whose level set is the surface.
#[derive(Debug, Clone, PartialEq)]
pub struct Field {
    /// One value for each node; with n = 2^depth, node (i, j, k) is number (i·n + j)·n + k.
    pub values: Vec<f32>,
    /// The value of the field on the surface.
    pub level: f32,
    /// Points that were used.
    pub usable: usize,
}

/// The nodes of a grid of this depth. A depth over 8 is refused before any memory is looked at, so it needs none.
fn nodes(depth: u32) -> usize {
    if depth <= 8 {
        1 << (3 * depth)
    } else {
        0
    }
}

/// Memory for one call, of exactly the sizes that the library states.
struct Memory {
    grids: [Vec<f32>; 7],
    edges: Vec<u32>,
    distances: Vec<f32>,
}

impl Memory {
    fn new(depth: u32, given: usize) -> Self {
        let n = nodes(depth);
        Memory { grids: std::array::from_fn(|_| vec![0.0; n]), edges: vec![0; 3 * n], distances: vec![0.0; given] }
    }

    fn lend(&mut self) -> Scratch<'_> {
        Scratch {
            grids: self.grids.each_mut().map(Vec::as_mut_slice),
            edges: &mut self.edges,
            distances: &mut self.distances,
        }
    }
}

/// Room for a mesh whose size is not known before it is made.
///
/// A mesh has at most one vertex for each edge of the grid and five faces for each cell. To lend that much at depth 8 would
/// take 1.6 GB, and the library clears what it is lent. So the room starts at a million vertices and two million faces
/// (37 MB), or at the bound where that is less, as it is up to depth 6. A surface that fills the box has about 300,000
/// vertices at depth 8; one that is refused for want of room is tried again with four times as much, up to the bound, which
/// no mesh exceeds.
#[derive(Debug, Clone, Copy, PartialEq)]
struct Room {
    vertices: usize,
    faces: usize,
}

impl Room {
    const START: Room = Room { vertices: 1 << 20, faces: 1 << 21 };

    fn bound(depth: u32) -> Room {
        let side = if depth <= 8 { 1usize << depth } else { 1 };
        Room { vertices: 3 * side * side * (side - 1), faces: 5 * (side - 1).pow(3) }
    }

    fn at_most(self, bound: Room) -> Room {
        Room { vertices: self.vertices.min(bound.vertices), faces: self.faces.min(bound.faces) }
    }

    /// More room, or `None` when there was room for any mesh.
    fn more(self, bound: Room) -> Option<Room> {
        let more = Room { vertices: 4 * self.vertices, faces: 4 * self.faces }.at_most(bound);
        (more != self).then_some(more)
    }
}

/// The refusal of an answer that accepts nothing.
fn refused(answer: &Answer) -> Refusal {
    Refusal::of(answer.number).expect("the library answers 0 or one of ten numbers")
}

/// Closes a scan.
///
/// # Errors
/// The library's refusal, which depends on the points and the settings alone; never for want of room.
pub fn reconstruct(points: &[Point], settings: &Settings) -> Result<Mesh, Refusal> {
    reconstruct_from(Room::START, points, settings)
}

/// Calls the library with this room, and with more as long as that is what it lacks.
fn reconstruct_from(start: Room, points: &[Point], settings: &Settings) -> Result<Mesh, Refusal> {
    let bound = Room::bound(settings.depth);
    let mut room = start.at_most(bound);
    let mut memory = Memory::new(settings.depth, points.len());
    loop {
        let mut vertices = vec![[0.0; 3]; room.vertices];
        let mut faces = vec![[0; 3]; room.faces];
        let (v, f) = (vertices.as_flattened_mut(), faces.as_flattened_mut());
        let answer = lent::reconstruct(points.as_flattened(), settings, v, f, memory.lend());
        if answer.number == 0 {
            return Ok(mesh(&answer, vertices, faces));
        }
        let refusal = refused(&answer);
        let short = matches!(refusal, Refusal::VerticesShort | Refusal::FacesShort);
        room = room.more(bound).filter(|_| short).ok_or(refusal)?;
    }
}

/// Cuts the result memory to what the answer counts.
fn mesh(answer: &Answer, mut vertices: Vec<[f32; 3]>, mut faces: Vec<[u32; 3]>) -> Mesh {
    vertices.truncate(answer.vertices());
    vertices.shrink_to_fit();
    faces.truncate(answer.faces());
    faces.shrink_to_fit();
    Mesh { vertices, faces, usable: answer.usable(), level: answer.level(), low: answer.low(), high: answer.high() }
}

/// Computes the field alone.
///
/// # Errors
/// The library's refusal of the points or the settings; 6, 9 and 10 do not occur.
pub fn field(points: &[Point], settings: &Settings) -> Result<Field, Refusal> {
    let mut memory = Memory::new(settings.depth, points.len());
    let mut values = vec![0.0; nodes(settings.depth)];
    let answer = lent::field(points.as_flattened(), settings, &mut values, memory.lend());
    match answer.number {
        0 => Ok(Field { values, level: answer.level(), usable: answer.usable() }),
        _ => Err(refused(&answer)),
    }
}

#[cfg(test)]
mod tests {
    use super::*;

    #[test]
    fn the_room_grows_to_the_bound_and_ends_there() {
        for depth in 0..12 {
            let bound = Room::bound(depth);
            let mut room = Room::START.at_most(bound);
            let mut calls = 1;
            while let Some(more) = room.more(bound) {
                room = more;
                calls += 1;
            }
            assert_eq!(room, bound);
            assert!(calls <= if depth <= 6 { 1 } else { 5 }, "depth {depth}: {calls} calls");
        }
    }

    #[test]
    fn a_mesh_is_the_same_from_whatever_room_it_started() {
        let corner = |i: i32| [i & 1, i >> 1 & 1, i >> 2 & 1, 0, 0, 0].map(|c| 2.0 * c as f32 - 1.0);
        let outward = |p: [f32; 6]| [p[0], p[1], p[2], p[0], p[1], p[2]];
        let points: Vec<Point> = (0..16).map(|i| outward(corner(i).map(|c| c * (1 + i / 8) as f32))).collect();
        let settings = Settings { depth: 4, ..Settings::default() };
        let wanted = reconstruct(&points, &settings);
        assert!(wanted.is_ok());
        for room in [Room { vertices: 1, faces: 1000 }, Room { vertices: 1000, faces: 1 }] {
            assert_eq!(reconstruct_from(room, &points, &settings), wanted);
        }
    }

    #[test]
    fn every_number_has_its_refusal_and_sentence() {
        for (i, refusal) in Refusal::ALL.into_iter().enumerate() {
            assert_eq!(refusal.number(), i as u32 + 1);
            assert_eq!(Refusal::of(refusal.number()), Some(refusal));
            assert!(!refusal.sentence().is_empty());
        }
        assert_eq!(Refusal::of(0), None);
        assert_eq!(Refusal::of(11), None);
    }
}

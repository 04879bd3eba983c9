//! What the added lines of the patched text report, and the refusals that only a caller's slices decide. One call at a time
//! on each thread.
use crate::{canonical, Room};
use std::cell::RefCell;
use std::time::Duration;
use threecrate_core::{Error, Result, TriangleMesh};

/// What was seen of one call.
#[derive(Debug, Clone, Default)]
pub struct Seen {
    /// The node values, as soon as they are computed; also under the refusals 6, 9 and 10.
    pub field: Vec<f32>,
    pub usable: usize,
    pub level: f32,
    /// Vertices and faces before trimming.
    pub untrimmed: [usize; 2],
    /// The residual's square and |b| at each look at the tolerance, level after level.
    pub looks: Vec<(f64, f64)>,
    /// Whether the faces were turned round.
    pub turned: bool,
    /// NaNs of the field and the level whose pattern is not 01's.
    pub strays: usize,
    /// Processor time from the call's start until the field and the level were there.
    pub field_time: Duration,
}

#[derive(Default)]
struct Window {
    room: Room,
    start: Duration,
    seen: Seen,
}

thread_local! {
    static WINDOW: RefCell<Window> = RefCell::default();
}

fn with<T>(act: impl FnOnce(&mut Window) -> T) -> T {
    WINDOW.with(|w| act(&mut w.borrow_mut()))
}

pub(crate) fn open(room: Room) {
    with(|w| *w = Window { room, start: crate::thread_time(), seen: Seen::default() });
}

pub(crate) fn close() -> Seen {
    with(|w| std::mem::take(&mut w.seen))
}

pub(crate) fn refusal(number: u32) -> Error {
    Error::Algorithm(format!("refused {number}"))
}

/// Number 8: stands after the published checks of points, depth and smoothing, and before the count of usable points.
pub fn scratch(depth: u32) -> Result<()> {
    let short = with(|w| w.room.scratch_is_short(1 << (3 * depth)));
    if short {
        Err(refusal(8))
    } else {
        Ok(())
    }
}

pub fn look(rr: f64, b_norm: f64) {
    with(|w| w.seen.looks.push((rr, b_norm)));
}

pub fn solved(usable: usize, field: &[f32], level: f32) {
    with(|w| {
        w.seen.field_time = crate::thread_time() - w.start;
        w.seen.usable = usable;
        let stray = |v: &&f32| v.to_bits() != canonical(**v).to_bits();
        w.seen.strays = field.iter().chain([&level]).filter(stray).count();
        w.seen.field = field.iter().map(|&v| canonical(v)).collect();
        w.seen.level = canonical(level);
    });
}

/// Numbers 9 and 10: by the untrimmed mesh, and before the published "no triangles".
pub fn results(mesh: &TriangleMesh) -> Result<()> {
    let [v, f] = [mesh.vertices.len(), mesh.faces.len()];
    with(|w| {
        w.seen.untrimmed = [v, f];
        if w.room.vertices < 3 * v {
            Err(refusal(9))
        } else if w.room.faces < 3 * f {
            Err(refusal(10))
        } else {
            Ok(())
        }
    })
}

pub fn turned(turned: bool) {
    with(|w| w.seen.turned = turned);
}

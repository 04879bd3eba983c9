//! One entry of the table changed: the mesh as a screen shows it, and the place where it is open.
use crate::cut::{open_pairs, volume, Cell, Cut};
use crate::sides::{keeps_the_rule, sixteen};
use crate::table::Table;
use crate::view::{cross, lifted, minus, unit, View, BLUE, FINE, INK, PAPER, RED, SOLID};
use hoardmagpie::picture::Canvas;
use hoardmagpie::Mesh;
use std::array::from_fn;

/// At these settings row 222 serves a single cell of the ring.
pub const DEPTH: u32 = 7;
pub const SMOOTHING: f32 = 0.5;
/// The entry that is changed: the fifth of row 222, from edge 5 to edge 4, which the row uses too.
pub const CASE: usize = 222;
pub const PLACE: usize = 4;
pub const EDGE: i8 = 4;

/// Of one panel.
const WIDTH: usize = 600 * FINE;
const HEIGHT: usize = 440 * FINE;
const MIDDLE: [f64; 2] = [(WIDTH / 2) as f64, (HEIGHT / 2) as f64];

/// Draws both panels, and prints what is measured.
pub fn draw(cut: &Cut, mesh: &Mesh, right: &Table) -> Canvas {
    let wrong = right.with(CASE, PLACE, EDGE);
    let changed = Mesh { faces: cut.faces(&wrong), ..mesh.clone() };
    let cells: Vec<Cell> = cut.cells().filter(|&cell| cut.case(cell) == CASE).collect();
    tell(mesh, &changed, &cells, right, &wrong);
    let open = open_pairs(&changed.faces);
    let at = centre(open.iter().map(|pair| place(mesh, pair.0)));
    screen(&changed, at).beside(&lens(&changed, &open, at)).shrunk(FINE)
}

/// The figures that the tour cites.
fn tell(mesh: &Mesh, changed: &Mesh, cells: &[Cell], right: &Table, wrong: &Table) {
    let sixteen = sixteen(right);
    println!("sliver    depth {DEPTH}, smoothing {SMOOTHING}: {} faces", mesh.faces.len());
    println!("row {CASE}   {:?} becomes {:?}; cells {cells:?}", right.row(CASE), wrong.row(CASE));
    println!("rule      {}, then {}", keeps_the_rule(right, &sixteen, CASE), keeps_the_rule(wrong, &sixteen, CASE));
    println!("open      {}, then {} pairs", open_pairs(&mesh.faces).len(), open_pairs(&changed.faces).len());
    let [x, y, z] = box_centre(mesh);
    for away in [0.0, 1e3, 1e4, 1e5, 1e6] {
        let about = [x, y, z + away];
        let volumes = [mesh, changed].map(|m| volume(&m.vertices, &m.faces, about));
        println!("volume    about {away} above: {:.0}, then {:.0}", volumes[0], volumes[1]);
    }
}

fn box_centre(mesh: &Mesh) -> [f64; 3] {
    from_fn(|i| (f64::from(mesh.low[i]) + f64::from(mesh.high[i])) / 2.0)
}

fn place(mesh: &Mesh, v: u32) -> [f64; 3] {
    mesh.vertices[v as usize].map(f64::from)
}

fn centre(places: impl Iterator<Item = [f64; 3]>) -> [f64; 3] {
    let all: Vec<_> = places.collect();
    from_fn(|i| all.iter().map(|p| p[i]).sum::<f64>() / all.len() as f64)
}

/// Towards the outside at a place: the sum of the normals of the faces about it.
fn outside(mesh: &Mesh, at: [f64; 3], reach: f64) -> [f64; 3] {
    let mut sum = [0.0; 3];
    for face in &mesh.faces {
        let [a, b, c] = face.map(|v| place(mesh, v));
        if minus(a, at).iter().all(|d| d.abs() < reach) {
            let normal = cross(minus(b, a), minus(c, a));
            sum = from_fn(|i| sum[i] + normal[i]);
        }
    }
    sum
}

/// The whole mesh, as any viewer shows it, and a ring round the place.
fn screen(mesh: &Mesh, at: [f64; 3]) -> Canvas {
    let mut canvas = Canvas::new(WIDTH, HEIGHT, PAPER);
    let [x, y, z] = unit(outside(mesh, at, 12.0));
    let view = View::from([x, y, z + 1.2], [0.0, 1.0, 0.2], box_centre(mesh), MIDDLE, HEIGHT as f64 / 290.0);
    faces(&mut canvas, mesh, &view);
    let [x, y, _] = view.place(at);
    circle(&mut canvas, [x, y], 16.0 * FINE as f64);
    canvas
}

fn circle(canvas: &mut Canvas, [x, y]: [f64; 2], radius: f64) {
    let on = |i: usize| {
        let (sin, cos) = (i as f64 / 64.0 * std::f64::consts::TAU).sin_cos();
        [x + radius * cos, y + radius * sin, 1e6]
    };
    (0..64).for_each(|i| canvas.line(on(i), on(i + 1), 1.2 * FINE as f64, BLUE));
}

fn faces(canvas: &mut Canvas, mesh: &Mesh, view: &View) {
    for face in &mesh.faces {
        let places = face.map(|v| place(mesh, v));
        canvas.triangle(places.map(|p| view.place(p)), view.shaded(SOLID, places));
    }
}

/// The place itself, under a lens: faces with their edges, and in red the pairs that do not balance.
fn lens(mesh: &Mesh, open: &[(u32, u32)], at: [f64; 3]) -> Canvas {
    let mut canvas = Canvas::new(WIDTH, HEIGHT, PAPER);
    let view = View::from(outside(mesh, at, 4.0), [0.0, 0.3, 1.0], at, MIDDLE, HEIGHT as f64 / 7.0);
    faces(&mut canvas, mesh, &view);
    for face in &mesh.faces {
        let [a, b, c] = face.map(|v| lifted(view.place(place(mesh, v)), 1.0));
        for (from, to) in [(a, b), (b, c), (c, a)] {
            canvas.line(from, to, 0.7 * FINE as f64, INK);
        }
    }
    for &(from, to) in open {
        let [from, to] = [from, to].map(|v| lifted(view.place(place(mesh, v)), 1e5));
        canvas.line(from, to, 1.6 * FINE as f64, RED);
    }
    canvas
}

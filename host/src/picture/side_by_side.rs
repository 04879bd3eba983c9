//! An open scan and its closed mesh side by side, from one viewpoint.
use super::{Canvas, Colour, Place};
use crate::{Mesh, Point};
use std::array::from_fn;

/// Of one panel. It is drawn so many times finer, and shrunk.
const WIDTH: usize = 640;
const HEIGHT: usize = 440;
const FINE: usize = 2;
/// The part of a panel that the mesh may fill in either direction.
const FILLED: f64 = 0.86;
/// The radius of a scanned point.
const POINT: f64 = 1.1 * FINE as f64;

/// The viewpoint: so far about the vertical axis, then so far over.
const TURN: f64 = -60.0;
const TILT: f64 = 52.0;
/// Where the light comes from: right, up and towards the eye.
const LIGHT: [f64; 3] = [-0.35, 0.55, 0.76];

const PAPER: Colour = [255; 3];
/// Points whose normals point to the eye, and the others.
const SCAN: Colour = [70, 100, 165];
const BEHIND: Colour = [196, 204, 218];
/// Faces from outside, and from inside where the mesh is open.
const MESH: Colour = [222, 160, 84];
const INSIDE: Colour = [150, 132, 112];

/// Draws the scan, and beside it the mesh. What does not lie about the mesh, as points far off, is cut away.
pub fn scan_and_mesh(points: &[Point], mesh: &Mesh) -> Canvas {
    let view = View::of(mesh);
    let (mut left, mut right) = (panel(), panel());
    draw_scan(points, &view, &mut left);
    draw_mesh(mesh, &view, &mut right);
    left.shrunk(FINE).beside(&right.shrunk(FINE))
}

fn panel() -> Canvas {
    Canvas::new(WIDTH * FINE, HEIGHT * FINE, PAPER)
}

fn draw_scan(points: &[Point], view: &View, panel: &mut Canvas) {
    for &[x, y, z, nx, ny, nz] in points {
        let normal = turned([nx, ny, nz].map(f64::from));
        let colour = if normal[2] > 0.0 { shaded(SCAN, normal) } else { BEHIND };
        panel.disc(view.place([x, y, z]), POINT, colour);
    }
}

fn draw_mesh(mesh: &Mesh, view: &View, panel: &mut Canvas) {
    for face in &mesh.faces {
        let corners = face.map(|v| mesh.vertices[v as usize]);
        let normal = normal(corners.map(|c| turned(c.map(f64::from))));
        let colour = if normal[2] > 0.0 { MESH } else { INSIDE };
        panel.triangle(corners.map(|c| view.place(c)), shaded(colour, normal));
    }
}

/// Right, up and towards the eye.
fn turned([x, y, z]: [f64; 3]) -> [f64; 3] {
    let ((turn_sin, turn_cos), (tilt_sin, tilt_cos)) = (TURN.to_radians().sin_cos(), TILT.to_radians().sin_cos());
    let (right, away) = (x * turn_cos - y * turn_sin, x * turn_sin + y * turn_cos);
    [right, away * tilt_sin + z * tilt_cos, z * tilt_sin - away * tilt_cos]
}

/// From turned places to the panel's.
struct View {
    centre: [f64; 3],
    scale: f64,
}

impl View {
    /// All of the mesh in the middle of the panel.
    fn of(mesh: &Mesh) -> View {
        let seen: Vec<[f64; 3]> = mesh.vertices.iter().map(|v| turned(v.map(f64::from))).collect();
        let low: [f64; 3] = from_fn(|i| seen.iter().map(|p| p[i]).fold(f64::INFINITY, f64::min));
        let high: [f64; 3] = from_fn(|i| seen.iter().map(|p| p[i]).fold(f64::NEG_INFINITY, f64::max));
        let room = |side: usize, i: usize| FILLED * (side * FINE) as f64 / (high[i] - low[i]);
        View { centre: from_fn(|i| (low[i] + high[i]) / 2.0), scale: room(WIDTH, 0).min(room(HEIGHT, 1)) }
    }

    fn place(&self, at: [f32; 3]) -> Place {
        let seen = turned(at.map(f64::from));
        let [right, up, near] = from_fn(|i| (seen[i] - self.centre[i]) * self.scale);
        [(WIDTH * FINE) as f64 / 2.0 + right, (HEIGHT * FINE) as f64 / 2.0 - up, near]
    }
}

/// Towards the side from which the corners run anticlockwise.
fn normal([a, b, c]: [[f64; 3]; 3]) -> [f64; 3] {
    let (u, v): ([f64; 3], [f64; 3]) = (from_fn(|i| b[i] - a[i]), from_fn(|i| c[i] - a[i]));
    [u[1] * v[2] - u[2] * v[1], u[2] * v[0] - u[0] * v[2], u[0] * v[1] - u[1] * v[0]]
}

/// Lambert's rule, over a dim light from everywhere.
fn shaded(colour: Colour, normal: [f64; 3]) -> Colour {
    let product = |a: [f64; 3], b: [f64; 3]| a[0] * b[0] + a[1] * b[1] + a[2] * b[2];
    let light = product(normal, LIGHT) / product(normal, normal).sqrt();
    // A normal without a direction gives a NaN, which counts as no light.
    let strength = 0.45 + 0.55 * light.max(0.0);
    colour.map(|c| (f64::from(c) * strength) as u8)
}

#[cfg(test)]
mod tests {
    use super::*;

    /// A cube of side 2 about a place far from the origin.
    fn cube() -> Mesh {
        let vertices: Vec<[f32; 3]> = (0..8).map(|i| from_fn(|a| 1000.0 + 2.0 * (i >> a & 1) as f32)).collect();
        let sides = [[0, 4, 6, 2], [1, 3, 7, 5], [0, 1, 5, 4], [2, 6, 7, 3], [0, 2, 3, 1], [4, 5, 7, 6]];
        let faces = sides.iter().flat_map(|&[a, b, c, d]| [[a, b, c], [a, c, d]]).collect();
        Mesh { vertices, faces, usable: 0, level: 0.0, low: [1000.0; 3], high: [1002.0; 3] }
    }

    /// The least and greatest column and row that are not paper, from a column on.
    fn drawn(canvas: &Canvas, from: usize) -> Option<[usize; 4]> {
        let inked = (0..HEIGHT).flat_map(|y| (from..from + WIDTH).map(move |x| (x, y)));
        inked.filter(|&(x, y)| canvas.colour(x, y) != PAPER).fold(None, |seen, (x, y)| {
            let [left, right, top, bottom] = seen.unwrap_or([x, x, y, y]);
            Some([left.min(x), right.max(x), top.min(y), bottom.max(y)])
        })
    }

    #[test]
    fn the_mesh_fills_its_panel_and_the_scan_its_own() {
        let picture = scan_and_mesh(&[], &cube());
        assert_eq!((picture.width(), picture.height()), (2 * WIDTH, HEIGHT));
        assert_eq!(drawn(&picture, 0), None);
        let [left, right, top, bottom] = drawn(&picture, WIDTH).unwrap();
        let margin = (HEIGHT as f64 * (1.0 - FILLED) / 2.0) as usize;
        assert!(top.abs_diff(margin) <= 1 && bottom.abs_diff(HEIGHT - margin) <= 1, "{top} to {bottom}");
        assert!((left - WIDTH).abs_diff(2 * WIDTH - right) <= 2, "{left} to {right}");

        let corners = cube().vertices.into_iter().map(|[x, y, z]| [x, y, z, 0.0, 0.0, 1.0]);
        let far = [[1e30, 0.0, 0.0, 0.0, 0.0, 1.0], [f32::NAN; 6], [1001.0, f32::INFINITY, 0.0, 0.0, 0.0, 0.0]];
        let picture = scan_and_mesh(&corners.chain(far).collect::<Vec<Point>>(), &cube());
        let dots = drawn(&picture, 0).unwrap();
        let wanted = [left - WIDTH, right - WIDTH, top, bottom];
        assert!(dots.iter().zip(wanted).all(|(a, b)| a.abs_diff(b) <= 2), "{dots:?} {wanted:?}");
    }

    /// A closed mesh shows its outside alone. Turned inside out it shows its inside alone.
    #[test]
    fn the_inside_has_its_own_colour() {
        let mut mesh = cube();
        let ratio = |mesh: &Mesh| {
            let [red, _, blue] = scan_and_mesh(&[], mesh).colour(WIDTH + WIDTH / 2, HEIGHT / 2).map(f64::from);
            red / blue
        };
        assert!(ratio(&mesh) > 2.0);
        mesh.faces.iter_mut().for_each(|face| face.reverse());
        assert!(ratio(&mesh) < 2.0);
    }

    #[test]
    fn a_mesh_without_extent_draws_nothing() {
        let mut mesh = cube();
        mesh.vertices.fill([1.0; 3]);
        assert_eq!(drawn(&scan_and_mesh(&[[1.0; 6]], &mesh), WIDTH), None);
    }

    #[test]
    fn light_falls_on_what_looks_at_it() {
        assert_eq!(shaded([200; 3], LIGHT.map(|c| -c)), [90; 3]);
        assert_eq!(shaded([200; 3], [0.0; 3]), [90; 3]);
        assert!(shaded([200; 3], LIGHT)[0] >= 199);
    }
}

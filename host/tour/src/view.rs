//! Looking at places in space: a direction, a scale, and shades of light.
use hoardmagpie::picture::{Canvas, Colour, Place};
use std::array::from_fn;

/// The pictures are drawn so many times finer, and shrunk.
pub const FINE: usize = 2;

pub const PAPER: Colour = [255; 3];
pub const INK: Colour = [30, 30, 40];
pub const GREY: Colour = [170, 174, 184];
/// The solid: nodes below the level, and the mesh.
pub const SOLID: Colour = [222, 160, 84];
/// A single face, lighter than the nodes below.
pub const FACE: Colour = [248, 220, 176];
/// The two cells of a pair.
pub const RED: Colour = [196, 48, 40];
pub const BLUE: Colour = [40, 84, 176];

type Vector = [f64; 3];

pub fn minus(a: Vector, b: Vector) -> Vector {
    from_fn(|i| a[i] - b[i])
}

pub fn dot(a: Vector, b: Vector) -> f64 {
    a[0] * b[0] + a[1] * b[1] + a[2] * b[2]
}

pub fn cross(a: Vector, b: Vector) -> Vector {
    [a[1] * b[2] - a[2] * b[1], a[2] * b[0] - a[0] * b[2], a[0] * b[1] - a[1] * b[0]]
}

pub fn unit(a: Vector) -> Vector {
    let length = dot(a, a).sqrt();
    a.map(|c| c / length)
}

/// A view along straight rays: right, up and towards the eye; what stands at `centre` is seen at `middle`.
pub struct View {
    axes: [Vector; 3],
    pub centre: Vector,
    pub middle: [f64; 2],
    pub scale: f64,
}

impl View {
    /// From an eye in this direction, with `up` upwards.
    pub fn from(eye: Vector, up: Vector, centre: Vector, middle: [f64; 2], scale: f64) -> View {
        let eye = unit(eye);
        let right = unit(cross(up, eye));
        View { axes: [right, cross(eye, right), eye], centre, middle, scale }
    }

    pub fn place(&self, at: Vector) -> Place {
        let away = minus(at, self.centre);
        let [right, up, near] = self.axes.map(|axis| dot(axis, away) * self.scale);
        [self.middle[0] + right, self.middle[1] - up, near]
    }

    /// The colour of a face in the light, of one that looks away always the same.
    pub fn shaded(&self, colour: Colour, [a, b, c]: [Vector; 3]) -> Colour {
        let normal = cross(minus(b, a), minus(c, a));
        let seen: Vector = self.axes.map(|axis| dot(axis, unit(normal)));
        let light = dot(seen, unit([-0.35, 0.55, 0.76]));
        let strength = if seen[2] > 0.0 { 0.6 + 0.4 * light.max(0.0) } else { 0.72 };
        colour.map(|c| (f64::from(c) * strength) as u8)
    }
}

/// A place brought nearer to the eye.
pub fn lifted([x, y, near]: Place, by: f64) -> Place {
    [x, y, near + by]
}

/// A line with a head at two thirds of its length, so that it shows its direction even between two discs.
pub fn arrow(canvas: &mut Canvas, from: Place, to: Place, radius: f64, colour: Colour) {
    canvas.line(from, to, radius, colour);
    let along = [to[0] - from[0], to[1] - from[1]];
    let length = (along[0] * along[0] + along[1] * along[1]).sqrt();
    let [x, y] = along.map(|c| c / length * 7.0 * radius);
    let part = |t: f64| -> Place { from_fn(|i| from[i] + t * (to[i] - from[i])) };
    let near = from[2].max(to[2]) + 1.0;
    let tip = part(0.62 + 3.5 * radius / length);
    let back = [tip[0] - x, tip[1] - y];
    let wing = |side: f64| [back[0] - side * 0.5 * y, back[1] + side * 0.5 * x, near];
    canvas.triangle([[tip[0], tip[1], near], wing(1.0), wing(-1.0)], colour);
}

/// A node: filled where it is below the level, hollow where it is not.
pub fn node(canvas: &mut Canvas, [x, y, near]: Place, radius: f64, below: bool) {
    canvas.disc([x, y, near], radius, INK);
    let inside = if below { SOLID } else { PAPER };
    canvas.disc([x, y, near + 0.1], 0.72 * radius, inside);
}

//! A slice of the field with the level drawn in, and a part of it with its nodes and vertices.
use crate::cut::Cut;
use crate::letters;
use crate::view::{node, BLUE, FINE, GREY, INK, PAPER};
use hoardmagpie::picture::{Canvas, Colour};
use hoardmagpie::{Field, Mesh, Point};

/// Pixels of a panel's side, its margin, and the bar's.
const SIDE: f64 = (520 * FINE) as f64;
const MARGIN: f64 = (20 * FINE) as f64;
const BAR: f64 = (150 * FINE) as f64;

/// Nodes along a side of the part that the second panel shows, and its first node.
const PART: usize = 13;
const FROM: [usize; 2] = [13, 5];

/// The slice of nodes (i, j, middle).
pub struct Slice<'a> {
    pub cut: &'a Cut<'a>,
    pub field: &'a Field,
    pub mesh: &'a Mesh,
    pub points: &'a [Point],
    pub k: usize,
}

impl Slice<'_> {
    fn value(&self, i: usize, j: usize) -> f32 {
        self.field.values[(i * self.cut.n + j) * self.cut.n + self.k]
    }

    /// The field between the nodes of the slice, by the four about it.
    fn between(&self, u: f64, v: f64) -> f64 {
        let last = self.cut.n - 2;
        let (i, j) = ((u as usize).min(last), (v as usize).min(last));
        let (s, t) = (u - i as f64, v - j as f64);
        let value = |a, b| f64::from(self.value(i + a, j + b));
        (1.0 - s) * ((1.0 - t) * value(0, 0) + t * value(0, 1)) + s * ((1.0 - t) * value(1, 0) + t * value(1, 1))
    }

    /// The vertices on the slice's own edges, in counts of nodes. How far along its edge each lies, the library's mesh says.
    fn crossings(&self) -> Vec<[f64; 2]> {
        let (n, grid) = (self.cut.n, Grid::of(self));
        let mut found = Vec::new();
        for (i, j, axis) in (0..n * n * 2).map(|q| (q / 2 / n, q / 2 % n, q % 2)) {
            if let Some(v) = self.cut.vertex(3 * ((i * n + j) * n + self.k) + axis) {
                let mut counts = [i as f64, j as f64];
                counts[axis] = grid.count(axis, self.mesh.vertices[v as usize][axis]);
                found.push(counts);
            }
        }
        found
    }
}

/// Where the nodes lie. Each vertex lies on an edge, so two of its coordinates are a node's: origin and step are read off there.
struct Grid {
    origin: [f64; 3],
    step: f64,
}

impl Grid {
    fn of(slice: &Slice) -> Grid {
        let [(x, step), (y, _), (z, _)] = [0, 1, 2].map(|axis| Grid::along(slice, axis));
        Grid { origin: [x, y, z], step }
    }

    /// Origin and step along an axis, from the vertices with the lowest and the highest count on edges along another.
    fn along(slice: &Slice, axis: usize) -> (f64, f64) {
        let n = slice.cut.n;
        let (mut low, mut high) = ((usize::MAX, 0.0), (0, 0.0));
        for q in 0..n * n * n {
            if let Some(v) = slice.cut.vertex(3 * q + (axis + 1) % 3) {
                let count = [q / n / n, q / n % n, q % n][axis];
                let place = f64::from(slice.mesh.vertices[v as usize][axis]);
                low = if count < low.0 { (count, place) } else { low };
                high = if count > high.0 { (count, place) } else { high };
            }
        }
        let step = (high.1 - low.1) / (high.0 - low.0) as f64;
        (low.1 - low.0 as f64 * step, step)
    }

    fn count(&self, axis: usize, coordinate: f32) -> f64 {
        (f64::from(coordinate) - self.origin[axis]) / self.step
    }
}

/// Below the level from orange to dark, above it from white to blue.
fn shade(value: f64, level: f64, low: f64, high: f64) -> Colour {
    let mix = |a: Colour, b: Colour, t: f64| {
        std::array::from_fn(|i| (f64::from(a[i]) * (1.0 - t) + f64::from(b[i]) * t) as u8)
    };
    if value < level {
        mix([250, 214, 160], [176, 92, 20], ((level - value) / (level - low)).min(1.0))
    } else {
        mix([240, 244, 252], [120, 150, 214], ((value - level) / (high - level)).min(1.0))
    }
}

/// Both panels and the bar.
pub fn draw(slice: &Slice) -> Canvas {
    let [width, height] = [3.0 * MARGIN + 2.0 * SIDE + BAR, 2.0 * MARGIN + SIDE].map(|side| side as usize);
    let mut canvas = Canvas::new(width, height, PAPER);
    let values = slice.field.values.iter().map(|&v| f64::from(v));
    let (low, high) = values.fold((f64::MAX, f64::MIN), |(a, b), v| (a.min(v), b.max(v)));
    let whole = Panel { left: MARGIN, from: [0, 0], nodes: slice.cut.n };
    let part = Panel { left: 2.0 * MARGIN + SIDE + BAR, from: FROM, nodes: PART };
    for panel in [&whole, &part] {
        panel.colours(&mut canvas, slice, low, high);
        panel.level(&mut canvas, slice);
    }
    whole.points(&mut canvas, slice);
    whole.frame_of(&part, &mut canvas);
    part.nodes(&mut canvas, slice);
    bar(&mut canvas, f64::from(slice.field.level), low, high);
    canvas.shrunk(FINE)
}

/// A square part of the slice: i runs to the right and j upwards.
struct Panel {
    left: f64,
    from: [usize; 2],
    nodes: usize,
}

impl Panel {
    fn step(&self) -> f64 {
        SIDE / (self.nodes - 1) as f64
    }

    fn place(&self, [i, j]: [f64; 2], near: f64) -> [f64; 3] {
        let (right, up) = (i - self.from[0] as f64, j - self.from[1] as f64);
        [self.left + right * self.step(), MARGIN + SIDE - up * self.step(), near]
    }

    fn counts(&self, x: usize, y: usize) -> [f64; 2] {
        let (right, up) = (x as f64 - self.left, MARGIN + SIDE - y as f64);
        [self.from[0] as f64 + right / self.step(), self.from[1] as f64 + up / self.step()]
    }

    /// The counts of all nodes that the panel shows.
    fn all(&self) -> impl Iterator<Item = (usize, usize)> + '_ {
        (0..self.nodes * self.nodes).map(|q| (self.from[0] + q / self.nodes, self.from[1] + q % self.nodes))
    }

    fn holds(&self, [i, j]: [f64; 2]) -> bool {
        let inside = |count: f64, from: usize| (from as f64..=(from + self.nodes - 1) as f64).contains(&count);
        inside(i, self.from[0]) && inside(j, self.from[1])
    }

    fn colours(&self, canvas: &mut Canvas, slice: &Slice, low: f64, high: f64) {
        let level = f64::from(slice.field.level);
        for x in self.left as usize..=(self.left + SIDE) as usize {
            for y in MARGIN as usize..=(MARGIN + SIDE) as usize {
                let [u, v] = self.counts(x, y);
                canvas.dot(x, y, 0.0, shade(slice.between(u, v), level, low, high));
            }
        }
    }

    /// The level between the vertices on the four edges of each square.
    fn level(&self, canvas: &mut Canvas, slice: &Slice) {
        let crossings: Vec<[f64; 2]> = slice.crossings().into_iter().filter(|&c| self.holds(c)).collect();
        let square = |[i, j]: [f64; 2], a: usize, b: usize| {
            let (a, b) = (a as f64, b as f64);
            i >= a && i <= a + 1.0 && j >= b && j <= b + 1.0
        };
        for (a, b) in self.all() {
            let ends: Vec<_> = crossings.iter().filter(|&&c| square(c, a, b)).collect();
            if let [from, to] = ends[..] {
                canvas.line(self.place(*from, 1.0), self.place(*to, 1.0), 1.2 * FINE as f64, INK);
            }
        }
    }

    fn nodes(&self, canvas: &mut Canvas, slice: &Slice) {
        for (i, j) in self.all() {
            let at = |a: usize, b: usize, near| self.place([a as f64, b as f64], near);
            if i + 1 < self.from[0] + self.nodes {
                canvas.line(at(i, j, 0.5), at(i + 1, j, 0.5), 0.5 * FINE as f64, GREY);
            }
            if j + 1 < self.from[1] + self.nodes {
                canvas.line(at(i, j, 0.5), at(i, j + 1, 0.5), 0.5 * FINE as f64, GREY);
            }
            node(canvas, at(i, j, 2.0), 4.5 * FINE as f64, slice.cut.below([i, j, slice.k]));
        }
        for crossing in slice.crossings().into_iter().filter(|&c| self.holds(c)) {
            canvas.disc(self.place(crossing, 3.0), 3.6 * FINE as f64, BLUE);
        }
    }

    /// The scan's points that lie at most half a step from the slice.
    fn points(&self, canvas: &mut Canvas, slice: &Slice) {
        let grid = Grid::of(slice);
        let height = |p: &&Point| (grid.count(2, p[2]) - slice.k as f64).abs() <= 0.5;
        for point in slice.points.iter().filter(height) {
            let counts = [grid.count(0, point[0]), grid.count(1, point[1])];
            canvas.disc(self.place(counts, 2.0), 1.5 * FINE as f64, BLUE);
        }
    }

    /// A frame about the part that another panel shows.
    fn frame_of(&self, part: &Panel, canvas: &mut Canvas) {
        let [a, b] = part.from.map(|c| c as f64);
        let [c, d] = [a + part.nodes as f64 - 1.0, b + part.nodes as f64 - 1.0];
        for (from, to) in [([a, b], [c, b]), ([c, b], [c, d]), ([c, d], [a, d]), ([a, d], [a, b])] {
            canvas.line(self.place(from, 4.0), self.place(to, 4.0), FINE as f64, BLUE);
        }
    }
}

/// The colours and the values that they stand for.
fn bar(canvas: &mut Canvas, level: f64, low: f64, high: f64) {
    let (left, right) = ((MARGIN * 2.0 + SIDE) as usize, (MARGIN * 3.2 + SIDE) as usize);
    let (top, bottom) = (3.0 * MARGIN, SIDE - MARGIN);
    let height = |value: f64| bottom - (value - low) / (high - low) * (bottom - top);
    for y in top as usize..=bottom as usize {
        let value = low + (bottom - y as f64) / (bottom - top) * (high - low);
        (left..=right).for_each(|x| canvas.dot(x, y, 0.0, shade(value, level, low, high)));
    }
    for value in [low, level, 0.0, high] {
        let y = height(value);
        canvas.line([left as f64, y, 1.0], [right as f64 + 8.0, y, 1.0], FINE as f64 * 0.8, INK);
        letters::write(canvas, &format!("{value:.2}"), [right as f64 + 18.0, y - 14.0], 22.0, INK);
    }
    letters::write(canvas, "level", [right as f64 + 18.0, height(level) + 18.0], 22.0, INK);
}

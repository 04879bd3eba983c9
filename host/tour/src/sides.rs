//! What the sides of a cube yield: the directed edges that a case's faces leave on them. The sixteen cases of a side are found from
//! the program's table, and it is seen over all 256 rows and six sides that a side's four corners decide.
use crate::letters;
use crate::table::{Table, CORNERS, EDGES};
use crate::view::{arrow, lifted, node, View, BLUE, FACE, FINE, GREY, INK, PAPER, RED};
use hoardmagpie::picture::{Canvas, Place};
use std::collections::HashMap;

/// A side of the cube: four corners going round, the edge after each, and whether it looks towards higher x, y or z. A high side has
/// the corners of its neighbour's low side in the same order, so what it yields runs the other way.
pub struct Side {
    corners: [usize; 4],
    edges: [usize; 4],
    high: bool,
}

pub const SIDES: [Side; 6] = [
    Side { corners: [0, 3, 7, 4], edges: [3, 11, 7, 8], high: false },
    Side { corners: [1, 2, 6, 5], edges: [1, 10, 5, 9], high: true },
    Side { corners: [0, 4, 5, 1], edges: [8, 4, 9, 0], high: false },
    Side { corners: [3, 7, 6, 2], edges: [11, 6, 10, 2], high: true },
    Side { corners: [0, 1, 2, 3], edges: [0, 1, 2, 3], high: false },
    Side { corners: [4, 5, 6, 7], edges: [4, 5, 6, 7], high: true },
];

/// From one edge to another.
type Arc = (usize, usize);

/// The directed edges of faces, less those that cancel.
fn left_over(faces: &[[usize; 3]]) -> Vec<Arc> {
    let mut sums: HashMap<Arc, i32> = HashMap::new();
    for &[a, b, c] in faces {
        for (from, to) in [(a, b), (b, c), (c, a)] {
            *sums.entry((from, to)).or_default() += 1;
            *sums.entry((to, from)).or_default() -= 1;
        }
    }
    let mut arcs: Vec<Arc> = sums.into_iter().flat_map(|(arc, sum)| vec![arc; sum.max(0) as usize]).collect();
    arcs.sort_unstable();
    arcs
}

impl Side {
    /// The side's corners that are below in a case: bit i for corner i going round.
    pub fn bits(&self, case: usize) -> usize {
        (0..4).filter(|&i| case >> self.corners[i] & 1 == 1).map(|i| 1 << i).sum()
    }

    /// What a case leaves on this side, over the side's edges 0 to 3, as the low side has it.
    pub fn arcs(&self, table: &Table, case: usize) -> Vec<Arc> {
        let place = |edge: usize| self.edges.iter().position(|&e| e == edge);
        let on_side = |(a, b): Arc| Some((place(a)?, place(b)?));
        let turned = |(a, b): Arc| if self.high { (b, a) } else { (a, b) };
        let mut arcs: Vec<Arc> = left_over(&table.emitted(case)).into_iter().filter_map(on_side).map(turned).collect();
        arcs.sort_unstable();
        arcs
    }
}

/// What each of the sixteen cases of a side yields, read off the side towards lower z.
pub fn sixteen(table: &Table) -> [Vec<Arc>; 16] {
    let low_z = &SIDES[4];
    std::array::from_fn(|bits| low_z.arcs(table, bits)) // corners 0 to 3 are the case's lowest bits
}

/// Whether a case's row uses exactly the edges whose ends differ, three different ones a triple, and leaves on each side what that
/// side's corners decide, and nothing elsewhere.
pub fn keeps_the_rule(table: &Table, sixteen: &[Vec<Arc>; 16], case: usize) -> bool {
    let faces = table.emitted(case);
    let crossed = |e: usize| EDGES[e].map(|c| case >> c & 1).iter().sum::<usize>() == 1;
    let used = |e: usize| faces.iter().any(|face| face.contains(&e));
    let apart = |[a, b, c]: [usize; 3]| a != b && b != c && c != a;
    let sides: Vec<Vec<Arc>> = SIDES.iter().map(|side| side.arcs(table, case)).collect();
    let on_sides: usize = sides.iter().map(Vec::len).sum();
    (0..12).all(|e| crossed(e) == used(e))
        && faces.into_iter().all(apart)
        && on_sides == left_over(&table.emitted(case)).len()
        && SIDES.iter().zip(&sides).all(|(side, arcs)| *arcs == sixteen[side.bits(case)])
}

/// How many of all changes of one entry to another edge of its row, one that is not in its triple, there are; and how many of them
/// keep the rule.
pub fn single_changes(table: &Table) -> (usize, usize) {
    let sixteen = sixteen(table);
    let (mut tried, mut kept) = (0, 0);
    for case in 0..256 {
        let row = table.row(case);
        for place in 0..row.len() {
            let triple = &row[place / 3 * 3..][..3];
            for edge in (0..12).filter(|e| row.contains(e) && !triple.contains(e)) {
                tried += 1;
                kept += usize::from(keeps_the_rule(&table.with(case, place, edge as i8), &sixteen, case));
            }
        }
    }
    (tried, kept)
}

// ---- the sixteen cases, drawn ----

const FIELD: f64 = (128 * FINE) as f64;
const SQUARE: f64 = (72 * FINE) as f64;

/// Four by four squares; beside them two neighbours that share a side.
pub fn draw(table: &Table) -> Canvas {
    let sixteen = sixteen(table);
    assert!((0..256).all(|case| keeps_the_rule(table, &sixteen, case)), "the table's rule");
    let [width, height] = [9.6 * FIELD, 4.0 * FIELD].map(|side| side as usize);
    let mut canvas = Canvas::new(width, height, PAPER);
    for (bits, arcs) in sixteen.iter().enumerate() {
        let corner = [(bits % 4) as f64 * FIELD + 28.0 * FINE as f64, (bits / 4) as f64 * FIELD + 20.0 * FINE as f64];
        square(&mut canvas, bits, arcs, corner);
    }
    neighbours(&mut canvas, table);
    canvas.shrunk(FINE)
}

/// One case: corner p0 is the lower left one, and p1, p2, p3 follow anticlockwise.
fn square(canvas: &mut Canvas, bits: usize, arcs: &[Arc], [left, top]: [f64; 2]) {
    let corner = |i: usize| -> Place {
        let [right, up] = [[0.0, 0.0], [1.0, 0.0], [1.0, 1.0], [0.0, 1.0]][i % 4];
        [left + right * SQUARE, top + (1.0 - up) * SQUARE, 1.0]
    };
    let middle = |i: usize| -> Place { std::array::from_fn(|k| (corner(i)[k] + corner(i + 1)[k]) / 2.0) };
    for i in 0..4 {
        canvas.line(corner(i), corner(i + 1), 0.8 * FINE as f64, GREY);
        node(canvas, corner(i), 6.0 * FINE as f64, bits >> i & 1 == 1);
    }
    for &(from, to) in arcs {
        arrow(canvas, middle(from), middle(to), 1.4 * FINE as f64, BLUE);
        for edge in [from, to] {
            canvas.disc(middle(edge), 2.6 * FINE as f64, INK);
        }
    }
    let name: String = (0..4).map(|i| if bits >> i & 1 == 1 { '1' } else { '0' }).collect();
    letters::write(
        canvas,
        &name,
        [left + 12.0 * FINE as f64, top + SQUARE + 13.0 * FINE as f64],
        10.0 * FINE as f64,
        INK,
    );
}

// ---- two neighbours ----

/// The case of the left cell and of the right one: the shared side has two opposite corners below.
const LEFT: usize = 1 << 1 | 1 << 6;
const RIGHT: usize = 1 << 0 | 1 << 7;

/// How far the right cell is moved away.
const APART: f64 = 1.8;

fn neighbours(canvas: &mut Canvas, table: &Table) {
    let unit = 1.28 * FIELD;
    let middle = [6.7 * FIELD, 2.05 * FIELD];
    let view = View::from([0.42, -0.9, 0.62], [0.0, 0.0, 1.0], [1.4, 0.5, 0.5], middle, unit);
    cell(canvas, &view, table, LEFT, 0.0);
    cell(canvas, &view, table, RIGHT, APART);
    for (side, case, shift, colour) in [(&SIDES[1], LEFT, 0.0, RED), (&SIDES[0], RIGHT, APART, BLUE)] {
        outline(canvas, &view, side, shift);
        for (from, to) in side.arcs(table, case) {
            let (from, to) = if side.high { (to, from) } else { (from, to) };
            let place = |i: usize| lifted(view.place(on_edge(side.edges[i], shift)), 40.0);
            arrow(canvas, place(from), place(to), 1.8 * FINE as f64, colour);
            for edge in [from, to] {
                canvas.disc(lifted(place(edge), 2.0), 3.0 * FINE as f64, INK);
            }
        }
    }
}

/// The shared side, in a darker line than the other edges.
fn outline(canvas: &mut Canvas, view: &View, side: &Side, shift: f64) {
    let corner = |i: usize| {
        let [x, y, z] = CORNERS[side.corners[i % 4]].map(|d| d as f64);
        lifted(view.place([x + shift, y, z]), 10.0)
    };
    (0..4).for_each(|i| canvas.line(corner(i), corner(i + 1), 1.1 * FINE as f64, INK));
}

/// The middle of a cube's edge; the cube is moved along x.
pub fn on_edge(edge: usize, shift: f64) -> [f64; 3] {
    let [a, b] = EDGES[edge].map(|c| CORNERS[c].map(|d| d as f64));
    [(a[0] + b[0]) / 2.0 + shift, (a[1] + b[1]) / 2.0, (a[2] + b[2]) / 2.0]
}

/// A cube with its nodes and the faces of its case.
pub fn cell(canvas: &mut Canvas, view: &View, table: &Table, case: usize, shift: f64) {
    let corner = |c: usize| {
        let [x, y, z] = CORNERS[c].map(|d| d as f64);
        view.place([x + shift, y, z])
    };
    for [a, b] in EDGES {
        canvas.line(corner(a), corner(b), 0.8 * FINE as f64, GREY);
    }
    for face in table.emitted(case) {
        let places = face.map(|e| on_edge(e, shift));
        canvas.triangle(places.map(|p| view.place(p)), view.shaded(FACE, places));
    }
    for c in 0..8 {
        node(canvas, lifted(corner(c), 20.0), 6.0 * FINE as f64, case >> c & 1 == 1);
    }
}

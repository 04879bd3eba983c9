//! The marked case P12: one cell, of whose nodes only (0, 0, 0) is below, and the face that the program's table gives it.
use crate::letters;
use crate::sides::{cell, on_edge};
use crate::table::Table;
use crate::view::{arrow, lifted, node, View, FINE, GREY, INK, PAPER, RED};
use hoardmagpie::picture::Canvas;

const SIDE: f64 = (380 * FINE) as f64;

pub fn draw(table: &Table) -> Canvas {
    let mut canvas = Canvas::new((1.15 * SIDE) as usize, SIDE as usize, PAPER);
    let middle = [0.53 * SIDE, 0.5 * SIDE];
    let view = View::from([0.55, 0.8, 0.5], [0.0, 0.0, 1.0], [0.5, 0.5, 0.5], middle, 0.52 * SIDE);
    let case = 1; // corner 0 alone
    cell(&mut canvas, &view, table, case, 0.0);
    // the node below lies behind the face: it is drawn over it, with its three edges
    let below = lifted(view.place([0.0; 3]), 2.0 * SIDE);
    node(&mut canvas, below, 6.0 * FINE as f64, true);
    let [face] = table.emitted(case)[..] else { panic!("P12 has one face") };
    for (i, edge) in face.into_iter().enumerate() {
        let [from, to] = [edge, face[(i + 1) % 3]].map(|e| lifted(view.place(on_edge(e, 0.0)), 20.0));
        canvas.line(below, lifted(from, SIDE), 0.8 * FINE as f64, GREY);
        arrow(&mut canvas, from, to, 1.8 * FINE as f64, RED);
        canvas.disc(lifted(from, 2.0 * SIDE), 4.0 * FINE as f64, INK);
        // beside its edge: vertices are numbered at first use, so vertex i is the face's corner i
        let aside = [[-26.0, -34.0], [14.0, -34.0], [16.0, -12.0]][i].map(|d| d * FINE as f64 / 2.0);
        write(&mut canvas, &i.to_string(), [from[0] + aside[0], from[1] + aside[1]]);
    }
    for (axis, name) in ["x", "y", "z"].into_iter().enumerate() {
        let mut end = [0.0; 3];
        end[axis] = 1.0;
        let [x, y, _] = view.place(end);
        let aside = [[-30.0, 10.0], [20.0, 10.0], [-8.0, -44.0]][axis].map(|d| d * FINE as f64 / 2.0);
        write(&mut canvas, name, [x + aside[0], y + aside[1]]);
    }
    canvas.shrunk(FINE)
}

fn write(canvas: &mut Canvas, words: &str, at: [f64; 2]) {
    letters::write(canvas, words, at, 13.0 * FINE as f64, INK);
}

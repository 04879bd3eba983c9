//! Pictures in PNG: a canvas on which what is nearer hides what is farther, and a scan drawn beside its mesh.
//!
//! ```
//! use hoardmagpie::picture::Canvas;
//!
//! let mut canvas = Canvas::new(200, 100, [255, 255, 255]);
//! canvas.triangle([[20.0, 80.0, 0.0], [180.0, 80.0, 0.0], [100.0, 10.0, 0.0]], [222, 160, 84]);
//! canvas.line([0.0, 50.0, 1.0], [200.0, 50.0, 1.0], 2.0, [0, 0, 0]); // nearer than the triangle
//! let mut png = Vec::new();
//! canvas.shrunk(2).write_to(&mut png)?; // 100 by 50 pixels, without steps on slanting edges
//! # Ok::<(), std::io::Error>(())
//! ```
mod deflate;
mod png;
mod side_by_side;

pub use side_by_side::scan_and_mesh;

use crate::whole_file;
use std::io::{self, Write};
use std::ops::Range;
use std::path::Path;

/// Red, green and blue.
pub type Colour = [u8; 3];

/// A place on a canvas: pixels to the right, pixels down, and nearness. What is nearer hides what is not.
pub type Place = [f64; 3];

/// A picture in the making.
#[derive(Debug, Clone, PartialEq)]
pub struct Canvas {
    width: usize,
    height: usize,
    /// Row after row, from the top.
    colours: Vec<Colour>,
    nearness: Vec<f64>,
}

impl Canvas {
    /// An empty canvas of the paper's colour, farther away than everything.
    pub fn new(width: usize, height: usize, paper: Colour) -> Canvas {
        let pixels = width * height;
        Canvas { width, height, colours: vec![paper; pixels], nearness: vec![f64::NEG_INFINITY; pixels] }
    }

    /// Pixels in a row.
    pub fn width(&self) -> usize {
        self.width
    }

    /// Rows.
    pub fn height(&self) -> usize {
        self.height
    }

    /// The colour of a pixel of this canvas.
    pub fn colour(&self, x: usize, y: usize) -> Colour {
        self.colours[self.number(x, y)]
    }

    /// Colours a pixel of this canvas, unless something nearer is there.
    pub fn dot(&mut self, x: usize, y: usize, near: f64, colour: Colour) {
        let i = self.number(x, y);
        if near > self.nearness[i] {
            self.nearness[i] = near;
            self.colours[i] = colour;
        }
    }

    /// A round spot.
    pub fn disc(&mut self, at: Place, radius: f64, colour: Colour) {
        self.line(at, at, radius, colour);
    }

    /// A straight line with round ends: all that is at most `radius` away from it.
    pub fn line(&mut self, from: Place, to: Place, radius: f64, colour: Colour) {
        let [along, down, nearer] = [to[0] - from[0], to[1] - from[1], to[2] - from[2]];
        let square = along * along + down * down;
        self.fill(&[from, to], radius, colour, |x, y| {
            let (dx, dy) = (x - from[0], y - from[1]);
            let part = if square > 0.0 { ((dx * along + dy * down) / square).clamp(0.0, 1.0) } else { 0.0 };
            let (dx, dy) = (dx - part * along, dy - part * down);
            (dx * dx + dy * dy <= radius * radius).then_some(from[2] + part * nearer)
        });
    }

    /// A triangle with its edges. One without area is not drawn.
    pub fn triangle(&mut self, corners: [Place; 3], colour: Colour) {
        let [a, b, c] = corners;
        let area = (b[0] - a[0]) * (c[1] - a[1]) - (c[0] - a[0]) * (b[1] - a[1]);
        if area == 0.0 {
            return;
        }
        self.fill(&corners, 0.0, colour, |x, y| {
            let (dx, dy) = (x - a[0], y - a[1]);
            let to_b = (dx * (c[1] - a[1]) - (c[0] - a[0]) * dy) / area;
            let to_c = ((b[0] - a[0]) * dy - dx * (b[1] - a[1])) / area;
            let inside = to_b >= 0.0 && to_c >= 0.0 && to_b + to_c <= 1.0;
            inside.then_some(a[2] + to_b * (b[2] - a[2]) + to_c * (c[2] - a[2]))
        });
    }

    /// Colours the pixels near these places at which `near` gives a nearness.
    fn fill(&mut self, places: &[Place], margin: f64, colour: Colour, near: impl Fn(f64, f64) -> Option<f64>) {
        let columns = pixels_around(places.iter().map(|p| p[0]), margin, self.width);
        for y in pixels_around(places.iter().map(|p| p[1]), margin, self.height) {
            for x in columns.clone() {
                if let Some(near) = near(x as f64, y as f64) {
                    self.dot(x, y, near, colour);
                }
            }
        }
    }

    /// The mean of each square of `times` by `times` pixels; what fills no square falls away. Lines come out smooth.
    pub fn shrunk(&self, times: usize) -> Canvas {
        let mut small = Canvas::new(self.width / times, self.height / times, [0; 3]);
        for (i, colour) in small.colours.iter_mut().enumerate() {
            *colour = self.mean(i % small.width * times, i / small.width * times, times);
        }
        small
    }

    /// The mean of a square of pixels, of which this is the upper left corner and the side.
    fn mean(&self, left: usize, top: usize, side: usize) -> Colour {
        let mut sum = [0; 3];
        for (x, y) in (0..side * side).map(|i| (left + i % side, top + i / side)) {
            let colour = self.colour(x, y);
            sum = std::array::from_fn(|k| sum[k] + usize::from(colour[k]));
        }
        sum.map(|s| (s / (side * side)) as u8)
    }

    /// This canvas and another of its height to the right of it.
    pub fn beside(&self, right: &Canvas) -> Canvas {
        assert_eq!(self.height, right.height, "two canvases side by side have one height");
        let mut both = Canvas::new(self.width + right.width, self.height, [0; 3]);
        for (y, row) in both.colours.chunks_exact_mut(self.width + right.width).enumerate() {
            row[..self.width].copy_from_slice(self.row(y));
            row[self.width..].copy_from_slice(right.row(y));
        }
        both
    }

    /// Writes the picture as PNG.
    pub fn write_to(&self, out: &mut dyn Write) -> io::Result<()> {
        png::write(self.width, (0..self.height).map(|y| self.row(y).as_flattened()), out)
    }

    /// Writes the picture to a PNG file: whole under its name, or not at all.
    pub fn write_png(&self, path: &Path) -> io::Result<()> {
        whole_file::write(path, |out| self.write_to(out))
    }

    fn row(&self, y: usize) -> &[Colour] {
        &self.colours[y * self.width..][..self.width]
    }

    fn number(&self, x: usize, y: usize) -> usize {
        assert!(x < self.width && y < self.height, "({x}, {y}) is outside the canvas");
        y * self.width + x
    }
}

/// The pixels of a side that are between the least and the greatest of these, or at most `margin` outside.
fn pixels_around(along: impl Iterator<Item = f64> + Clone, margin: f64, side: usize) -> Range<usize> {
    let low = along.clone().fold(f64::INFINITY, f64::min) - margin;
    let high = along.fold(f64::NEG_INFINITY, f64::max) + margin;
    // A float that no number of pixels is becomes the nearest that is one: 0 for a NaN and for what is left of the canvas.
    let (start, end) = (low.floor() as usize, (high.floor() + 1.0) as usize);
    start.min(side)..end.min(side)
}

#[cfg(test)]
mod tests {
    use super::*;

    const PAPER: Colour = [255; 3];
    const INK: Colour = [9, 8, 7];

    /// The canvas as text: `#` where it is not paper.
    fn text(canvas: &Canvas) -> String {
        let row =
            |y: usize| (0..canvas.width()).map(|x| if canvas.colour(x, y) == PAPER { '.' } else { '#' }).collect();
        (0..canvas.height()).map(row).collect::<Vec<String>>().join(" ")
    }

    #[test]
    fn a_triangle_has_its_edges_and_no_more() {
        let mut canvas = Canvas::new(6, 4, PAPER);
        canvas.triangle([[1.0, 0.0, 0.0], [1.0, 3.0, 0.0], [4.0, 3.0, 0.0]], INK);
        assert_eq!(text(&canvas), ".#.... .##... .###.. .####.");
        let mut flat = Canvas::new(6, 4, PAPER);
        flat.triangle([[0.0, 0.0, 0.0], [1.0, 1.0, 0.0], [3.0, 3.0, 0.0]], INK);
        assert_eq!(flat, Canvas::new(6, 4, PAPER));
    }

    #[test]
    fn lines_and_discs_are_round_at_their_ends() {
        let mut canvas = Canvas::new(8, 5, PAPER);
        canvas.line([2.0, 2.0, 0.0], [5.0, 2.0, 0.0], 1.0, INK);
        assert_eq!(text(&canvas), "........ ..####.. .######. ..####.. ........");
        let mut canvas = Canvas::new(5, 5, PAPER);
        canvas.disc([2.0, 2.0, 0.0], 2.0, INK);
        assert_eq!(text(&canvas), "..#.. .###. ##### .###. ..#..");
    }

    #[test]
    fn what_is_nearer_hides_what_is_farther_in_either_order() {
        let slope = [[0.0, 0.0, 0.0], [9.0, 0.0, 9.0], [0.0, 9.0, 0.0]]; // as near as x
        let paint = |slope_first: bool| {
            let mut canvas = Canvas::new(10, 1, PAPER);
            if slope_first {
                canvas.triangle(slope, INK);
            }
            canvas.line([0.0, 0.0, 4.5], [9.0, 0.0, 4.5], 0.5, [1; 3]);
            canvas.triangle(slope, INK);
            canvas
        };
        assert_eq!(paint(true).colours, paint(false).colours);
        let wanted = |x: usize| if x < 5 { [1; 3] } else { INK };
        assert!((0..10).all(|x| paint(true).colour(x, 0) == wanted(x)));
    }

    /// What is partly outside is cut at the edge; what is outside, or nowhere, is not drawn.
    #[test]
    fn nothing_is_drawn_outside() {
        let mut canvas = Canvas::new(4, 3, PAPER);
        canvas.triangle([[-1e30, 1.0, 0.0], [1e30, 1.0, 0.0], [0.0, 1e30, 0.0]], INK);
        assert_eq!(text(&canvas), ".... #### ####");
        let mut canvas = Canvas::new(4, 3, PAPER);
        for bad in [f64::NAN, f64::INFINITY, f64::NEG_INFINITY, 1e300, -1e300] {
            canvas.disc([bad, 1.0, 0.0], 1.0, INK);
            canvas.disc([1.0, bad, 0.0], 1.0, INK);
            canvas.disc([1.0, 1.0, f64::NAN], 1.0, INK);
            canvas.line([bad, 0.0, 0.0], [bad, 3.0, 0.0], 1.0, INK);
            canvas.triangle([[bad, 0.0, 0.0], [bad, 3.0, 0.0], [bad, 1.0, 0.0]], INK);
        }
        assert_eq!(canvas, Canvas::new(4, 3, PAPER));
    }

    #[test]
    fn shrinking_takes_means() {
        let mut canvas = Canvas::new(5, 2, [100; 3]);
        canvas.dot(1, 1, 0.0, [0, 100, 200]);
        canvas.dot(4, 0, 0.0, [0; 3]); // in no square
        let small = canvas.shrunk(2);
        assert_eq!((small.width(), small.height()), (2, 1));
        assert_eq!(small.colours, [[75, 100, 125], [100; 3]]);
    }

    #[test]
    fn two_canvases_side_by_side() {
        let both = Canvas::new(2, 2, INK).beside(&Canvas::new(1, 2, PAPER));
        assert_eq!(text(&both), "##. ##.");
    }
}

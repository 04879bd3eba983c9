//! Draws the pictures of docs/TOUR.md from the library's own answers and the program's own table, and prints the figures that the
//! tour cites.
//! usage: tour SCAN FOLDER
mod cut;
mod field_slice;
mod letters;
mod sides;
mod single_cell;
mod sliver;
mod table;
mod view;

use cut::Cut;
use field_slice::Slice;
use hoardmagpie::{scan, Point, Settings};
use std::error::Error;
use std::path::Path;
use table::Table;

fn main() -> Result<(), Box<dyn Error>> {
    let words: Vec<String> = std::env::args().collect();
    let [_, scan, folder] = &words[..] else {
        return Err("usage: tour SCAN FOLDER".into());
    };
    let points = scan::read(&std::fs::read(scan)?)?;
    let folder = Path::new(folder);
    let table = Table::of_the_program();
    draw_field(&points, &folder.join("tour-field.png"))?;
    single_cell::draw(&table).write_png(&folder.join("tour-cell.png"))?;
    sides::draw(&table).write_png(&folder.join("tour-sides.png"))?;
    draw_sliver(&points, &table, &folder.join("tour-sliver.png"))?;
    let (tried, kept) = sides::single_changes(&table);
    println!("changes   {tried} of one entry to another edge of its row: {kept} keep the rule");
    Ok(())
}

/// The slice through the middle of the grid.
fn draw_field(points: &[Point], picture: &Path) -> Result<(), Box<dyn Error>> {
    let settings = Settings { depth: 6, ..Settings::default() };
    let field = hoardmagpie::field(points, &settings)?;
    let mesh = hoardmagpie::reconstruct(points, &settings)?;
    let cut = Cut::of(&field, &mesh);
    let slice = Slice { cut: &cut, field: &field, mesh: &mesh, points, k: cut.n / 2 };
    println!(
        "field     depth {}: level {:.2}, boundary nodes 0: {}",
        settings.depth,
        field.level,
        cut.boundary_is_zero()
    );
    println!(
        "mesh      {} vertices, {} faces, crossed edges {}",
        mesh.vertices.len(),
        mesh.faces.len(),
        cut.crossed_edges()
    );
    Ok(field_slice::draw(&slice).write_png(picture)?)
}

fn draw_sliver(points: &[Point], table: &Table, picture: &Path) -> Result<(), Box<dyn Error>> {
    let settings = Settings { depth: sliver::DEPTH, smoothing: sliver::SMOOTHING, ..Settings::default() };
    let field = hoardmagpie::field(points, &settings)?;
    let mesh = hoardmagpie::reconstruct(points, &settings)?;
    let cut = Cut::of(&field, &mesh);
    Ok(sliver::draw(&cut, &mesh, table).write_png(picture)?)
}

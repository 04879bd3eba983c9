//! Writes a mesh: binary PLY, or OBJ.
use crate::{whole_file, Mesh};
use std::io::{self, Write};
use std::path::Path;

/// The kinds of file that a mesh is written to.
#[derive(Debug, Clone, Copy, PartialEq, Eq)]
pub enum Format {
    /// Binary, least significant byte first.
    Ply,
    /// Text.
    Obj,
}

impl Format {
    /// By the file's ending, in either case of letters.
    pub fn of(path: &Path) -> Option<Format> {
        match path.extension()?.to_str()?.to_ascii_lowercase().as_str() {
            "ply" => Some(Format::Ply),
            "obj" => Some(Format::Obj),
            _ => None,
        }
    }
}

/// Writes the mesh as text or bytes of this format.
pub fn write_to(mesh: &Mesh, format: Format, out: &mut dyn Write) -> io::Result<()> {
    match format {
        Format::Ply => write_ply(mesh, out),
        Format::Obj => write_obj(mesh, out),
    }
}

/// Binary, least significant byte first: every bit of a coordinate is kept.
fn write_ply(mesh: &Mesh, out: &mut dyn Write) -> io::Result<()> {
    writeln!(out, "ply\nformat binary_little_endian 1.0\ncomment closed by hoardmagpie")?;
    writeln!(out, "element vertex {}", mesh.vertices.len())?;
    writeln!(out, "property float x\nproperty float y\nproperty float z")?;
    writeln!(out, "element face {}", mesh.faces.len())?;
    writeln!(out, "property list uchar uint vertex_indices\nend_header")?;
    for c in mesh.vertices.as_flattened() {
        out.write_all(&c.to_le_bytes())?;
    }
    for face in &mesh.faces {
        out.write_all(&[3])?;
        for v in face {
            out.write_all(&v.to_le_bytes())?;
        }
    }
    Ok(())
}

/// Text: the shortest decimals that read back as the same number; vertices count from 1.
fn write_obj(mesh: &Mesh, out: &mut dyn Write) -> io::Result<()> {
    writeln!(out, "# closed by hoardmagpie")?;
    for [x, y, z] in &mesh.vertices {
        writeln!(out, "v {x} {y} {z}")?;
    }
    for face in &mesh.faces {
        let [a, b, c] = face.map(|v| u64::from(v) + 1);
        writeln!(out, "f {a} {b} {c}")?;
    }
    Ok(())
}

/// Writes the mesh to a file: whole under its name, or not at all.
pub fn write(mesh: &Mesh, format: Format, path: &Path) -> io::Result<()> {
    whole_file::write(path, |out| write_to(mesh, format, out))
}

//! Reads a scan: PLY, or plain text with six numbers a line.
//!
//! What stands in the file is handed on as it is, NaN and infinities included: which points can be used is for the library to
//! say. A file that is not whole, or does not hold what it announces, is refused with one line that names the place.
mod ply;

use crate::Point;
use std::fmt;
use std::str::FromStr;

/// What is wrong with a file, in one line.
#[derive(Debug, Clone, PartialEq, Eq)]
pub struct BadScan(String);

impl fmt::Display for BadScan {
    fn fmt(&self, f: &mut fmt::Formatter) -> fmt::Result {
        f.write_str(&self.0)
    }
}

impl std::error::Error for BadScan {}

fn bad<T>(text: impl Into<String>) -> Result<T, BadScan> {
    Err(BadScan(text.into()))
}

/// Reads the points of a file that is held in memory. A PLY file tells itself by its first line; anything else is text.
pub fn read(bytes: &[u8]) -> Result<Vec<Point>, BadScan> {
    if bytes.starts_with(b"ply\n") || bytes.starts_with(b"ply\r\n") {
        ply::read(bytes)
    } else {
        read_text(bytes)
    }
}

/// Six numbers a line, between blanks, commas or semicolons. Empty lines are skipped, and `#` begins a comment.
fn read_text(bytes: &[u8]) -> Result<Vec<Point>, BadScan> {
    let Ok(text) = std::str::from_utf8(bytes) else {
        return bad("the file is neither PLY nor text");
    };
    let mut points = Vec::new();
    for (i, line) in text.lines().enumerate() {
        let line = line.split('#').next().unwrap_or("");
        let words: Vec<&str> = line.split([' ', '\t', '\r', ',', ';']).filter(|w| !w.is_empty()).collect();
        if !words.is_empty() {
            points.push(point(&words, i + 1)?);
        }
    }
    Ok(points)
}

fn point(words: &[&str], line: usize) -> Result<Point, BadScan> {
    if words.len() != 6 {
        let count = words.len();
        return bad(format!("line {line}: {count} numbers; a point is six: a position x y z and a normal x y z"));
    }
    let mut point = [0.0; 6];
    for (slot, word) in point.iter_mut().zip(words) {
        *slot = number(word, line)?;
    }
    Ok(point)
}

/// A number as it is written; what is written with too many digits is rounded to the nearest.
fn number<T: FromStr>(word: &str, line: usize) -> Result<T, BadScan> {
    word.parse().or_else(|_| bad(format!("line {line}: `{}` is no number", shortened(word))))
}

/// At most 40 characters, none of them a control character: a file's content goes into a message.
fn shortened(word: &str) -> String {
    word.chars().take(40).map(|c| if c.is_control() { '?' } else { c }).collect()
}

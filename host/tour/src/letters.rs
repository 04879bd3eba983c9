//! A few letters and digits, drawn as strokes.
use hoardmagpie::picture::{Canvas, Colour};

/// A letter's strokes: places as two digits, right and down, on a field 4 wide and 6 high; below 6 hang the tails.
fn strokes(letter: char) -> &'static str {
    match letter {
        '0' => "10 30 41 45 36 16 05 01 10",
        '1' => "11 20 26,16 36",
        '2' => "01 10 30 41 42 06 46",
        '3' => "01 10 30 41 42 33 13 33 44 45 36 16 05",
        '4' => "36 30 04 44",
        '5' => "40 00 02 32 43 45 36 16 05",
        '6' => "41 30 10 01 05 16 36 45 44 33 13 04",
        '7' => "00 40 16",
        '8' => "13 02 01 10 30 41 42 33 13 04 05 16 36 45 44 33",
        '9' => "05 16 36 45 41 30 10 01 02 13 33 42",
        'a' => "12 32 43 46 16 05 14 44",
        'b' => "00 06 36 45 43 32 02",
        'c' => "43 32 12 03 05 16 36 45",
        'e' => "04 44 43 32 12 03 05 16 36 45",
        'l' => "20 25 36",
        'p' => "02 08,02 32 43 45 36 06",
        'q' => "42 48,42 12 03 05 16 46",
        'v' => "02 26 42",
        'x' => "02 46,06 42",
        'y' => "02 26,42 18",
        'z' => "02 42 06 46",
        '-' => "03 43",
        '.' => "26 26",
        _ => "",
    }
}

/// Writes words with their upper left corner at a place, so many pixels high.
pub fn write(canvas: &mut Canvas, words: &str, [left, top]: [f64; 2], height: f64, colour: Colour) {
    let unit = height / 6.0;
    for (i, letter) in words.chars().enumerate() {
        let place = |digits: &str| {
            let mut digits = digits.bytes().map(|d| f64::from(d - b'0'));
            let mut next = || digits.next().expect("two digits");
            [left + (6.0 * i as f64 + next()) * unit, top + next() * unit, f64::MAX]
        };
        for stroke in strokes(letter).split(',').filter(|stroke| !stroke.is_empty()) {
            let places: Vec<_> = stroke.split(' ').map(place).collect();
            places.windows(2).for_each(|pair| canvas.line(pair[0], pair[1], 0.45 * unit, colour));
        }
    }
}

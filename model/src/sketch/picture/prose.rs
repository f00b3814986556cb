//! Sentences across the picture: the title, the notes, the words of the legend.
use super::layout::MARGIN;
use super::mark::{CHARACTER, LETTERS};
use super::svg::{Svg, Type};
use super::words::wrap;

/// How many characters of this size fit into this width.
pub fn room(size: i32, width: i32) -> usize {
    let character = size * CHARACTER / LETTERS + 1;
    (width / character).max(1) as usize
}

/// Text from `at` on, in as many lines as it needs in this width; says where it ends.
pub fn write(svg: &mut Svg, text: &str, letters: Type, (x, top): (i32, i32), width: i32) -> i32 {
    let (lines, pitch) = (wrap(text, room(letters.size, width)), letters.size + 4);
    for (place, line) in lines.iter().enumerate() {
        svg.text((x, top + letters.size + 1 + pitch * place as i32), letters, line);
    }
    top + pitch * lines.len() as i32
}

/// Text across the whole picture; says where it ends.
pub fn paragraph(svg: &mut Svg, text: &str, letters: Type, width: i32, top: i32) -> i32 {
    write(svg, text, letters, (MARGIN, top), width - 2 * MARGIN)
}

//! The letters that name the panels of an image, 5 pixels wide and 7 high.

use super::image::{Colour, Image};

const WIDTH: usize = 5;
const HEIGHT: usize = 7;

/// Each letter's rows from the top; the high bit is its left pixel.
const LETTERS: [(char, [u8; HEIGHT]); 11] = [
    ('a', [0b00000, 0b00000, 0b01110, 0b00001, 0b01111, 0b10001, 0b01111]),
    ('b', [0b10000, 0b10000, 0b11110, 0b10001, 0b10001, 0b10001, 0b11110]),
    ('c', [0b00000, 0b00000, 0b01110, 0b10001, 0b10000, 0b10001, 0b01110]),
    ('d', [0b00001, 0b00001, 0b01111, 0b10001, 0b10001, 0b10001, 0b01111]),
    ('e', [0b00000, 0b00000, 0b01110, 0b10001, 0b11111, 0b10000, 0b01110]),
    ('f', [0b00110, 0b01001, 0b01000, 0b11100, 0b01000, 0b01000, 0b01000]),
    ('i', [0b00100, 0b00000, 0b01100, 0b00100, 0b00100, 0b00100, 0b01110]),
    ('n', [0b00000, 0b00000, 0b10110, 0b11001, 0b10001, 0b10001, 0b10001]),
    ('o', [0b00000, 0b00000, 0b01110, 0b10001, 0b10001, 0b10001, 0b01110]),
    ('r', [0b00000, 0b00000, 0b10110, 0b11001, 0b10000, 0b10000, 0b10000]),
    ('t', [0b01000, 0b01000, 0b11100, 0b01000, 0b01000, 0b01001, 0b00110]),
];

/// The word as an image, a column of paper after each letter. A letter that is not among these stays blank.
pub fn written(word: &str, ink: Colour, paper: Colour) -> Image {
    let rows = |letter: char| LETTERS.iter().find(|(known, _)| *known == letter).map_or([0; HEIGHT], |(_, rows)| *rows);
    let letters: Vec<[u8; HEIGHT]> = word.chars().map(rows).collect();
    let width = letters.len() * (WIDTH + 1);
    let pixel = |place: usize| {
        let (x, y) = (place % width, place / width);
        let bits = letters[x / (WIDTH + 1)][y] << 1;
        if bits >> (WIDTH - x % (WIDTH + 1)) & 1 == 1 { ink } else { paper }
    };
    Image::new(width, (0..width * HEIGHT).map(pixel).collect())
}

#[cfg(test)]
mod tests {
    use super::*;

    #[test]
    fn a_word_is_drawn() {
        let rows = [
            "..#....#....",
            ".......#....",
            ".##...###...",
            "..#....#....",
            "..#....#....",
            "..#....#..#.",
            ".###....##..",
        ];
        let (ink, paper) = (*b"###", *b"...");
        let pixels: String = rows.concat().chars().flat_map(|pixel| [pixel; 3]).collect();
        assert_eq!(written("it", ink, paper).to_ppm(), format!("P6\n12 7\n255\n{pixels}").into_bytes());
    }

    #[test]
    fn the_panels_have_their_letters() {
        let known = |letter: char| LETTERS.iter().any(|(known, _)| *known == letter);
        assert!(["before", "after", "difference"].concat().chars().all(known));
    }
}

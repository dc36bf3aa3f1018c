//! One image in which the filter's effect is seen: before, after and difference side by side, and below each of them
//! the same detail, enlarged.
//!
//! The detail is the square in which luma changed most. Its samples are shown as squares, and its place is outlined in
//! the images above. Of a large picture these leave samples out, so that all is seen at a glance.

use super::filter::Planes;
use super::image::{Colour, Image, Part};
use super::letters;
use std::cmp::Reverse;

/// The side of the detail in luma samples; a smaller picture is its own detail.
const SIDE: usize = 48;
/// How many pixels wide and high a sample of the detail is.
const TIMES: usize = 8;
/// The most pixels that the images above it are wide or high.
const LARGEST: usize = 640;
/// The detail begins at a multiple of this many samples, of which every picture's sides are multiples.
const CELL: usize = 8;

const MARGIN: usize = 12;
const PAPER: Colour = [32; 3];
const INK: Colour = [240; 3];
const OUTLINE: Colour = [255, 224, 0];

/// The image of a picture's planes before and after, the difference amplified.
pub fn compared(planes: &Planes, amplify: u8) -> Image {
    let detail = most_changed(planes);
    let columns = [
        column("before", &planes.image_before(), &detail),
        column("after", &planes.image_after(), &detail),
        column("difference", &planes.image_of_difference(amplify), &detail),
    ];
    beside(&columns)
}

/// An image under its name, and under it its detail.
fn column(name: &str, image: &Image, detail: &Part) -> Image {
    let name = letters::written(name, INK, PAPER).enlarged(2);
    let step = image.width().max(image.height()).div_ceil(LARGEST);
    let mut overview = image.thinned(step);
    if (detail.width, detail.height) != (image.width(), image.height()) {
        let [width, height] = [detail.width, detail.height].map(|length| (length / step).max(1));
        overview.outline(&Part { x: detail.x / step, y: detail.y / step, width, height }, OUTLINE);
    }
    below(&[name, overview, image.part(detail).enlarged(TIMES)])
}

/// The images from left to right, with a margin around each.
fn beside(images: &[Image]) -> Image {
    let width: usize = images.iter().map(|image| image.width() + MARGIN).sum();
    let height = images.iter().map(Image::height).max().unwrap_or(0);
    let mut all = Image::plain(MARGIN + width, height + 2 * MARGIN, PAPER);
    let mut x = MARGIN;
    for image in images {
        all.put(image, x, MARGIN);
        x += image.width() + MARGIN;
    }
    all
}

/// The images from top to bottom, each in the middle, with a margin between them.
fn below(images: &[Image]) -> Image {
    let width = images.iter().map(Image::width).max().unwrap_or(0);
    let height: usize = images.iter().map(|image| image.height() + MARGIN).sum();
    let mut all = Image::plain(width, height.saturating_sub(MARGIN), PAPER);
    let mut y = 0;
    for image in images {
        all.put(image, (width - image.width()) / 2, y);
        y += image.height() + MARGIN;
    }
    all
}

/// The detail: of the squares that begin with a cell, the first in which luma changed most.
fn most_changed(planes: &Planes) -> Part {
    let ([width, ..], [height, ..]) = (planes.sizes.width, planes.sizes.height);
    let changes = changes(width, planes.before[0], planes.after[0]);
    let (columns, rows) = (width / CELL, height / CELL);
    let (across, down) = (columns.min(SIDE / CELL), rows.min(SIDE / CELL));
    let change = |(x, y): &(usize, usize)| -> u64 {
        (*y..y + down).flat_map(|row| &changes[row * columns + x..][..across]).sum()
    };
    let squares = (0..=rows - down).flat_map(|y| (0..=columns - across).map(move |x| (x, y)));
    let (x, y) = squares.min_by_key(|square| Reverse(change(square))).unwrap_or_default();
    Part { x: x * CELL, y: y * CELL, width: across * CELL, height: down * CELL }
}

/// How much luma changed in each cell: the sum of its samples' changes, whatever their signs.
fn changes(width: usize, before: &[u16], after: &[u16]) -> Vec<u64> {
    let mut cells = vec![0; before.len() / (CELL * CELL)];
    for (place, (before, after)) in before.iter().zip(after).enumerate() {
        let (column, row) = (place % width / CELL, place / width / CELL);
        cells[row * (width / CELL) + column] += u64::from(before.abs_diff(*after));
    }
    cells
}

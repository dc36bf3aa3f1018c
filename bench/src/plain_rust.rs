//! The filter of one block as a plain loop in safe Rust.

use crate::course::Layout;
use std::iter::zip;
use steamgusset::{Block, Offsets};

/// The step from a sample to its second neighbour, across and down, by class. The first neighbour lies opposite.
const STEPS: [(isize, isize); 4] = [(1, 0), (0, 1), (1, 1), (-1, 1)];

/// Filters one block from a plane into another.
pub fn filter(layout: Layout, set: Offsets, block: Block, plane: &[u16], out: &mut [u16]) {
    match set {
        Offsets::Off => copy(layout, block, plane, out),
        Offsets::Band { position, offsets } => band(layout, position, offsets, block, plane, out),
        Offsets::Edge { class, offsets } => edge(layout, class, offsets, block, plane, out),
    }
}

fn scaled(depth: u32, offsets: [i8; 4]) -> [i32; 4] {
    offsets.map(|offset| i32::from(offset) << (depth - depth.min(10)))
}

fn top(depth: u32) -> i32 {
    (1 << depth) - 1
}

fn copy(layout: Layout, block: Block, plane: &[u16], out: &mut [u16]) {
    for y in block.y0..block.y1 {
        let row = y * layout.width + block.x0..y * layout.width + block.x1;
        out[row.clone()].copy_from_slice(&plane[row]);
    }
}

fn band(layout: Layout, position: u8, offsets: [i8; 4], block: Block, plane: &[u16], out: &mut [u16]) {
    let mut table = [0; 32];
    for (k, offset) in scaled(layout.depth, offsets).into_iter().enumerate() {
        table[(usize::from(position) + k) % 32] = offset;
    }
    let top = top(layout.depth);
    for y in block.y0..block.y1 {
        let row = y * layout.width + block.x0..y * layout.width + block.x1;
        for (out, &sample) in zip(&mut out[row.clone()], &plane[row]) {
            let offset = table[usize::from(sample >> (layout.depth - 5)) % 32];
            *out = (i32::from(sample) + offset).clamp(0, top) as u16;
        }
    }
}

/// Samples with a neighbour outside the picture stay as they are.
fn edge(layout: Layout, class: u8, offsets: [i8; 4], block: Block, plane: &[u16], out: &mut [u16]) {
    let (across, down) = STEPS[usize::from(class)];
    let [a, b, c, d] = scaled(layout.depth, offsets);
    let by_sum = [a, b, 0, c, d];
    let inner = inner(layout, block, across != 0);
    for y in block.y0..block.y1 {
        copy(layout, Block { y0: y, y1: y + 1, ..block }, plane, out);
        if down != 0 && (y == 0 || y + 1 == layout.height) {
            continue;
        }
        let start = y * layout.width + inner.x0;
        let (before, after) = (
            start as isize - (down * layout.width as isize + across),
            start as isize + down * layout.width as isize + across,
        );
        let part = |from: usize| &plane[from..from + inner.width()];
        let neighbours = zip(part(before as usize), part(after as usize));
        for ((out, &sample), (&first, &second)) in
            zip(zip(&mut out[start..start + inner.width()], part(start)), neighbours)
        {
            let sum = sign(sample, first) + sign(sample, second);
            *out = (i32::from(sample) + by_sum[(2 + sum) as usize % 5]).clamp(0, top(layout.depth)) as u16;
        }
    }
}

/// The columns of a block that are at no side of the picture, where that matters.
fn inner(layout: Layout, block: Block, matters: bool) -> Block {
    let left = usize::from(matters && block.x0 == 0);
    let right = usize::from(matters && block.x1 == layout.width);
    Block { x0: block.x0 + left, x1: block.x1 - right, ..block }
}

fn sign(sample: u16, neighbour: u16) -> i32 {
    i32::from(sample > neighbour) - i32::from(sample < neighbour)
}

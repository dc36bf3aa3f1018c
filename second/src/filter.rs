//! The filter: H.265 8.7.3 for the whole picture at once.
//!
//! Method: every sample of the filtered plane is a function of the deblocked plane and the set of its CTU, written with
//! H.265's own names and formulas (SaoOffsetVal, bandTable, edgeIdx) over `i64`. No block order, no state.

use crate::picture::Picture;
use crate::sets::{ComponentSet, CtuSet};

/// hPos and vPos, Table 8-13: per class the two neighbours, as (x, y) steps.
pub const NEIGHBOURS: [[(i64, i64); 2]; 4] =
    [[(-1, 0), (1, 0)], [(0, -1), (0, 1)], [(-1, -1), (1, 1)], [(1, -1), (-1, 1)]];

/// One component's deblocked samples, by place.
#[derive(Clone, Copy)]
pub struct Plane<'a> {
    pub samples: &'a [u16],
    pub width: usize,
}

impl Plane<'_> {
    /// The sample at a place; nothing outside the picture.
    fn at(&self, x: i64, y: i64) -> Option<i64> {
        let (x, y) = (usize::try_from(x).ok()?, usize::try_from(y).ok()?);
        let inside = x < self.width;
        inside.then(|| self.samples.get(y * self.width + x).map(|&sample| i64::from(sample)))?
    }
}

/// SaoOffsetVal: 0, and the four offsets multiplied by 2^(depth - min(depth, 10)).
fn sao_offset_val(depth: u8, offsets: [i8; 4]) -> [i64; 5] {
    let scale = 1i64 << (depth - depth.min(10));
    let [a, b, c, d] = offsets.map(|offset| i64::from(offset) * scale);
    [0, a, b, c, d]
}

/// bandTable: the index into SaoOffsetVal of each of the 32 bands.
fn band_table(position: u8) -> [usize; 32] {
    let mut table = [0; 32];
    for k in 0..4 {
        table[(k + usize::from(position)) % 32] = k + 1;
    }
    table
}

/// edgeIdx: 2 and the signs of the sample against its two neighbours, renumbered; 0 where one lies outside.
fn edge_idx(plane: &Plane, class: u8, x: i64, y: i64) -> usize {
    let sign_against = |(dx, dy): (i64, i64)| Some((plane.at(x, y)? - plane.at(x + dx, y + dy)?).signum());
    let [first, second] = NEIGHBOURS[usize::from(class)];
    let (Some(a), Some(b)) = (sign_against(first), sign_against(second)) else {
        return 0;
    };
    match (2 + a + b) as usize {
        2 => 0,
        idx @ (0 | 1) => idx + 1,
        idx => idx,
    }
}

/// The filtered sample at a place inside the picture, under a component's set within the rules.
pub fn filtered_sample(depth: u8, set: &ComponentSet, plane: &Plane, x: usize, y: usize) -> u16 {
    let sample = i64::from(plane.samples[y * plane.width + x]);
    let offset = match *set {
        ComponentSet::Off => 0,
        ComponentSet::Band { position, offsets } => {
            let band = (sample >> (depth - 5)) as usize;
            sao_offset_val(depth, offsets)[band_table(position)[band]]
        }
        ComponentSet::Edge { class, offsets } => {
            sao_offset_val(depth, offsets)[edge_idx(plane, class, x as i64, y as i64)]
        }
    };
    (sample + offset).clamp(0, (1 << depth) - 1) as u16
}

/// The filtered planes of a whole picture: `sets` has one set within the rules per CTU, `deblocked` samples within
/// each component's depth; an absent plane is empty.
pub fn filter_picture(picture: &Picture, sets: &[CtuSet], deblocked: [&[u16]; 3]) -> [Vec<u16>; 3] {
    std::array::from_fn(|component| filter_plane(picture, sets, component, deblocked[component]))
}

fn filter_plane(picture: &Picture, sets: &[CtuSet], component: usize, samples: &[u16]) -> Vec<u16> {
    let width = picture.plane_width(component);
    let plane = Plane { samples, width };
    let filtered = |place: usize| {
        let (x, y) = (place % width, place / width);
        let set = sets[picture.ctb_at(component, x, y)].components()[component];
        filtered_sample(picture.depth(component), &set, &plane, x, y)
    };
    (0..samples.len()).map(filtered).collect()
}

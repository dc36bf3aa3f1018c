//! The picture's description, its rules and its geometry.
//!
//! Method: every size is counted from the picture in luma samples and a component's two divisors. Everything but
//! [`Picture::breaks_a_rule`] is meant for a description that keeps the rules; the reasons see to it that reason 1 is
//! asked first.

/// The description. Plain numbers, so that a wrong one can be handed in and refused.
#[derive(Clone, Copy, Debug, PartialEq, Eq)]
pub struct Picture {
    pub width: u32,
    pub height: u32,
    /// CTB size in luma samples.
    pub ctb: u32,
    /// ChromaArrayType: 0 monochrome, 1 is 4:2:0, 2 is 4:2:2, 3 is 4:4:4.
    pub format: u8,
    /// BitDepthY.
    pub luma_depth: u8,
    /// BitDepthC, of Cb and Cr; in monochrome it equals luma's.
    pub chroma_depth: u8,
    /// The switch that says whether luma is filtered.
    pub luma: bool,
    /// The switch that says whether Cb and Cr are filtered.
    pub chroma: bool,
}

/// The description and the number of the next CTU to be read.
#[derive(Clone, Copy, Debug, PartialEq, Eq)]
pub struct State {
    pub picture: Picture,
    pub next: u32,
}

/// A rectangle of samples: columns `left` up to, and without, `right`, rows `top` up to, and without, `bottom`.
#[derive(Clone, Copy, Debug, PartialEq, Eq)]
pub struct Block {
    pub left: usize,
    pub top: usize,
    pub right: usize,
    pub bottom: usize,
}

impl Block {
    pub fn samples(&self) -> usize {
        (self.right - self.left) * (self.bottom - self.top)
    }

    /// Whether some sample of one is a sample of the other, or lies beside it, above it, below it or across a corner.
    pub fn touches(&self, other: &Block) -> bool {
        let across = self.left <= other.right && other.left <= self.right;
        let down = self.top <= other.bottom && other.top <= self.bottom;
        across && down
    }

    /// Its places (x, y), row after row.
    pub fn places(self) -> impl Iterator<Item = (usize, usize)> {
        (self.top..self.bottom).flat_map(move |y| (self.left..self.right).map(move |x| (x, y)))
    }
}

impl Picture {
    /// The picture of document 01's cases: monochrome, depth 8, luma on.
    pub const MONOCHROME: Picture =
        Picture { width: 8, height: 8, ctb: 16, format: 0, luma_depth: 8, chroma_depth: 8, luma: true, chroma: false };

    /// Every pair of depths, luma's and chroma's, that the rules allow beside chroma planes.
    pub fn pairs_of_depths() -> impl Iterator<Item = [u8; 2]> {
        (8..=16).flat_map(|luma| (8..=16).map(move |chroma| [luma, chroma]))
    }

    /// The picture with this depth of luma and this one of chroma.
    pub const fn at_depths(self, [luma_depth, chroma_depth]: [u8; 2]) -> Picture {
        Picture { luma_depth, chroma_depth, ..self }
    }

    /// Luma's depth and chroma's.
    pub const fn depths(&self) -> [u8; 2] {
        [self.luma_depth, self.chroma_depth]
    }

    /// Reason 1, from which document 02 (K1) takes 4:2:2 and 4:4:4, and to which it adds chroma's depth (K3).
    pub fn breaks_a_rule(&self) -> bool {
        let bad_side = |side: u32| !side.is_multiple_of(8) || !(8..=8192).contains(&side);
        let bad_depth = |depth: u8| !(8..=16).contains(&depth);
        let [luma_depth, chroma_depth] = self.depths();
        bad_side(self.width)
            || bad_side(self.height)
            || ![16, 32, 64].contains(&self.ctb)
            || self.format > 3
            || bad_depth(luma_depth)
            || bad_depth(chroma_depth)
            || (self.format == 0 && (self.chroma || chroma_depth != luma_depth))
    }

    /// How many planes the format has: luma alone, or luma, Cb and Cr.
    pub fn components(&self) -> usize {
        if self.format == 0 { 1 } else { 3 }
    }

    /// By how much a component is narrower and lower than luma: its divisors across and down. Those of chroma are
    /// SubWidthC and SubHeightC of H.265 Table 6-1.
    pub fn divisors(&self, component: usize) -> [usize; 2] {
        match (component, self.format) {
            (0, _) => [1, 1],
            (_, 1) => [2, 2],
            (_, 2) => [2, 1],
            _ => [1, 1],
        }
    }

    pub fn plane_width(&self, component: usize) -> usize {
        let [across, _] = self.divisors(component);
        self.width as usize / across
    }

    pub fn plane_height(&self, component: usize) -> usize {
        let [_, down] = self.divisors(component);
        self.height as usize / down
    }

    /// The samples of a plane; an absent one has none.
    pub fn plane_samples(&self, component: usize) -> usize {
        if component >= self.components() {
            return 0;
        }
        self.plane_width(component) * self.plane_height(component)
    }

    /// The width and height of a component's whole CTBs, in its own samples.
    pub fn ctb_sides(&self, component: usize) -> [usize; 2] {
        self.divisors(component).map(|divisor| self.ctb as usize / divisor)
    }

    pub fn columns(&self) -> usize {
        self.width.div_ceil(self.ctb) as usize
    }

    pub fn rows(&self) -> usize {
        self.height.div_ceil(self.ctb) as usize
    }

    /// The CTU count; each component present has as many CTBs.
    pub fn ctus(&self) -> usize {
        self.columns() * self.rows()
    }

    /// The length of the lent marks: one byte per CTB of each component present.
    pub fn marks(&self) -> usize {
        self.ctus() * self.components()
    }

    /// Where a CTB's mark stands: luma, Cb, Cr, each in raster order.
    pub fn mark_place(&self, component: usize, ctb: usize) -> usize {
        component * self.ctus() + ctb
    }

    /// The samples of one CTB, cut short at the picture's right and lower border.
    pub fn block(&self, component: usize, ctb: usize) -> Block {
        let [wide, high] = self.ctb_sides(component);
        let left = ctb % self.columns() * wide;
        let top = ctb / self.columns() * high;
        Block {
            left,
            top,
            right: (left + wide).min(self.plane_width(component)),
            bottom: (top + high).min(self.plane_height(component)),
        }
    }

    /// The samples of one CTB and one sample around it, inside the picture.
    pub fn block_and_around(&self, component: usize, ctb: usize) -> Block {
        let block = self.block(component, ctb);
        Block {
            left: block.left.saturating_sub(1),
            top: block.top.saturating_sub(1),
            right: (block.right + 1).min(self.plane_width(component)),
            bottom: (block.bottom + 1).min(self.plane_height(component)),
        }
    }

    /// The number of the CTB that a sample lies in.
    pub fn ctb_at(&self, component: usize, x: usize, y: usize) -> usize {
        let [wide, high] = self.ctb_sides(component);
        y / high * self.columns() + x / wide
    }

    pub fn left_of(&self, ctu: usize) -> Option<usize> {
        (!ctu.is_multiple_of(self.columns())).then(|| ctu - 1)
    }

    pub fn above(&self, ctu: usize) -> Option<usize> {
        ctu.checked_sub(self.columns())
    }

    /// All CTBs of a component in raster order: its plane cut every CTB width across and every CTB height down, from the
    /// upper left corner on.
    pub fn ctbs(&self, component: usize) -> impl Iterator<Item = Block> + use<> {
        let [wide, high] = self.ctb_sides(component);
        let (width, height) = (self.plane_width(component), self.plane_height(component));
        let cut = move |left: usize, top: usize| Block {
            left,
            top,
            right: (left + wide).min(width),
            bottom: (top + high).min(height),
        };
        (0..height).step_by(high).flat_map(move |top| (0..width).step_by(wide).map(move |left| cut(left, top)))
    }

    /// The CTB itself and its neighbours, up to eight: of all CTBs of the picture those that touch it.
    pub fn ctb_and_neighbours(&self, ctb: usize) -> Vec<usize> {
        let own = self.block(0, ctb);
        let all = self.ctbs(0).enumerate();
        all.filter(|(_, other)| own.touches(other)).map(|(number, _)| number).collect()
    }

    /// A component's own depth: BitDepthY for luma, BitDepthC for Cb and Cr.
    pub fn depth(&self, component: usize) -> u8 {
        if component == 0 { self.luma_depth } else { self.chroma_depth }
    }

    /// A component's largest sample, 2^depth - 1.
    pub fn largest_sample(&self, component: usize) -> u16 {
        u16::MAX >> (16 - self.depth(component))
    }

    /// M, a component's largest magnitude: 2^(min(depth, 10) - 5) - 1.
    pub fn largest_magnitude(&self, component: usize) -> u8 {
        (1 << (self.depth(component).min(10) - 5)) - 1
    }

    /// Whether a component is filtered at all.
    pub fn switch(&self, component: usize) -> bool {
        if component == 0 { self.luma } else { self.chroma }
    }

    /// With both switches off a CTU has no bins.
    pub fn has_bins(&self) -> bool {
        self.luma || self.chroma
    }
}

#[cfg(test)]
mod tests {
    use super::*;

    /// Three columns and two rows, the last of each cut short to half and to 8 samples.
    const SIX: Picture = Picture { width: 40, height: 24, format: 1, chroma: true, ..Picture::MONOCHROME };

    #[test]
    fn the_planes_are_cut_into_the_blocks() {
        for (format, component) in (1..=3).flat_map(|format| (0..3).map(move |component| (format, component))) {
            let picture = Picture { format, ..SIX };
            let blocks: Vec<Block> = (0..6).map(|ctb| picture.block(component, ctb)).collect();
            assert_eq!(picture.ctbs(component).collect::<Vec<_>>(), blocks);
            assert_eq!(blocks.iter().map(Block::samples).sum::<usize>(), picture.plane_samples(component));
            let places = blocks.iter().enumerate().flat_map(|(ctb, block)| block.places().map(move |at| (ctb, at)));
            for (ctb, (x, y)) in places {
                assert_eq!(picture.ctb_at(component, x, y), ctb);
            }
        }
    }

    /// Document 02: half width and full height in 4:2:2, as luma in 4:4:4; in 4:2:0, by document 01, half of both.
    #[test]
    fn chroma_has_its_width_and_its_height() {
        let four = |format| Picture { width: 24, height: 24, format, ..SIX };
        let whole_and_cut = [
            (1, [12, 12], [[8, 8], [4, 8], [8, 4], [4, 4]]),
            (2, [12, 24], [[8, 16], [4, 16], [8, 8], [4, 8]]),
            (3, [24, 24], [[16, 16], [8, 16], [16, 8], [8, 8]]),
        ];
        for (format, plane, ctbs) in whole_and_cut {
            let picture = four(format);
            let sides = |block: Block| [block.right - block.left, block.bottom - block.top];
            for component in [1, 2] {
                assert_eq!([picture.plane_width(component), picture.plane_height(component)], plane);
                assert_eq!(picture.ctbs(component).map(sides).collect::<Vec<_>>(), ctbs);
                assert_eq!(picture.plane_samples(component), plane[0] * plane[1]);
            }
            assert_eq!([picture.plane_width(0), picture.plane_height(0)], [24, 24]);
            assert_eq!((picture.ctus(), picture.marks()), (4, 12));
        }
        let monochrome = four(0);
        assert_eq!([0, 1, 2].map(|component| monochrome.plane_samples(component)), [576, 0, 0]);
        assert_eq!((monochrome.ctus(), monochrome.marks()), (4, 4));
    }

    #[test]
    fn neighbours_touch() {
        assert_eq!(SIX.ctb_and_neighbours(0), [0, 1, 3, 4]);
        assert_eq!(SIX.ctb_and_neighbours(4), [0, 1, 2, 3, 4, 5]);
        assert_eq!(SIX.ctb_and_neighbours(5), [1, 2, 4, 5]);
        let nine = Picture { width: 48, height: 72, ctb: 16, ..SIX };
        assert_eq!(nine.ctb_and_neighbours(4), [0, 1, 2, 3, 4, 5, 6, 7, 8]);
        assert_eq!(nine.ctb_and_neighbours(8), [4, 5, 7, 8, 10, 11]);
        assert_eq!(Picture { width: 8, height: 8, ..SIX }.ctb_and_neighbours(0), [0]);
    }
}

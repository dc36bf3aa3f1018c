//! Blocks filtered, one to a record.
//!
//! Method: a record names its plane, its block, its set and which of the eight blocks around are barred, and eight bytes
//! from which both programs make the same deblocked samples, so that none has to be stored. Depths, types, classes and
//! manners of samples are gone through in all combinations, and so are shapes of blocks, classes and single bars. Whether
//! a sample is compared with what is barred is asked of each sample by itself, by the side that its neighbour lies on.

use crate::filter::{NEIGHBOURS, Plane, filtered_sample};
use crate::generate;
use crate::picture::{Block, Picture};
use crate::random::Random;
use crate::sets::{ComponentSet, CtuSet};
use crate::table;

/// How many of the first records have their samples printed.
const SHOWN: usize = 48;

/// How often the combinations are gone through.
const TIMES: usize = 9;

/// The samples that the proved program has room for in a plane.
pub const PLANE: usize = 130 * 130;

/// Widths and heights of blocks: CTBs of each size, those of half width, those that the picture's border cuts off, and the
/// thinnest.
pub const SHAPES: [(usize, usize); 12] =
    [(64, 64), (32, 32), (16, 16), (32, 64), (16, 32), (8, 16), (16, 8), (1, 24), (24, 1), (2, 3), (64, 2), (1, 1)];

/// The bits that bar the blocks around, by rows: northwest, north, northeast, then west and east, then the three below.
const BARS: [[u8; 3]; 3] = [[1, 2, 4], [8, 0, 16], [32, 64, 128]];

/// How the samples of a plane are drawn: the number is the manner's in a record.
#[derive(Clone, Copy, Debug, PartialEq, Eq)]
pub enum Manner {
    /// The eight bytes, over and over.
    Bytes = 0,
    Noise = 1,
    FewLevels = 2,
    Flat = 3,
    Extreme = 4,
    Alternating = 5,
}

const MANNERS: [Manner; 6] =
    [Manner::Noise, Manner::FewLevels, Manner::Flat, Manner::Extreme, Manner::Alternating, Manner::Bytes];

/// A block of a plane to be filtered.
#[derive(Clone, Copy, Debug, PartialEq, Eq)]
pub struct Record {
    pub width: usize,
    pub height: usize,
    pub depth: u8,
    pub block: Block,
    pub set: ComponentSet,
    /// The blocks around that are barred, a bit of [`BARS`] each.
    pub bars: u8,
    pub manner: Manner,
    pub source: [u8; 8],
    pub shown: bool,
}

/// Marsaglia's xorshift of 32 bits, by 13, 17 and 5.
fn next(mut x: u32) -> u32 {
    x ^= x << 13;
    x ^= x >> 17;
    x ^ (x << 5)
}

/// 0 before a block, 1 within it, 2 after it.
fn side(at: i64, first: usize, end: usize) -> usize {
    usize::from(at >= first as i64) + usize::from(at >= end as i64)
}

impl Record {
    /// Its bytes, as crates/blocks describes them.
    pub fn bytes(&self) -> [u8; 24] {
        let Block { left, right, top, bottom } = self.block;
        let [x0, x1, y0, y1] = [left, right, top, bottom].map(|side| side as u8);
        let [kind, place, a, b, c, d] = self.six();
        let [s0, s1, s2, s3, s4, s5, s6, s7] = self.source;
        let (width, height, manner) = (self.width as u8, self.height as u8, self.manner as u8);
        let shown = self.shown.into();
        [
            width, height, self.depth, manner, x0, x1, y0, y1, kind, place, a, b, c, d, shown, self.bars, s0, s1, s2,
            s3, s4, s5, s6, s7,
        ]
    }

    /// The set as a component's six bytes of the table.
    fn six(&self) -> [u8; 6] {
        let entry = table::encode(&CtuSet::of_luma(self.set));
        std::array::from_fn(|place| entry[place])
    }

    /// The deblocked samples, made from the eight bytes.
    pub fn deblocked(&self) -> Vec<u16> {
        let [s0, s1, s2, s3, s4, s5, s6, _] = self.source;
        let level = u16::from_le_bytes([s4, s5]);
        let period = usize::from(s6) + 1;
        let mut x = u32::from_le_bytes([s0, s1, s2, s3]);
        let sample = |place: usize| {
            x = next(x);
            let drawn = match self.manner {
                Manner::Bytes => self.source[place % 8].into(),
                Manner::Noise => x,
                Manner::FewLevels => u32::from(level) + x % 3,
                Manner::Flat => level.into(),
                Manner::Extreme => [0, u32::from(u16::MAX)][x as usize % 2],
                Manner::Alternating => [level, !level][place / period % 2].into(),
            };
            (drawn & ((1 << self.depth) - 1)) as u16
        };
        (0..self.width * self.height).map(sample).collect()
    }

    /// The filtered plane; outside the block it is as it was, all ones.
    pub fn filtered(&self) -> Vec<u16> {
        let samples = &self.deblocked();
        let plane = Plane { samples, width: self.width };
        let mut filtered = vec![u16::MAX; samples.len()];
        for (x, y) in self.block.places() {
            // Category 0 changes nothing, and neither does off.
            let set = if self.compares_barred(x, y) { ComponentSet::Off } else { self.set };
            filtered[y * self.width + x] = filtered_sample(self.depth, &set, &plane, x, y);
        }
        filtered
    }

    /// Whether a sample of the block would be compared with one of a barred block.
    fn compares_barred(&self, x: usize, y: usize) -> bool {
        let ComponentSet::Edge { class, .. } = self.set else {
            return false;
        };
        NEIGHBOURS[usize::from(class)].iter().any(|(dx, dy)| self.is_barred(x as i64 + dx, y as i64 + dy))
    }

    /// Whether a place lies in a barred block.
    fn is_barred(&self, x: i64, y: i64) -> bool {
        let Block { left, right, top, bottom } = self.block;
        self.bars & BARS[side(y, top, bottom)][side(x, left, right)] != 0
    }

    /// The line that it must give: two sums, and where asked for the samples.
    pub fn answer(&self) -> String {
        let filtered = self.filtered();
        let sum = filtered.iter().fold(0, |sum: u32, &sample| sum.wrapping_add(sample.into()));
        let second = filtered.iter().fold(1, |sum, &sample| next(sum ^ u32::from(sample)));
        let shown = if self.shown { &filtered[..] } else { &[] };
        let samples: String = shown.iter().map(|sample| format!(" {sample}")).collect();
        format!("{sum:08x} {second:08x}{samples}")
    }
}

// The records.

pub fn records() -> Vec<Record> {
    let mut random = Random::new(2);
    let mut combinations = combinations();
    random.shuffle(&mut combinations);
    let mut records = document();
    for (manner, kind, depth) in combinations {
        let shown = records.len() < SHOWN;
        records.push(any_block(&mut random, manner, kind, depth, shown));
    }
    records.extend(SHAPES.iter().flat_map(|&shape| barred(&mut random, shape)));
    records
}

/// Every manner of samples with every kind of set and every depth, several times.
fn combinations() -> Vec<(Manner, u8, u8)> {
    let kinds = (0..TIMES).flat_map(|_| MANNERS).flat_map(|manner| (0..8).map(move |kind| (manner, kind)));
    kinds.flat_map(|(manner, kind)| (8..=16).map(move |depth| (manner, kind, depth))).collect()
}

/// Document 01's cases 6, 7 and 8: a row of eight samples of depth 8.
fn document() -> Vec<Record> {
    let band = |position, offsets| ComponentSet::Band { position, offsets };
    let row = |set, source| Record {
        width: 8,
        height: 1,
        depth: 8,
        block: Block { left: 0, top: 0, right: 8, bottom: 1 },
        set,
        bars: 0,
        manner: Manner::Bytes,
        source,
        shown: true,
    };
    vec![
        row(band(30, [0, -3, 0, 1]), [240, 248, 7, 8, 16, 0, 0, 0]),
        row(ComponentSet::Edge { class: 0, offsets: [2, 1, -1, -2] }, [5, 3, 5, 5, 6, 6, 4, 4]),
        row(band(31, [7, 0, 0, 0]), [250; 8]),
        row(band(0, [-7, 0, 0, 0]), [2; 8]),
    ]
}

/// A plane and a block in it.
struct Placed {
    width: usize,
    height: usize,
    block: Block,
}

/// Some block, of a plane of at most 16x8 where its samples are printed; sometimes with blocks around it barred.
fn any_block(random: &mut Random, manner: Manner, kind: u8, depth: u8, shown: bool) -> Record {
    let placed = match (shown, random.below(2)) {
        (true, _) => some_ctb(random, 16, 8),
        (_, 0) => some_ctb(random, 128, 128),
        _ => {
            let shape = random.pick(&SHAPES);
            within(random, shape, &[0, 0, 1, 5])
        }
    };
    let set = any_set(random, largest_magnitude(depth), kind);
    let bars = any_bars(random);
    record(random, placed, depth, set, bars, manner, shown)
}

fn record(
    random: &mut Random,
    placed: Placed,
    depth: u8,
    set: ComponentSet,
    bars: u8,
    manner: Manner,
    shown: bool,
) -> Record {
    let Placed { width, height, block } = placed;
    Record { width, height, depth, block, set, bars, manner, source: any_source(random, width), shown }
}

/// A block has one component: what holds of luma's depth holds of its own.
fn largest_magnitude(depth: u8) -> u8 {
    Picture { luma_depth: depth, ..Picture::MONOCHROME }.largest_magnitude(0)
}

/// Some CTB of some picture, whose luma is at most so wide and high.
fn some_ctb(random: &mut Random, wide: usize, high: usize) -> Placed {
    let mut side = |most: usize| 8 * (1 + random.below(most / 8) as u32);
    let (width, height) = (side(wide), side(high));
    let (ctb, format) = (random.pick(&[16, 16, 32, 64]), random.pick(&[0, 1, 2, 3]));
    let picture = Picture { width, height, ctb, format, chroma: format != 0, ..Picture::MONOCHROME };
    let component = random.below(picture.components());
    Placed {
        width: picture.plane_width(component),
        height: picture.plane_height(component),
        block: picture.block(component, random.below(picture.ctus())),
    }
}

/// A block of this shape in a plane, with one of these margins on each side.
fn within(random: &mut Random, (wide, high): (usize, usize), margins: &[usize]) -> Placed {
    let [left, top, right, bottom] = std::array::from_fn(|_| random.pick(margins));
    let block = Block { left, top, right: left + wide, bottom: top + high };
    Placed { width: block.right + right, height: block.bottom + bottom, block }
}

/// Most often none or a single one.
fn any_bars(random: &mut Random) -> u8 {
    let single = 1 << random.below(8);
    let any = random.number() as u8;
    random.pick(&[0, 0, 0, single, single, any])
}

/// Blocks of this shape with plane on all sides, by every class: each block around barred alone, none, all, and some.
fn barred(random: &mut Random, shape: (usize, usize)) -> Vec<Record> {
    let some: [u8; 4] = std::array::from_fn(|_| random.number() as u8);
    let bars: Vec<u8> = (0..8).map(|place| 1 << place).chain([0, u8::MAX]).chain(some).collect();
    let of_class = |class: u8| bars.iter().map(move |&bars| (class, bars));
    (0..4).flat_map(of_class).map(|(class, bars)| edge_barred(random, shape, class, bars)).collect()
}

/// Samples that differ from most of their neighbours, and offsets that move every category.
fn edge_barred(random: &mut Random, shape: (usize, usize), class: u8, bars: u8) -> Record {
    let placed = within(random, shape, &[1, 1, 2, 33]);
    let depth = 8 + random.below(9) as u8;
    let manner = random.pick(&[Manner::Noise, Manner::FewLevels, Manner::Bytes]);
    let set = ComponentSet::Edge { class, offsets: [3, 2, -1, -4] };
    record(random, placed, depth, set, bars, manner, false)
}

/// Off, three bands, and an edge of each class; one time in eight with any offsets at all.
fn any_set(random: &mut Random, largest: u8, kind: u8) -> ComponentSet {
    let set = match kind {
        0 => generate::component(random, largest, 0, 0),
        1..=3 => generate::component(random, largest, 1, 0),
        _ => generate::component(random, largest, 2, kind - 4),
    };
    if !random.once_in(8) {
        return set;
    }
    let offsets = std::array::from_fn(|_| random.number() as i8);
    match set {
        ComponentSet::Off => set,
        ComponentSet::Band { position, .. } => ComponentSet::Band { position, offsets },
        ComponentSet::Edge { class, .. } => ComponentSet::Edge { class, offsets },
    }
}

/// Any number to begin with, a level that is often the least or the largest, and a period that is often short or a row.
fn any_source(random: &mut Random, width: usize) -> [u8; 8] {
    let mut source = random.number().to_le_bytes();
    let any = u16::from_le_bytes([source[4], source[5]]);
    let level = random.pick(&[0, u16::MAX, any, any, any]);
    [source[4], source[5]] = level.to_le_bytes();
    source[6] = random.pick(&[0, 1, 2, width as u8 - 1, width as u8, source[6]]);
    source
}

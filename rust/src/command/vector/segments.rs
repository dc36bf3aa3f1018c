//! The tiles and slice segments of a vector file, judged by what H.265 says of their addresses.
//!
//! Method: a CTB's place in decoding order is four numbers, compared one after another. So segments begin at rising
//! places, and a CTB lies in the last one that begins no later.

use super::super::header::{Header, SEGMENT_BYTES, array, numbers, outside};

/// A CTB's place in decoding order: its tile's row and column, its own row and column (6.5.1).
type Place = [usize; 4];

/// The tile boundaries in CTBs.
pub struct Tiles {
    columns: Vec<i32>,
    rows: Vec<i32>,
    /// CTB columns of the picture.
    width: usize,
}

impl Tiles {
    pub fn parse(bytes: &[u8], header: &Header) -> Result<Tiles, String> {
        let mut columns: Vec<i32> = numbers(bytes).collect();
        let rows = columns.split_off(header.tiles[0] + 1);
        divide(&columns, header.columns, "column")?;
        divide(&rows, header.rows, "row")?;
        Ok(Tiles { columns, rows, width: header.columns })
    }

    fn place(&self, ctb: usize) -> Place {
        let (row, column) = (ctb / self.width, ctb % self.width);
        let tile = |bounds: &[i32], at: usize| bounds.partition_point(|bound| *bound as usize <= at);
        [tile(&self.rows, row), tile(&self.columns, column), row, column]
    }
}

/// Judges the boundaries of tile columns or rows: from 0, rising, to the last CTB.
fn divide(bounds: &[i32], last: usize, which: &str) -> Result<(), String> {
    let ends = bounds.first() == Some(&0) && bounds.last() == Some(&(last as i32));
    if ends && bounds.is_sorted_by(|one, next| one < next) {
        Ok(())
    } else {
        Err(format!("the tile {which} boundaries do not rise from 0 to {last}"))
    }
}

/// The slice segments, as far as a rule here needs them.
pub struct Segments {
    /// Where each begins.
    starts: Vec<Place>,
    pub slices: usize,
    /// slice_sao_luma_flag and slice_sao_chroma_flag of each.
    flags: Vec<[bool; 2]>,
}

/// The names of a segment's six numbers.
const NAMES: [&str; 6] = [
    "slice_segment_address",
    "SliceAddrRs",
    "dependent_slice_segment_flag",
    "slice_sao_luma_flag",
    "slice_sao_chroma_flag",
    "slice_loop_filter_across_slices_enabled_flag",
];

impl Segments {
    /// The segments of so many CTBs, with the SAO flags that are sent; one that is not is 0.
    pub fn parse(bytes: &[u8], tiles: &Tiles, ctbs: usize, sent: [bool; 2]) -> Result<Segments, String> {
        let last_ctb = ctbs as i32 - 1;
        let mut all: Vec<[i32; 6]> = Vec::new();
        let mut starts: Vec<Place> = Vec::new();
        for (number, bytes) in bytes.chunks_exact(SEGMENT_BYTES).enumerate() {
            let segment = array(bytes);
            judge(&segment, all.last(), last_ctb, sent).map_err(|why| format!("slice segment {number} has {why}"))?;
            let start = tiles.place(segment[0] as usize);
            if starts.last().is_some_and(|before| *before >= start) {
                return Err(format!("slice segment {number} begins no later than the one before it"));
            }
            all.push(segment);
            starts.push(start);
        }
        let slices = all.iter().filter(|segment| segment[2] == 0).count();
        let flags = all.iter().map(|segment| [segment[3] == 1, segment[4] == 1]).collect();
        Ok(Segments { starts, slices, flags })
    }

    /// The two SAO flags of a segment.
    pub fn flags(&self, segment: usize) -> [bool; 2] {
        self.flags[segment]
    }

    /// The number of the segment that a CTB lies in.
    pub fn holding(&self, ctb: usize, tiles: &Tiles) -> usize {
        let place = tiles.place(ctb);
        // The first one begins at CTB 0, which no place is before.
        self.starts.partition_point(|start| *start <= place) - 1
    }
}

/// Judges a segment's numbers one after another (7.4.7.1). A dependent one has the slice address and the flags of the one
/// before it; the first is independent and begins at CTB 0.
fn judge(segment: &[i32; 6], before: Option<&[i32; 6]>, last_ctb: i32, sent: [bool; 2]) -> Result<(), String> {
    let [address, _, dependent, ..] = *segment;
    let slice = if dependent == 1 { before } else { None };
    let exactly = |number: i32| [number, number];
    let flag = |place: usize, sent: bool| slice.map_or([0, i32::from(sent)], |slice| exactly(slice[place]));
    let limits = [
        before.map_or([0, 0], |_| [0, last_ctb]),
        exactly(slice.map_or(address, |slice| slice[1])),
        before.map_or([0, 0], |_| [0, 1]),
        flag(3, sent[0]),
        flag(4, sent[1]),
        flag(5, true),
    ];
    for ((name, number), [least, most]) in NAMES.iter().zip(segment).zip(limits) {
        outside(*number, least, most).map_or(Ok(()), |how| Err(format!("{name} {number}, {how}")))?;
    }
    Ok(())
}

#[cfg(test)]
mod tests {
    use super::{Segments, Tiles};

    /// Segments of one slice that begin at these CTBs of a picture of five columns and four rows, with a boundary between
    /// tiles at column 2.
    fn tiled(starts: &[usize]) -> Result<(Tiles, Segments), String> {
        let tiles = Tiles { columns: vec![0, 2, 5], rows: vec![0, 4], width: 5 };
        let segment = |start: &usize| [*start as i32, 0, i32::from(*start > 0), 1, 1, 0];
        let bytes: Vec<u8> = starts.iter().flat_map(segment).flat_map(i32::to_le_bytes).collect();
        let segments = Segments::parse(&bytes, &tiles, 20, [true; 2])?;
        Ok((tiles, segments))
    }

    #[test]
    fn segments_follow_each_other_tile_after_tile() {
        // In raster order CTB 2 comes before CTB 5, but its tile comes after.
        let Ok((tiles, segments)) = tiled(&[0, 5, 2]) else { panic!("they are in order") };
        let held = [0, 0, 2, 2, 2, 1, 1, 2, 2, 2, 1, 1, 2, 2, 2, 1, 1, 2, 2, 2];
        assert_eq!((0..20).map(|ctb| segments.holding(ctb, &tiles)).collect::<Vec<_>>(), held);
        let swapped = tiled(&[0, 2, 5]).err();
        assert_eq!(swapped.as_deref(), Some("slice segment 2 begins no later than the one before it"));
    }
}

//! The header of a vector file: a mark and 32 numbers, each within its limits, that agree with each other.

use std::fmt::Arguments;
use steamgusset::ChromaFormat;

const MARK: &[u8; 8] = b"SAOVEC1\0";

/// How many bytes the header has.
pub const HEADER_BYTES: usize = MARK.len() + 4 * FIELDS.len();

/// How many bytes a slice segment has.
pub const SEGMENT_BYTES: usize = 24;

/// A number of the header: its name in the format and its limits, as far as they depend on no other number.
struct Field {
    name: &'static str,
    least: i32,
    most: i32,
}

const fn field(name: &'static str, least: i32, most: i32) -> Field {
    Field { name, least, most }
}

const RESERVED: Field = field("reserved", 0, 0);

/// A side of 65528, which 4096 CTBs of size 16 hold, is beyond every level of the standard.
const FIELDS: [Field; 32] = [
    field("width", 8, 65528),
    field("height", 8, 65528),
    field("chroma_format_idc", 0, 3),
    field("BitDepthY", 8, 16),
    field("BitDepthC", 8, 16),
    field("CtbLog2SizeY", 4, 6),
    field("MinCbLog2SizeY", 3, 6),
    field("CTB columns", 1, 4096),
    field("CTB rows", 1, 4096),
    field("log2_sao_offset_scale_luma", 0, 6),
    field("log2_sao_offset_scale_chroma", 0, 6),
    field("pcm_loop_filter_disabled_flag", 0, 1),
    field("loop_filter_across_tiles_enabled_flag", 0, 1),
    field("tile columns", 1, 4096),
    field("tile rows", 1, 4096),
    field("slice segments", 1, 4096 * 4096),
    field("picture count", i32::MIN, i32::MAX),
    field("picture count", i32::MIN, i32::MAX),
    field("cropping", 0, 0),
    field("cropping", 0, 0),
    field("cropping", 0, 0),
    field("cropping", 0, 0),
    field("sample_adaptive_offset_enabled_flag", 0, 1),
    field("OR of the skip map", 0, 3),
    field("ChromaArrayType", 0, 3),
    RESERVED,
    RESERVED,
    RESERVED,
    RESERVED,
    RESERVED,
    RESERVED,
    RESERVED,
];

type Numbers = [i32; FIELDS.len()];

/// The header's numbers that a rule here needs. Each is within its limits, so their products are too.
pub struct Header {
    pub width: usize,
    pub height: usize,
    /// The format in which the planes are coded, ChromaArrayType: planes of 4:4:4 that are coded apart are monochrome.
    pub format: ChromaFormat,
    /// Luma and chroma. Where there is no chroma, BitDepthC says nothing, and luma's stands for it.
    pub depths: [u8; 2],
    pub ctb_log2: u32,
    pub min_cb_log2: u32,
    pub columns: usize,
    pub rows: usize,
    /// log2_sao_offset_scale of luma and chroma.
    pub scales: [u8; 2],
    pub pcm_loop_filter_disabled: bool,
    /// Columns and rows.
    pub tiles: [usize; 2],
    pub segments: usize,
    sao_enabled: bool,
    /// The OR of the skip map.
    pub skip: u8,
}

impl Header {
    /// The header of a file that begins with these bytes, which are fewer than a header's only if the file ends there.
    pub fn parse(bytes: &[u8]) -> Result<Header, String> {
        let rest = bytes.strip_prefix(MARK).ok_or("the file does not begin with the mark SAOVEC1")?;
        if bytes.len() < HEADER_BYTES {
            return Err(format!("the file ends within its header, after {} of {HEADER_BYTES} bytes", bytes.len()));
        }
        let numbers = array(rest);
        for (place, field) in FIELDS.iter().enumerate() {
            outside(numbers[place], field.least, field.most).map_or(Ok(()), |how| Err(bad(&numbers, place, &how)))?;
        }
        agree(&numbers)?;
        let two = |place: usize| [numbers[place] as u8, numbers[place + 1] as u8];
        let format = ChromaFormat::ALL[numbers[24] as usize];
        Ok(Header {
            width: numbers[0] as usize,
            height: numbers[1] as usize,
            format,
            depths: if format == ChromaFormat::Monochrome { [numbers[3] as u8; 2] } else { two(3) },
            ctb_log2: numbers[5] as u32,
            min_cb_log2: numbers[6] as u32,
            columns: numbers[7] as usize,
            rows: numbers[8] as usize,
            scales: two(9),
            pcm_loop_filter_disabled: numbers[11] == 1,
            tiles: [numbers[13] as usize, numbers[14] as usize],
            segments: numbers[15] as usize,
            sao_enabled: numbers[22] == 1,
            skip: numbers[23] as u8,
        })
    }

    pub fn planes(&self) -> usize {
        if self.format == ChromaFormat::Monochrome { 1 } else { 3 }
    }

    /// Whether slices send their SAO flags for luma and for chroma (7.3.6.1).
    pub fn flags_sent(&self) -> [bool; 2] {
        [self.sao_enabled, self.sao_enabled && self.planes() == 3]
    }

    pub fn plane_samples(&self, component: usize) -> usize {
        let [across, down] = match (component, self.format) {
            (0, _) | (_, ChromaFormat::Monochrome | ChromaFormat::Chroma444) => [1, 1],
            (_, ChromaFormat::Chroma422) => [2, 1],
            (_, ChromaFormat::Chroma420) => [2, 2],
        };
        if component < self.planes() { (self.width / across) * (self.height / down) } else { 0 }
    }

    pub fn ctu_bytes(&self) -> usize {
        4 + 8 * self.planes()
    }

    /// How many bytes the parts after the header have: tile boundaries, slice segments, CTUs, skip map, deblocked planes,
    /// final planes.
    pub fn parts(&self) -> [usize; 6] {
        let samples: usize = (0..3).map(|component| self.plane_samples(component)).sum();
        [
            4 * (self.tiles[0] + 1 + self.tiles[1] + 1),
            SEGMENT_BYTES * self.segments,
            self.ctu_bytes() * self.columns * self.rows,
            (self.width >> self.min_cb_log2) * (self.height >> self.min_cb_log2),
            2 * samples,
            2 * samples,
        ]
    }
}

/// Judges the numbers, each within its own limits, by each other.
fn agree(numbers: &Numbers) -> Result<(), String> {
    let [width, height, format, luma_depth, chroma_depth, ctb_log2, min_cb_log2, columns, rows, ..] = *numbers;
    let ctbs = |side: i32| (side + (1 << ctb_log2) - 1) >> ctb_log2;
    let exactly = |place: usize, number: i32, why: Arguments| limited(numbers, place, number, number, why);
    let up_to = |place: usize, most: i32, why: Arguments| limited(numbers, place, FIELDS[place].least, most, why);
    // The range of the October 2014 edition, the first to send the scale.
    let largest_scale = |depth: i32| (depth - 10).max(0);

    up_to(6, ctb_log2, format_args!("CtbLog2SizeY {ctb_log2}"))?;
    multiple(numbers, 0, min_cb_log2)?;
    multiple(numbers, 1, min_cb_log2)?;
    exactly(7, ctbs(width), format_args!("width {width}, CtbLog2SizeY {ctb_log2}"))?;
    exactly(8, ctbs(height), format_args!("height {height}, CtbLog2SizeY {ctb_log2}"))?;
    up_to(9, largest_scale(luma_depth), format_args!("BitDepthY {luma_depth}"))?;
    up_to(10, largest_scale(chroma_depth), format_args!("BitDepthC {chroma_depth}"))?;
    up_to(13, columns, format_args!("CTB columns {columns}"))?;
    up_to(14, rows, format_args!("CTB rows {rows}"))?;
    // A segment has a CTB at least.
    up_to(15, columns * rows, format_args!("CTB columns {columns}, CTB rows {rows}"))?;
    match (format, numbers[24]) {
        // 4:4:4 may have its planes coded apart, each as if it were monochrome.
        (3, 0 | 3) => Ok(()),
        (3, _) => Err(bad(numbers, 24, "neither 0 nor 3 (chroma_format_idc 3)")),
        _ => exactly(24, format, format_args!("chroma_format_idc {format}")),
    }
}

/// Judges a number by two limits, and says which other numbers give them.
fn limited(numbers: &Numbers, place: usize, least: i32, most: i32, why: Arguments) -> Result<(), String> {
    outside(numbers[place], least, most).map_or(Ok(()), |how| Err(format!("{} ({why})", bad(numbers, place, &how))))
}

/// Judges a side of the picture: it has whole smallest coding blocks.
fn multiple(numbers: &Numbers, place: usize, min_cb_log2: i32) -> Result<(), String> {
    let unit = 1 << min_cb_log2;
    let how = format!("no multiple of {unit} (MinCbLog2SizeY {min_cb_log2})");
    if numbers[place] % unit == 0 { Ok(()) } else { Err(bad(numbers, place, &how)) }
}

fn bad(numbers: &Numbers, place: usize, how: &str) -> String {
    format!("header field {place}, {}, is {}, {how}", FIELDS[place].name, numbers[place])
}

/// How a number misses its limits, if it does.
pub fn outside(number: i32, least: i32, most: i32) -> Option<String> {
    match (least..=most).contains(&number) {
        true => None,
        false if least == most => Some(format!("not {least}")),
        false => Some(format!("outside {least} to {most}")),
    }
}

/// So many numbers of the bytes, which have no fewer.
pub fn array<const N: usize>(bytes: &[u8]) -> [i32; N] {
    let mut array = [0; N];
    array.iter_mut().zip(numbers(bytes)).for_each(|(own, number)| *own = number);
    array
}

/// The little-endian numbers of four bytes each.
pub fn numbers(bytes: &[u8]) -> impl Iterator<Item = i32> {
    bytes.as_chunks().0.iter().map(|four| i32::from_le_bytes(*four))
}

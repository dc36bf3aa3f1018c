//! The vector files: real pictures before and after sample adaptive offset.
//!
//! Method: the bytes are read part after part as the format lists them, each part checked against what the parts before
//! it say. A damaged file gives a sentence, never a panic; nothing is made that the file has no bytes for, and nothing is
//! read after the byte that shows a file to go on too long, nor after a header whose picture is not covered. Covered is
//! what document 01 speaks of, and what document 02 adds to it: formats (K1) and a depth of chroma's own (K3).

use crate::picture::Picture;
use crate::sets::{ComponentSet, CtuSet};
use std::fmt;
use std::io::{self, Read};

const MAGIC: &[u8; 8] = b"SAOVEC1\0";
const FIELDS: usize = 32;

/// Document 01's largest width and height.
const LARGEST_SIDE: usize = 8192;

/// Why there is no vector.
#[derive(Debug)]
pub enum Fault {
    CannotBeRead(io::Error),
    Damaged(String),
}

impl fmt::Display for Fault {
    fn fmt(&self, out: &mut fmt::Formatter) -> fmt::Result {
        match self {
            Fault::CannotBeRead(why) => write!(out, "the file cannot be read: {why}"),
            Fault::Damaged(why) => out.write_str(why),
        }
    }
}

impl From<io::Error> for Fault {
    fn from(why: io::Error) -> Fault {
        Fault::CannotBeRead(why)
    }
}

impl From<String> for Fault {
    fn from(why: String) -> Fault {
        Fault::Damaged(why)
    }
}

/// The header's 32 numbers, by what they say. Those that no rule here needs stay in `fields`.
#[derive(Clone, Debug, PartialEq, Eq)]
pub struct Header {
    pub fields: [i32; FIELDS],
    pub width: usize,
    pub height: usize,
    pub chroma_format_idc: u8,
    pub luma_depth: u8,
    pub chroma_depth: u8,
    pub ctb_log2: u32,
    pub min_cb_log2: u32,
    pub columns: usize,
    pub rows: usize,
    /// log2_sao_offset_scale of luma and chroma.
    pub luma_scale: u8,
    pub chroma_scale: u8,
    pub pcm_loop_filter_disabled: bool,
    pub tile_columns: usize,
    pub tile_rows: usize,
    pub segments: usize,
    pub sao_enabled: bool,
    /// ChromaArrayType: chroma_format_idc, but 0 where the three planes of 4:4:4 are coded apart.
    pub chroma_array_type: u8,
}

/// A slice segment's six numbers.
#[derive(Clone, Copy, Debug, PartialEq, Eq)]
pub struct Segment {
    pub address: usize,
    pub slice_address: usize,
    pub dependent: bool,
    pub luma: bool,
    pub chroma: bool,
    pub across: bool,
}

#[derive(Clone, Debug, PartialEq, Eq)]
pub struct Vector {
    pub header: Header,
    /// Tile boundaries in CTBs, columns and rows.
    pub tiles: [Vec<usize>; 2],
    pub segments: Vec<Segment>,
    /// Per CTU in raster order: its slice segment and its set as the file says it, merges resolved.
    pub ctus: Vec<(usize, CtuSet)>,
    /// Per smallest coding block: bit 0 pcm_flag, bit 1 cu_transquant_bypass_flag.
    pub skip: Vec<u8>,
    pub deblocked: [Vec<u16>; 3],
    pub filtered: [Vec<u16>; 3],
}

impl Vector {
    /// The vector of a file, or why its picture is not covered. Where the header shows that, the rest stays unread, and the
    /// file is judged by its length alone, if that is known.
    pub fn covered(file: &mut dyn Read, length: Option<u64>) -> Result<Result<Vector, String>, Fault> {
        let header = Header::read(file)?;
        let right = header.file_bytes();
        match (header.not_covered(), length.filter(|has| *has != right)) {
            (None, _) => {
                let vector = Vector::read(header, file)?;
                Ok(vector.not_covered().map_or(Ok(vector), Err))
            }
            (Some(why), None) => Ok(Err(why)),
            (Some(_), Some(has)) => {
                Err(Fault::Damaged(format!("the file has {has} bytes, where its header announces {right}")))
            }
        }
    }

    /// The vector of a whole file's bytes.
    pub fn parse(mut bytes: &[u8]) -> Result<Vector, String> {
        let header = Header::read(&mut bytes);
        header.and_then(|header| Vector::read(header, &mut bytes)).map_err(|fault| fault.to_string())
    }

    /// The vector of what follows its header.
    pub fn read(header: Header, file: &mut dyn Read) -> Result<Vector, Fault> {
        let mut rest = Rest(file);
        let tiles = [
            boundaries(&mut rest, header.tile_columns, header.columns, "column")?,
            boundaries(&mut rest, header.tile_rows, header.rows, "row")?,
        ];
        let last_ctb = header.columns * header.rows - 1;
        let segments = rest.list(header.segments, |rest| Segment::read(rest, last_ctb))?;
        let ctus = rest.list(header.columns * header.rows, |rest| ctu(rest, &header))?;
        let blocks = |samples: usize| samples >> header.min_cb_log2;
        let skip = rest.take(blocks(header.width) * blocks(header.height), "skip map")?;
        let deblocked = planes(&mut rest, &header, "deblocked planes")?;
        let filtered = planes(&mut rest, &header, "final planes")?;
        rest.ends()?;
        let vector = Vector { header, tiles, segments, ctus, skip, deblocked, filtered };
        vector.slices_hold_the_segments()?;
        vector.segments_hold_the_ctus()?;
        vector.flags_rule_the_sets()?;
        vector.skip_map_is_announced()?;
        Ok(vector)
    }

    /// 7.4.7.1: an independent segment begins its slice; a dependent one goes on with the slice, and the flags, of the one
    /// before it.
    fn slices_hold_the_segments(&self) -> Result<(), String> {
        let mut before: Option<Segment> = None;
        for (number, segment) in self.segments.iter().enumerate() {
            let Segment { address, slice_address, dependent, .. } = *segment;
            let goes_on = |before: Segment| *segment == Segment { address, dependent, ..before };
            if dependent && !before.is_some_and(goes_on) {
                return Err(format!("slice segment {number} is dependent, but goes on with no slice before it"));
            }
            if !dependent && slice_address != address {
                return Err(format!("slice segment {number} begins a slice at CTB {address}, not at {slice_address}"));
            }
            before = Some(*segment);
        }
        Ok(())
    }

    /// Walks the CTBs as they are decoded. A segment begins where its address is met, and every CTB says the segment that
    /// began last; so segments out of order are never met.
    fn segments_hold_the_ctus(&self) -> Result<(), String> {
        let mut begun = 0;
        for ctb in self.decoding_order() {
            begun += usize::from(self.segments.get(begun).is_some_and(|next| next.address == ctb));
            let said = self.ctus[ctb].0;
            if said + 1 != begun {
                return Err(format!("CTB {ctb} says slice segment {said}, where {begun} have begun"));
            }
        }
        match self.segments.get(begun) {
            None => Ok(()),
            Some(Segment { address, .. }) => {
                Err(format!("slice segment {begun} begins at CTB {address}, out of order"))
            }
        }
    }

    /// 7.3.6.1: a flag that is not sent is 0. 7.4.9.3: so is the type of a component whose flag is 0.
    fn flags_rule_the_sets(&self) -> Result<(), String> {
        let (enabled, chroma) = (self.header.sao_enabled, self.header.planes() == 3);
        for (number, segment) in self.segments.iter().enumerate() {
            if (segment.luma && !enabled) || (segment.chroma && !(enabled && chroma)) {
                return Err(format!("slice segment {number} has a flag for sample adaptive offset that is not sent"));
            }
        }
        for (ctb, (segment, set)) in self.ctus.iter().enumerate() {
            let Segment { luma, chroma, .. } = self.segments[*segment];
            let off = |(flag, component): (bool, ComponentSet)| !flag && component != ComponentSet::Off;
            if [luma, chroma, chroma].into_iter().zip(set.components()).any(off) {
                return Err(format!("CTB {ctb} has a set for a component that its slice leaves off"));
            }
        }
        Ok(())
    }

    /// 6.5.1: the CTBs' numbers, tile after tile.
    fn decoding_order(&self) -> Vec<usize> {
        let [columns, rows] = &self.tiles;
        let mut order = Vec::new();
        for down in rows.windows(2) {
            for across in columns.windows(2) {
                let row = |y: usize| (across[0]..across[1]).map(move |x| y * self.header.columns + x);
                order.extend((down[0]..down[1]).flat_map(row));
            }
        }
        order
    }

    fn skip_map_is_announced(&self) -> Result<(), String> {
        let (all, said) = (self.skip.iter().fold(0, |all, bits| all | bits), self.header.fields[23]);
        if i32::from(all) == said {
            Ok(())
        } else {
            Err(format!("the OR of the skip map is {all}, announced as {said}"))
        }
    }

    /// Why such a picture is not covered, or nothing if it is. The header says all but one thing.
    pub fn not_covered(&self) -> Option<String> {
        let first = self.segments[0].slice_address;
        let several_slices = self.segments.iter().any(|segment| segment.slice_address != first);
        self.header.not_covered().or_else(|| several_slices.then(|| "it has several slices".to_string()))
    }

    /// Whether such a picture is covered: of any format and depths, above 10 bits scaled by the 2013 rule, one slice, one
    /// tile and no kept sample.
    pub fn is_covered(&self) -> bool {
        self.not_covered().is_none()
    }

    /// The description of a picture that is covered: its one slice's flags are the two switches. By 7.4.3.2 a plane that
    /// is coded apart from the other two is decoded as a monochrome picture, and described as one. Without chroma the
    /// file's depth of it says nothing, and luma's stands in its place.
    pub fn picture(&self) -> Picture {
        let header = &self.header;
        let slice = &self.segments[0];
        Picture {
            width: header.width as u32,
            height: header.height as u32,
            ctb: 1 << header.ctb_log2,
            format: header.chroma_array_type,
            luma_depth: header.luma_depth,
            chroma_depth: if header.planes() == 3 { header.chroma_depth } else { header.luma_depth },
            luma: slice.luma,
            chroma: slice.chroma,
        }
    }

    /// The sets of the CTUs.
    pub fn sets(&self) -> Vec<CtuSet> {
        self.ctus.iter().map(|(_, set)| *set).collect()
    }
}

impl Header {
    /// The mark and the header that a file begins with.
    pub fn read(file: &mut dyn Read) -> Result<Header, Fault> {
        let mut rest = Rest(file);
        if &rest.array::<8>("mark SAOVEC1")? != MAGIC {
            return Err(Fault::Damaged("the file does not begin with the mark SAOVEC1".into()));
        }
        let mut fields = [0; FIELDS];
        for field in &mut fields {
            *field = rest.number("header")?;
        }
        Ok(Header::of(fields)?)
    }

    fn of(fields: [i32; FIELDS]) -> Result<Header, String> {
        let header = Header {
            fields,
            width: within(fields[0], 8, 65535, "width")?,
            height: within(fields[1], 8, 65535, "height")?,
            chroma_format_idc: within(fields[2], 0, 3, "chroma_format_idc")?,
            luma_depth: within(fields[3], 8, 16, "luma depth")?,
            chroma_depth: within(fields[4], 8, 16, "chroma depth")?,
            ctb_log2: within(fields[5], 4, 6, "logarithm of the CTB size")?,
            min_cb_log2: within(fields[6], 3, fields[5], "logarithm of the smallest coding block size")?,
            columns: within(fields[7], 1, 4096, "number of CTB columns")?,
            rows: within(fields[8], 1, 4096, "number of CTB rows")?,
            luma_scale: within(fields[9], 0, largest_scale(fields[3]), "log2_sao_offset_scale_luma")?,
            chroma_scale: within(fields[10], 0, largest_scale(fields[4]), "log2_sao_offset_scale_chroma")?,
            pcm_loop_filter_disabled: within::<u8>(fields[11], 0, 1, "pcm_loop_filter_disabled_flag")? == 1,
            tile_columns: within(fields[13], 1, fields[7], "number of tile columns")?,
            tile_rows: within(fields[14], 1, fields[8], "number of tile rows")?,
            segments: within(fields[15], 1, fields[7] * fields[8], "number of slice segments")?,
            sao_enabled: within::<u8>(fields[22], 0, 1, "sample_adaptive_offset_enabled_flag")? == 1,
            chroma_array_type: within(fields[24], 0, 3, "ChromaArrayType")?,
        };
        within::<u8>(fields[12], 0, 1, "loop_filter_across_tiles_enabled_flag")?;
        within::<u8>(fields[23], 0, 3, "OR of the skip map")?;
        for place in (18..22).chain(25..FIELDS) {
            within::<u8>(fields[place], 0, 0, &format!("header's number {place}"))?;
        }
        header.agrees_with_itself().map(|()| header)
    }

    fn agrees_with_itself(&self) -> Result<(), String> {
        let (ctb, unit) = (1 << self.ctb_log2, 1 << self.min_cb_log2);
        for (side, ctbs, what) in [(self.width, self.columns, "width"), (self.height, self.rows, "height")] {
            if !side.is_multiple_of(unit) {
                return Err(format!("the {what} is {side}, no multiple of the smallest coding block's {unit}"));
            }
            let right = side.div_ceil(ctb);
            if ctbs != right {
                return Err(format!("a {what} of {side} has {right} CTBs of {ctb}, but the header says {ctbs}"));
            }
        }
        let (format, array) = (self.fields[2], self.fields[24]);
        if array == format || (format, array) == (3, 0) {
            Ok(())
        } else {
            Err(format!("ChromaArrayType is {array}, which chroma_format_idc {format} does not give"))
        }
    }

    /// Why by the header alone the picture is not covered, or nothing.
    pub fn not_covered(&self) -> Option<String> {
        let Header { width, height, .. } = *self;
        let too_large = width > LARGEST_SIDE || height > LARGEST_SIDE;
        let several_tiles = self.tile_columns > 1 || self.tile_rows > 1;
        let reasons = [
            too_large.then(|| format!("its size is {width}x{height}, above {LARGEST_SIDE}")),
            self.scaled_otherwise(),
            several_tiles.then(|| "it has several tiles".to_string()),
            self.keeps_a_sample().then(|| "it has lossless or PCM units that keep their samples".to_string()),
        ];
        reasons.into_iter().flatten().next()
    }

    /// Which component present is sent another scale than the 2013 rule has at its depth, or nothing.
    fn scaled_otherwise(&self) -> Option<String> {
        let Header { luma_depth, chroma_depth, .. } = *self;
        let luma = ("luma", luma_depth, self.luma_scale);
        let chroma = (self.planes() == 3).then_some(("chroma", chroma_depth, self.chroma_scale));
        let depths = match chroma {
            Some(_) if luma_depth != chroma_depth => {
                format!("has luma depth {luma_depth}, chroma depth {chroma_depth} and ")
            }
            _ => String::new(),
        };
        [luma].into_iter().chain(chroma).find_map(|(what, depth, scale)| {
            // Document 01 multiplies the offsets by 2 to this power.
            let shift = depth - depth.min(10);
            (scale != shift)
                .then(|| format!("it {depths}sends scale {scale} for {what}, where the 2013 rule has {shift}"))
        })
    }

    /// Whether a lossless unit, or a PCM unit with its loop filtering disabled, keeps samples from the filter: the header
    /// has the OR of the skip map.
    fn keeps_a_sample(&self) -> bool {
        let kept = if self.pcm_loop_filter_disabled { 3 } else { 2 };
        self.fields[23] & kept != 0
    }

    /// How many planes the file has of each kind.
    pub fn planes(&self) -> usize {
        if self.chroma_array_type == 0 { 1 } else { 3 }
    }

    /// How many bytes the file has by what the header says.
    pub fn file_bytes(&self) -> u64 {
        let planes: usize = (0..3).map(|component| self.plane_samples(component)).sum();
        let tables = 4 * (self.tile_columns + 1 + self.tile_rows + 1) + 24 * self.segments;
        let ctus = (4 + 8 * self.planes()) * self.columns * self.rows;
        let skip = (self.width >> self.min_cb_log2) * (self.height >> self.min_cb_log2);
        (MAGIC.len() + 4 * FIELDS + tables + ctus + skip + 2 * (2 * planes)) as u64
    }

    fn plane_samples(&self, component: usize) -> usize {
        let across = if component > 0 && self.chroma_format_idc < 3 { 2 } else { 1 };
        let down = if component > 0 && self.chroma_format_idc < 2 { 2 } else { 1 };
        if component < self.planes() { (self.width / across) * (self.height / down) } else { 0 }
    }
}

/// The largest scale that a stream may send at a depth, from the October 2014 edition on.
fn largest_scale(depth: i32) -> i32 {
    (depth - 10).max(0)
}

impl Segment {
    fn read(rest: &mut Rest, last_ctb: usize) -> Result<Segment, Fault> {
        let mut number = |most: usize, what: &str| -> Result<usize, Fault> {
            Ok(within(rest.number("slice segments")?, 0, most as i32, what)?)
        };
        Ok(Segment {
            address: number(last_ctb, "slice_segment_address of a slice segment")?,
            slice_address: number(last_ctb, "SliceAddrRs of a slice segment")?,
            dependent: number(1, "dependent flag of a slice segment")? == 1,
            luma: number(1, "slice_sao_luma_flag of a slice segment")? == 1,
            chroma: number(1, "slice_sao_chroma_flag of a slice segment")? == 1,
            across: number(1, "slice_loop_filter_across_slices_enabled_flag of a slice segment")? == 1,
        })
    }
}

/// Tile boundaries: from 0, rising, to the last CTB.
fn boundaries(rest: &mut Rest, tiles: usize, last: usize, which: &str) -> Result<Vec<usize>, Fault> {
    let boundary = |rest: &mut Rest| {
        let number = rest.number("tile boundaries")?;
        Ok(within(number, 0, last as i32, &format!("boundary of a tile {which}"))?)
    };
    let list = rest.list(tiles + 1, boundary)?;
    let rising = list.windows(2).all(|pair| pair[0] < pair[1]);
    if list[0] == 0 && list[tiles] == last && rising {
        Ok(list)
    } else {
        Err(Fault::Damaged(format!("the boundaries of the tile {which}s do not rise from 0 to {last}")))
    }
}

fn ctu(rest: &mut Rest, header: &Header) -> Result<(usize, CtuSet), Fault> {
    let segment = within(rest.number("sets")?, 0, header.segments as i32 - 1, "slice segment of a CTB")?;
    let mut components = [ComponentSet::Off; 3];
    for component in &mut components[..header.planes()] {
        *component = component_set(rest.array("sets")?)?;
    }
    Ok((segment, CtuSet::of(components)))
}

fn component_set(bytes: [u8; 8]) -> Result<ComponentSet, String> {
    let offsets = std::array::from_fn(|n| bytes[4 + n] as i8);
    match (bytes[0], bytes[3]) {
        (0, 0) => Ok(ComponentSet::Off),
        (1, 0) => Ok(ComponentSet::Band { position: bytes[1], offsets }),
        (2, 0) => Ok(ComponentSet::Edge { class: bytes[2], offsets }),
        (other, 0) => Err(format!("a CTB has type {other}, which is none of 0, 1 and 2")),
        (_, other) => Err(format!("a CTB's set has {other} where the format has 0")),
    }
}

fn planes(rest: &mut Rest, header: &Header, part: &str) -> Result<[Vec<u16>; 3], Fault> {
    let mut planes = [const { Vec::new() }; 3];
    for (component, plane) in planes.iter_mut().enumerate() {
        let bytes = rest.take(2 * header.plane_samples(component), part)?;
        *plane = bytes.chunks(2).map(|pair| u16::from_le_bytes([pair[0], pair[1]])).collect();
        let depth = if component == 0 { header.luma_depth } else { header.chroma_depth };
        if let Some(sample) = plane.iter().find(|&&sample| sample > u16::MAX >> (16 - depth)) {
            return Err(Fault::Damaged(format!("the {part} have a sample of {sample}, above depth {depth}")));
        }
    }
    Ok(planes)
}

/// A number of the file between two limits.
fn within<T: TryFrom<i32>>(number: i32, least: i32, most: i32, what: &str) -> Result<T, String> {
    let wrong = || format!("the {what} is {number}, outside {least} to {most}");
    if !(least..=most).contains(&number) {
        return Err(wrong());
    }
    T::try_from(number).map_err(|_| wrong())
}

/// What has not been read yet.
struct Rest<'a>(&'a mut dyn Read);

impl Rest<'_> {
    /// So many bytes. The room grows with what is read: a count that the file cannot hold ends with the file.
    fn take(&mut self, count: usize, part: &str) -> Result<Vec<u8>, Fault> {
        let mut bytes = Vec::new();
        self.0.take(count as u64).read_to_end(&mut bytes)?;
        if bytes.len() < count { Err(ends_within(part)) } else { Ok(bytes) }
    }

    fn array<const N: usize>(&mut self, part: &str) -> Result<[u8; N], Fault> {
        let mut bytes = [0; N];
        match self.0.read_exact(&mut bytes) {
            Err(why) if why.kind() == io::ErrorKind::UnexpectedEof => Err(ends_within(part)),
            Err(why) => Err(why.into()),
            Ok(()) => Ok(bytes),
        }
    }

    fn number(&mut self, part: &str) -> Result<i32, Fault> {
        self.array(part).map(i32::from_le_bytes)
    }

    /// So many of the same, grown one by one.
    fn list<T>(&mut self, count: usize, one: impl Fn(&mut Self) -> Result<T, Fault>) -> Result<Vec<T>, Fault> {
        let mut list = Vec::new();
        for _ in 0..count {
            list.push(one(self)?);
        }
        Ok(list)
    }

    fn ends(&mut self) -> Result<(), Fault> {
        match self.take(1, "") {
            Ok(_) => Err(Fault::Damaged("the file goes on after its final planes".into())),
            Err(Fault::Damaged(_)) => Ok(()),
            Err(fault) => Err(fault),
        }
    }
}

fn ends_within(part: &str) -> Fault {
    Fault::Damaged(format!("the file ends within its {part}"))
}

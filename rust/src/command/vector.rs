//! The vector files: real pictures before and after sample adaptive offset.
//!
//! Method: the header alone says how long every other part is, and most of what the stage does not cover. So it is judged
//! before anything else is read. Then the parts come one after another, each judged before the next is read: a bad file
//! is left at its first bad part, and never later than a byte after what its header announces. The second program has a
//! reader of its own; nothing is shared with it on purpose, since it judges this one.

mod segments;

use super::header::{HEADER_BYTES, Header, numbers, outside};
use super::input::Input;
use super::run::{NAMES, depth_name};
use segments::{Segments, Tiles};
use std::cmp::Ordering;
use std::fmt;
use std::fs::File;
use std::io::{self, Read, Seek};
use steamgusset::{CtuSet, Offsets, Picture};

/// The largest width and height of the stage.
const LARGEST_SIDE: usize = 8192;

/// Why a file gives no picture to put through the stage.
pub enum Unfit {
    CannotBeRead(io::Error),
    Damaged(String),
    /// The picture has something that the stage does not cover yet.
    NotCovered(String),
}

impl fmt::Display for Unfit {
    fn fmt(&self, out: &mut fmt::Formatter) -> fmt::Result {
        match self {
            Unfit::CannotBeRead(why) => write!(out, "the file cannot be read: {why}"),
            Unfit::Damaged(why) => out.write_str(why),
            Unfit::NotCovered(why) => write!(out, "the stage does not cover the picture: {why}"),
        }
    }
}

impl From<io::Error> for Unfit {
    fn from(why: io::Error) -> Unfit {
        Unfit::CannotBeRead(why)
    }
}

impl From<String> for Unfit {
    fn from(why: String) -> Unfit {
        Unfit::Damaged(why)
    }
}

/// A picture that the stage covers.
pub struct Vector {
    header: Header,
    /// The two SAO flags of its slice.
    flags: [bool; 2],
    /// Each CTU's set in raster order, merges resolved.
    pub sets: Vec<CtuSet>,
    pub deblocked: [Vec<u16>; 3],
    pub expected: [Vec<u16>; 3],
}

impl Vector {
    /// The vector of a file. What its header shows not to be covered is said before the rest is read: of such a picture
    /// only the header and, where the system knows it, the length are judged.
    pub fn read(input: &Input) -> Result<Vector, Unfit> {
        let mut file = input.open()?;
        let header = Header::parse(&at_most(&mut file, HEADER_BYTES)?)?;
        let mut rest = Rest { file, read: HEADER_BYTES, all: HEADER_BYTES + header.parts().iter().sum::<usize>() };
        rest.has_its_length()?;
        match not_covered(&header) {
            Some(why) => Err(Unfit::NotCovered(why)),
            None => {
                rest.has_room()?;
                Vector::parse(header, &mut rest)
            }
        }
    }

    /// The vector of what follows the header. Several slices are found only here.
    fn parse(header: Header, rest: &mut Rest) -> Result<Vector, Unfit> {
        let [tiles, segments, ctu, skip, ..] = header.parts();
        let tiles = Tiles::parse(&rest.part(tiles)?, &header)?;
        let (bytes, ctbs) = (rest.part(segments)?, header.columns * header.rows);
        let segments = Segments::parse(&bytes, &tiles, ctbs, header.flags_sent())?;
        let sets = sets(&rest.part(ctu)?, &segments, &tiles, &header)?;
        let skip = rest.part(skip)?.iter().fold(0, |all, bits| all | bits);
        if skip != header.skip {
            return Err(format!("the OR of the skip map is {skip}, but the header says {}", header.skip).into());
        }
        let deblocked = planes(rest, &header, "deblocked")?;
        let expected = planes(rest, &header, "final")?;
        rest.ends()?;
        if segments.slices > 1 {
            return Err(Unfit::NotCovered("it has several slices".into()));
        }
        Ok(Vector { flags: segments.flags(0), sets, deblocked, expected, header })
    }

    /// The picture's description: its slice's flags are the two switches.
    pub fn picture(&self) -> Picture {
        let header = &self.header;
        let [luma, chroma] = self.flags;
        Picture {
            width: header.width as u32,
            height: header.height as u32,
            ctb: 1 << header.ctb_log2,
            format: header.format,
            luma_depth: header.depths[0],
            chroma_depth: header.depths[1],
            luma,
            chroma,
        }
    }
}

/// The next bytes, so many or as many as there are. The room grows with what is read, whatever was announced.
fn at_most(file: &mut File, count: usize) -> io::Result<Vec<u8>> {
    let mut bytes = Vec::new();
    file.take(count as u64).read_to_end(&mut bytes)?;
    Ok(bytes)
}

/// What follows the header.
struct Rest {
    file: File,
    /// How many bytes have been read, and how many there are by the header, which is among them.
    read: usize,
    all: usize,
}

impl Rest {
    /// Judges the length before more is read, where the system knows it.
    fn has_its_length(&mut self) -> Result<(), Unfit> {
        let known = self.file.metadata()?;
        if known.is_file() {
            let left = known.len().saturating_sub(self.file.stream_position()?);
            self.has(self.read + left as usize)?;
        }
        Ok(())
    }

    /// Judges whether there is memory for the picture, before it is read: the planes of the file, those of the stage and
    /// the finished rows are two and a half times the file. Images to look at take more.
    fn has_room(&self) -> io::Result<()> {
        let mut room = Vec::<u8>::new();
        room.try_reserve_exact(3 * self.all)?;
        // Room that nothing uses is not asked for, once the compiler has seen that.
        std::hint::black_box(&room);
        Ok(())
    }

    /// The next bytes, so many.
    fn part(&mut self, count: usize) -> Result<Vec<u8>, Unfit> {
        let bytes = at_most(&mut self.file, count)?;
        self.read += bytes.len();
        if bytes.len() < count {
            self.has(self.read)?;
        }
        Ok(bytes)
    }

    /// Judges that nothing is left; a byte more would show it.
    fn ends(&mut self) -> Result<(), Unfit> {
        let more = at_most(&mut self.file, 1)?.len();
        Ok(self.has(self.read + more)?)
    }

    /// Judges how many bytes the whole file has.
    fn has(&self, bytes: usize) -> Result<(), String> {
        let all = self.all;
        match bytes.cmp(&all) {
            Ordering::Less => Err(format!("the file ends after {bytes} of the {all} bytes that its header announces")),
            Ordering::Equal => Ok(()),
            Ordering::Greater => Err(format!("the file goes on after the {all} bytes that its header announces")),
        }
    }
}

/// What the picture has, by its header, that the stage does not cover yet, or nothing.
fn not_covered(header: &Header) -> Option<String> {
    let Header { width, height, .. } = *header;
    let reasons = [
        (width.max(height) > LARGEST_SIDE, format!("its size is {width}x{height}, above {LARGEST_SIDE}")),
        (other_scale(header), scales(header)),
        (header.tiles != [1, 1], "it has several tiles".into()),
        (header.skip & 2 != 0, "it has lossless units, which keep their samples".into()),
        (
            header.skip & 1 != 0 && header.pcm_loop_filter_disabled,
            "it has PCM units whose loop filtering is disabled".into(),
        ),
    ];
    reasons.into_iter().find_map(|(holds, why)| holds.then_some(why))
}

/// The stage's scales of luma and chroma: the 2013 rule's, by the component's own depth.
fn stage_scales(header: &Header) -> [u8; 2] {
    header.depths.map(|depth| depth.saturating_sub(10))
}

/// Whether a scale is sent that is not the stage's. In monochrome no chroma offset is sent.
fn other_scale(header: &Header) -> bool {
    let mut components = header.scales.iter().zip(stage_scales(header)).take(header.planes());
    components.any(|(sent, stage)| *sent != stage)
}

fn scales(header: &Header) -> String {
    let [luma, chroma] = header.scales;
    let chroma = if header.planes() == 3 { format!(" and {chroma} for chroma") } else { String::new() };
    let stage = match stage_scales(header) {
        [luma, chroma] if luma == chroma => luma.to_string(),
        [luma, chroma] => format!("{luma} and {chroma}"),
    };
    let depth = depth_name(header.depths);
    format!("its offsets are sent with scale {luma} for luma{chroma}; at depth {depth} the stage has {stage}")
}

/// Each CTU's set. It must say the slice segment that it lies in.
fn sets(bytes: &[u8], segments: &Segments, tiles: &Tiles, header: &Header) -> Result<Vec<CtuSet>, String> {
    let mut all = Vec::new();
    for (ctu, bytes) in bytes.chunks_exact(header.ctu_bytes()).enumerate() {
        let (said, components) = bytes.split_at(4);
        let segment = segments.holding(ctu, tiles);
        for said in numbers(said) {
            let wrong = outside(said, segment as i32, segment as i32);
            wrong.map_or(Ok(()), |how| Err(format!("the slice segment of CTU {ctu} is {said}, {how}")))?;
        }
        all.push(set(components, segments.flags(segment)).map_err(|why| format!("CTU {ctu} {why}"))?);
    }
    Ok(all)
}

/// One CTU's set. A component that is absent is off, and so is one whose flag is 0 in the slice (7.4.9.3).
fn set(bytes: &[u8], [luma, chroma]: [bool; 2]) -> Result<CtuSet, String> {
    let mut all = [Offsets::Off; 3];
    let components = NAMES.iter().zip([luma, chroma, chroma]);
    for ((offsets, bytes), (name, flag)) in all.iter_mut().zip(bytes.chunks_exact(8)).zip(components) {
        *offsets = component(bytes)?;
        if *offsets != Offsets::Off && !flag {
            return Err(format!("has type {} in {name}, which its slice leaves off", bytes[0]));
        }
    }
    let [luma, cb, cr] = all;
    Ok(CtuSet { luma, cb, cr })
}

fn component(bytes: &[u8]) -> Result<Offsets, String> {
    let &[kind, position, class, 0, one, two, three, four] = bytes else {
        return Err("has a set whose fourth byte is not 0".into());
    };
    let offsets = [one, two, three, four].map(|byte| byte as i8);
    match kind {
        0 => Ok(Offsets::Off),
        1 => Ok(Offsets::Band { position, offsets }),
        2 => Ok(Offsets::Edge { class, offsets }),
        other => Err(format!("has type {other}, which is none of 0, 1 and 2")),
    }
}

fn planes(rest: &mut Rest, header: &Header, which: &str) -> Result<[Vec<u16>; 3], Unfit> {
    let mut planes = [const { Vec::new() }; 3];
    for (component, plane) in planes.iter_mut().enumerate() {
        let bytes = rest.part(2 * header.plane_samples(component))?;
        *plane = bytes.as_chunks().0.iter().map(|pair| u16::from_le_bytes(*pair)).collect();
        let largest = u16::MAX >> (16 - header.depths[component.min(1)]);
        if let Some(sample) = plane.iter().find(|sample| **sample > largest) {
            return Err(format!("a {which} plane has the sample {sample}, above {largest}").into());
        }
    }
    Ok(planes)
}

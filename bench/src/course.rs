//! A picture with its buffers, through which the stage and the plain loops are sent in turn.

use crate::plane::Plane;
use crate::timing::{Laps, lap, timed};
use crate::{Mistake, plain_c, plain_rust};
use std::hint::black_box;
use std::iter::zip;
use std::mem::{replace, take};
use std::ops::Range;
use steamgusset::{BINS_BYTES, Block, CtuSet, Offsets, Picture, Refusal, Sizes, State, calls};

/// What a plain loop has to know of a plane.
#[derive(Clone, Copy)]
pub struct Layout {
    pub width: usize,
    pub height: usize,
    pub depth: u32,
}

/// One block of one component, and where its samples stand among the packed ones.
#[derive(Clone)]
struct Part {
    component: usize,
    ctb: u32,
    /// The CTB's row of CTBs.
    row: usize,
    block: Block,
    packed: Range<usize>,
}

/// Who filters the picture.
#[derive(Clone, Copy, Debug, PartialEq, Eq)]
pub enum Filter {
    /// The stage's filter call, block by block.
    Stage,
    /// The loop of plain.c, block by block.
    PlainC,
    /// The same after a scan of the samples, as the stage has it.
    CheckedC,
    /// The same loop in safe Rust.
    PlainRust,
    /// memcpy of each block's rows.
    Rows,
    /// memcpy of each plane at once.
    Memcpy,
}

/// When the finished rows of a component are asked for, besides its blocks being filtered.
#[derive(Clone, Copy)]
pub enum Asked {
    Never,
    /// After the last block of a CTB row, which is when they can have grown.
    EachRow,
    /// After every block.
    EachCall,
}

/// A CTU's bins and their number.
#[derive(Clone)]
struct Bins([u8; BINS_BYTES], usize);

pub struct Course {
    /// After the last CTU was written.
    state: State,
    sizes: Sizes,
    sets: Vec<CtuSet>,
    bins: Vec<Bins>,
    /// Luma, Cb and Cr of a CTU follow one another, as a decoder finishes them.
    parts: Vec<Part>,
    /// Random samples within the component's depth, block after block.
    packed: Vec<u16>,
    deblocked: [Plane; 3],
    filtered: [Plane; 3],
    marks: Vec<u8>,
    table: Vec<u8>,
}

impl Course {
    /// Opens a picture, writes its sets, by CTB column and row, and delivers its samples. Planes begin with a cache line,
    /// as decoders allocate them.
    pub fn new(picture: Picture, set_of: impl Fn(usize, usize) -> CtuSet) -> Result<Course, Refusal> {
        Course::at(0, picture, set_of)
    }

    /// The same with planes that begin some bytes after the start of a line.
    pub fn at(
        bytes_after_line: usize,
        picture: Picture,
        set_of: impl Fn(usize, usize) -> CtuSet,
    ) -> Result<Course, Refusal> {
        let sizes = picture.sizes()?;
        let parts = parts(picture, sizes)?;
        let planes = || sizes.samples.map(|length| Plane::new(length, bytes_after_line));
        let packed = random(&picture, &parts);
        let mut course = Course {
            state: picture.state(),
            sizes,
            sets: (0..sizes.ctus).map(|ctu| set_of(ctu % sizes.columns, ctu / sizes.columns)).collect(),
            bins: vec![Bins([0; BINS_BYTES], 0); sizes.ctus],
            parts,
            packed,
            deblocked: planes(),
            filtered: planes(),
            marks: vec![0; sizes.marks],
            table: vec![0; sizes.table],
        };
        course.open()?;
        course.write()?;
        course.deliver()?;
        Ok(course)
    }

    /// Samples of all components.
    pub fn samples(&self) -> usize {
        self.sizes.samples.iter().sum()
    }

    pub fn ctus(&self) -> usize {
        self.sizes.ctus
    }

    pub fn open(&mut self) -> Result<Laps, Refusal> {
        lap(|| calls::open(&mut self.state, &mut self.marks))
    }

    /// Writes every CTU's set.
    pub fn write(&mut self) -> Result<Laps, Refusal> {
        self.state.next = 0;
        lap(|| {
            for (set, bins) in zip(&self.sets, &mut self.bins) {
                bins.1 = calls::write(&mut self.state, set, &mut bins.0, &mut self.table)?;
            }
            Ok(())
        })
    }

    /// Reads every CTU's set from the bins written.
    pub fn read(&mut self) -> Result<Laps, Refusal> {
        self.state.next = 0;
        lap(|| {
            for Bins(bytes, count) in &self.bins {
                black_box(calls::read(&mut self.state, bytes, *count, &mut self.table)?);
            }
            Ok(())
        })
    }

    /// Delivers every block.
    pub fn deliver(&mut self) -> Result<Laps, Refusal> {
        self.marks.fill(0);
        laps(&self.parts, |part| {
            let samples = &self.packed[part.packed.clone()];
            let planes = self.deblocked.each_mut().map(|plane| &mut plane[..]);
            calls::deliver(&self.state, part.component as u32, part.ctb, samples, planes, &mut self.marks)
        })
    }

    /// The same by plain C.
    pub fn deliver_plain(&mut self) -> Result<Laps, Refusal> {
        laps(&self.parts, |part| {
            let (samples, plane) = (&self.packed[part.packed.clone()], &mut self.deblocked[part.component]);
            let taken = plain_c::deliver(layout(&self.sizes, &self.state, part.component), samples, part.block, plane);
            if taken { Ok(()) } else { Err(Refusal::SampleTooLarge) }
        })
    }

    /// Filters every block, or copies the picture.
    pub fn filter(&mut self, by: Filter) -> Result<Laps, Refusal> {
        let laps = match by {
            Filter::Stage => self.by_stage(),
            Filter::PlainC => self.by_loop(plain_c::filter),
            Filter::CheckedC => self.by_loop(plain_c::filter_checked),
            Filter::PlainRust => self.by_loop(plain_rust::filter),
            Filter::Rows => self.by_loop(|layout, _, block, plane, out| plain_c::copy(layout, block, plane, out)),
            Filter::Memcpy => self.by_memcpy(),
        };
        black_box(&self.filtered);
        laps
    }

    fn by_stage(&mut self) -> Result<Laps, Refusal> {
        self.filter_and_ask(Asked::Never)
    }

    /// Filters every block by the stage, and asks for finished rows.
    pub fn filter_and_ask(&mut self, asked: Asked) -> Result<Laps, Refusal> {
        self.marks.fill(1);
        let parts = take(&mut self.parts);
        let laps = laps(&parts, |part| {
            self.filter_part(part)?;
            if self.is_asked(part, asked) { self.finished_rows_of(part.component) } else { Ok(()) }
        });
        self.parts = parts;
        laps
    }

    fn is_asked(&self, part: &Part, asked: Asked) -> bool {
        match asked {
            Asked::Never => false,
            Asked::EachRow => part.block.x1 == self.sizes.width[part.component],
            Asked::EachCall => true,
        }
    }

    fn filter_part(&mut self, part: &Part) -> Result<(), Refusal> {
        let planes = self.deblocked.each_ref().map(|plane| &plane[..]);
        let out = self.filtered.each_mut().map(|plane| &mut plane[..]);
        calls::filter(&self.state, part.component as u32, part.ctb, planes, out, &mut self.marks, &self.table)
    }

    fn by_loop(&mut self, block: impl Fn(Layout, Offsets, Block, &[u16], &mut [u16])) -> Result<Laps, Refusal> {
        laps(&self.parts, |part| {
            let set = component(&self.sets[part.ctb as usize], part.component);
            let (plane, out) = (&self.deblocked[part.component], &mut self.filtered[part.component]);
            block(layout(&self.sizes, &self.state, part.component), set, part.block, plane, out);
            Ok(())
        })
    }

    /// A lap's samples of a plane stand together: all rows of its CTBs from side to side.
    fn by_memcpy(&mut self) -> Result<Laps, Refusal> {
        laps(&self.parts, |part| {
            if part.block.x0 == 0 {
                let width = self.sizes.width[part.component];
                let rows = part.block.y0 * width..part.block.y1 * width;
                self.filtered[part.component][rows.clone()].copy_from_slice(&self.deblocked[part.component][rows]);
            }
            Ok(())
        })
    }

    /// Asks for the finished rows of every component.
    pub fn finished_rows(&self) -> Result<Laps, Refusal> {
        lap(|| {
            let mut present = (0..3).filter(|&component| self.sizes.samples[component] > 0);
            present.try_for_each(|component| self.finished_rows_of(component))
        })
    }

    fn finished_rows_of(&self, component: usize) -> Result<(), Refusal> {
        let planes = self.filtered.each_ref().map(|plane| &plane[..]);
        black_box(calls::finished_rows(&self.state, component as u32, planes, &self.marks)?);
        Ok(())
    }

    /// Whether the plain loops leave what the stage leaves.
    pub fn compare(&mut self) -> Result<(), Mistake> {
        self.clear();
        self.filter(Filter::Stage)?;
        let expected = copies(&self.filtered);
        for by in [Filter::PlainC, Filter::CheckedC, Filter::PlainRust] {
            self.clear();
            self.filter(by)?;
            if copies(&self.filtered) != expected {
                return Err(Mistake::Differs(format!("the filtered samples of {by:?} are not those of the stage")));
            }
        }
        Ok(())
    }

    fn clear(&mut self) {
        self.filtered.iter_mut().for_each(|plane| plane.fill(0));
    }

    /// The scan of a filter call: calls that are refused because the very last sample that they look at is above the
    /// depth. Blocks in every second column and row are asked for, so that no call meets the sample of another.
    pub fn scan(&mut self) -> Result<Scan, Mistake> {
        self.marks.fill(1);
        let parts: Vec<Part> = self.parts.iter().filter(|part| self.is_apart(part.ctb as usize)).cloned().collect();
        let seen = |part: &Part| grown(layout(&self.sizes, &self.state, part.component), part.block);
        let samples = parts.iter().map(|part| seen(part).samples()).sum();
        let last = |part: &Part| (seen(part).y1 - 1) * self.sizes.width[part.component] + seen(part).x1 - 1;
        let places: Vec<(usize, usize)> = parts.iter().map(|part| (part.component, last(part))).collect();
        let within = swapped(&mut self.deblocked, &places, &vec![u16::MAX; places.len()]);
        let laps = laps(&parts, |part| self.refused(part));
        swapped(&mut self.deblocked, &places, &within);
        Ok(Scan { laps: laps?, samples })
    }

    fn is_apart(&self, ctb: usize) -> bool {
        (ctb % self.sizes.columns).is_multiple_of(2) && (ctb / self.sizes.columns).is_multiple_of(2)
    }

    fn refused(&mut self, part: &Part) -> Result<(), Mistake> {
        match self.filter_part(part) {
            Err(Refusal::Stored) => Ok(()),
            _ => Err(Mistake::Differs("a filter call took a sample above the depth".to_string())),
        }
    }
}

/// How long a scan took, and how many samples it saw.
pub struct Scan {
    pub laps: Laps,
    pub samples: usize,
}

/// Does something with each part, a CTB row to a lap.
fn laps<E>(parts: &[Part], mut work: impl FnMut(&Part) -> Result<(), E>) -> Result<Laps, E> {
    let rows = parts.chunk_by(|part, next| part.row == next.row);
    rows.map(|row| timed(|| row.iter().try_for_each(&mut work))).collect()
}

fn copies(planes: &[Plane; 3]) -> [Vec<u16>; 3] {
    planes.each_ref().map(|plane| plane.to_vec())
}

/// Puts samples in their places, and answers those that stood there.
fn swapped(planes: &mut [Plane; 3], places: &[(usize, usize)], samples: &[u16]) -> Vec<u16> {
    zip(places, samples).map(|(&(plane, place), &sample)| replace(&mut planes[plane][place], sample)).collect()
}

fn parts(picture: Picture, sizes: Sizes) -> Result<Vec<Part>, Refusal> {
    let mut parts = Vec::new();
    let mut start = 0;
    for ctb in 0..sizes.ctus as u32 {
        for component in 0..picture.components() {
            let block = picture.block(component, ctb)?;
            let end = start + block.samples();
            parts.push(Part {
                component: component as usize,
                ctb,
                row: ctb as usize / sizes.columns,
                block,
                packed: start..end,
            });
            start = end;
        }
    }
    Ok(parts)
}

/// The block and the samples around it, as far as the picture goes.
fn grown(layout: Layout, block: Block) -> Block {
    Block {
        x0: block.x0.saturating_sub(1),
        x1: (block.x1 + 1).min(layout.width),
        y0: block.y0.saturating_sub(1),
        y1: (block.y1 + 1).min(layout.height),
    }
}

fn layout(sizes: &Sizes, state: &State, component: usize) -> Layout {
    let depth = [state.luma_depth, state.chroma_depth, state.chroma_depth][component];
    Layout { width: sizes.width[component], height: sizes.height[component], depth }
}

fn component(set: &CtuSet, number: usize) -> Offsets {
    [set.luma, set.cb, set.cr][number]
}

/// Random samples of the blocks, each within its component's depth, the same in every run (xorshift).
fn random(picture: &Picture, parts: &[Part]) -> Vec<u16> {
    let mut state = 2_463_534_242u32;
    let mut next = |depth: u8| {
        state ^= state << 13;
        state ^= state >> 17;
        state ^= state << 5;
        (state >> 16) as u16 >> (16 - depth)
    };
    let depths = parts.iter().flat_map(|part| part.packed.clone().map(|_| picture.depth(part.component as u32)));
    depths.map(&mut next).collect()
}

#[cfg(test)]
mod tests {
    use super::*;
    use crate::filter::mixed;
    use steamgusset::ChromaFormat;

    /// Pictures of several blocks, the last ones cut short.
    fn courses() -> impl Iterator<Item = Course> {
        let sizes = [(8, 8), (72, 40), (200, 136)];
        let pictures = [16, 32, 64].into_iter().flat_map(move |ctb| sizes.map(|size| (ctb, size)));
        let kinds = [
            (8, 8, ChromaFormat::Chroma420),
            (10, 8, ChromaFormat::Chroma420),
            (10, 10, ChromaFormat::Chroma422),
            (9, 15, ChromaFormat::Chroma444),
        ];
        pictures.flat_map(move |(ctb, (width, height))| {
            kinds.map(|(luma_depth, chroma_depth, format)| {
                let (luma, chroma) = (true, true);
                let picture = Picture { width, height, ctb, format, luma_depth, chroma_depth, luma, chroma };
                Course::new(picture, mixed).unwrap_or_else(|refusal| panic!("{picture:?} was {refusal}"))
            })
        })
    }

    #[test]
    fn the_plain_loops_leave_what_the_stage_leaves() {
        courses().for_each(|mut course| assert!(course.compare().is_ok()));
    }

    #[test]
    fn a_scan_is_refused_at_its_last_sample_and_leaves_the_planes() {
        for mut course in courses() {
            let before = (copies(&course.deblocked), copies(&course.filtered));
            assert!(course.scan().is_ok());
            assert_eq!((copies(&course.deblocked), copies(&course.filtered)), before);
        }
    }

    #[test]
    fn plain_deliver_takes_what_the_stage_takes() {
        for mut course in courses() {
            let delivered = copies(&course.deblocked);
            course.deblocked.iter_mut().for_each(|plane| plane.fill(0));
            assert!(course.deliver_plain().is_ok());
            assert_eq!(copies(&course.deblocked), delivered);
        }
    }
}

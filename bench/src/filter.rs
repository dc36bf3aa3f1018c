//! The filter call, scan and all, beside plain loops and memcpy.

use crate::course::{Course, Filter};
use crate::table::{Table, number, ratio};
use crate::timing::{Best, Patience, each, race};
use crate::{Done, Mistake};
use std::io::Write;
use std::ops::Range;
use steamgusset::{ChromaFormat, CtuSet, Offsets, Picture};

/// One set for a whole picture, and how many times memcpy's time the filter call may take with it.
struct Kind {
    name: &'static str,
    offsets: Offsets,
    /// Of luma alone: the targets of K2.
    luma: f64,
    /// Of a picture with chroma.
    picture: f64,
    /// Whether plain C has to be slower; if not, the call may take a tenth more.
    faster: bool,
}

/// Within the rules at every depth.
const OFFSETS: [i8; 4] = [5, 2, -3, -7];

const fn edge(name: &'static str, class: u8) -> Kind {
    Kind { name, offsets: Offsets::Edge { class, offsets: OFFSETS }, luma: 3.6, picture: 10.0, faster: false }
}

static KINDS: [Kind; 6] = [
    Kind { name: "off", offsets: Offsets::Off, luma: 1.6, picture: 2.5, faster: true },
    Kind {
        name: "band",
        offsets: Offsets::Band { position: 9, offsets: OFFSETS },
        luma: 2.7,
        picture: 5.0,
        faster: true,
    },
    edge("edge 0", 0),
    edge("edge 1", 1),
    edge("edge 2", 2),
    edge("edge 3", 3),
];

/// Full HD with one depth; chroma is filtered where there is any.
fn picture(ctb: u32, depth: u8, format: ChromaFormat) -> Picture {
    let chroma = format != ChromaFormat::Monochrome;
    Picture { width: 1920, height: 1080, ctb, format, luma_depth: depth, chroma_depth: depth, luma: true, chroma }
}

/// The set of a CTU with chroma if every kind takes its turn. No CTU has the set of its left or upper neighbour.
pub fn mixed(column: usize, row: usize) -> CtuSet {
    everywhere(true, KINDS[(column + 2 * row) % KINDS.len()].offsets)
}

/// The same offsets in every component there is.
pub const fn everywhere(chroma: bool, luma: Offsets) -> CtuSet {
    if chroma { CtuSet { luma, cb: luma, cr: luma } } else { CtuSet { luma, ..CtuSet::OFF } }
}

/// Every depth, for luma alone and for a whole picture, and how the figures stand against the targets.
pub fn depths(patience: Patience, out: &mut dyn Write) -> Done {
    writeln!(out, "Nanoseconds a sample. {EXPLAINED}{}\n", targets_are_for())?;
    for (name, format) in
        [("Luma alone (monochrome)", ChromaFormat::Monochrome), ("A whole picture (4:2:0)", ChromaFormat::Chroma420)]
    {
        let pictures = [8, 10, 16].map(|depth| picture(64, depth, format));
        let table = judged("bits", patience, pictures, |picture| picture.luma_depth.to_string())?;
        writeln!(out, "### {name}\n\n{table}")?;
    }
    Ok(())
}

/// A whole picture in every format that has chroma.
pub fn formats(patience: Patience, out: &mut dyn Write) -> Done {
    writeln!(out, "Nanoseconds a sample of all three planes, at 10 bits. {EXPLAINED}{}\n", targets_are_for())?;
    let formats = [ChromaFormat::Chroma420, ChromaFormat::Chroma422, ChromaFormat::Chroma444];
    let pictures = formats.map(|format| picture(64, 10, format));
    let table = judged("format", patience, pictures, |picture| picture.format.to_string())?;
    writeln!(out, "{table}")?;
    Ok(())
}

/// The lines of each picture, under what names it, and how they stand against the targets.
fn judged<const N: usize>(
    heading: &'static str,
    patience: Patience,
    pictures: [Picture; N],
    name: impl Fn(&Picture) -> String,
) -> Result<Table, Mistake> {
    let mut table = Table::new([heading].into_iter().chain(HEADING).chain(TARGETS));
    for line in measured(patience, pictures.map(|picture| (picture, 0)))? {
        let figures = line.figures();
        table.row([name(&line.picture)].into_iter().chain(figures.cells(line.kind)).chain(line.judged(&figures)));
    }
    Ok(table)
}

/// Every CTB size.
pub fn sizes(patience: Patience, out: &mut dyn Write) -> Done {
    writeln!(out, "Nanoseconds a sample, luma alone (monochrome). {EXPLAINED}\n")?;
    let mut table = Table::new(["block"].into_iter().chain(HEADING));
    for line in measured(patience, [64, 32, 16].map(|ctb| (picture(ctb, 10, ChromaFormat::Monochrome), 0)))? {
        let ctb = line.picture.ctb;
        table.row([format!("{ctb}x{ctb}")].into_iter().chain(line.figures().cells(line.kind)));
    }
    writeln!(out, "{table}")?;
    Ok(())
}

/// Planes that begin within a cache line: 16 bytes after its start, where a large block of malloc begins.
pub fn unaligned(patience: Patience, out: &mut dyn Write) -> Done {
    writeln!(out, "Nanoseconds a sample. Planes begin 16 bytes after the start of a line, as malloc leaves them.\n")?;
    let mut table = Table::new(["picture"].into_iter().chain(HEADING));
    let formats = [ChromaFormat::Monochrome, ChromaFormat::Chroma420];
    for line in measured(patience, formats.map(|format| (picture(64, 10, format), 16)))? {
        let name = if line.picture.chroma { "4:2:0" } else { "luma" };
        table.row([name.to_string()].into_iter().chain(line.figures().cells(line.kind)));
    }
    writeln!(out, "{table}")?;
    Ok(())
}

const EXPLAINED: &str = "Every block has the same set; samples are random; planes begin with a cache line. \"Checked C\" is \
                         plain C after a scan of the block and the samples around it, which is part of every filter call \
                         of the stage. \"Rows\" is memcpy of each block's rows, block after block: what the block order \
                         alone costs. \"Memcpy\" is memcpy of the planes from end to end. The samples that stage, plain C \
                         and plain Rust leave were compared: they are equal.";

fn targets_are_for() -> String {
    let here = std::env::consts::ARCH;
    if here == "x86_64" {
        return String::new();
    }
    format!(" The targets are for x86-64; this machine is {here}, so \"met\" only says how the figures stand.")
}

const HEADING: [&str; 10] = [
    "set",
    "stage",
    "plain C",
    "checked C",
    "plain Rust",
    "rows",
    "memcpy",
    "stage / memcpy",
    "stage / plain C",
    "stage / checked C",
];
const TARGETS: [&str; 4] = ["of memcpy", "met", "of plain C", "met"];

const CONTESTANTS: [Filter; 6] =
    [Filter::Stage, Filter::PlainC, Filter::CheckedC, Filter::PlainRust, Filter::Rows, Filter::Memcpy];

/// A line of a table, while it is measured.
struct Line {
    picture: Picture,
    /// Where its planes begin.
    bytes_after_line: usize,
    kind: &'static Kind,
    samples: usize,
    best: [Best; CONTESTANTS.len()],
}

/// Every kind of set for each picture and place of its planes. The lines take turns.
fn measured(patience: Patience, pictures: impl IntoIterator<Item = (Picture, usize)>) -> Result<Vec<Line>, Mistake> {
    let line = |picture, bytes_after_line, kind| {
        let best = [const { Best::new() }; CONTESTANTS.len()];
        Line { picture, bytes_after_line, kind, samples: 0, best }
    };
    let kinds = |(picture, bytes)| KINDS.iter().map(move |kind| line(picture, bytes, kind));
    let mut lines: Vec<Line> = pictures.into_iter().flat_map(kinds).collect();
    for round in patience.rounds() {
        lines.iter_mut().try_for_each(|line| line.run(round.clone()))?;
    }
    Ok(lines)
}

impl Line {
    fn run(&mut self, repetitions: Range<usize>) -> Done {
        let set = everywhere(self.picture.chroma, self.kind.offsets);
        let mut course = Course::at(self.bytes_after_line, self.picture, |_, _| set)?;
        course.compare()?;
        self.samples = course.samples();
        race(&mut self.best, repetitions, CONTESTANTS, |by| course.filter(by))?;
        Ok(())
    }

    fn figures(&self) -> Figures {
        let times = self.best.each_ref().map(|best| each(best.time(), self.samples));
        let [stage, plain_c, checked_c, plain_rust, rows, memcpy] = times;
        Figures { stage, plain_c, checked_c, plain_rust, rows, memcpy }
    }

    /// The targets, and whether they are met.
    fn judged(&self, figures: &Figures) -> [String; 4] {
        let met = |met: bool| if met { "yes" } else { "no" }.to_string();
        let memcpy = if self.picture.chroma { self.kind.picture } else { self.kind.luma };
        let of_c = figures.of_c();
        let (limit, within) = if self.kind.faster { ("below 1.00", of_c < 1.0) } else { ("at most 1.10", of_c <= 1.1) };
        [format!("at most {memcpy:.2}"), met(figures.of_memcpy() <= memcpy), limit.to_string(), met(within)]
    }
}

/// Nanoseconds a sample.
struct Figures {
    stage: f64,
    plain_c: f64,
    checked_c: f64,
    plain_rust: f64,
    rows: f64,
    memcpy: f64,
}

impl Figures {
    /// To two places, as it is shown and judged.
    fn of_memcpy(&self) -> f64 {
        to_places(self.stage / self.memcpy)
    }

    fn of_c(&self) -> f64 {
        to_places(self.stage / self.plain_c)
    }

    fn cells(&self, kind: &Kind) -> [String; 10] {
        let times = [self.stage, self.plain_c, self.checked_c, self.plain_rust, self.rows, self.memcpy];
        let [stage, plain_c, checked_c, plain_rust, rows, memcpy] = times.map(number);
        let [of_memcpy, of_c, of_checked] = [self.of_memcpy(), self.of_c(), self.stage / self.checked_c].map(ratio);
        [kind.name.to_string(), stage, plain_c, checked_c, plain_rust, rows, memcpy, of_memcpy, of_c, of_checked]
    }
}

fn to_places(ratio: f64) -> f64 {
    (ratio * 100.0).round() / 100.0
}

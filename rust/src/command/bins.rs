//! `steamgusset bins`: one CTU's bins read and explained, or written.

use super::arguments::{Arguments, Known, long, too_many};
use super::explain::{Element, Explained, Syntax, digits, explained};
use super::rules::{largest, refused};
use super::{Ended, Mistake, Status, set_text};
use std::ffi::OsString;
use std::io::{self, Write};
use steamgusset::{BINS_BYTES, ChromaFormat, CtuSet, Picture, Stage};

pub const HELP: &str = "\
steamgusset bins [options] HEX COUNT
steamgusset bins [options] --set SET

Reads the sao() syntax of one CTU from bins, or writes a set to bins, through the stage, and explains the bins element by
element. HEX is the bins' bytes, packed from the most significant bit of the first, in one word; with blanks in it, it is
put in quotes. COUNT says how many bins there are.

options:
  --depth N          luma's bit depth, 8 to 16; without it 8
  --chroma-depth N   that of Cb and Cr, 8 to 16; without it luma's. Where chroma is off, no bin goes by it
  --luma on|off      the luma switch; without it on
  --chroma on|off    the chroma switch; without it off. On, the bins are the same in 4:2:0, 4:2:2 and 4:4:4; off, they
                     are those of a monochrome picture too
  --left SET         the CTU has a left neighbour with this set
  --up SET           the CTU has an upper neighbour with this set
  --set SET          writes this set

A SET is LUMA/CB/CR, each of them off, band:POSITION:A,B,C,D or edge:CLASS:A,B,C,D with four offsets as coded, signs put
in; what is left out at the end is off. Or it is the 36 hex digits of a table entry. POSITION is the first of the four
bands, 0 to 31. CLASS says which neighbours are compared: 0 left and right, 1 above and below, 2 upper left and lower
right, 3 upper right and lower left. Offsets are at most 7 either way at depth 8, 15 at depth 9 and 31 above, by the
component's own depth; of an edge's, the first two are not negative, the last two not positive. Cr has Cb's type and
CLASS.

The CTU is the last of a picture of as many CTUs of 64x64 as its neighbours ask for. What the bins mean, and whether they
are refused, the stage says; a refusal is on the error stream with its number.

examples:
  steamgusset bins --depth 8 E340 11
  steamgusset bins '9C AF 00' 17
  steamgusset bins --set edge:2:1,0,0,-2
  steamgusset bins --chroma on --set off/band:30:0,-3,0,1/band:2:1,1,1,1
  steamgusset bins --depth 10 --chroma-depth 8 --chroma on --set edge:0:31,0,0,0/edge:0:7,0,0,0/edge:0:0,0,0,-7
  steamgusset bins --left edge:2:1,0,0,-2 --up off 80 1

exit status: 0 read or written; 1 refused; 2 a bad command line
";

const OPTIONS: [Known; 7] = [
    long("--depth"),
    long("--chroma-depth"),
    long("--luma"),
    long("--chroma"),
    long("--left"),
    long("--up"),
    long("--set"),
];

const CTB: u32 = 64;

pub fn run(words: &[OsString], out: &mut dyn Write) -> Ended {
    let arguments = Arguments::parse(words, &OPTIONS)?;
    let ctu = Ctu::parse(&arguments)?;
    if let Some(set) = set(&arguments, "--set")? {
        return match arguments.plain.first() {
            Some(word) => Err(too_many("--set takes the place of HEX and COUNT", word)),
            None => ctu.write(&set, out),
        };
    }
    let [hex, count] = arguments.words("bins", "HEX and COUNT, or --set SET")?;
    let (bytes, count) = typed_bins(&hex.to_string_lossy(), &count.to_string_lossy())?;
    ctu.read(&bytes, count, out)
}

fn set(arguments: &Arguments, name: &str) -> Result<Option<CtuSet>, Mistake> {
    let text = arguments.text(name)?;
    text.map(set_text::parse).transpose().map_err(|why| Mistake::CommandLine(format!("{name}: {why}")))
}

/// The bytes, between which blanks may stand as they are printed in papers, and the count.
fn typed_bins(hex: &str, count: &str) -> Result<(Vec<u8>, usize), Mistake> {
    let digits: String = hex.split_whitespace().collect();
    let wrong = Mistake::CommandLine;
    let bytes = set_text::hex(&digits).ok_or_else(|| wrong(format!("{hex} is not hex digits in pairs")))?;
    let count = count.parse().map_err(|_| wrong(format!("the count {count} is no number of bins")))?;
    Ok((bytes, count))
}

/// The CTU that the bins are of: its picture, and the sets of the neighbours it has.
struct Ctu {
    picture: Picture,
    left: Option<CtuSet>,
    up: Option<CtuSet>,
}

impl Ctu {
    fn parse(arguments: &Arguments) -> Result<Ctu, Mistake> {
        let (left, up) = (set(arguments, "--left")?, set(arguments, "--up")?);
        let luma_depth = arguments.number("--depth", 8, 16, 8)?;
        let side = |neighbour: Option<CtuSet>| if neighbour.is_some() { 2 * CTB } else { CTB };
        let picture = Picture {
            width: side(left),
            height: side(up),
            ctb: CTB,
            // No bin goes by the format: where chroma is off, a picture with chroma has those of a monochrome one.
            format: ChromaFormat::Chroma420,
            luma_depth,
            chroma_depth: arguments.number("--chroma-depth", 8, 16, luma_depth)?,
            luma: arguments.switch("--luma", true)?,
            chroma: arguments.switch("--chroma", false)?,
        };
        Ok(Ctu { picture, left, up })
    }

    fn syntax(&self) -> Syntax {
        let Picture { luma, chroma, .. } = self.picture;
        let largest = [0, 1, 2].map(|component| largest(&self.picture, component).into());
        Syntax { luma, chroma, left: self.left.is_some(), up: self.up.is_some(), largest }
    }

    /// The stage with the neighbours' sets in. The CTU is the last, so its neighbours are the ones before it.
    fn opened(&self) -> Result<Stage, Mistake> {
        let mut stage = Stage::open(self.picture).map_err(|refusal| Mistake::Failed(refusal.to_string()))?;
        let corner = self.left.and(self.up).map(|_| CtuSet::OFF);
        let before = [("corner", corner), ("upper", self.up), ("left", self.left)];
        for (which, set) in before.into_iter().filter_map(|(which, set)| Some((which, set?))) {
            let written = stage.write(&set, &mut [0; BINS_BYTES]);
            let refused = |refusal| format!("the {which} neighbour's set is {}", refused(refusal, &set, &self.picture));
            written.map_err(|refusal| Mistake::Failed(refused(refusal)))?;
        }
        Ok(stage)
    }

    fn read(&self, bytes: &[u8], count: usize, out: &mut dyn Write) -> Ended {
        let read = self.opened()?.read(bytes, count);
        self.explain(bytes, count, out)?;
        let set = read.map_err(|refusal| Mistake::Failed(refusal.to_string()))?;
        show_set(&set, out)?;
        Ok(Status::Fine)
    }

    fn write(&self, set: &CtuSet, out: &mut dyn Write) -> Ended {
        let mut room = [0; BINS_BYTES];
        let written = self.opened()?.write(set, &mut room);
        let count = written.map_err(|refusal| Mistake::Failed(refused(refusal, set, &self.picture)))?;
        self.explain(&room[..count.div_ceil(8)], count, out)?;
        show_set(set, out)?;
        Ok(Status::Fine)
    }

    fn explain(&self, bytes: &[u8], count: usize, out: &mut dyn Write) -> io::Result<()> {
        let plural = if count == 1 { "bin" } else { "bins" };
        writeln!(out, "{count} {plural}: {}", if bytes.is_empty() { "none".into() } else { set_text::digits(bytes) })?;
        let digits = digits(bytes, count);
        if digits.len() < count {
            return writeln!(out, "    the bytes hold {} bins", digits.len());
        }
        let Explained { elements, rest, whole } = explained(&self.syntax(), &digits);
        let longest = elements.iter().map(|element| element.bins.len()).max().unwrap_or(0);
        for element in &elements {
            show_element(element, longest, out)?;
        }
        match (whole, rest.as_str()) {
            (true, "") => Ok(()),
            (true, _) => writeln!(out, "    bins that remain: {rest}"),
            (false, "") => writeln!(out, "    the bins end here"),
            (false, _) => writeln!(out, "    the bins end here, within an element: {rest}"),
        }
    }
}

fn show_element(element: &Element, longest: usize, out: &mut dyn Write) -> io::Result<()> {
    let Element { component, name, bins, value, meaning } = element;
    let line = format!("    {component:2} {name:20} {bins:longest$}  {value} {meaning}");
    writeln!(out, "{}", line.trim_end())
}

fn show_set(set: &CtuSet, out: &mut dyn Write) -> io::Result<()> {
    writeln!(out, "set: {}", set_text::shown(set))?;
    writeln!(out, "table entry: {}", set_text::digits(&set.to_bytes()))?;
    out.flush()
}

//! `steamgusset filter`: the picture of a vector file, filtered and written, with images to look at.

use super::arguments::{Arguments, Known, long};
use super::compare::compared;
use super::image::Image;
use super::input::Input;
use super::output::{Output, Target, write_all};
use super::run::{NAMES, Run, changed, depth_name, format_name};
use super::shuffle::in_order;
use super::vector::Vector;
use super::{Ended, Mistake, Status, say};
use std::ffi::{OsStr, OsString};
use std::io::Write;
use std::path::{Path, PathBuf};
use steamgusset::{Picture, Sizes};

pub const HELP: &str = "\
steamgusset filter FILE [--output OUT.yuv] [--compare OUT.png] [--png PREFIX | --ppm PREFIX] [--amplify N]

Filters the deblocked planes of a vector file with its sets, through the stage, and writes what is asked for: at least
one of the first four options. It does not compare with the file's final planes; check does. At the end a line says what
was done.

options:
  -o, --output OUT.yuv   the filtered picture as planar YUV: all of Y, then Cb, then Cr, each as large as the format
                         makes it (4:0:0: Y alone), a byte a sample at depth 8, else two bytes, the low one first.
                         Players are told size and format: ffplay -f rawvideo -video_size 88x72 -pixel_format
                         yuv422p10le (gray, yuv420p, yuv422p, yuv444p; with 10le at depth 10, and so on). Where luma
                         and chroma have different depths, every plane has two bytes a sample, with the values as
                         they are; players know no such format
  --compare OUT.png      one image: before, after and difference side by side, reduced to 640 pixels or less, and below
                         each, enlarged 8 times, the same square of 48x48 luma samples, where luma changed most; a PPM
                         if the name ends in .ppm
  --png PREFIX           PREFIX-before.png, PREFIX-after.png and PREFIX-difference.png
  --ppm PREFIX           the same as .ppm
  --amplify N            how much the difference is amplified, 1 to 255; without it 16

FILE may be -, the standard input. OUT.yuv or OUT.png may be -, the standard output; then the closing line goes to the
error stream. A file of that name is ./-. After -- every word is a file. Files are written to a temporary name first, so
a failure leaves what was there, and one that is there keeps its permissions; the input is never written over.

Colours are those of BT.709 in limited range, each component by its own depth. The difference is that of luma, in steps
of luma's depth: grey 128 is no change, lighter is more. In the closing line, depth 12/8 is luma's 12 and chroma's 8.

examples:
  steamgusset filter vectors/card_420_8_416x240.sao --compare card.png
  steamgusset filter vectors/x_420_8_72x56_ctu16-001.sao -o - | sha256sum
  steamgusset filter vectors/s_420_10_clip-000.sao -o out.yuv --png out --amplify 8

exit status: 0 written; 1 the file is bad or not covered, or a file could not be written; 2 a bad command line
";

const OPTIONS: [Known; 5] =
    [Known { long: "--output", short: Some("-o") }, long("--compare"), long("--png"), long("--ppm"), long("--amplify")];

/// How an image becomes bytes, and what its name ends with.
struct Kind {
    ending: &'static str,
    bytes: fn(&Image) -> Vec<u8>,
}

const PNG: Kind = Kind { ending: "png", bytes: Image::to_png };
const PPM: Kind = Kind { ending: "ppm", bytes: Image::to_ppm };

/// The planes before and after.
pub struct Planes<'a> {
    /// Luma's and chroma's.
    pub depths: [u8; 2],
    pub sizes: Sizes,
    pub before: [&'a [u16]; 3],
    pub after: [&'a [u16]; 3],
}

impl Planes<'_> {
    pub fn image_before(&self) -> Image {
        Image::of_planes(self.depths, &self.sizes, self.before)
    }

    pub fn image_after(&self) -> Image {
        Image::of_planes(self.depths, &self.sizes, self.after)
    }

    pub fn image_of_difference(&self, amplify: u8) -> Image {
        Image::of_difference(&self.sizes, self.before[0], self.after[0], amplify)
    }
}

/// What is to be written.
struct Asked<'a> {
    output: Option<&'a OsStr>,
    compare: Option<&'a OsStr>,
    images: Option<(&'a OsStr, Kind)>,
    amplify: u8,
}

pub fn run(words: &[OsString], out: &mut dyn Write) -> Ended {
    let arguments = Arguments::parse(words, &OPTIONS)?;
    let [file] = arguments.words("filter", "one file")?;
    let asked = Asked::parse(&arguments)?;
    let input = Input::typed(file);
    let failed = |why: String| Mistake::Failed(format!("{input}: {why}"));
    let vector = Vector::read(&input).map_err(|unfit| failed(unfit.to_string()))?;
    let run = filtered(&vector).map_err(failed)?;

    let after = [0, 1, 2].map(|component| run.stage.filtered(component));
    let before = vector.deblocked.each_ref().map(Vec::as_slice);
    let picture = vector.picture();
    let depths = [picture.luma_depth, picture.chroma_depth];
    let outputs = asked.outputs(&Planes { depths, sizes: run.stage.sizes(), before, after });
    write_all(&outputs, &input, out)?;
    let line = line(&picture, changed(&vector.deblocked, after), &outputs);
    if outputs.iter().any(|output| output.target == Target::StandardOutput) {
        say(&line);
    } else {
        writeln!(out, "{line}")?;
    }
    Ok(Status::Fine)
}

impl<'a> Asked<'a> {
    fn parse(arguments: &'a Arguments) -> Result<Asked<'a>, Mistake> {
        let (output, compare) = (arguments.value("--output"), arguments.value("--compare"));
        let images = images_asked(arguments)?;
        let wrong = |why: &str| Err(Mistake::CommandLine(why.into()));
        if output.is_none() && compare.is_none() && images.is_none() {
            return wrong("filter needs something to write: --output, --compare, --png or --ppm");
        }
        if [output, compare].map(|word| word.map(Target::typed)) == [const { Some(Target::StandardOutput) }; 2] {
            return wrong("--output and --compare cannot both be the standard output");
        }
        if compare.is_none() && images.is_none() && arguments.value("--amplify").is_some() {
            return wrong("--amplify needs --compare, --png or --ppm");
        }
        Ok(Asked { output, compare, images, amplify: arguments.number("--amplify", 1, u8::MAX, 16)? })
    }

    fn outputs(&self, planes: &Planes) -> Vec<Output> {
        let output = |word: &OsStr| Output { target: Target::typed(word), bytes: yuv(planes.depths, planes.after) };
        let compare = |word: &OsStr| {
            let ending = Path::new(word).extension();
            let kind = if ending.is_some_and(|ending| ending.eq_ignore_ascii_case(PPM.ending)) { PPM } else { PNG };
            let image = compared(planes, self.amplify);
            Output { target: Target::typed(word), bytes: (kind.bytes)(&image) }
        };
        let mut outputs: Vec<Output> = self.output.map(output).into_iter().collect();
        outputs.extend(self.compare.map(compare));
        if let Some((prefix, kind)) = &self.images {
            outputs.extend(image_files(prefix, kind, planes, self.amplify));
        }
        outputs
    }
}

/// The images' prefix and kind, if they are asked for.
fn images_asked(arguments: &Arguments) -> Result<Option<(&OsStr, Kind)>, Mistake> {
    let asked = match (arguments.value("--png"), arguments.value("--ppm")) {
        (Some(_), Some(_)) => return Err(Mistake::CommandLine("--png and --ppm do not go together".into())),
        (Some(prefix), None) => Some((prefix, PNG)),
        (None, Some(prefix)) => Some((prefix, PPM)),
        (None, None) => None,
    };
    if let Some((_, kind)) = asked.as_ref().filter(|(prefix, _)| *prefix == "-") {
        let sentence = format!("--{} writes three files, which cannot all be the standard output", kind.ending);
        return Err(Mistake::CommandLine(sentence));
    }
    Ok(asked)
}

/// The picture with every block filtered.
fn filtered(vector: &Vector) -> Result<Run<'_>, String> {
    let mut run = Run::open(vector)?;
    let ctus = run.stage.sizes().ctus as u32;
    for step in in_order(vector.picture().components(), ctus) {
        run.step(step)?;
    }
    Ok(run)
}

/// The planes one after another, as the standard's reference decoder writes them: if either depth is above 8, every plane
/// has two bytes a sample.
fn yuv(depths: [u8; 2], planes: [&[u16]; 3]) -> Vec<u8> {
    let samples = planes.into_iter().flatten();
    match depths {
        [8, 8] => samples.map(|sample| sample.to_le_bytes()[0]).collect(),
        _ => samples.flat_map(|sample| sample.to_le_bytes()).collect(),
    }
}

fn image_files(prefix: &OsStr, kind: &Kind, planes: &Planes, amplify: u8) -> [Output; 3] {
    let images = [
        ("before", planes.image_before()),
        ("after", planes.image_after()),
        ("difference", planes.image_of_difference(amplify)),
    ];
    images.map(|(which, image)| {
        let mut name = prefix.to_os_string();
        name.push(format!("-{which}.{}", kind.ending));
        Output { target: Target::File(PathBuf::from(name)), bytes: (kind.bytes)(&image) }
    })
}

fn line(picture: &Picture, changed: [usize; 3], outputs: &[Output]) -> String {
    let names: Vec<String> = outputs.iter().map(|output| output.target.to_string()).collect();
    let Picture { width, height, luma_depth, chroma_depth, .. } = *picture;
    let (format, depth) = (format_name(picture), depth_name([luma_depth, chroma_depth]));
    let component = |of: usize| format!("{} {}", NAMES[of], changed[of]);
    let components: Vec<String> = (0..picture.components() as usize).map(component).collect();
    let (changed, components) = (changed.iter().sum::<usize>(), components.join(", "));
    format!(
        "{width}x{height} {format} depth {depth}: {changed} samples changed ({components}), written: {}",
        names.join(", ")
    )
}

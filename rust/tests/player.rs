//! A `.yuv` of `steamgusset filter` as a player takes it: ffmpeg is told its size and format, as the command's help says,
//! and what it shows is held to the command's own image, for every bundled picture that its exact scaler takes. ffmpeg is
//! Debian's package of that name; where it is not found, the test says so and passes.

mod folders;

use second::Picture;
use second::vectors::Vector;
use std::fs;
use std::path::{Path, PathBuf};
use std::process::Command;

/// How far apart a colour of a pixel may be: a player rounds in its own way.
const APART: u8 = 1;

/// A chroma sample serves the luma samples that it belongs to, by the matrix of BT.709 and in limited range. This is
/// ffmpeg's exact scaler: the usual one gave other colours, by up to 255, in some pictures with extreme samples.
const SHOWN: &str =
    "zscale=matrixin=709:rangein=limited:chromalin=center:filter=point:matrix=gbr:range=full,format=gbrp";

/// The bundled pictures, but for grey ones above 8 bits, for which the usual scaler comes first and takes them to be of
/// full range, and but for those with two depths, for which ffmpeg has no format.
fn taken() -> Vec<(PathBuf, Picture)> {
    let folder = Path::new(env!("CARGO_MANIFEST_DIR")).join("../vectors");
    let files = fs::read_dir(folder).expect("the bundled vectors").map(|entry| entry.expect("an entry").path());
    let files = files.filter(|file| file.extension().is_some_and(|ending| ending == "sao"));
    let read = |file: &PathBuf| Vector::parse(&fs::read(file).expect("a vector")).expect("a sound vector").picture();
    let is_taken = |picture: &Picture| {
        let Picture { format, luma_depth, chroma_depth, .. } = *picture;
        luma_depth == chroma_depth && (format != 0 || luma_depth == 8)
    };
    files.map(|file| (file.clone(), read(&file))).filter(|(_, picture)| is_taken(picture)).collect()
}

fn is_there() -> bool {
    let filters = Command::new("ffmpeg").args(["-v", "error", "-filters"]).output();
    filters.is_ok_and(|output| String::from_utf8_lossy(&output.stdout).contains(" zscale "))
}

/// The player's name for the format.
fn pixel_format(picture: &Picture) -> String {
    let planes = ["gray", "yuv420p", "yuv422p", "yuv444p"][usize::from(picture.format)];
    if picture.luma_depth == 8 { planes.into() } else { format!("{planes}{}le", picture.luma_depth) }
}

/// What a command prints that has to succeed.
fn printed(command: &mut Command) -> Vec<u8> {
    let output = command.output().unwrap_or_else(|why| panic!("{command:?}: {why}"));
    assert!(output.status.success(), "{command:?}: {}", String::from_utf8_lossy(&output.stderr));
    output.stdout
}

/// The player's image of a `.yuv`, as a PPM.
fn shown(yuv: &Path, picture: &Picture) -> Vec<u8> {
    let mut player = Command::new("ffmpeg");
    player.args(["-v", "error", "-f", "rawvideo", "-video_size", &format!("{}x{}", picture.width, picture.height)]);
    player.args(["-pixel_format", &pixel_format(picture), "-i"]).arg(yuv);
    printed(player.args(["-vf", SHOWN, "-f", "image2pipe", "-c:v", "ppm", "-pix_fmt", "rgb24", "-"]))
}

#[test]
fn a_player_shows_the_same_picture() {
    if !is_there() {
        println!("not tested: no ffmpeg with the filter zscale is found");
        return;
    }
    let folder = folders::empty("player");
    let (yuv, prefix) = (folder.join("out.yuv"), folder.join("out"));
    for (file, picture) in taken() {
        let mut filter = Command::new(env!("CARGO_BIN_EXE_steamgusset"));
        printed(filter.arg("filter").arg(&file).arg("-o").arg(&yuv).arg("--ppm").arg(&prefix));
        let (ours, theirs) = (fs::read(folder.join("out-after.ppm")).expect("an image"), shown(&yuv, &picture));
        let furthest = ours.iter().zip(&theirs).map(|(ours, theirs)| ours.abs_diff(*theirs)).max();
        // The heads, which have the size, are equal, and nothing follows the one picture.
        assert!(ours.len() == theirs.len() && ours[..8] == theirs[..8], "{file:?}");
        assert!(furthest <= Some(APART), "{file:?}: {furthest:?}");
    }
}

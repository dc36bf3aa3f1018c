//! The command as it is run: its lines, its sentences, its files and its exit status.

mod elsewhere;
mod folders;
mod shell;

use shell::{Ran, ran, told};
use std::fs;
use std::os::unix::fs::PermissionsExt;
use std::path::{Path, PathBuf};
use std::process::{Command, Stdio};

fn command(arguments: &[&str]) -> Command {
    let mut command = Command::new(env!("CARGO_BIN_EXE_steamgusset"));
    command.args(arguments).stdin(Stdio::null());
    command
}

/// Runs it with a standard output that nothing reads.
fn unread(arguments: &[&str]) -> Ran {
    let (reader, writer) = std::io::pipe().expect("a pipe");
    drop(reader);
    ran_to(arguments, writer)
}

/// Runs it with a standard output of the test's own.
fn ran_to(arguments: &[&str], out: impl Into<Stdio>) -> Ran {
    let child = command(arguments).stdout(out).stderr(Stdio::piped()).spawn().expect("the command runs");
    told(child.wait_with_output().expect("the command ends"))
}

/// Runs it with a standard output that is closed.
fn closed(arguments: &[&str]) -> Ran {
    let mut shell = Command::new("sh");
    shell.args(["-c", "exec \"$0\" \"$@\" >&-", env!("CARGO_BIN_EXE_steamgusset")]).args(arguments);
    ran(shell.stdin(Stdio::null()))
}

fn steamgusset(arguments: &[&str]) -> Ran {
    ran(&mut command(arguments))
}

/// A command line in one text, as it would be typed.
fn typed(line: &str) -> Ran {
    steamgusset(&line.split(' ').collect::<Vec<_>>())
}

fn one_sentence(error: &str) -> bool {
    error.starts_with("steamgusset: ") && error.lines().count() == 1 && !error.contains("panicked")
}

/// A folder of the test's own, empty.
fn folder(name: &str) -> PathBuf {
    folders::empty(&format!("command-{name}"))
}

fn path(folder: &Path, name: &str) -> String {
    folder.join(name).to_string_lossy().into_owned()
}

/// A file with these bytes.
fn file(folder: &Path, name: &str, bytes: &[u8]) -> String {
    let path = path(folder, name);
    fs::write(&path, bytes).expect("a file for the test");
    path
}

fn names(folder: &Path) -> Vec<String> {
    let entries = fs::read_dir(folder).expect("a folder of the test");
    let mut names: Vec<String> =
        entries.map(|entry| entry.expect("an entry").file_name().to_string_lossy().into_owned()).collect();
    names.sort();
    names
}

/// The bundled vectors.
fn vectors() -> Vec<String> {
    let folder = Path::new(env!("CARGO_MANIFEST_DIR")).join("../vectors");
    let sao = |name: &String| name.ends_with(".sao");
    names(&folder).into_iter().filter(sao).map(|name| path(&folder, &name)).collect()
}

fn vector(start: &str) -> String {
    let starts =
        |path: &String| Path::new(path).file_name().is_some_and(|name| name.to_string_lossy().starts_with(start));
    vectors().into_iter().find(starts).expect("a bundled vector")
}

fn bytes_of(start: &str) -> Vec<u8> {
    fs::read(vector(start)).expect("a readable vector")
}

fn check(options: &[&str], files: &[String]) -> Ran {
    steamgusset(&["check"].iter().chain(options).copied().chain(files.iter().map(String::as_str)).collect::<Vec<_>>())
}

// Vector files as bytes.

fn field(bytes: &[u8], place: usize) -> i32 {
    let start = 8 + 4 * place;
    i32::from_le_bytes(bytes[start..start + 4].try_into().expect("four bytes"))
}

fn with_field(mut bytes: Vec<u8>, place: usize, value: i32) -> Vec<u8> {
    let start = 8 + 4 * place;
    bytes[start..start + 4].copy_from_slice(&value.to_le_bytes());
    bytes
}

/// The final samples of a file that the stage covers, and how many of them are luma.
fn final_samples(bytes: &[u8]) -> (Vec<u16>, usize) {
    let luma = field(bytes, 0) as usize * field(bytes, 1) as usize;
    // By ChromaArrayType: luma alone, and with two planes of a quarter, a half, and all of its samples.
    let samples = [luma, luma * 3 / 2, luma * 2, luma * 3][field(bytes, 24) as usize];
    let planes = &bytes[bytes.len() - 2 * samples..];
    (planes.chunks(2).map(|pair| u16::from_le_bytes([pair[0], pair[1]])).collect(), luma)
}

/// A monochrome file of depth 8 with luma on: its sets, eight bytes each, and its planes before and after.
fn made(width: usize, height: usize, sets: &[[u8; 8]], before: &[u16], after: &[u16]) -> Vec<u8> {
    let mut fields = [0; 32];
    let (columns, rows) = (width.div_ceil(16) as i32, height.div_ceil(16) as i32);
    fields[..9].copy_from_slice(&[width as i32, height as i32, 0, 8, 8, 4, 3, columns, rows]);
    fields[12..16].copy_from_slice(&[1, 1, 1, 1]);
    fields[22] = 1;
    let tiles = [0, columns, 0, rows];
    let segment = [0, 0, 0, 1, 0, 1];
    let mut bytes = b"SAOVEC1\0".to_vec();
    bytes.extend(fields.iter().chain(&tiles).chain(&segment).flat_map(|number| number.to_le_bytes()));
    bytes.extend(sets.iter().flat_map(|set| [[0; 4].as_slice(), set].concat()));
    bytes.extend(vec![0; (width / 8) * (height / 8)]);
    bytes.extend(before.iter().chain(after).flat_map(|sample| sample.to_le_bytes()));
    bytes
}

fn band(position: u8, offsets: [i8; 4]) -> [u8; 8] {
    let [one, two, three, four] = offsets.map(|offset| offset as u8);
    [1, position, 0, 0, one, two, three, four]
}

fn edge(class: u8, offsets: [i8; 4]) -> [u8; 8] {
    let [one, two, three, four] = offsets.map(|offset| offset as u8);
    [2, 0, class, 0, one, two, three, four]
}

// check

#[test]
fn the_bundled_vectors_agree() {
    let (status, lines, error) = check(&[], &vectors());
    assert_eq!((status, error.as_str()), (Some(0), ""));
    assert_eq!(lines.lines().filter(|line| line.ends_with(": agrees")).count(), 47);
    let total = lines.lines().last().expect("a last line");
    let counts = "47 agree, 0 differ, 0 not covered, 0 damaged, 0 cannot be read; 340224 samples, ";
    assert!(
        total.starts_with(counts) && total.contains(" of 1091 blocks filtered before the last delivery, "),
        "{total}"
    );
}

#[test]
fn every_seed_agrees() {
    for seed in ["0", "2", "3", "18446744073709551615"] {
        let (status, lines, error) = check(&["--seed", seed], &vectors());
        assert_eq!((status, error.as_str()), (Some(0), ""));
        assert!(lines.contains("47 agree, 0 differ"), "{lines}");
    }
}

#[test]
fn a_line_says_what_the_picture_is() {
    let (_, lines, _) = check(&[], &[vector("x_l400_10")]);
    let line = lines.lines().next().expect("a line");
    assert!(
        line.contains("x_l400_10_ctu16_noisy-000.sao  88x72 4:0:0 depth 10 CTB 16, off/band/edge Y 0/8/22, "),
        "{line}"
    );
    assert!(line.contains(" 2716 of 6336 samples changed, ") && line.contains(" ns/sample: agrees"), "{line}");
    for (start, says) in [
        ("x_l422_10", "  88x72 4:2:2 depth 10 CTB 16, off/band/edge Y 0/12/18 Cb 0/13/17 Cr 0/13/17, 5753 of 12672 "),
        ("x_l444_8", "  88x72 4:4:4 depth 8 CTB 16, off/band/edge Y 0/13/17 Cb 1/20/9 Cr 1/20/9, 7172 of 19008 "),
        ("d_420_8y10c", "  72x56 4:2:0 depth 8/10 CTB 16, off/band/edge Y 2/2/16 Cb 6/3/11 Cr 6/3/11, 1635 of 6048 "),
    ] {
        let (_, lines, _) = check(&[], &[vector(start)]);
        assert!(lines.contains(says), "{lines}");
    }
}

#[test]
fn a_difference_names_the_first_sample() {
    let folder = folder("differs");
    let mut bytes = bytes_of("x_420_8_72x56_ctu16");
    // The last sample of Cr, and the one above it: 36 columns and 28 rows.
    let (last, above) = (bytes.len() - 2, bytes.len() - 2 - 2 * 36);
    let was = bytes[above];
    bytes[last] ^= 1;
    bytes[above] ^= 1;
    let files = [file(&folder, "differs.sao", &bytes), vector("x_420_8_72x56_ctu16")];
    let (status, lines, error) = check(&[], &files);
    assert_eq!((status, error.as_str()), (Some(1), ""));
    let sentence = format!("differs: Cr at column 35, row 26: got {was}, expected {}\n", was ^ 1);
    assert!(lines.contains(&sentence) && lines.contains("\n1 agree, 1 differ,"), "{lines}");
}

/// Every file has its line or its sentence, so no file ended the command.
fn each_has_its_line(folder: &Path, damaged: &[Vec<u8>]) -> (String, String) {
    let name = |(number, bytes): (usize, &Vec<u8>)| {
        file(folder, &number.to_string(), bytes);
        number.to_string()
    };
    let names: Vec<String> = damaged.iter().enumerate().map(name).collect();
    let (status, lines, error) = ran(command(&["check"]).args(names).current_dir(folder));
    assert!(matches!(status, Some(0 | 1)), "{status:?}");
    assert_eq!(lines.lines().count() - 1 + error.lines().count(), damaged.len());
    assert!(error.lines().all(|line| line.starts_with("steamgusset: ")), "{error}");
    (lines, error)
}

#[test]
fn every_truncation_is_damaged() {
    let bytes = bytes_of("s_420_8_tiny8x8_ctb4");
    let cut: Vec<Vec<u8>> = (0..bytes.len()).map(|length| bytes[..length].to_vec()).collect();
    let (_, error) = each_has_its_line(&folder("truncated"), &cut);
    assert_eq!(error.lines().count(), cut.len());
}

#[test]
fn every_flipped_byte_is_survived() {
    let bytes = bytes_of("s_420_8_tiny8x8_ctb4");
    for (number, mask) in [0x01, 0x80, 0xFF].into_iter().enumerate() {
        let flipped = |place: usize| {
            let mut bytes = bytes.clone();
            bytes[place] ^= mask;
            bytes
        };
        let all: Vec<Vec<u8>> = (0..bytes.len()).map(flipped).collect();
        each_has_its_line(&folder(&format!("flipped-{number}")), &all);
    }
}

// filter

#[test]
fn filter_writes_the_final_planes() {
    let folder = folder("filter");
    let out = path(&folder, "out.yuv");
    for name in vectors() {
        let (status, line, error) = steamgusset(&["filter", &name, "-o", &out]);
        assert_eq!((status, error.as_str(), line.lines().count()), (Some(0), "", 1));
        let bytes = fs::read(&name).expect("a readable vector");
        let (samples, _) = final_samples(&bytes);
        // In monochrome (ChromaArrayType 0) luma's depth alone counts.
        let depth = field(&bytes, 3).max(if field(&bytes, 24) == 0 { 8 } else { field(&bytes, 4) });
        let expected: Vec<u8> = match depth {
            8 => samples.iter().map(|sample| *sample as u8).collect(),
            _ => samples.iter().flat_map(|sample| sample.to_le_bytes()).collect(),
        };
        assert!(fs::read(&out).expect("the output") == expected, "{name}");
    }
    assert_eq!(names(&folder), ["out.yuv"]);
}

#[test]
fn filter_says_what_it_did() {
    let folder = folder("filter-line");
    let (out, prefix) = (path(&folder, "out.yuv"), path(&folder, "p"));
    let (status, line, _) = steamgusset(&["filter", &vector("s_420_10_clip"), "--output", &out, "--ppm", &prefix]);
    let files = ["before", "after", "difference"].map(|which| format!("{prefix}-{which}.ppm"));
    let changed = "3113 samples changed (Y 2382, Cb 353, Cr 378)";
    let expected = format!("72x56 4:2:0 depth 10: {changed}, written: {out}, {}\n", files.join(", "));
    assert_eq!((status, line), (Some(0), expected));
    assert_eq!(names(&folder), ["out.yuv", "p-after.ppm", "p-before.ppm", "p-difference.ppm"]);
}

/// Luma at 8 bits and chroma at 10: every plane has two bytes a sample, and no value is scaled.
#[test]
fn two_depths_give_two_bytes_in_every_plane() {
    let folder = folder("filter-two-depths");
    let (name, out) = (vector("d_420_8y10c"), path(&folder, "out.yuv"));
    let (status, line, _) = steamgusset(&["filter", &name, "-o", &out]);
    let changed = "1635 samples changed (Y 1254, Cb 381, Cr 0)";
    let expected = format!("72x56 4:2:0 depth 8/10: {changed}, written: {out}\n");
    assert_eq!((status, line), (Some(0), expected));
    let (samples, luma) = final_samples(&fs::read(&name).expect("a readable vector"));
    assert!(samples[..luma].iter().all(|sample| *sample < 256) && samples[luma..].iter().any(|sample| *sample > 255));
    let written = fs::read(&out).expect("the output");
    assert!(written == samples.iter().flat_map(|sample| sample.to_le_bytes()).collect::<Vec<_>>());
    assert_eq!(written.len(), 2 * 72 * 56 * 3 / 2);
}

/// Width, height and pixel bytes of a PNG with stored blocks, taken apart.
fn pixels_of_png(bytes: &[u8]) -> (u32, u32, Vec<u8>) {
    let number = |bytes: &[u8]| u32::from_be_bytes(bytes[..4].try_into().expect("four bytes"));
    let mut rest = bytes.strip_prefix(b"\x89PNG\r\n\x1a\n").expect("the signature");
    let mut chunks = Vec::new();
    while !rest.is_empty() {
        let length = number(rest) as usize;
        chunks.push((&rest[4..8], &rest[8..8 + length]));
        rest = &rest[12 + length..];
    }
    let kinds: Vec<&[u8]> = chunks.iter().map(|(kind, _)| *kind).collect();
    assert_eq!(kinds, [b"IHDR", b"IDAT", b"IEND"]);
    let header = chunks[0].1;
    assert_eq!(header[8..], [8, 2, 0, 0, 0]);
    let (width, height) = (number(header), number(&header[4..]));
    let rows = stored_blocks(chunks[1].1);
    let rows: Vec<&[u8]> = rows.chunks(1 + 3 * width as usize).collect();
    assert!(rows.len() == height as usize && rows.iter().all(|row| row[0] == 0));
    (width, height, rows.iter().flat_map(|row| &row[1..]).copied().collect())
}

/// The content of a zlib stream of stored blocks.
fn stored_blocks(stream: &[u8]) -> Vec<u8> {
    assert_eq!(stream[..2], [0x78, 0x01]);
    let mut content = Vec::new();
    let mut rest = &stream[2..];
    loop {
        let length = u16::from_le_bytes([rest[1], rest[2]]);
        assert_eq!(u16::from_le_bytes([rest[3], rest[4]]), !length);
        content.extend(&rest[5..5 + usize::from(length)]);
        let last = rest[0] == 1;
        rest = &rest[5 + usize::from(length)..];
        if last {
            // The check of the content is all that follows.
            assert_eq!(rest.len(), 4);
            return content;
        }
    }
}

#[test]
fn images_show_before_after_and_difference() {
    let folder = folder("images");
    let name = vector("x_l400_8");
    let (out, png, ppm) = (path(&folder, "out.yuv"), path(&folder, "png"), path(&folder, "ppm"));
    assert_eq!(steamgusset(&["filter", &name, "-o", &out, "--png", &png]).0, Some(0));
    assert_eq!(steamgusset(&["filter", &name, "-o", &out, "--ppm", &ppm]).0, Some(0));
    let mut images = Vec::new();
    for which in ["before", "after", "difference"] {
        let (width, height, pixels) = pixels_of_png(&fs::read(format!("{png}-{which}.png")).expect("a PNG"));
        assert_eq!((width, height), (88, 72));
        let expected = [b"P6\n88 72\n255\n".as_slice(), &pixels].concat();
        assert!(fs::read(format!("{ppm}-{which}.ppm")).expect("a PPM") == expected);
        images.push(pixels);
    }
    // check says that 2062 samples change here. The difference shows each of them, and nothing else.
    assert_eq!(images[2].chunks(3).filter(|pixel| *pixel != [128; 3]).count(), 2062);
    assert!(images[0] != images[1]);
}

/// A file with an 8x8 picture of which one sample changes: band 31, offset 7.
fn one_changes(folder: &Path) -> String {
    let mut before = [0; 64];
    let mut after = [0; 64];
    (before[9], after[9]) = (248, 255);
    file(folder, "one.sao", &made(8, 8, &[band(31, [7, 0, 0, 0])], &before, &after))
}

#[test]
fn the_difference_is_amplified_as_asked() {
    let folder = folder("amplify");
    let name = one_changes(&folder);
    let (out, prefix) = (path(&folder, "out.yuv"), path(&folder, "p"));
    for (amplify, grey) in [("1", 135), ("3", 149), ("255", 255)] {
        let arguments = ["filter", &name, "-o", &out, "--png", &prefix, "--amplify", amplify];
        assert_eq!(steamgusset(&arguments).0, Some(0));
        let (_, _, pixels) = pixels_of_png(&fs::read(format!("{prefix}-difference.png")).expect("a PNG"));
        assert_eq!(pixels[3 * 9..3 * 10], [grey; 3]);
        assert!(pixels[..3 * 9].iter().chain(&pixels[3 * 10..]).all(|part| *part == 128));
    }
}

type Pixels = Vec<[u8; 3]>;

/// Width and pixels of the image that compares, and the pixels of the images before, after and difference.
fn compared(folder: &Path, name: &str) -> (usize, Pixels, [Pixels; 3]) {
    let (all, prefix) = (path(folder, "all.png"), path(folder, "p"));
    assert_eq!(steamgusset(&["filter", name, "--compare", &all, "--png", &prefix]).0, Some(0));
    let pixels = |name: String| {
        let (width, _, pixels) = pixels_of_png(&fs::read(name).expect("a PNG"));
        (width as usize, pixels.as_chunks().0.to_vec())
    };
    let (width, all) = pixels(all);
    (width, all, ["before", "after", "difference"].map(|which| pixels(format!("{prefix}-{which}.png")).1))
}

/// So many rows and columns of an image, with a step between them.
fn block(image: &[[u8; 3]], width: usize, (x, y): (usize, usize), size: (usize, usize), step: usize) -> Pixels {
    let row = |number: usize| (0..size.0).map(move |column| (x + step * column, y + step * number));
    (0..size.1).flat_map(row).map(|(x, y)| image[y * width + x]).collect()
}

#[test]
fn a_small_picture_is_compared_whole() {
    let folder = folder("compare-small");
    let name = one_changes(&folder);
    let (width, all, images) = compared(&folder, &name);
    // Columns as wide as the names, of which a letter takes 12 pixels, or as the detail, and 12 pixels between all.
    assert_eq!((width, all.len() / width), (12 + 72 + 12 + 64 + 12 + 120 + 12, 12 + 14 + 12 + 8 + 12 + 64 + 12));
    for (image, (x, column)) in images.iter().zip([(12, 72), (96, 64), (172, 120)]) {
        assert!(block(&all, width, (x + (column - 8) / 2, 38), (8, 8), 1) == *image);
        // Each sample of the detail is a square of eight by eight pixels.
        for corner in [(0, 0), (7, 0), (0, 7), (7, 7), (3, 4)] {
            let place = (x + (column - 64) / 2 + corner.0, 58 + corner.1);
            assert!(block(&all, width, place, (8, 8), 8) == *image);
        }
    }
}

#[test]
fn the_detail_is_where_luma_changed_most() {
    let folder = folder("compare-detail");
    // A picture of sixteen CTBs of which the last alone changes: the detail ends with it.
    let mut sets = [[0; 8]; 16];
    sets[15] = band(1, [3, 0, 0, 0]);
    let before: Vec<u16> = (0..64 * 64).map(|place| 8 + place % 7).collect();
    let last = |place: usize| place % 64 >= 48 && place / 64 >= 48;
    let after: Vec<u16> =
        before.iter().enumerate().map(|(place, sample)| sample + 3 * u16::from(last(place))).collect();
    let name = file(&folder, "last.sao", &made(64, 64, &sets, &before, &after));
    let (width, all, images) = compared(&folder, &name);
    assert_eq!((width, all.len() / width), (12 + 3 * (384 + 12), 12 + 14 + 12 + 64 + 12 + 384 + 12));
    for (image, x) in images.iter().zip([12, 408, 804]) {
        let detail = block(image, 64, (16, 16), (48, 48), 1);
        assert!(block(&all, width, (x, 114), (48, 48), 8) == detail);
        // Above, the detail has its outline, and nothing else is changed.
        let shown = block(&all, width, (x + 160, 38), (64, 64), 1);
        let outlined = |place: usize| {
            let (column, row) = (place % 64, place / 64);
            column >= 16 && row >= 16 && ([16, 63].contains(&column) || [16, 63].contains(&row))
        };
        for (place, (shown, image)) in shown.iter().zip(image).enumerate() {
            assert_eq!(*shown, if outlined(place) { [255, 224, 0] } else { *image }, "{place}");
        }
    }
}

#[test]
fn a_large_picture_is_reduced_above_its_detail() {
    let folder = folder("compare-large");
    // One CTB row, of which the second half of the third CTB changes: every third sample is shown, 430 in a row.
    let mut sets = [[0; 8]; 81];
    sets[2] = band(1, [3, 0, 0, 0]);
    let before: Vec<u16> =
        (0..1288 * 16).map(|place| if (40..48).contains(&(place % 1288)) { 8 } else { 80 }).collect();
    let after: Vec<u16> = before.iter().map(|sample| if *sample == 8 { 11 } else { *sample }).collect();
    let name = file(&folder, "large.sao", &made(1288, 16, &sets, &before, &after));
    let (width, all, images) = compared(&folder, &name);
    assert_eq!((width, all.len() / width), (12 + 3 * (430 + 12), 12 + 14 + 12 + 6 + 12 + 128 + 12));
    for (image, x) in images.iter().zip([12, 454, 896]) {
        // The first detail with these eight columns in it is the leftmost.
        assert!(block(&all, width, (x + 23, 56), (48, 16), 8) == block(image, 1288, (0, 0), (48, 16), 1));
        let (shown, thinned) = (block(&all, width, (x, 38), (430, 6), 1), block(image, 1288, (0, 0), (430, 6), 3));
        let outlined = |place: usize| {
            let (column, row) = (place % 430, place / 430);
            column < 16 && row < 5 && ([0, 15].contains(&column) || [0, 4].contains(&row))
        };
        for (place, (shown, thinned)) in shown.iter().zip(&thinned).enumerate() {
            assert_eq!(*shown, if outlined(place) { [255, 224, 0] } else { *thinned }, "{place}");
        }
    }
}

#[test]
fn the_longest_pictures_are_compared() {
    let folder = folder("compare-long");
    for (width, height) in [(8192, 8), (8, 8192)] {
        let samples = vec![9; 8 * 8192];
        let name = file(&folder, "long.sao", &made(width, height, &[[0; 8]; 512], &samples, &samples));
        // Every thirteenth sample is shown. Nothing changes, so the detail is the first.
        let (whole, all, _) = compared(&folder, &name);
        let (across, down) = (width.div_ceil(13), height.div_ceil(13));
        let columns = [72, 60, 120].map(|name: usize| name.max(across).max(8 * width.min(48)));
        assert_eq!(whole, columns.iter().map(|column| column + 12).sum::<usize>() + 12);
        assert_eq!(all.len() / whole, 12 + 14 + 12 + down + 12 + 8 * height.min(48) + 12);
        let panel = 38 * whole + 12 + (columns[0] - across) / 2;
        assert_eq!(all[panel], [255, 224, 0]);
    }
}

#[test]
fn a_comparison_may_be_ppm_and_amplified() {
    let folder = folder("compare-ppm");
    let name = vector("card_420_8");
    let [png, ppm, more] = ["a.png", "a.ppm", "more.png"].map(|name| path(&folder, name));
    let (status, line, error) = steamgusset(&["filter", &name, "--compare", &png]);
    assert_eq!((status, error.as_str()), (Some(0), ""));
    let changed = "35655 samples changed (Y 23540, Cb 5987, Cr 6128)";
    assert_eq!(line, format!("416x240 4:2:0 depth 8: {changed}, written: {png}\n"));
    assert_eq!(steamgusset(&["filter", &name, "--compare", &ppm]).0, Some(0));
    assert_eq!(steamgusset(&["filter", &name, "--compare", &more, "--amplify", "30"]).0, Some(0));
    let (width, height, pixels) = pixels_of_png(&fs::read(&png).expect("a PNG"));
    let expected = [format!("P6\n{width} {height}\n255\n").as_bytes(), &pixels].concat();
    assert!(fs::read(&ppm).expect("a PPM") == expected);
    assert!(pixels_of_png(&fs::read(&more).expect("a PNG")).2 != pixels);
}

#[test]
fn an_output_may_be_the_standard_output() {
    let folder = folder("standard-output");
    let name = vector("x_420_8_72x56_ctu16");
    let (out, png) = (path(&folder, "out.yuv"), path(&folder, "out.png"));
    assert_eq!(steamgusset(&["filter", &name, "-o", &out, "--compare", &png]).0, Some(0));
    for (words, file) in [
        (["-o", "-", "--compare", &png], &out),
        (["--output=/dev/stdout", "--compare", &png, "--amplify=16"], &out),
        (["-o", &out, "--compare", "-"], &png),
    ] {
        let ran = command(&["filter", &name]).args(words).output().expect("the command runs");
        assert!(ran.status.success() && ran.stdout == fs::read(file).expect("the same as a file"));
        let said = String::from_utf8(ran.stderr).expect("text");
        assert!(one_sentence(&said) && said.contains(" samples changed (Y ") && said.contains("standard output"));
    }
    // A file of that name is asked for by its folder.
    let (status, line, error) = ran(command(&["filter", &name, "-o", "./-"]).current_dir(&folder));
    assert!(status == Some(0) && line.ends_with("written: ./-\n") && error.is_empty(), "{line}");
    assert!(names(&folder).contains(&"-".into()));
}

#[test]
fn a_broken_standard_output_leaves_the_files_as_they_were() {
    let folder = folder("standard-output-broken");
    let png = file(&folder, "out.png", b"old");
    let arguments = ["filter", &vector("x_420_8_72x56_ctu16"), "-o", "-", "--compare", &png];
    assert_eq!((unread(&arguments).0, closed(&arguments).0), (Some(3), Some(3)));
    assert_eq!(names(&folder), ["out.png"]);
    assert!(fs::read(&png).expect("the old file") == b"old");
}

#[test]
fn a_failure_leaves_the_files_as_they_were() {
    let folder = folder("kept");
    let bytes = bytes_of("s_420_8_tiny8x8_ctb4");
    let name = file(&folder, "in.sao", &bytes);
    let out = file(&folder, "out.yuv", b"old");
    let (nowhere, twice) = (path(&folder, "no-folder/p"), path(&folder, "p-after.png"));
    let prefix = path(&folder, "p");
    let (status, _, error) = steamgusset(&["filter", &name, "-o", &out, "--png", &nowhere]);
    assert!(status == Some(1) && one_sentence(&error), "{error}");
    let (status, _, error) = steamgusset(&["filter", &name, "-o", &twice, "--png", &prefix]);
    assert!(status == Some(1) && error.ends_with("p-after.png: two outputs have this name\n"), "{error}");
    for own in ["in.sao", "./in.sao"] {
        let (status, _, error) = ran(command(&["filter", "in.sao", "-o", own]).current_dir(&folder));
        assert_eq!(status, Some(1));
        assert_eq!(error, format!("steamgusset: {own}: this is the input, which is not written over\n"));
    }
    assert_eq!(names(&folder), ["in.sao", "out.yuv"]);
    assert!(fs::read(&name).expect("the input") == bytes && fs::read(&out).expect("the old file") == b"old");
}

#[test]
fn a_file_that_is_written_again_keeps_its_permissions() {
    let folder = elsewhere::empty("permissions");
    let (private, long) = (file(&folder, "private.yuv", b"old"), path(&folder, &"n".repeat(255)));
    let mode = |name: &str| fs::metadata(name).expect("the output").permissions().mode() & 0o777;
    fs::set_permissions(&private, fs::Permissions::from_mode(0o600)).expect("a private file");
    std::os::unix::fs::symlink(&private, folder.join("link")).expect("a link");
    // The link stays one, and a name may be as long as the system allows.
    for out in [&path(&folder, "link"), &private, &long] {
        assert_eq!(steamgusset(&["filter", &vector("s_420_8_tiny8x8_ctb4"), "-o", out]).0, Some(0));
    }
    assert_eq!((mode(&private), fs::read(&private).ok()), (0o600, fs::read(&long).ok()));
    assert_eq!(names(&folder), ["link", &"n".repeat(255), "private.yuv"]);
    assert!(fs::symlink_metadata(folder.join("link")).expect("the link").is_symlink());
}

#[test]
fn filter_refuses_what_it_cannot_filter() {
    let folder = folder("filter-refuses");
    let bytes = bytes_of("s_420_8_tiny8x8_ctb4");
    let scaled = file(&folder, "scaled.sao", &with_field(bytes_of("s_400_12_scale"), 9, 1));
    let cut = file(&folder, "cut.sao", &bytes[..200]);
    let out = path(&folder, "out.yuv");
    let (status, _, error) = steamgusset(&["filter", &scaled, "-o", &out]);
    assert_eq!(status, Some(1));
    let sentence = "the stage does not cover the picture: its offsets are sent with scale 1 for luma";
    assert!(one_sentence(&error) && error.starts_with(&format!("steamgusset: {scaled}: {sentence}; ")), "{error}");
    let (status, _, error) = steamgusset(&["filter", &cut, "-o", &out]);
    assert!(status == Some(1) && one_sentence(&error), "{error}");
    assert!(!Path::new(&out).exists());
}

// bins, and document 01's ten cases

/// The set that a command says it read or wrote.
fn said_set(lines: &str) -> &str {
    lines.lines().find_map(|line| line.strip_prefix("set: ")).expect("a set")
}

/// Reads the bins and writes the set, with the same options, and has each give the other.
fn both_ways(options: &str, bins: &str, count: usize, set: &str) {
    let (status, read, error) = typed(&format!("bins {options} {bins} {count}"));
    assert_eq!((status, error.as_str(), said_set(&read)), (Some(0), "", set));
    let (status, written, error) = typed(&format!("bins {options} --set {set}"));
    assert_eq!((status, error.as_str()), (Some(0), ""));
    assert_eq!(written, read);
    let entry = read.lines().find_map(|line| line.strip_prefix("table entry: ")).expect("a table entry");
    assert_eq!(typed(&format!("bins {options} --set {entry}")).1, written);
}

/// The bins and the value of an element, as the explanation shows them.
fn element<'a>(lines: &'a str, name: &str) -> Vec<&'a str> {
    let named = |line: &&str| line.split_whitespace().any(|word| word == name);
    let line = lines.lines().find(named).expect("such an element");
    line.split_whitespace().skip_while(|word| *word != name).skip(1).take(2).collect()
}

#[test]
fn case_1_magnitudes() {
    let (_, lines, _) = typed("bins --set edge:0:0,3,-7,0");
    assert_eq!(element(&lines, "sao_offset_abs[0]"), ["0", "0"]);
    assert_eq!(element(&lines, "sao_offset_abs[1]"), ["1110", "3"]);
    assert_eq!(element(&lines, "sao_offset_abs[2]"), ["1111111", "7"]);
}

#[test]
fn case_2_off() {
    both_ways("--depth 8", "00", 1, "off/off/off");
}

#[test]
fn case_3_edge() {
    both_ways("--depth 8", "E340", 11, "edge:2:1,0,0,-2/off/off");
    let (status, lines, _) = steamgusset(&["bins", "--depth", "8", "E3 5F", "11"]);
    assert_eq!((status, said_set(&lines)), (Some(0), "edge:2:1,0,0,-2/off/off"));
}

#[test]
fn case_4_counts_refused() {
    for (count, refusal) in [
        (10, "refused 5: the bins end too early"),
        (12, "refused 6: bins remain after the CTU"),
        (17, "refused 4: the declared count exceeds 8 times the bytes given"),
    ] {
        let (status, lines, error) = typed(&format!("bins --depth 8 E340 {count}"));
        assert_eq!((status, error), (Some(1), format!("steamgusset: {refusal}\n")));
        assert!(!lines.contains("set: "), "{lines}");
    }
}

#[test]
fn case_5_band() {
    both_ways("--depth 8", "9CAF00", 17, "band:30:0,-3,0,1/off/off");
    let (_, lines, _) = steamgusset(&["bins", "9C AF 00", "17"]);
    assert_eq!(element(&lines, "sao_offset_sign[1]"), ["1", "1"]);
    assert_eq!(element(&lines, "sao_band_position"), ["11110", "30"]);
    // A magnitude of 0 has no sign.
    assert!(!lines.contains("sao_offset_sign[0]"));
}

/// Has check agree that one row, in every row of an 8x8 picture, becomes another.
fn rows_become(name: &str, set: [u8; 8], before: [u16; 8], after: [u16; 8]) {
    let folder = folder(name);
    let bytes = made(8, 8, &[set], &before.repeat(8), &after.repeat(8));
    let (status, lines, error) = check(&[], &[file(&folder, "rows.sao", &bytes)]);
    assert_eq!((status, error.as_str()), (Some(0), ""), "{lines}");
}

#[test]
fn case_6_bands_wrap() {
    let (before, after) = ([240, 248, 7, 8, 16, 16, 16, 16], [240, 245, 7, 9, 16, 16, 16, 16]);
    rows_become("case-6", band(30, [0, -3, 0, 1]), before, after);
}

#[test]
fn case_7_neighbours_are_deblocked() {
    rows_become("case-7", edge(0, [2, 1, -1, -2]), [5, 3, 5, 5, 6, 6, 4, 4], [5, 5, 4, 6, 5, 5, 5, 4]);
}

#[test]
fn case_8_the_range_is_kept() {
    rows_become("case-8-high", band(31, [7, 0, 0, 0]), [250; 8], [255; 8]);
    rows_become("case-8-low", band(0, [-7, 0, 0, 0]), [2; 8], [0; 8]);
}

#[test]
fn case_9_merges() {
    let set = "edge:2:1,0,0,-2/off/off";
    both_ways(&format!("--left {set}"), "80", 1, set);
    both_ways(&format!("--left band:1:1,0,0,0 --up {set}"), "40", 2, set);
    // Both bins 0: the CTU says its own.
    both_ways(&format!("--left {set} --up {set}"), "2448", 15, "band:4:0,-1,0,0/off/off");
}

#[test]
fn case_10_too_early() {
    let folder = folder("case-10");
    let bytes = made(32, 16, &[[0; 8], [0; 8]], &[9; 512], &[9; 512]);
    let name = file(&folder, "two.sao", &bytes);
    for seed in ["1", "2", "3", "4"] {
        let (status, lines, _) = check(&["--seed", seed], std::slice::from_ref(&name));
        // Each CTB waits for the other, so neither is filtered before both are delivered.
        assert!(status == Some(0) && lines.contains(" 0 of 2 blocks filtered before the last delivery"), "{lines}");
    }
}

#[test]
fn chroma_and_depths() {
    let set = "off/edge:3:0,0,0,-1/edge:3:15,0,0,0";
    both_ways("--depth 9 --chroma on", "62FFFF80", 28, set);
}

/// A magnitude of 7 is seven ones at depth 8, where it is the largest; at depth 10 a zero follows them.
#[test]
fn chroma_has_a_depth_of_its_own() {
    let set = "edge:0:7,0,0,0/edge:0:7,0,0,0/edge:0:0,0,0,-7";
    for (depths, hex, count, luma) in [
        // 11 11111110 0 0 0 00, 11 1111111 0 0 0 00, 0 0 0 1111111
        ("--depth 10 --chroma-depth 8", "FF81FF00FE", 39, "11111110"),
        // 11 1111111 0 0 0 00, 11 11111110 0 0 0 00, 0 0 0 11111110
        ("--depth 8 --chroma-depth 10", "FF83FE00FE", 40, "1111111"),
    ] {
        both_ways(&format!("{depths} --chroma on"), hex, count, set);
        let (_, lines, _) = typed(&format!("bins {depths} --chroma on {hex} {count}"));
        assert_eq!(element(&lines, "sao_offset_abs[0]"), [luma, "7"]);
    }
    // The same bins at two depths and at one.
    for (depths, set) in [
        ("--depth 10 --chroma-depth 8", "edge:3:0,0,0,-8/edge:0:0,7,0,0/edge:0:1,0,0,0"),
        ("--depth 10", "edge:3:0,0,0,-8/edge:1:0,7,0,0/edge:1:0,0,0,0"),
        ("--depth 8", "edge:2:0,0,0,-7/edge:0:2,7,0,0/edge:0:1,0,0,0"),
    ] {
        both_ways(&format!("{depths} --chroma on"), "C7FBDFC200", 35, set);
    }
}

#[test]
fn chromas_depth_may_be_left_out() {
    let set = "off/edge:3:0,0,0,-1/edge:3:15,0,0,0";
    both_ways("--depth 9 --chroma-depth 9 --chroma on", "62FFFF80", 28, set);
    // Where chroma is off, no bin goes by its depth.
    for depths in ["--depth 10", "--depth 10 --chroma-depth 8", "--depth 10 --chroma-depth 16 --chroma off"] {
        both_ways(depths, "E340", 11, "edge:2:1,0,0,-2/off/off");
    }
}

#[test]
fn sets_that_no_bins_mean() {
    let signs = "has an edge with a negative offset among the first two, or a positive one among the last two";
    for (line, rule) in [
        ("--set band:32:0,0,0,0", "Y has the position 32, above 31"),
        ("--set edge:4:0,0,0,0", "Y has the class 4, above 3"),
        ("--set edge:0:-1,0,0,0", &format!("Y {signs}")),
        ("--chroma on --set off/edge:0:0,0,0,0/edge:0:0,0,0,1", &format!("Cr {signs}")),
        ("--set band:0:8,0,0,0", "Y has the offset 8, outside -7 to 7"),
        ("--depth 9 --set band:0:0,0,0,-16", "Y has the offset -16, outside -15 to 15"),
        ("--depth 16 --set edge:0:0,0,0,-128", "Y has the offset -128, outside -31 to 31"),
        (
            "--depth 10 --chroma-depth 8 --chroma on --set band:0:31,0,0,0/band:0:7,0,0,0/band:0:8,0,0,0",
            "Cr has the offset 8, outside -7 to 7",
        ),
        (
            "--depth 8 --chroma-depth 9 --chroma on --set band:0:8,0,0,0/band:0:15,0,0,0/band:0:15,0,0,0",
            "Y has the offset 8, outside -7 to 7",
        ),
        (
            "--chroma-depth 9 --chroma on --set off/band:0:16,0,0,0/band:0:15,0,0,0",
            "Cb has the offset 16, outside -15 to 15",
        ),
        ("--set off/band:0:1,0,0,0/band:0:1,0,0,0", "Cb is on, and its switch is off"),
        ("--luma off --set band:0:1,0,0,0", "Y is on, and its switch is off"),
        ("--chroma on --set off/edge:1:0,0,0,0/edge:2:0,0,0,0", "Cr has the class 2, and Cb 1"),
        ("--chroma on --set off/edge:1:0,0,0,0/off", "Cr has another type than Cb"),
    ] {
        let (status, lines, error) = typed(&format!("bins {line}"));
        assert_eq!((status, lines.as_str()), (Some(1), ""), "{line}");
        assert_eq!(error, format!("steamgusset: refused 12: no bins mean this set: {rule}\n"));
    }
    let (status, _, error) = typed("bins --left band:32:0,0,0,0 80 1");
    assert_eq!(status, Some(1));
    let sentence = "the left neighbour's set is refused 12: no bins mean this set: Y has the position 32, above 31";
    assert_eq!(error, format!("steamgusset: {sentence}\n"));
}

#[test]
fn a_number_that_no_byte_holds() {
    for (set, why) in [
        ("band:31:300,0,0,127", "band:31:300,0,0,127 has the offset 300, outside -128 to 127"),
        ("off/edge:256:0,0,0,0", "edge:256:0,0,0,0 has 256 where a number from 0 to 255 stands"),
        ("edge:1:0,0,0", "edge:1:0,0,0 is none of off, band:P:A,B,C,D and edge:K:A,B,C,D"),
        ("edges:1:0,0,0,0", "edges:1:0,0,0,0 is none of off, band:P:A,B,C,D and edge:K:A,B,C,D"),
    ] {
        let (status, _, error) = steamgusset(&["bins", "--set", set]);
        assert_eq!((status, error), (Some(2), format!("steamgusset: --set: {why}; try steamgusset bins --help\n")));
    }
}

#[test]
fn no_bins_where_both_switches_are_off() {
    let (status, lines, error) = steamgusset(&["bins", "--luma", "off", "", "0"]);
    assert_eq!((status, error.as_str()), (Some(0), ""));
    assert_eq!(lines.lines().next(), Some("0 bins: none"));
    let (status, lines, _) = typed("bins --luma off --set off");
    assert!(status == Some(0) && lines.starts_with("0 bins: none\n"), "{lines}");
}

// Help, and the command line

#[test]
fn help_and_version() {
    let (status, general, error) = steamgusset(&["--help"]);
    assert_eq!((status, error.as_str()), (Some(0), ""));
    assert_eq!(steamgusset(&["help"]).1, general);
    for name in ["check", "filter", "bins"] {
        let (status, help, error) = steamgusset(&[name, "--help"]);
        assert_eq!((status, error.as_str()), (Some(0), ""));
        assert_eq!(steamgusset(&["help", name]).1, help);
        assert_eq!(steamgusset(&["--help", name]).1, help);
        assert!(help.contains("\nexamples:\n") && general.contains(name), "{help}");
    }
    let (major, minor) = steamgusset::version();
    let version = format!("steamgusset {}, stage {major}.{minor}\n", env!("CARGO_PKG_VERSION"));
    assert_eq!(steamgusset(&["--version"]), (Some(0), version.clone(), String::new()));
    assert_eq!(steamgusset(&["-V"]).1, version);
}

#[test]
fn every_help_says_the_exit_statuses() {
    for line in ["help", "help check", "help filter", "help bins"] {
        let help = typed(line).1.split_whitespace().collect::<Vec<_>>().join(" ");
        let statuses = help.split_once(" exit status: 0 ").expect("the exit statuses").1;
        assert!(statuses.contains("; 1 ") && statuses.contains("; 2 a bad command line It is 3 if "), "{help}");
        assert!(statuses.ends_with("closed or broken when something is to be printed, whatever else was found."));
    }
}

#[test]
fn a_bad_command_line() {
    for line in [
        "chek",
        "--sed",
        "help chek",
        "help check bins",
        "check",
        "check --sed 1 a",
        "check --seed",
        "check --seed one a",
        "check --seed -1 a",
        "check --seed= a",
        "check --seed --seed a",
        "check --seed 1 --seed 2 a",
        "check - a -",
        "check - /dev/stdin",
        "filter",
        "filter a",
        "filter a -o",
        "filter a -o --png p",
        "filter a -o --png=p",
        "filter a -o -- p",
        "filter a -oc",
        "filter a --png -",
        "filter a --ppm -",
        "filter a -o - --compare -",
        "filter a -o - --compare /dev/stdout",
        "filter a -o c --png p --ppm p",
        "filter a -o c --amplify 3",
        "filter a -o c --png p --amplify 0",
        "filter a -o c --png p --amplify 256",
        "bins",
        "bins E340",
        "bins E34 11",
        "bins E340 eleven",
        "bins E340 -1",
        "bins GG 1",
        "bins --depth 7 00 1",
        "bins --depth 17 00 1",
        "bins --chroma-depth 7 00 1",
        "bins --chroma-depth 17 00 1",
        "bins --chroma-depth ten 00 1",
        "bins --chroma-depth 9 --chroma-depth 9 00 1",
        "bins --luma maybe 00 1",
        "bins --set edge",
        "bins --left edge:1 00 1",
        "bins --set FFFFFFFFFFFFFFFFFFFFFFFFFFFFFFFFFFFF",
    ] {
        let (status, lines, error) = typed(line);
        assert_eq!((status, lines.as_str()), (Some(2), ""), "{line}");
        assert!(one_sentence(&error) && error.contains("; try steamgusset ") && error.ends_with("--help\n"), "{error}");
    }
    let (status, _, error) = steamgusset(&[]);
    assert!(status == Some(2) && one_sentence(&error), "{error}");
}

#[test]
fn values_may_be_joined_and_words_may_look_like_options() {
    assert_eq!(typed("bins --depth=8 --set=edge:2:1,0,0,-2"), typed("bins --depth 8 --set edge:2:1,0,0,-2"));
    let folder = folder("dashes");
    file(&folder, "--seed", &bytes_of("s_420_8_tiny8x8_ctb4"));
    let (status, lines, _) = ran(command(&["check", "--", "--seed"]).current_dir(&folder));
    assert!(status == Some(0) && lines.starts_with("--seed  8x8"), "{lines}");
}

#[test]
fn a_word_too_many_is_named() {
    for (line, word) in [
        ("help check bins", "bins"),
        ("--help check bins", "bins"),
        ("--version now", "now"),
        ("-V --help", "--help"),
        ("filter a b -o c", "b"),
        ("filter a -o c d e", "d"),
        ("bins --depth 8 10 E340 11", "11"),
        ("bins E3 40 11", "11"),
        ("bins --set off 00 1", "00"),
    ] {
        let (status, lines, error) = typed(line);
        assert_eq!((status, lines.as_str()), (Some(2), ""), "{line}");
        assert!(one_sentence(&error) && error.contains(&format!(", and {word} is a word too many; try ")), "{error}");
    }
    for (line, value) in [("check --seed 7x a", "7x"), ("filter a --png p --amplify 3,5", "3,5")] {
        let (status, _, error) = typed(line);
        assert!(status == Some(2) && one_sentence(&error) && error.contains(&format!(", not {value}; ")), "{error}");
    }
}

#[test]
fn the_standard_output_has_a_status_of_its_own() {
    let folder = folder("status-3");
    let (name, out) = (vector("x_420_8_72x56_ctu16"), path(&folder, "out.yuv"));
    // Whatever else was found: one that differs, and bins that are refused.
    let mut differs = fs::read(&name).expect("a readable vector");
    let last = differs.len() - 2;
    differs[last] ^= 1;
    let differs = file(&folder, "differs.sao", &differs);
    let lines: [&[&str]; 9] = [
        &["--help"],
        &["help", "check"],
        &["--version"],
        &["check", &name],
        &["check", &differs],
        &["filter", &name, "-o", &out],
        &["filter", &name, "-o", "-"],
        &["bins", "E340", "11"],
        &["bins", "E340", "12"],
    ];
    for line in lines {
        // Nobody reads, so nobody is told either.
        assert_eq!(unread(line), (Some(3), String::new(), String::new()), "{line:?}");
        let (status, _, error) = closed(line);
        assert_eq!(
            (status, error.as_str()),
            (Some(3), "steamgusset: the standard output cannot be written: it is closed\n")
        );
        let full = fs::OpenOptions::new().write(true).open("/dev/full").expect("the device that is full");
        let (status, _, error) = ran_to(line, full);
        assert!(
            status == Some(3) && one_sentence(&error) && error.contains("the standard output cannot be"),
            "{error}"
        );
    }
    // The null device is none of these.
    assert_eq!(ran_to(&["check", &name], Stdio::null()).0, Some(0));
}

#[test]
fn no_bar_where_there_is_no_terminal() {
    let (_, lines, error) = check(&[], &vectors());
    assert!(error.is_empty() && !lines.contains(['\r', '\x1b']));
}

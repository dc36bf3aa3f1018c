//! Vector files as `steamgusset` meets them: covered or not, damaged, without an end, or not to be read.

mod folders;
mod shell;

use second::filter_picture;
use second::random::Random;
use second::vectors::{Header, Vector};
use shell::{Ran, ran, told};
use std::fs::{self, File};
use std::io::{Read, Seek, SeekFrom};
use std::os::unix::fs::PermissionsExt;
use std::path::{Path, PathBuf};
use std::process::{Command, Stdio};

const COMMAND: &str = env!("CARGO_BIN_EXE_steamgusset");

fn check(file: &Path) -> Ran {
    ran(Command::new(COMMAND).arg("check").arg(file).stdin(Stdio::null()))
}

/// The command with 256 MB of memory.
fn check_in_little_memory(files: &[&Path]) -> Ran {
    let limited = "ulimit -v 262144 && exec \"$0\" check \"$@\"";
    ran(Command::new("sh").args(["-c", limited, COMMAND]).args(files).stdin(Stdio::null()))
}

/// A folder of the test's own, empty.
fn folder(name: &str) -> PathBuf {
    folders::empty(&format!("files-{name}"))
}

fn file(folder: &Path, name: &str, bytes: &[u8]) -> PathBuf {
    let path = folder.join(name);
    fs::write(&path, bytes).expect("a file for the test");
    path
}

fn bundled(name: &str) -> Vec<u8> {
    let path = Path::new(env!("CARGO_MANIFEST_DIR")).join("../vectors").join(name);
    fs::read(path).expect("a bundled vector")
}

/// 4:2:0, depth 8, 72x56 with CTB size 16: five columns and four rows of CTBs.
fn twenty_ctus() -> Vec<u8> {
    bundled("x_420_8_72x56_ctu16-001.sao")
}

/// Monochrome, depth 12, with offsets sent as the 2013 rule scales them.
fn scaled() -> Vec<u8> {
    bundled("s_400_12_scale-000.sao")
}

fn tiny() -> Vec<u8> {
    bundled("s_420_8_tiny8x8_ctb4-001.sao")
}

const HEADER: usize = 8 + 4 * 32;
/// Where the one segment and the CTUs of a file with one tile and one segment begin.
const SEGMENT: usize = HEADER + 4 * 4;
const CTUS: usize = SEGMENT + 24;

fn put(bytes: &mut [u8], place: usize, number: i32) {
    bytes[place..place + 4].copy_from_slice(&number.to_le_bytes());
}

/// With the header's fields changed.
fn with(mut bytes: Vec<u8>, fields: &[(usize, i32)]) -> Vec<u8> {
    fields.iter().for_each(|(field, number)| put(&mut bytes, 8 + 4 * field, *number));
    bytes
}

/// The picture of twenty CTUs in two segments. The second begins at a CTU with these five numbers more.
fn segmented(ctu: usize, second: [i32; 5]) -> Vec<u8> {
    let mut bytes = with(twenty_ctus(), &[(15, 2)]);
    (ctu..20).for_each(|ctu| put(&mut bytes, CTUS + 28 * ctu, 1));
    let numbers = [[ctu as i32].as_slice(), &second].concat();
    bytes.splice(CTUS..CTUS, numbers.iter().flat_map(|number| number.to_le_bytes()));
    bytes
}

/// The flags of the one slice of that picture: luma, chroma, across slices.
const FLAGS: [i32; 3] = [1, 1, 0];

fn second_segment(slice_address: i32, dependent: i32) -> [i32; 5] {
    [slice_address, dependent, FLAGS[0], FLAGS[1], FLAGS[2]]
}

fn agrees(name: &str, bytes: &[u8]) {
    let (status, lines, error) = check(&file(&folder(name), "covered.sao", bytes));
    assert_eq!((status, error.as_str()), (Some(0), ""), "{lines}");
    assert!(lines.contains(": agrees\n1 agree, 0 differ, 0 not covered, 0 damaged, 0 cannot be read;"), "{lines}");
}

fn is_not_covered(name: &str, bytes: &[u8], why: &str) {
    let folder = folder(name);
    let path = file(&folder, "not-covered.sao", bytes);
    let (status, lines, error) = check(&path);
    assert_eq!((status, error.as_str()), (Some(0), ""), "{why}: {lines}");
    let counts = "0 agree, 0 differ, 1 not covered, 0 damaged, 0 cannot be read";
    assert_eq!(lines, format!("{}  not covered: {why}\n{counts}\n", path.display()));
    let filter = ran(Command::new(COMMAND).arg("filter").arg(&path).arg("-o").arg(folder.join("out.yuv")));
    let sentence = format!("steamgusset: {}: the stage does not cover the picture: {why}\n", path.display());
    assert_eq!(filter, (Some(1), String::new(), sentence));
    assert!(!folder.join("out.yuv").exists());
}

fn is_damaged(name: &str, bytes: &[u8], why: &str) {
    let path = file(&folder(name), "damaged.sao", bytes);
    is_damage(check(&path), &path, why);
}

fn is_damage((status, lines, error): Ran, path: &Path, why: &str) {
    assert_eq!((status, error), (Some(1), format!("steamgusset: {}: {why}\n", path.display())));
    assert_eq!(lines, "0 agree, 0 differ, 0 not covered, 1 damaged, 0 cannot be read\n");
}

// Covered or not

#[test]
fn above_10_bits_the_2013_scale_is_covered() {
    agrees("scaled", &scaled());
    // Chroma's scale and depth mean nothing where there is no chroma.
    for (depth, scale, name) in [(8, 0, "scaled-chroma-8"), (12, 0, "scaled-chroma-12"), (16, 3, "scaled-chroma-16")] {
        agrees(name, &with(scaled(), &[(4, depth), (10, scale)]));
    }
    for (luma, name) in [(0, "scale-0"), (1, "scale-1")] {
        let why = format!("its offsets are sent with scale {luma} for luma; at depth 12 the stage has 2");
        is_not_covered(name, &with(scaled(), &[(9, luma)]), &why);
    }
}

/// A file of depth 8 made one of other depths and the scales given, luma's first, its final planes by the 2013 rule.
fn deepened(depths: [i32; 2], scales: [i32; 2]) -> Vec<u8> {
    let fields = [(3, depths[0]), (4, depths[1]), (9, scales[0]), (10, scales[1])];
    let mut bytes = with(twenty_ctus(), &fields);
    let vector = Vector::parse(&bytes).expect("a sound file");
    let planes = filter_picture(&vector.picture(), &vector.sets(), vector.deblocked.each_ref().map(Vec::as_slice));
    let samples: Vec<u8> = planes.iter().flatten().flat_map(|sample| sample.to_le_bytes()).collect();
    let end = bytes.len() - samples.len();
    bytes.truncate(end);
    bytes.extend(samples);
    bytes
}

#[test]
fn above_10_bits_both_scales_count_where_there_is_chroma() {
    agrees("deep-11", &deepened([11; 2], [1; 2]));
    agrees("deep-16", &deepened([16; 2], [6; 2]));
    for (luma, chroma, name) in [(0, 0, "deep-0-0"), (2, 1, "deep-2-1"), (1, 2, "deep-1-2")] {
        let sent = format!("its offsets are sent with scale {luma} for luma and {chroma} for chroma");
        is_not_covered(name, &deepened([12; 2], [luma, chroma]), &format!("{sent}; at depth 12 the stage has 2"));
    }
}

#[test]
fn two_depths_are_covered_each_with_its_own_scale() {
    for (luma, chroma) in (8..=16).flat_map(|luma| (8..=16).map(move |chroma| (luma, chroma))) {
        let scales = [luma, chroma].map(|depth| (depth - 10).max(0));
        agrees(&format!("depths-{luma}-{chroma}"), &deepened([luma, chroma], scales));
    }
    for (depths, scales, stage) in [
        ([12, 8], [0, 0], "at depth 12/8 the stage has 2 and 0"),
        ([9, 16], [0, 5], "at depth 9/16 the stage has 0 and 6"),
        // The one's scale is not the other's.
        ([12, 13], [2, 2], "at depth 12/13 the stage has 2 and 3"),
        ([11, 12], [0, 1], "at depth 11/12 the stage has 1 and 2"),
    ] {
        let sent = format!("its offsets are sent with scale {} for luma and {} for chroma", scales[0], scales[1]);
        let name = format!("scales-{}-{}", depths[0], depths[1]);
        is_not_covered(&name, &deepened(depths, scales), &format!("{sent}; {stage}"));
    }
}

#[test]
fn a_sample_is_judged_by_its_components_depth() {
    // The last sample of the deblocked planes is Cr's, the first is luma's.
    let planes = 2 * (72 * 56 * 3 / 2);
    let (first, last) = (twenty_ctus().len() - 2 * planes, twenty_ctus().len() - planes - 2);
    for (depths, place, sample) in [([8, 10], first, 256), ([8, 10], last, 1024), ([10, 8], last, 256)] {
        let mut bytes = deepened(depths, [0, 0]);
        bytes[place..place + 2].copy_from_slice(&(sample as u16).to_le_bytes());
        let why = format!("a deblocked plane has the sample {sample}, above {}", sample - 1);
        is_damaged(&format!("sample-{}-{place}", depths[0]), &bytes, &why);
    }
}

#[test]
fn a_slice_of_several_segments_is_covered() {
    for ctu in [1, 5, 7, 19] {
        agrees(&format!("dependent-{ctu}"), &segmented(ctu, second_segment(0, 1)));
        let slices = segmented(ctu, second_segment(ctu as i32, 0));
        is_not_covered(&format!("independent-{ctu}"), &slices, "it has several slices");
    }
}

#[test]
fn what_is_not_covered_is_said() {
    // Two tile columns of the five CTB columns.
    let mut tiles = with(twenty_ctus(), &[(13, 2)]);
    tiles.splice(HEADER + 4..HEADER + 4, 2i32.to_le_bytes());
    // The skip map ends where the planes, twice, begin.
    let kept = |bit: u8, fields: &[(usize, i32)]| {
        let mut bytes = with(twenty_ctus(), fields);
        let last = bytes.len() - 2 * 2 * (72 * 56 * 3 / 2) - 1;
        bytes[last] |= bit;
        bytes
    };
    let pcm = kept(1, &[(23, 1)]);
    agrees("pcm", &pcm);
    let pictures: [(&str, Vec<u8>, &str); 3] = [
        ("tiles", tiles, "it has several tiles"),
        ("lossless", kept(2, &[(23, 2)]), "it has lossless units, which keep their samples"),
        ("pcm", with(pcm, &[(11, 1)]), "it has PCM units whose loop filtering is disabled"),
    ];
    for (name, bytes, why) in pictures {
        is_not_covered(&format!("not-covered-{name}"), &bytes, why);
    }
}

/// Where separate_colour_plane_flag is 1, H.265 codes a plane of 4:4:4 as a monochrome picture (7.4.3.2), and the file
/// holds one.
#[test]
fn a_plane_coded_apart_is_a_monochrome_picture() {
    agrees("apart", &with(scaled(), &[(2, 3)]));
}

// Headers

/// The header of a picture with these sides and CTB size 16.
fn header(width: i32, height: i32) -> Vec<u8> {
    let ctbs = |side: i32| (side + 15) / 16;
    with(twenty_ctus()[..HEADER].to_vec(), &[(0, width), (1, height), (7, ctbs(width)), (8, ctbs(height))])
}

#[test]
fn a_bad_header_field_is_named() {
    let fields: [(&[(usize, i32)], &str); 25] = [
        (&[(0, i32::MAX)], "0, width, is 2147483647, outside 8 to 65528"),
        (&[(0, 76)], "0, width, is 76, no multiple of 8 (MinCbLog2SizeY 3)"),
        (&[(1, 0)], "1, height, is 0, outside 8 to 65528"),
        (&[(1, 60)], "1, height, is 60, no multiple of 8 (MinCbLog2SizeY 3)"),
        (&[(2, 4)], "2, chroma_format_idc, is 4, outside 0 to 3"),
        (&[(3, 7)], "3, BitDepthY, is 7, outside 8 to 16"),
        (&[(4, 17)], "4, BitDepthC, is 17, outside 8 to 16"),
        (&[(5, 3)], "5, CtbLog2SizeY, is 3, outside 4 to 6"),
        (&[(6, 5)], "6, MinCbLog2SizeY, is 5, outside 3 to 4 (CtbLog2SizeY 4)"),
        (&[(7, 6)], "7, CTB columns, is 6, not 5 (width 72, CtbLog2SizeY 4)"),
        (&[(8, 3)], "8, CTB rows, is 3, not 4 (height 56, CtbLog2SizeY 4)"),
        (&[(9, 1)], "9, log2_sao_offset_scale_luma, is 1, not 0 (BitDepthY 8)"),
        (&[(4, 12), (10, 3)], "10, log2_sao_offset_scale_chroma, is 3, outside 0 to 2 (BitDepthC 12)"),
        (&[(11, -1)], "11, pcm_loop_filter_disabled_flag, is -1, outside 0 to 1"),
        (&[(12, 2)], "12, loop_filter_across_tiles_enabled_flag, is 2, outside 0 to 1"),
        (&[(13, 6)], "13, tile columns, is 6, outside 1 to 5 (CTB columns 5)"),
        (&[(14, 5)], "14, tile rows, is 5, outside 1 to 4 (CTB rows 4)"),
        (&[(15, 21)], "15, slice segments, is 21, outside 1 to 20 (CTB columns 5, CTB rows 4)"),
        (&[(18, 8)], "18, cropping, is 8, not 0"),
        (&[(21, i32::MIN)], "21, cropping, is -2147483648, not 0"),
        (&[(22, 2)], "22, sample_adaptive_offset_enabled_flag, is 2, outside 0 to 1"),
        (&[(23, 4)], "23, OR of the skip map, is 4, outside 0 to 3"),
        (&[(24, 3)], "24, ChromaArrayType, is 3, not 1 (chroma_format_idc 1)"),
        (&[(2, 3), (24, 1)], "24, ChromaArrayType, is 1, neither 0 nor 3 (chroma_format_idc 3)"),
        (&[(31, 1)], "31, reserved, is 1, not 0"),
    ];
    for (number, (fields, why)) in fields.into_iter().enumerate() {
        let (name, why) = (format!("header-{number}"), format!("header field {why}"));
        is_damaged(&name, &with(twenty_ctus(), fields), &why);
        // The header is judged alone: nothing after it is needed.
        is_damaged(&name, &with(twenty_ctus(), fields)[..HEADER], &why);
    }
    is_damaged("no-mark", b"", "the file does not begin with the mark SAOVEC1");
    is_damaged(
        "other-mark",
        &[b"SAOVEC2\0", &twenty_ctus()[8..]].concat(),
        "the file does not begin with the mark SAOVEC1",
    );
    is_damaged("cut", &twenty_ctus()[..100], "the file ends within its header, after 100 of 136 bytes");
}

#[test]
fn the_parts_are_judged() {
    let changed = |place: usize, number: i32| {
        let mut bytes = twenty_ctus();
        put(&mut bytes, place, number);
        bytes
    };
    let with_bytes = |place: usize, new: &[u8]| {
        let mut bytes = twenty_ctus();
        bytes[place..place + new.len()].copy_from_slice(new);
        bytes
    };
    let planes = twenty_ctus().len() - 2 * 2 * (72 * 56 * 3 / 2);
    let misplaced = |ctu: usize| {
        let mut bytes = segmented(7, second_segment(0, 1));
        put(&mut bytes, CTUS + 24 + 28 * ctu, 0);
        bytes
    };
    let damaged: [(Vec<u8>, &str); 17] = [
        (changed(HEADER, 1), "the tile column boundaries do not rise from 0 to 5"),
        (changed(HEADER + 12, 3), "the tile row boundaries do not rise from 0 to 4"),
        (changed(SEGMENT, 5), "slice segment 0 has slice_segment_address 5, not 0"),
        (changed(SEGMENT + 4, 5), "slice segment 0 has SliceAddrRs 5, not 0"),
        (changed(SEGMENT + 8, 1), "slice segment 0 has dependent_slice_segment_flag 1, not 0"),
        (changed(SEGMENT + 12, 2), "slice segment 0 has slice_sao_luma_flag 2, outside 0 to 1"),
        (segmented(7, second_segment(7, 1)), "slice segment 1 has SliceAddrRs 7, not 0"),
        (segmented(7, second_segment(0, 0)), "slice segment 1 has SliceAddrRs 0, not 7"),
        (segmented(7, [0, 1, 1, 0, 0]), "slice segment 1 has slice_sao_chroma_flag 0, not 1"),
        (segmented(20, second_segment(0, 1)), "slice segment 1 has slice_segment_address 20, outside 0 to 19"),
        (segmented(0, second_segment(0, 1)), "slice segment 1 begins no later than the one before it"),
        (misplaced(7), "the slice segment of CTU 7 is 0, not 1"),
        (with_bytes(CTUS + 4, &[3]), "CTU 0 has type 3, which is none of 0, 1 and 2"),
        (with_bytes(CTUS + 28 + 7, &[9]), "CTU 1 has a set whose fourth byte is not 0"),
        (
            with_bytes(CTUS + 4, &[1, 40]),
            "writing the set of CTU 0 is refused 12: no bins mean this set: Y has the position 40, above 31",
        ),
        (with_bytes(planes - 1, &[1]), "the OR of the skip map is 1, but the header says 0"),
        (with_bytes(planes, &[0, 1]), "a deblocked plane has the sample 256, above 255"),
    ];
    for (number, (bytes, why)) in damaged.iter().enumerate() {
        is_damaged(&format!("part-{number}"), bytes, why);
    }
}

/// The file with the SAO flags of its one segment changed.
fn with_flags(mut bytes: Vec<u8>, luma: i32, chroma: i32) -> Vec<u8> {
    put(&mut bytes, SEGMENT + 12, luma);
    put(&mut bytes, SEGMENT + 16, chroma);
    bytes
}

#[test]
fn a_flag_that_is_0_leaves_its_component_off() {
    // Twenty CTUs too, with luma and chroma on.
    let both = || bundled("s_420_10_clip-000.sao");
    let first_on = |component: usize| {
        let types = (0..20).map(|ctu| both()[CTUS + 28 * ctu + 4 + 8 * component]);
        types.enumerate().find(|(_, kind)| *kind != 0).expect("a CTU that is on")
    };
    let left_off = |component: usize, name: &str| {
        let (ctu, kind) = first_on(component);
        format!("CTU {ctu} has type {kind} in {name}, which its slice leaves off")
    };
    // Without SAO in the sequence no flag is sent, and in monochrome none for chroma.
    let files = [
        (with_flags(both(), 0, 1), left_off(0, "Y")),
        (with_flags(both(), 1, 0), left_off(1, "Cb")),
        (with(both(), &[(22, 0)]), "slice segment 0 has slice_sao_luma_flag 1, not 0".into()),
        (with_flags(scaled(), 1, 1), "slice segment 0 has slice_sao_chroma_flag 1, not 0".into()),
    ];
    for (number, (bytes, why)) in files.iter().enumerate() {
        is_damaged(&format!("flags-{number}"), bytes, why);
        assert!(Vector::parse(bytes).is_err());
    }
}

// Lengths

#[test]
fn no_more_is_read_than_the_header_announces() {
    let folder = folder("long");
    let goes_on = "the file goes on after the 24991 bytes that its header announces";
    is_damaged("longer", &[twenty_ctus(), vec![0]].concat(), goes_on);
    is_damaged(
        "shorter",
        &twenty_ctus()[..24990],
        "the file ends after 24990 of the 24991 bytes that its header announces",
    );
    // Two gigabytes that take no room on the disk.
    let long = file(&folder, "long.sao", &twenty_ctus());
    File::options().write(true).open(&long).and_then(|file| file.set_len(2 << 30)).expect("a long file");
    is_damage(check_in_little_memory(&[&long]), &long, goes_on);
    fs::remove_file(&long).expect("the long file goes away");
}

/// What check says of a pipe that gives these bytes and then zeros without end.
fn check_endless(bytes: Vec<u8>) -> Ran {
    let mut command = Command::new(COMMAND);
    command.args(["check", "-"]).stdin(Stdio::piped()).stdout(Stdio::piped()).stderr(Stdio::piped());
    let mut child = command.spawn().expect("the command runs");
    let mut pipe = child.stdin.take().expect("a pipe");
    // It ends when the command does, since nobody reads the pipe any more.
    let writer = std::thread::spawn(move || std::io::copy(&mut bytes.chain(std::io::repeat(0)), &mut pipe));
    let ended = child.wait_with_output().expect("the command ends");
    assert!(writer.join().expect("a thread that ends").is_err());
    told(ended)
}

#[test]
fn a_pipe_without_end_is_left() {
    let stdin = Path::new("standard input");
    let goes_on = "the file goes on after the 24991 bytes that its header announces";
    is_damage(check_endless(twenty_ctus()), stdin, goes_on);
    is_damage(check_endless(vec![]), stdin, "the file does not begin with the mark SAOVEC1");
    let bad = with(twenty_ctus(), &[(5, 7)]);
    is_damage(check_endless(bad), stdin, "header field 5, CtbLog2SizeY, is 7, outside 4 to 6");
    // However much is announced: what is not covered is not read, and what is covered no further than it is sound.
    for (fields, why) in [
        (&[(0, 65528), (1, 65528), (7, 4096), (8, 4096)][..], "its size is 65528x65528, above 8192"),
        (&[(14, 2)], "it has several tiles"),
    ] {
        let (status, lines, error) = check_endless(with(header(8192, 8192), fields));
        assert_eq!((status, error.as_str()), (Some(0), ""));
        assert!(lines.starts_with(&format!("standard input  not covered: {why}\n")), "{lines}");
    }
    is_damage(check_endless(header(8192, 8192)), stdin, "the tile column boundaries do not rise from 0 to 512");
}

/// A file that begins with these bytes and is as long as its header announces, by zeros that take no room on the disk.
fn lengthened(folder: &Path, bytes: &[u8]) -> (PathBuf, File) {
    let path = file(folder, "lengthened.sao", bytes);
    let announced = Header::read(&mut &bytes[..]).expect("a good header").file_bytes();
    let opened = File::options().read(true).write(true).open(&path).expect("a file");
    opened.set_len(announced).expect("a long file");
    (path, opened)
}

/// What check says of such a file, and how many bytes it reads.
fn bytes_read(name: &str, bytes: &[u8]) -> (Ran, u64) {
    let (_, mut read) = lengthened(&folder(name), bytes);
    // The command and the test share the place in the file.
    let ran = ran(Command::new(COMMAND).args(["check", "-"]).stdin(read.try_clone().expect("the same file")));
    (ran, read.stream_position().expect("the place in the file"))
}

#[test]
fn nothing_is_read_after_a_header_that_is_not_covered() {
    for (number, (fields, why)) in [
        (&[(0, 8200), (1, 8), (7, 513), (8, 1)][..], "its size is 8200x8, above 8192"),
        (
            &[(3, 12), (4, 12), (9, 2)],
            "its offsets are sent with scale 2 for luma and 0 for chroma; at depth 12 the stage has 2",
        ),
        (
            &[(3, 12), (9, 1)],
            "its offsets are sent with scale 1 for luma and 0 for chroma; at depth 12/8 the stage has 2 and 0",
        ),
        (&[(14, 2)], "it has several tiles"),
        (&[(23, 2)], "it has lossless units, which keep their samples"),
        (&[(23, 1), (11, 1)], "it has PCM units whose loop filtering is disabled"),
    ]
    .into_iter()
    .enumerate()
    {
        let ((status, lines, error), read) = bytes_read(&format!("unread-{number}"), &with(header(8192, 8192), fields));
        let counts = "0 agree, 0 differ, 1 not covered, 0 damaged, 0 cannot be read";
        let line = format!("standard input  not covered: {why}\n{counts}\n");
        assert_eq!((status, lines, error, read), (Some(0), line, String::new(), HEADER as u64));
    }
}

#[test]
fn nothing_is_read_after_the_first_bad_part() {
    let stdin = Path::new("standard input");
    let (ran, read) = bytes_read("bad-tiles", &header(8192, 8192));
    is_damage(ran, stdin, "the tile column boundaries do not rise from 0 to 512");
    assert_eq!(read, SEGMENT as u64);
    let tiles = [0, 512, 0, 512i32].iter().flat_map(|bound| bound.to_le_bytes()).collect();
    let segment = [0, 0, 0, 2, 0, 0i32].iter().flat_map(|number| number.to_le_bytes()).collect();
    let (ran, read) = bytes_read("bad-segment", &[header(8192, 8192), tiles, segment].concat());
    is_damage(ran, stdin, "slice segment 0 has slice_sao_luma_flag 2, outside 0 to 1");
    assert_eq!(read, CTUS as u64);
}

#[test]
fn a_file_may_be_the_standard_input() {
    let folder = folder("standard-input");
    let (name, out) = (file(&folder, "in.sao", &twenty_ctus()), folder.join("out.yuv"));
    let from = |words: &[&str], place: u64| {
        let mut input = File::open(&name).expect("a file");
        input.seek(SeekFrom::Start(place)).expect("a place in the file");
        ran(Command::new(COMMAND).args(words).current_dir(&folder).stdin(input))
    };
    for word in ["-", "/dev/stdin"] {
        let (status, lines, error) = from(&["check", "no-such-file", word, "in.sao"], 0);
        assert_eq!((status, error.lines().count()), (Some(1), 1));
        let lines: Vec<&str> = lines.lines().collect();
        assert!(lines[0].starts_with("standard input  72x56 ") && lines[1].starts_with("in.sao          72x56 "));
        assert!(lines[2].starts_with("2 agree, "), "{lines:?}");
    }
    let [piped, named] = ["-", "in.sao"].map(|input| {
        let ran = from(&["filter", input, "-o", "out.yuv"], 0);
        assert_eq!(ran.0, Some(0));
        (ran, fs::read(&out).expect("the output"))
    });
    assert!(piped == named);
    // It is read from where it stands, and its length counts from there.
    let (_, _, error) = from(&["check", "-"], 8);
    assert_eq!(error, "steamgusset: standard input: the file does not begin with the mark SAOVEC1\n");
    let moved = file(&folder, "moved.sao", &[b"before".as_slice(), &twenty_ctus()].concat());
    let mut input = File::open(moved).expect("a file");
    input.seek(SeekFrom::Start(6)).expect("a place in the file");
    assert_eq!(ran(Command::new(COMMAND).args(["check", "-"]).stdin(input)).0, Some(0));
    // Nor is it written over.
    let (status, _, error) = from(&["filter", "-", "-o", "in.sao"], 0);
    let sentence = "steamgusset: in.sao: this is the input, which is not written over\n";
    assert_eq!((status, error.as_str()), (Some(1), sentence));
    assert!(fs::read(&name).expect("the input") == twenty_ctus());
    // A file of that name has its folder before it.
    file(&folder, "-", &twenty_ctus());
    let (status, lines, _) = from(&["check", "./-"], 8);
    assert!(status == Some(0) && lines.starts_with("./-  72x56 "), "{lines}");
}

#[test]
fn what_is_announced_takes_no_memory() {
    let folder = folder("announced");
    for side in [8192, 65528u64] {
        let path = file(&folder, &format!("{side}.sao"), &header(side as i32, side as i32));
        let (ctbs, coding_blocks, samples) = (side.div_ceil(16).pow(2), (side / 8).pow(2), side.pow(2) * 3 / 2);
        let bytes = CTUS as u64 + 28 * ctbs + coding_blocks + 2 * 2 * samples;
        let why = format!("the file ends after 136 of the {bytes} bytes that its header announces");
        is_damage(check_in_little_memory(&[&path]), &path, &why);
    }
}

#[test]
fn a_picture_for_which_there_is_no_memory_ends_nothing() {
    let folder = folder("no-memory");
    let (large, small) = (lengthened(&folder, &header(8192, 8192)).0, file(&folder, "small.sao", &tiny()));
    let (status, lines, error) = check_in_little_memory(&[&large, &small]);
    assert_eq!(status, Some(1));
    assert!(error.starts_with(&format!("steamgusset: {}: the file cannot be read: ", large.display())), "{error}");
    assert!(error.lines().count() == 1 && error.contains("memory"), "{error}");
    assert!(lines.contains("1 agree, 0 differ, 0 not covered, 0 damaged, 1 cannot be read;"), "{lines}");
}

#[test]
fn the_length_is_judged_before_what_is_covered() {
    let path = file(&folder("large"), "large.sao", &header(8, 8200));
    let all = HEADER + 4 * 4 + 24 + 28 * 513 + 1025 + 2 * 2 * (8 * 8200 * 3 / 2);
    File::options().write(true).open(&path).and_then(|file| file.set_len(all as u64 + 1)).expect("a file");
    is_damage(check(&path), &path, &format!("the file goes on after the {all} bytes that its header announces"));
}

// Files that cannot be read

fn cannot_be_read(command: &[&str], path: &Path) {
    let run = |words: &[&str]| {
        let all = [command, &[COMMAND], words].concat();
        ran(Command::new(all[0]).args(&all[1..]).arg(path).stdin(Stdio::null()))
    };
    let sentence = format!("steamgusset: {}: the file cannot be read: ", path.display());
    let (status, lines, error) = run(&["check"]);
    assert_eq!(lines, "0 agree, 0 differ, 0 not covered, 0 damaged, 1 cannot be read\n");
    assert!(status == Some(1) && error.starts_with(&sentence) && error.lines().count() == 1, "{error}");
    let (status, lines, error) = run(&["filter", "-o", "/dev/null"]);
    assert!(status == Some(1) && lines.is_empty() && error.starts_with(&sentence), "{error}");
}

/// The words that run a program as a user without rights, where this user may do that and the other can read the file.
fn as_nobody(file: &Path) -> Option<Vec<&'static str>> {
    let words = ["setpriv", "--reuid=65534", "--regid=65534", "--clear-groups"];
    let tried = Command::new(words[0]).args(&words[1..]).args([COMMAND, "check"]).arg(file).output();
    tried.is_ok_and(|ran| ran.status.success()).then(|| words.to_vec())
}

#[test]
fn a_file_that_cannot_be_read_is_not_called_damaged() {
    let folder = folder("unreadable");
    cannot_be_read(&[], &folder.join("no-such-file.sao"));
    cannot_be_read(&[], &folder);
    let [open, locked] = ["open.sao", "locked.sao"].map(|name| file(&folder, name, &tiny()));
    fs::set_permissions(&locked, fs::Permissions::from_mode(0o000)).expect("a locked file");
    // Root may read every file.
    match (fs::read(&locked), as_nobody(&open)) {
        (Err(_), _) => cannot_be_read(&[], &locked),
        (Ok(_), Some(nobody)) => cannot_be_read(&nobody, &locked),
        (Ok(_), None) => println!("not tested: a file without permission, since this user may read it all the same"),
    }
}

#[test]
fn a_file_is_replaced_only_by_those_who_may_write_it() {
    let folder = folder("who-may-write");
    let [input, out] = ["in.sao", "out.yuv"].map(|name| file(&folder, name, &tiny()));
    fs::set_permissions(&folder, fs::Permissions::from_mode(0o777)).expect("a folder for everyone");
    fs::set_permissions(&out, fs::Permissions::from_mode(0o444)).expect("a file to read");
    let may = File::options().write(true).open(&out).is_ok();
    let Some(command) = (if may { as_nobody(&input) } else { Some(vec![]) }) else {
        println!("not tested: a file that this user may not write, since it may write every file");
        return;
    };
    let all = [&command[..], &[COMMAND, "filter"]].concat();
    let (status, lines, error) = ran(Command::new(all[0]).args(&all[1..]).arg(&input).arg("-o").arg(&out));
    let sentence = format!("steamgusset: {}: the file cannot be written: ", out.display());
    assert!(status == Some(1) && lines.is_empty() && error.starts_with(&sentence), "{error}");
    assert!(fs::read(&out).expect("the old file") == tiny());
    assert_eq!(fs::read_dir(&folder).expect("the folder").count(), 2);
}

#[test]
fn a_name_stays_on_its_line() {
    let folder = folder("names");
    file(&folder, "a\nb\x1b[31m.sao", &twenty_ctus());
    let in_folder = |words: &[&str]| ran(Command::new(COMMAND).args(words).current_dir(&folder).stdin(Stdio::null()));
    let (status, lines, error) = in_folder(&["check", "a\nb\x1b[31m.sao", "", "c\rd"]);
    assert_eq!((status, lines.lines().count()), (Some(1), 2));
    assert!(lines.starts_with("a\\nb\\u{1b}[31m.sao  72x56 "), "{lines}");
    let sentences: Vec<&str> = error.lines().collect();
    assert!(sentences[0].starts_with("steamgusset: '': the file cannot be read: "), "{error}");
    assert!(sentences[1].starts_with("steamgusset: c\\rd: the file cannot be read: "), "{error}");
    let (_, line, _) = in_folder(&["filter", "a\nb\x1b[31m.sao", "-o", "x\ny"]);
    assert!(line.ends_with("), written: x\\ny\n") && folder.join("x\ny").exists(), "{line}");
    for (words, said) in [
        (["help", "x\ny"], "there is no command x\\ny; "),
        (["check", "--x\ny"], "there is no option --x\\ny; "),
        (["check", "--seed=\x07"], "--seed takes a number from 0 to 18446744073709551615, not \\u{7}; "),
        (["help", ""], "there is no command ''; "),
    ] {
        let (status, _, error) = in_folder(&words);
        assert!(status == Some(2) && error.starts_with(&format!("steamgusset: {said}")), "{error}");
        assert_eq!(error.lines().count(), 1);
    }
}

// Damage of all kinds

/// Whether the second program, with a reader of its own, calls the file damaged.
fn second_calls_it_damaged(mut bytes: &[u8]) -> bool {
    let length = bytes.len() as u64;
    match Vector::covered(&mut bytes, Some(length)) {
        Ok(Ok(vector)) => !vector.sets().iter().all(|set| set.within_rules(&vector.picture())),
        Ok(Err(_)) => false,
        Err(_) => true,
    }
}

/// Has every file get its line or its sentence, so no file ended the command; a sentence exactly where the second program
/// finds damage too. How many were sentences.
fn each_is_judged(name: &str, damaged: &[Vec<u8>]) -> usize {
    let folder = folder(name);
    let write = |(number, bytes): (usize, &Vec<u8>)| {
        file(&folder, &number.to_string(), bytes);
        number.to_string()
    };
    let names: Vec<String> = damaged.iter().enumerate().map(write).collect();
    let (status, lines, error) = ran(Command::new(COMMAND).arg("check").args(&names).current_dir(&folder));
    assert!(matches!(status, Some(0 | 1)), "{status:?}: {error}");
    assert_eq!(lines.lines().count() - 1 + error.lines().count(), damaged.len(), "{error}");
    let said = error.lines().map(|line| line.split(": ").nth(1).unwrap_or_default());
    let second = names.iter().zip(damaged).filter(|(_, bytes)| second_calls_it_damaged(bytes));
    assert_eq!(said.collect::<Vec<_>>(), second.map(|(name, _)| name.as_str()).collect::<Vec<_>>(), "{error}");
    fs::remove_dir_all(&folder).expect("the folder goes away");
    error.lines().count()
}

#[test]
fn every_header_field_is_survived() {
    let numbers = [i32::MIN, -1, 0, 1, 2, 3, 4, 5, 6, 7, 8, 9, 16, 4096, 8192, 65528, 65536, 1 << 24, i32::MAX];
    let each =
        |bytes: fn() -> Vec<u8>| (0..32).flat_map(move |field| numbers.map(|number| with(bytes(), &[(field, number)])));
    let all: Vec<Vec<u8>> = each(tiny).chain(each(scaled)).collect();
    let sentences = each_is_judged("every-field", &all);
    assert!(sentences > all.len() / 2 && sentences < all.len());
}

#[test]
fn truncations_are_damaged() {
    let mut cut = Vec::new();
    for bytes in [twenty_ctus(), scaled(), segmented(7, second_segment(0, 1))] {
        let (start, rest) = (0..CTUS + 60, (CTUS + 60..bytes.len()).step_by(997));
        cut.extend(start.chain(rest).map(|length| bytes[..length].to_vec()));
    }
    assert_eq!(each_is_judged("truncated", &cut), cut.len());
}

#[test]
fn random_damage_is_survived() {
    let mut random = Random::new(11);
    let damaged = |_: usize| {
        let mut bytes = random.pick(&[tiny as fn() -> Vec<u8>, scaled, || segmented(7, second_segment(0, 1))])();
        for _ in 0..1 + random.below(3) {
            let within = random.pick(&[HEADER, CTUS + 60, bytes.len()]);
            let place = random.below(within);
            bytes[place] = random.pick(&[0, 1, 2, 3, 127, 128, 255, bytes[place] ^ 1, bytes[place] ^ 128]);
        }
        bytes
    };
    let all: Vec<Vec<u8>> = (0..600).map(damaged).collect();
    let sentences = each_is_judged("random", &all);
    assert!(sentences > 0 && sentences < all.len());
}

// The figure of the last line

#[test]
fn the_seed_decides_how_many_blocks_are_filtered_before_the_last_delivery() {
    let path = file(&folder("figure"), "figure.sao", &twenty_ctus());
    let figure = |seed: u64| {
        let (status, lines, _) = ran(Command::new(COMMAND).args(["check", "--seed", &seed.to_string()]).arg(&path));
        assert_eq!(status, Some(0));
        let (before, _) = lines.split_once(" of 60 blocks filtered before the last delivery, ").expect("the figure");
        before.rsplit(' ').next().and_then(|figure| figure.parse::<usize>().ok()).expect("a number")
    };
    let figures: Vec<usize> = (0..8).map(figure).collect();
    assert_eq!(figures[1], figure(1));
    // A block waits for its neighbours: the last delivered and those around it, four at least, come after.
    assert!(figures.iter().all(|figure| *figure <= 60 - 4), "{figures:?}");
    assert!(figures.iter().any(|figure| *figure != figures[0]), "{figures:?}");
}

//! The command: its lines, its sentences and its exit status.

mod common;

use common::vector_files;
use std::path::PathBuf;
use std::process::Command;

/// Exit status, standard output, error stream.
fn second(arguments: &[&str]) -> (Option<i32>, String, String) {
    let ran = Command::new(env!("CARGO_BIN_EXE_second")).args(arguments).output().expect("the command runs");
    let text = |bytes: Vec<u8>| String::from_utf8(bytes).expect("text");
    (ran.status.code(), text(ran.stdout), text(ran.stderr))
}

fn one_sentence(error: &str) -> bool {
    error.starts_with("second: ") && error.lines().count() == 1
}

/// A file of these bytes that goes with the build.
fn file(name: &str, bytes: &[u8]) -> String {
    let path = PathBuf::from(env!("CARGO_TARGET_TMPDIR")).join(name);
    std::fs::write(&path, bytes).expect("a file for the test");
    path.to_string_lossy().into_owned()
}

/// A picture of 72x56 in 4:2:0.
fn vector() -> Vec<u8> {
    let named = |file: &PathBuf| file.file_name().is_some_and(|name| name == "x_420_8_72x56_ctu16-001.sao");
    std::fs::read(vector_files().into_iter().find(named).expect("a bundled vector")).expect("a readable vector")
}

#[test]
fn vectors_agree() {
    let files: Vec<String> = vector_files().iter().map(|file| file.to_string_lossy().into_owned()).collect();
    let arguments: Vec<&str> = ["vectors"].into_iter().chain(files.iter().map(String::as_str)).collect();
    let (status, lines, error) = second(&arguments);
    assert_eq!((status, error.as_str()), (Some(0), ""));
    assert_eq!(lines.lines().filter(|line| line.ends_with(": agrees")).count(), 47);
    let named = |format: &str| lines.lines().filter(|line| line.contains(format)).count();
    assert_eq!([", monochrome, ", ", 4:2:0, ", ", 4:2:2, ", ", 4:4:4, "].map(named), [3, 24, 3, 17]);
    assert_eq!([", depth ", ", luma depth 8, chroma depth 10, "].map(named), [46, 1]);
    assert!(lines.ends_with("\n47 agree, 0 differ, 0 not covered, 0 damaged, 0 cannot be read\n"), "{lines}");
}

#[test]
fn a_vector_that_differs() {
    let mut bytes = vector();
    let last_sample = bytes.len() - 2;
    bytes[last_sample] ^= 1;
    let (status, lines, error) = second(&["vectors", &file("differs.sao", &bytes)]);
    assert_eq!((status, error.as_str()), (Some(1), ""));
    let end = ": differs\n0 agree, 1 differ, 0 not covered, 0 damaged, 0 cannot be read\n";
    assert!(lines.ends_with(end), "{lines}");
}

#[test]
fn every_file_has_its_line_or_sentence() {
    let bytes = vector();
    let damaged = file("damaged.sao", &bytes[..bytes.len() - 1]);
    let sound = file("sound.sao", &bytes);
    let (status, lines, error) =
        second(&["vectors", &damaged, "no-such-file.sao", env!("CARGO_TARGET_TMPDIR"), &sound]);
    assert_eq!((status, lines.lines().count()), (Some(1), 2));
    assert!(lines.ends_with(": agrees\n1 agree, 0 differ, 0 not covered, 1 damaged, 2 cannot be read\n"), "{lines}");
    let sentences: Vec<&str> = error.lines().collect();
    assert_eq!(sentences.len(), 3);
    assert_eq!(sentences[0], format!("second: {damaged}: the file ends within its final planes"));
    assert!(sentences[1].starts_with("second: no-such-file.sao: the file cannot be read: "), "{error}");
    assert!(sentences[2].contains(": the file cannot be read: "), "{error}");
}

#[test]
fn a_picture_that_is_not_covered() {
    let mut bytes = vector();
    // A lossless unit: the skip map, whose OR is the header's number 23, ends where the planes, twice, begin.
    let planes = 2 * 2 * (72 * 56 * 3 / 2);
    let last_of_skip_map = bytes.len() - planes - 1;
    bytes[last_of_skip_map] |= 2;
    bytes[8 + 4 * 23] |= 2;
    let (status, lines, error) = second(&["vectors", &file("kept.sao", &bytes)]);
    assert_eq!((status, error.as_str()), (Some(0), ""));
    let why = "the picture is not covered: it has lossless or PCM units that keep their samples";
    let end = format!("{why}\n0 agree, 0 differ, 1 not covered, 0 damaged, 0 cannot be read\n");
    assert!(lines.ends_with(&end), "{lines}");
}

#[test]
fn a_picture_too_large_to_read() {
    let mut header = vector()[..136].to_vec();
    for (place, number) in [(0, 8i32), (1, 8200), (7, 1), (8, 513)] {
        header[8 + 4 * place..12 + 4 * place].copy_from_slice(&number.to_le_bytes());
    }
    let path = file("large.sao", &header);
    // Header, tables, CTUs, skip map and planes.
    let right = 136 + 16 + 24 + 28 * 513 + 1025 + 2 * 2 * (8 * 8200 * 3 / 2);
    let (status, _, error) = second(&["vectors", &path]);
    let why = format!("the file has 136 bytes, where its header announces {right}");
    assert_eq!((status, error), (Some(1), format!("second: {path}: {why}\n")));
    std::fs::File::options().write(true).open(&path).and_then(|file| file.set_len(right)).expect("a long file");
    let (status, lines, error) = second(&["vectors", &path]);
    assert_eq!((status, error.as_str()), (Some(0), ""));
    assert!(lines.contains("its size is 8x8200, above 8192\n"), "{lines}");
}

#[test]
fn a_wrong_command_line() {
    for arguments in [&[][..], &["vector"], &["vectors"]] {
        let (status, lines, error) = second(arguments);
        assert_eq!((status, lines.as_str()), (Some(2), ""));
        assert!(one_sentence(&error) && error.contains("second vectors FILE..."), "{error}");
    }
}

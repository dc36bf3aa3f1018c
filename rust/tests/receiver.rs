//! `examples/receiver.c` from outside: compiled as a receiver maker would, as C and as C++, run, and its picture judged by
//! the second program.

mod outside;

use outside::{documented, file, program, run, written};
use second::{Answer, Call, CtuSet, Picture, State, Value, World, apply, filter_picture, table};
use std::ffi::OsString;
use std::mem::offset_of;
use std::path::{Path, PathBuf};
use std::process::Command;
use steamgusset::ffi;

const WARNINGS: [&str; 4] = ["-Wall", "-Wextra", "-Wpedantic", "-Werror"];

/// A language: where the environment names its compiler, the usual one, what the compiler calls it, and the standards.
const LANGUAGES: [(&str, &str, &str, &[&str]); 2] =
    [("CC", "cc", "c", &["c99", "c11"]), ("CXX", "g++", "c++", &["c++98", "c++11", "c++17"])];

/// Each language and standard for which there is a compiler.
fn compilers() -> Vec<(OsString, &'static str, &'static str)> {
    let found = LANGUAGES.into_iter().filter_map(|(variable, usual, language, standards)| {
        let compiler = program(variable, usual)?;
        Some(standards.iter().map(move |standard| (compiler.clone(), language, *standard)))
    });
    found.flatten().collect()
}

fn compile(compiler: &OsString, language: &str, standard: &str, include: &Path) -> Command {
    let mut command = Command::new(compiler);
    command.args(["-x", language]).arg(format!("-std={standard}")).args(WARNINGS).arg("-I").arg(include);
    command
}

#[test]
fn the_header_compiles_as_c_and_as_cpp() {
    for (compiler, language, standard) in compilers() {
        // Included by an empty file, as the warnings for a header differ from those for a program's own file. A header
        // is met by more of them than its own makers switch on.
        let alone = ["-Wshadow", "-Wconversion", "-include", "steamgusset.h", "-fsyntax-only", "/dev/null"];
        run(compile(&compiler, language, standard, &file("include")).args(alone));
    }
}

/// A receiver's source as a program of that name, linked with the archive that this package links.
fn build(mut compile: Command, source: &Path, name: &str) -> PathBuf {
    let program = written(name);
    // After "-x none" the archive is taken for what it is.
    let archive = ["-x", "none", env!("STEAMGUSSET_ARCHIVE")];
    run(compile.arg(source).args(archive).arg("-o").arg(&program));
    program
}

fn source() -> PathBuf {
    file("examples/receiver.c")
}

/// The receiver in C, with the header of a folder.
fn receiver(name: &str, include: &Path) -> Option<PathBuf> {
    let compiler = program("CC", "cc")?;
    Some(build(compile(&compiler, "c", "c99", include), &source(), name))
}

/// What it prints, and the file that it writes.
fn received(program: PathBuf) -> (String, Vec<u8>) {
    let picture = program.with_extension("picture");
    let printed = run(Command::new(program).arg(&picture));
    (printed, std::fs::read(&picture).expect("the file that the receiver wrote"))
}

#[test]
fn the_receiver_gives_the_picture_that_the_second_program_gives() {
    for (compiler, language, standard) in compilers() {
        let compile = compile(&compiler, language, standard, &file("include"));
        let (printed, picture) = received(build(compile, &source(), &format!("receiver-{standard}")));
        assert_eq!(printed, documented(), "{standard}");
        judge(&printed, &picture);
    }
}

/// A file with the receiver's source in another format than 4:2:0.
fn source_in(format: &str) -> PathBuf {
    let text = std::fs::read_to_string(source()).expect("the receiver");
    let described = |format: &str| format!("d.format = {format};\n");
    assert!(text.contains(&described("SG_FORMAT_420")), "no format");
    let file = written(&format!("receiver-{format}.c"));
    std::fs::write(&file, text.replace(&described("SG_FORMAT_420"), &described(format))).expect("a source");
    file
}

#[test]
fn the_receiver_takes_other_formats_by_their_names() {
    let Some(compiler) = program("CC", "cc") else { return };
    for (format, number) in [("SG_FORMAT_422", 2), ("SG_FORMAT_444", 3)] {
        let compile = compile(&compiler, "c", "c99", &file("include"));
        let (printed, picture) = received(build(compile, &source_in(format), &format!("receiver-{format}")));
        assert_eq!(Saved::parse(&picture).picture.format, number);
        judge(&printed, &picture);
    }
}

/// Holds what the receiver wrote, and printed of it, to the second program.
fn judge(printed: &str, picture: &[u8]) {
    let saved = Saved::parse(picture);
    let whole = filter_picture(&saved.picture, &saved.sets(), saved.deblocked.each_ref().map(Vec::as_slice));
    assert!(whole == saved.finished, "the receiver's picture differs");
    // A CTB row of a component is finished once.
    let ctb_rows = saved.picture.height.div_ceil(saved.picture.ctb) as usize;
    let expected = [
        ("sets", saved.picture.ctus().to_string()),
        ("bins", saved.bins().to_string()),
        ("blocks", saved.picture.marks().to_string()),
        ("asked for finished rows", (saved.picture.marks() / saved.picture.ctus() * ctb_rows).to_string()),
        ("changed samples", saved.changed(&whole).to_string()),
        ("checksum", format!("{:016x}", checksum(&whole))),
        ("refused 4", "the declared count exceeds 8 times the bytes given; nothing changed".into()),
        ("refused 9", "that CTB was delivered before; nothing changed".into()),
    ];
    for (name, value) in expected {
        let line = format!("{name}: {value}");
        assert!(printed.lines().any(|printed| printed == line), "{line}\n{printed}");
    }
}

/// Its status, and what it prints where errors are told.
fn told(program: &Path, words: &[&str]) -> (Option<i32>, String) {
    let output = Command::new(program).args(words).output().expect("the receiver, run");
    (output.status.code(), String::from_utf8_lossy(&output.stderr).into_owned())
}

#[test]
fn the_receiver_says_what_is_wrong_with_its_words() {
    let Some(program) = receiver("receiver-refusing", &file("include")) else { return };
    let unopened = "receiver: /: it cannot be opened for writing\n".to_string();
    assert_eq!(told(&program, &["/"]), (Some(1), unopened));
    assert_eq!(told(&program, &["one", "two"]), (Some(2), "usage: receiver [FILE]\n".into()));
    let full = std::fs::OpenOptions::new().write(true).open("/dev/full").expect("a file that takes nothing");
    let output = Command::new(&program).stdout(full).output().expect("the receiver, run");
    let unwritten = b"receiver: standard output: it cannot be written\n";
    assert_eq!((output.status.code(), output.stderr.as_slice()), (Some(1), unwritten.as_slice()));
}

/// A folder with the header as it would be if a number of its version were another.
fn header_with(part: &str, number: u32, another: u32) -> PathBuf {
    let text = std::fs::read_to_string(file("include/steamgusset.h")).expect("the header");
    let line = |number| format!("#define SG_VERSION_{part} {number}\n");
    assert!(text.contains(&line(number)), "{part}");
    let folder = written(&format!("header-{part}-{another}"));
    std::fs::create_dir_all(&folder).expect("a folder");
    std::fs::write(folder.join("steamgusset.h"), text.replace(&line(number), &line(another))).expect("a header");
    folder
}

#[test]
fn a_header_of_another_version_is_found_out() {
    let [major, minor] = [env!("CARGO_PKG_VERSION_MAJOR"), env!("CARGO_PKG_VERSION_MINOR")]
        .map(|number| number.parse::<u32>().expect("a number"));
    for (part, number, another) in
        [("MAJOR", major, major + 1), ("MAJOR", major, major - 1), ("MINOR", minor, minor + 1)]
    {
        let header = header_with(part, number, another);
        let Some(program) = receiver(&format!("receiver-{part}-{another}"), &header) else { return };
        let sentence = "receiver: libsteamgusset.a: it is another version's than steamgusset.h\n".to_string();
        assert_eq!(told(&program, &[]), (Some(1), sentence), "{part} {another}");
    }
}

/// What the receiver writes: the state, the table, the deblocked and the finished planes.
struct Saved {
    picture: Picture,
    table: Vec<u8>,
    deblocked: [Vec<u16>; 3],
    finished: [Vec<u16>; 3],
}

impl Saved {
    fn parse(bytes: &[u8]) -> Saved {
        let (state, rest) = bytes.split_at(size_of::<ffi::State>());
        let number = |place: usize| u32::from_ne_bytes(state[place..][..4].try_into().expect("four bytes"));
        let picture = Picture {
            width: number(offset_of!(ffi::State, width)),
            height: number(offset_of!(ffi::State, height)),
            ctb: number(offset_of!(ffi::State, ctb)),
            format: number(offset_of!(ffi::State, format)) as u8,
            luma_depth: number(offset_of!(ffi::State, luma_depth)) as u8,
            chroma_depth: number(offset_of!(ffi::State, chroma_depth)) as u8,
            luma: number(offset_of!(ffi::State, luma)) == 1,
            chroma: number(offset_of!(ffi::State, chroma)) == 1,
        };
        assert_eq!(number(offset_of!(ffi::State, next)) as usize, picture.ctus(), "every set is in");
        let (table, rest) = rest.split_at(picture.ctus() * table::ENTRY_BYTES);
        let (deblocked, rest) = planes(&picture, rest);
        let (finished, rest) = planes(&picture, rest);
        assert!(rest.is_empty());
        Saved { picture, table: table.to_vec(), deblocked, finished }
    }

    fn sets(&self) -> Vec<CtuSet> {
        let set = |ctu| table::stored(&self.picture, &self.table, ctu).expect("a sound entry");
        (0..self.picture.ctus()).map(set).collect()
    }

    /// How many bins the second program writes for the sets.
    fn bins(&self) -> usize {
        let mut world = World::lent_for(&self.picture);
        let mut state = State { picture: self.picture, next: 0 };
        let mut bins = 0;
        for set in self.sets() {
            let Answer { answer, state: after, .. } =
                apply(&mut world, state, Call::Write { set, out: vec![0; steamgusset::BINS_BYTES] });
            let Ok(Value::Bins(count)) = answer else { panic!("{set:?}: {answer:?}") };
            (bins, state) = (bins + count, after);
        }
        bins
    }

    fn changed(&self, filtered: &[Vec<u16>; 3]) -> usize {
        let pairs = self.deblocked.iter().flatten().zip(filtered.iter().flatten());
        pairs.filter(|(before, after)| before != after).count()
    }
}

fn planes<'a>(picture: &Picture, mut rest: &'a [u8]) -> ([Vec<u16>; 3], &'a [u8]) {
    let planes = std::array::from_fn(|component| {
        let (plane, after) = rest.split_at(size_of::<u16>() * picture.plane_samples(component));
        rest = after;
        plane.chunks_exact(2).map(|two| u16::from_ne_bytes([two[0], two[1]])).collect()
    });
    (planes, rest)
}

/// FNV-1a of the samples, each with its low byte first.
fn checksum(planes: &[Vec<u16>; 3]) -> u64 {
    let bytes = planes.iter().flatten().flat_map(|sample| sample.to_le_bytes());
    bytes.fold(14_695_981_039_346_656_037, |sum, byte| (sum ^ u64::from(byte)).wrapping_mul(1_099_511_628_211))
}

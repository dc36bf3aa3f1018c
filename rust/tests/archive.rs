//! `tools/archive` as it is run, with a toolchain that only says what the real one says.

mod elsewhere;
mod programs;

use elsewhere::Elsewhere;
use programs::{program, turn};
use std::fs;
use std::path::Path;
use std::process::Command;

/// Three crates below `top`, and one beside it.
const CRATES: &str = "# a list\nlow:\nleft: low\nright: low\nbeside: low\n\ntop staticlib: left right\n";

/// In a crate's folder the real one prints a line for each function, and a line for the crate; nothing of a crate that is
/// unchanged since it was proved, as the first one here.
const TOOLCHAIN: &str = r#"case "$1" in
version) echo "the kit" ;;
lib)
  shift
  case $(basename "$PWD") in
  low) ;;
  left)
    echo "fn left::a: proved"
    printf 'logic=pro'
    sleep 1.2
    echo 'ved functions=1'
    ;;
  right)
    echo "logic=proved functions=2" >&2
    exit "${BELOW_ENDS:-0}"
    ;;
  top)
    echo "logic=proved functions=3 $*"
    mkdir -p out
    echo made >out/libtop.a
    exit "${TOP_ENDS:-0}"
    ;;
  *) exit 9 ;;
  esac
  ;;
esac"#;

/// A project of the test's own with the real script in it.
fn project(name: &str) -> Elsewhere {
    let project = elsewhere::empty(&format!("archive-{name}"));
    let crates = ["low", "left", "right", "beside", "top"].map(|name| format!("crates/{name}"));
    for folder in ["bin", "tools"].into_iter().chain(crates.iter().map(String::as_str)) {
        fs::create_dir_all(project.join(folder)).expect("a folder for the test");
    }
    let script = Path::new(env!("CARGO_MANIFEST_DIR")).join("../tools/archive");
    fs::copy(script, project.join("tools/archive")).expect("the script");
    fs::write(project.join("crates.txt"), CRATES).expect("a list of crates");
    program(&project.join("bin/rt"), TOOLCHAIN);
    program(&project.join("bin/uname"), "echo \"${MACHINE:-x86_64}\"");
    project
}

/// Exit status, and what it said; nothing of it on the standard output.
fn archive(project: &Path, environment: &[(&str, &str)]) -> (Option<i32>, String) {
    let path = format!("{}:{}", project.join("bin").display(), std::env::var("PATH").expect("a path"));
    let mut script = Command::new(project.join("tools/archive"));
    let ran = script.arg("top").env("PATH", path).envs(environment.iter().copied()).output().expect("the script runs");
    assert!(ran.stdout.is_empty());
    (ran.status.code(), String::from_utf8(ran.stderr).expect("text"))
}

fn log(project: &Path) -> String {
    fs::read_to_string(project.join("target/archive/top.log")).expect("the log")
}

/// The lines of progress without their times.
fn without_times(said: &str) -> Vec<&str> {
    let time = |line: &str| line.as_bytes()[2] == b':' && line[3..5].parse::<u8>().is_ok_and(|seconds| seconds < 60);
    said.lines().map(|line| if time(line) { &line[5..] } else { line }).collect()
}

#[test]
fn a_line_for_each_crate_with_the_time_so_far() {
    let _turn = turn();
    let project = project("progress");
    let (status, said) = archive(&project, &[]);
    assert_eq!(status, Some(0), "{said}");
    let expected = [
        "Proving top and what it stands on, 4 crates; the first time this takes some minutes.",
        "  left proved (2 of 4)",
        "  right proved (3 of 4)",
        "  top proved and compiled (4 of 4)",
    ];
    assert_eq!(without_times(&said), expected);
    assert!(!said.contains(['\r', '\x1b']) && !said.contains(" 0:00  left"), "{said}");
    let all = "fn left::a: proved\nlogic=proved functions=1\nlogic=proved functions=2\n\
               logic=proved functions=3 --cpu x86-64\n";
    assert_eq!(log(&project), all);
    assert_eq!(fs::read_to_string(project.join("target/staticlib/libtop.a")).ok().as_deref(), Some("made\n"));
    // It is there, and nothing is said about it; neither a script beside nor what rt keeps makes it an old one.
    fs::write(project.join("tools/another"), "").expect("another file");
    fs::write(project.join("crates/top/out/kept"), "").expect("a file that is kept");
    assert_eq!(archive(&project, &[]), (Some(0), String::new()));
    fs::write(project.join("crates/low/new.rt"), "").expect("a changed crate");
    assert_eq!(without_times(&archive(&project, &[]).1), expected);
}

#[test]
fn a_failure_is_not_lost() {
    let _turn = turn();
    for (name, variable, last) in [
        ("below-fails", "BELOW_ENDS", "logic=proved functions=2"),
        ("top-fails", "TOP_ENDS", "logic=proved functions=3 --cpu x86-64"),
    ] {
        let project = project(name);
        let (status, said) = archive(&project, &[(variable, "3")]);
        let sentence = "tools/archive: top is not built; target/archive/top.log has all that rt said";
        assert_eq!(status, Some(1));
        assert!(said.ends_with(&format!("{last}\n{sentence}\n")), "{said}");
        assert!(log(&project).ends_with(&format!("{last}\n")));
        // What failed is tried again.
        assert_eq!(archive(&project, &[]).0, Some(0));
    }
}

#[test]
fn the_archive_is_of_the_machine() {
    let _turn = turn();
    let project = project("machines");
    assert_eq!(archive(&project, &[("MACHINE", "aarch64")]).0, Some(0));
    assert!(log(&project).ends_with("functions=3 --target aarch64-unknown-linux-gnu\n"), "{}", log(&project));
    // Another machine's archive is not taken for this one's.
    assert_eq!(archive(&project, &[]).0, Some(0));
    assert!(log(&project).ends_with("functions=3 --cpu x86-64\n"), "{}", log(&project));
    let sentence = "tools/archive: the archive is compiled for x86-64 and for aarch64, and this machine is riscv64\n";
    assert_eq!(archive(&project, &[("MACHINE", "riscv64")]), (Some(1), sentence.into()));
}

//! Compiles plain.c at -O3 into a static library.

use std::env;
use std::ffi::OsString;
use std::path::{Path, PathBuf};
use std::process::{Command, ExitCode, Stdio};

const FLAGS: [&str; 5] = ["-std=c99", "-O3", "-Wall", "-Wextra", "-Wpedantic"];

fn main() -> ExitCode {
    for input in ["plain.c", "plain.h", "build.rs"] {
        println!("cargo::rerun-if-changed={input}");
    }
    println!("cargo::rerun-if-env-changed=CC");
    match library() {
        Ok(folder) => {
            println!("cargo::rustc-link-search=native={}", folder.display());
            println!("cargo::rustc-link-lib=static=plain");
            ExitCode::SUCCESS
        }
        Err(sentence) => {
            println!("cargo::error={sentence}");
            ExitCode::FAILURE
        }
    }
}

/// The folder that holds libplain.a.
fn library() -> Result<PathBuf, String> {
    let folder = PathBuf::from(env::var_os("OUT_DIR").ok_or("cargo did not say where to build plain.c")?);
    let compiler = compiler()?;
    println!("cargo::rustc-env=PLAIN_COMPILER={}", version(&compiler));
    let object = folder.join("plain.o");
    run(Command::new(&compiler).args(FLAGS).args(["-c", "plain.c", "-o"]).arg(&object))?;
    run(Command::new("ar").arg("crs").arg(folder.join("libplain.a")).arg(&object))?;
    Ok(folder)
}

/// $CC if it is set, or else gcc, or else cc.
fn compiler() -> Result<OsString, String> {
    let named = env::var_os("CC").filter(|name| !name.is_empty());
    let candidates = named.map_or_else(|| vec!["gcc".into(), "cc".into()], |name| vec![name]);
    let found = candidates.into_iter().find(answers);
    found.ok_or("the benchmark needs a C compiler: install gcc, or name one in CC".to_string())
}

fn answers(compiler: &OsString) -> bool {
    let quiet = Command::new(compiler).arg("--version").stdout(Stdio::null()).stderr(Stdio::null()).status();
    quiet.is_ok_and(|status| status.success())
}

/// The first line that the compiler says of itself.
fn version(compiler: &OsString) -> String {
    let said = Command::new(compiler).arg("--version").output().map(|output| output.stdout).unwrap_or_default();
    String::from_utf8_lossy(&said).lines().next().unwrap_or_default().to_string()
}

fn run(command: &mut Command) -> Result<(), String> {
    let name = Path::new(command.get_program()).display().to_string();
    let status = command.status().map_err(|error| format!("{name} does not run: {error}"))?;
    if status.success() { Ok(()) } else { Err(format!("{name} did not build plain.c: {status}")) }
}

//! Output files that are there whole or not at all, and the standard output in the place of one.
//!
//! Each file is written to a temporary name beside its target. Only when all are written do they take their names, so a
//! failure leaves what was there before. A file that is there is replaced only by those who may write it, and keeps its
//! permissions. A target that is no regular file, such as a pipe, is written as it is.

use super::input::Input;
use super::{Mistake, shown};
use std::ffi::OsStr;
use std::fmt::{self, Display, Formatter};
use std::fs::{self, File};
use std::io::{self, Write};
use std::path::{Path, PathBuf};

/// Where an output goes.
#[derive(PartialEq)]
pub enum Target {
    StandardOutput,
    File(PathBuf),
}

impl Target {
    /// The target as it is typed. A file that is really called `-` is `./-`.
    pub fn typed(word: &OsStr) -> Target {
        if word == "-" || word == "/dev/stdout" { Target::StandardOutput } else { Target::File(word.into()) }
    }
}

impl Display for Target {
    fn fmt(&self, to: &mut Formatter) -> fmt::Result {
        match self {
            Target::StandardOutput => to.write_str("standard output"),
            Target::File(path) => to.write_str(&shown(path.as_os_str())),
        }
    }
}

/// What is to be written, and where.
pub struct Output {
    pub target: Target,
    pub bytes: Vec<u8>,
}

/// Writes all, or says why not. The input, and a target named twice, are never written over. The files take their names
/// when the standard output has what is meant for it, so that they are as they were if it cannot be written.
pub fn write_all(outputs: &[Output], input: &Input, out: &mut dyn Write) -> Result<(), Mistake> {
    apart(outputs, input).map_err(Mistake::Failed)?;
    let mut waiting = Vec::new();
    for (number, Output { target, bytes }) in outputs.iter().enumerate() {
        if let Target::File(path) = target {
            let written = Waiting::write(&resolved(path), number, bytes);
            waiting.push((target, written.map_err(|why| not_written(target, &why))?));
        }
    }
    for Output { bytes, .. } in outputs.iter().filter(|output| output.target == Target::StandardOutput) {
        out.write_all(bytes)?;
        out.flush()?;
    }
    for (target, file) in waiting {
        file.take_name().map_err(|why| not_written(target, &why))?;
    }
    Ok(())
}

/// Whether the files are apart from each other and from the input.
fn apart(outputs: &[Output], input: &Input) -> Result<(), String> {
    let (input, mut places) = (resolved(input.path()), Vec::new());
    for Output { target, .. } in outputs {
        let Target::File(path) = target else { continue };
        let place = resolved(path);
        if place == input {
            return Err(format!("{target}: this is the input, which is not written over"));
        }
        if places.contains(&place) {
            return Err(format!("{target}: two outputs have this name"));
        }
        places.push(place);
    }
    Ok(())
}

fn not_written(target: &Target, why: &io::Error) -> Mistake {
    Mistake::Failed(format!("{target}: the file cannot be written: {why}"))
}

/// The path without links. A file that is not there yet has a folder that is.
fn resolved(path: &Path) -> PathBuf {
    let within_folder = || {
        let folder = path.parent().filter(|folder| !folder.as_os_str().is_empty()).unwrap_or(Path::new("."));
        Some(fs::canonicalize(folder).ok()?.join(path.file_name()?))
    };
    fs::canonicalize(path).ok().or_else(within_folder).unwrap_or_else(|| path.to_path_buf())
}

/// A written file that waits for its name; dropped before it has it, the file goes away.
struct Waiting {
    temporary: Option<PathBuf>,
    target: PathBuf,
}

impl Waiting {
    /// Writes the output of this number. Its temporary name is short, so that every name can be asked for.
    fn write(target: &Path, number: usize, bytes: &[u8]) -> io::Result<Waiting> {
        let permissions = match File::options().write(true).open(target) {
            Ok(mut there) if !there.metadata()?.is_file() => {
                there.write_all(bytes)?;
                return Ok(Waiting { temporary: None, target: target.to_path_buf() });
            }
            Ok(there) => Some(there.metadata()?.permissions()),
            Err(why) if why.kind() == io::ErrorKind::NotFound => None,
            Err(why) => return Err(why),
        };
        let temporary = target.with_file_name(format!(".steamgusset.{}.{number}.part", std::process::id()));
        let mut file = File::create_new(&temporary)?;
        let waiting = Waiting { temporary: Some(temporary), target: target.to_path_buf() };
        permissions.map_or(Ok(()), |permissions| file.set_permissions(permissions))?;
        file.write_all(bytes)?;
        file.sync_all()?;
        Ok(waiting)
    }

    fn take_name(mut self) -> io::Result<()> {
        if let Some(temporary) = &self.temporary {
            fs::rename(temporary, &self.target)?;
            self.temporary = None;
        }
        Ok(())
    }
}

impl Drop for Waiting {
    fn drop(&mut self) {
        if let Some(temporary) = &self.temporary {
            // A failure is on its way already; a file left over is all that this one would add.
            let _ = fs::remove_file(temporary);
        }
    }
}

//! Where a command writes: `-o OUT`, a file that is none of those it reads, and `plan -o DIR`, a file in DIR for each table.

use crate::batch;
use crate::options::Options;
use crate::outcome::Failure;
use crate::wording::quoted;
use std::fs::{self, Metadata};
use std::io::ErrorKind;
use std::path::{Path, PathBuf};

/// The name of a table in DIR where it comes from the standard input.
const STANDARD_INPUT: &str = "stdin";

pub struct Outputs {
    directory: PathBuf,
    extension: &'static str,
}

impl Outputs {
    /// Files of an earlier run that have these tables' names are removed, so that what stands there afterwards is of this run. Nothing is
    /// removed where two tables have one name or something that is read would be overwritten.
    pub fn prepare(directory: &str, options: &Options, extension: &'static str) -> Result<Outputs, Failure> {
        let files = &options.files;
        let outputs = Outputs { directory: PathBuf::from(directory), extension };
        if !outputs.directory.is_dir() {
            return Err(Failure::Usage(format!("-o {}: there is no such directory", quoted(directory))));
        }
        let paths: Vec<PathBuf> = files.iter().map(|file| outputs.path(file)).collect();
        for (at, path) in paths.iter().enumerate() {
            if let Some(before) = paths[..at].iter().position(|other| other == path) {
                let both = format!("{} and {} would both be {}", files[before], files[at], path.display());
                return Err(Failure::Usage(both));
            }
            if options.inputs().any(|file| same_file(Path::new(file), path)) {
                return Err(is_read(path));
            }
        }
        paths.iter().try_for_each(|path| remove(path))?;
        Ok(outputs)
    }

    /// The file's name without its directory and extension.
    fn path(&self, file: &str) -> PathBuf {
        let stem = Path::new(file).file_stem().map_or(file.to_string(), |stem| stem.to_string_lossy().into_owned());
        let name = if file == "-" { STANDARD_INPUT } else { &stem };
        self.directory.join(format!("{name}.{}", self.extension))
    }

    pub fn write(&self, file: &str, bytes: &[u8]) -> Result<(), Failure> {
        batch::write(Some(&self.path(file).to_string_lossy()), bytes)
    }
}

/// Nothing is written over what the command reads: its files, and those of a plan, an order or a memory.
pub fn apart_from_inputs(options: &Options, out: Option<&str>) -> Result<(), Failure> {
    let Some(out) = out.filter(|out| *out != "-") else { return Ok(()) };
    match options.inputs().any(|file| same_file(Path::new(file), Path::new(out))) {
        true => Err(is_read(Path::new(out))),
        false => Ok(()),
    }
}

fn is_read(path: &Path) -> Failure {
    Failure::Usage(format!("{} is one of the files to read", path.display()))
}

/// Under whatever names. Of what is no plain file, such as a terminal, nothing is lost.
fn same_file(left: &Path, right: &Path) -> bool {
    let left = if left == Path::new("-") { Path::new("/dev/stdin") } else { left };
    match (fs::metadata(left), fs::metadata(right)) {
        (Ok(one), Ok(other)) if one.is_file() && other.is_file() => {
            one_inode(&one, &other)
                || matches!((left.canonicalize(), right.canonicalize()), (Ok(left), Ok(right)) if left == right)
        }
        _ => false,
    }
}

#[cfg(unix)]
fn one_inode(left: &Metadata, right: &Metadata) -> bool {
    use std::os::unix::fs::MetadataExt;
    (left.dev(), left.ino()) == (right.dev(), right.ino())
}

#[cfg(not(unix))]
fn one_inode(_: &Metadata, _: &Metadata) -> bool {
    false
}

fn remove(path: &Path) -> Result<(), Failure> {
    match fs::remove_file(path) {
        Err(error) if error.kind() != ErrorKind::NotFound => Err(Failure::Io(path.display().to_string(), error)),
        _ => Ok(()),
    }
}

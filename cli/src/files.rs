//! Files: read once and whole, and written whole or not at all.

use std::ffi::OsStr;
use std::fs::{self, File, OpenOptions};
use std::io::{self, Read, Write};
use std::path::{Path, PathBuf};
use std::process;

use sim0mq::MOST_BYTES;

use crate::failure::Failure;
use crate::progress;

/// The most bytes that a recording has: 4,096 messages, an entry of 8 bytes for each, and 10 more.
/// It only says how much of a file is read; what is longer is refused by the library.
pub const MOST_RECORDING: usize = 4_096 * (MOST_BYTES + 8) + 10;

/// How many bytes are read or written at once.
const PIECE: usize = 1 << 20;

/// The name of a file as it is told.
pub fn shown(name: &OsStr) -> String {
    match name == "-" {
        true => "standard input".to_string(),
        false => Path::new(name).display().to_string(),
    }
}

/// The file, or standard input for `-`, to be read.
pub fn open(name: &OsStr) -> Result<Box<dyn Read>, Failure> {
    if name == "-" {
        return Ok(Box::new(io::stdin().lock()));
    }
    let file = File::open(name).map_err(|error| Failure::of(&shown(name), &error))?;
    Ok(Box::new(file))
}

/// The bytes of a file, or of standard input for `-`. Where it has more than `most`, one more than
/// those is read, by which the library sees that they are too many.
pub fn read(name: &OsStr, most: usize) -> Result<Vec<u8>, Failure> {
    let size = fs::metadata(name).ok().filter(|_| name != "-").map_or(0, |about| about.len());
    let size = usize::try_from(size).unwrap_or(usize::MAX).min(most);
    progress::stage("reading", "bytes", size);
    taken(&mut open(name)?, size, most + 1).map_err(|error| Failure::of(&shown(name), &error))
}

/// The bytes that can be read, at most so many, of which `size` are expected.
fn taken(from: &mut impl Read, size: usize, most: usize) -> io::Result<Vec<u8>> {
    let mut bytes = Vec::new();
    bytes.try_reserve_exact(size + 1)?;
    while bytes.len() < most {
        let piece = PIECE.min(most - bytes.len());
        if from.take(piece as u64).read_to_end(&mut bytes)? == 0 {
            break;
        }
        progress::done(bytes.len());
    }
    Ok(bytes)
}

/// Where something is written to.
#[derive(Clone, Copy)]
pub struct Output<'a> {
    /// The file; standard output where there is none, or where it is `-`.
    pub path: Option<&'a Path>,
    /// Whether a file that is there may be replaced.
    pub force: bool,
}

impl Output<'_> {
    /// Says before any work where the file may not be written: it is there and may not be
    /// replaced, or is none that could be.
    pub fn ready(self) -> Result<(), Failure> {
        let Some(path) = self.file() else {
            return Ok(());
        };
        match fs::symlink_metadata(path) {
            Ok(about) if !about.is_file() => {
                Err(Failure::Use(format!("{}: is there, and no regular file", path.display())))
            }
            Ok(_) if !self.force => Err(there(path)),
            _ => Ok(()),
        }
    }

    /// Writes the bytes.
    pub fn write(self, bytes: &[u8]) -> Result<(), Failure> {
        self.ready()?;
        progress::stage("writing", "bytes", bytes.len());
        let Some(path) = self.file() else {
            progress::printing();
            let mut out = io::stdout().lock();
            out.write_all(bytes)?;
            return Ok(out.flush()?);
        };
        let told = |error: io::Error| Failure::of(&path.display().to_string(), &error);
        let mut beside = Beside::create(path).map_err(told)?;
        beside.fill(bytes).map_err(told)?;
        beside.publish(path, self.force)
    }

    /// The file, where it is one.
    fn file(&self) -> Option<&Path> {
        self.path.filter(|path| *path != Path::new("-"))
    }
}

/// The failure where a file is there that may not be replaced.
fn there(path: &Path) -> Failure {
    Failure::Use(format!("{}: is there; --force replaces it", path.display()))
}

/// A file beside the one that is to be written, by a name that begins with a dot and ends in
/// `.part`; removed when it is dropped.
struct Beside {
    name: PathBuf,
    file: File,
}

impl Beside {
    /// A new file in the folder of `path`.
    fn create(path: &Path) -> io::Result<Beside> {
        let mut last = io::Error::from(io::ErrorKind::AlreadyExists);
        for n in 0..100 {
            let name = path.with_file_name(format!(".sim0mq-{}-{n}.part", process::id()));
            match OpenOptions::new().write(true).create_new(true).open(&name) {
                Ok(file) => return Ok(Beside { name, file }),
                Err(error) if error.kind() == io::ErrorKind::AlreadyExists => last = error,
                Err(error) => return Err(error),
            }
        }
        Err(last)
    }

    /// Writes the bytes, down to the disk.
    fn fill(&mut self, bytes: &[u8]) -> io::Result<()> {
        for (n, piece) in bytes.chunks(PIECE).enumerate() {
            self.file.write_all(piece)?;
            progress::done(n * PIECE + piece.len());
        }
        self.file.sync_all()
    }

    /// Gives the file its name, in one step. Without `force` that is a link, which is refused where
    /// the name is taken, whoever took it; where the disk has no links, the name is looked for.
    fn publish(self, path: &Path, force: bool) -> Result<(), Failure> {
        let told = |error: io::Error| Failure::of(&path.display().to_string(), &error);
        if force {
            if let Ok(about) = fs::metadata(path) {
                fs::set_permissions(&self.name, about.permissions()).map_err(told)?;
            }
            return fs::rename(&self.name, path).map_err(told);
        }
        match fs::hard_link(&self.name, path) {
            Ok(()) => Ok(()),
            Err(_) if fs::symlink_metadata(path).is_ok() => Err(there(path)),
            Err(_) => fs::rename(&self.name, path).map_err(told),
        }
    }
}

impl Drop for Beside {
    fn drop(&mut self) {
        // After a rename it is not there any more.
        let _ = fs::remove_file(&self.name);
    }
}

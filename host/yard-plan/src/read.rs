//! Files read up to a bound, so that no device and no endless pipe fills the memory.

use std::fs::{self, File};
use std::io::{self, Read};
use std::path::Path;

use crate::layout::MOST_BYTES;
use crate::text::thousands;

/// What a file is meant to be.
#[derive(Clone, Copy, Debug, PartialEq, Eq)]
pub enum Meant {
    Plan,
    Image,
    Log,
}

impl Meant {
    /// Files with more bytes are not read.
    fn most(self) -> u64 {
        match self {
            Meant::Plan | Meant::Image => 1 << 20,
            Meant::Log => 1 << 28,
        }
    }
}

/// The file's bytes, or one line that names the file and says why not.
pub fn file(path: &Path, meant: Meant) -> Result<Vec<u8>, String> {
    read(path, meant).map_err(|reason| format!("{}: {reason}", name(path)))
}

/// The file's name on one line.
fn name(path: &Path) -> String {
    let name = path.display().to_string();
    name.replace(|c: char| c.is_control(), "?")
}

fn read(path: &Path, meant: Meant) -> Result<Vec<u8>, String> {
    let metadata = fs::metadata(path).map_err(reason)?;
    if metadata.is_dir() {
        return Err("is a directory".to_string());
    }
    let most = meant.most();
    if metadata.len() > most {
        return Err(too_large(&format!("{} bytes", metadata.len()), meant));
    }
    let bytes = bounded(path, most).map_err(reason)?;
    if bytes.len() as u64 > most {
        return Err(too_large(&format!("more than {most} bytes"), meant));
    }
    Ok(bytes)
}

/// At most one byte more than is allowed, which tells that there are more.
fn bounded(path: &Path, most: u64) -> io::Result<Vec<u8>> {
    let mut bytes = Vec::new();
    File::open(path)?.take(most + 1).read_to_end(&mut bytes)?;
    Ok(bytes)
}

fn too_large(size: &str, meant: Meant) -> String {
    match meant {
        Meant::Plan => {
            let most = thousands(MOST_BYTES);
            format!("{size}: too large to be a plan, which has at most {most}")
        }
        Meant::Image => {
            let length = yard::IMAGE_BYTES;
            format!("{size}: too large to be an image, which has {length}")
        }
        Meant::Log => {
            let most = thousands(meant.most() as usize);
            format!("{size}: too large for a log, which may have {most} here")
        }
    }
}

/// The system's words without its number.
fn reason(error: io::Error) -> String {
    match error.kind() {
        io::ErrorKind::NotFound => "there is no such file".to_string(),
        io::ErrorKind::PermissionDenied => "there is no permission to read it".to_string(),
        _ => error.to_string(),
    }
}

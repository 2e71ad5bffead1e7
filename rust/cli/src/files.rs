//! Files that are read and written; `-` is standard input or output.

use crate::failure::{Failure, Told, DONE};
use crate::json::Object;
use std::ffi::{OsStr, OsString};
use std::fs::{self, File};
use std::io::{self, ErrorKind, Read, Write};
use std::os::unix::fs::MetadataExt;
use std::path::Path;

/// One byte more than the longest file that reads. What is read of a longer file is refused at the same place as the whole.
pub const DESIGN: u64 = jestrunas::FILE_MAX as u64 + 1;

/// The most bytes of a text: more than `explain` writes for the longest file.
pub const TEXT: u64 = 1 << 26;

/// A name as it is shown, in one line.
pub fn shown(name: &OsStr) -> String {
    let mut shown = String::new();
    for c in name.to_string_lossy().chars() {
        if c.is_control() {
            shown.extend(c.escape_debug());
        } else {
            shown.push(c);
        }
    }
    shown
}

pub fn is_standard(name: &OsStr) -> bool {
    name == "-"
}

/// The bytes by which a text is known, or a design file: those of the head of a record.
const FIRST: u64 = 4;

/// Whether what begins so is a text. The first record of a design file has the length 3 and the kind 1, control characters both, and a text
/// has none there but those between words.
pub fn is_text(bytes: &[u8]) -> bool {
    let first = &bytes[..bytes.len().min(FIRST as usize)];
    !first.is_empty() && first.iter().all(|byte| !byte.is_ascii_control() || b"\t\n\r".contains(byte))
}

/// Whether a file begins as every design file that reads does.
pub fn is_design(bytes: &[u8]) -> bool {
    bytes.starts_with(&[3, 0, 1, 0])
}

/// A text, or of a design file as much as decides every answer. Of one that is too long a byte more than is allowed.
pub fn input(name: &OsStr) -> io::Result<Vec<u8>> {
    let mut from: Box<dyn Read> = if is_standard(name) { Box::new(io::stdin().lock()) } else { Box::new(File::open(name)?) };
    let mut bytes = Vec::new();
    from.by_ref().take(FIRST).read_to_end(&mut bytes)?;
    let most = if is_text(&bytes) { TEXT + 1 } else { DESIGN };
    from.take(most - bytes.len() as u64).read_to_end(&mut bytes)?;
    Ok(bytes)
}

/// Refuses to read standard input twice.
pub fn each_once(names: &[OsString]) -> Result<(), Failure> {
    if names.iter().filter(|name| is_standard(name)).count() > 1 {
        return Err(Failure::Misused("standard input can be read once".to_owned()));
    }
    Ok(())
}

/// Device and inode of what a name stands for, if there is such a file.
fn identity(name: &OsStr) -> Option<(u64, u64)> {
    let path = if is_standard(name) { Path::new("/dev/stdin") } else { Path::new(name) };
    fs::metadata(path).ok().map(|data| (data.dev(), data.ino()))
}

/// Writes bytes to a draft beside the file, which takes its place once all are written, and else goes.
fn replace(path: &Path, bytes: &[u8]) -> io::Result<()> {
    // a link stays one, and the file that it names is replaced
    let path = fs::canonicalize(path).unwrap_or_else(|_| path.to_owned());
    let old = match File::options().write(true).open(&path) {
        Ok(old) => Some(old.metadata()?.permissions()),
        Err(error) if error.kind() == ErrorKind::NotFound => None,
        // one that may not be written is not replaced
        Err(error) => return Err(error),
    };
    let mut name = OsString::from(".");
    name.push(path.file_name().ok_or(ErrorKind::InvalidInput)?);
    name.push(format!(".{}", std::process::id()));
    let draft = path.with_file_name(name);
    let mut file = File::create_new(&draft)?;
    let permitted = old.map_or(Ok(()), |old| file.set_permissions(old));
    let written = permitted.and_then(|()| file.write_all(bytes)).and_then(|()| fs::rename(&draft, &path));
    if written.is_err() {
        fs::remove_file(&draft)?;
    }
    written
}

/// Writes a file as a whole or not at all, and over none of the inputs.
pub fn output(name: &OsStr, bytes: &[u8], inputs: &[&OsStr]) -> Result<(), Failure> {
    if is_standard(name) {
        return print(bytes);
    }
    let there = identity(name);
    if there.is_some() && inputs.iter().any(|input| identity(input) == there) {
        return Err(Failure::unavailable(name, "it is an input, and nothing is written over an input"));
    }
    let written = match fs::metadata(name) {
        // a device or a pipe has no content that could be cut off
        Ok(data) if !data.is_file() => File::options().write(true).open(name).and_then(|mut file| file.write_all(bytes)),
        _ => replace(Path::new(name), bytes),
    };
    written.map_err(|error| Failure::unavailable(name, error))
}

/// Prints the answer of a command, which is then done.
pub fn answer(words: &str) -> Result<u8, Failure> {
    print(words.as_bytes())?;
    Ok(DONE)
}

/// The same in a line of JSON.
pub fn answer_json(object: &Object) -> Result<u8, Failure> {
    answer(&format!("{object}\n"))
}

/// Writes to standard output.
fn print(bytes: &[u8]) -> Result<(), Failure> {
    let mut out = io::stdout().lock();
    match out.write_all(bytes).and_then(|()| out.flush()) {
        Ok(()) => Ok(()),
        Err(error) if error.kind() == ErrorKind::BrokenPipe => Err(Failure::Unread),
        Err(error) => Err(Failure::Unavailable(Told {
            words: format!("standard output: {error}"),
            json: Object::new().with("error", error.to_string()),
        })),
    }
}

//! What the operands name: a pack or a clause text in a file or on standard input, and queries or terms.

use crate::faults::Length;
use crate::report::Misuse;
use crate::words::{grouped, shown_path};
use std::ffi::OsStr;
use std::fs::File;
use std::io::{self, ErrorKind, Read};
use std::os::unix::ffi::OsStrExt;

/// No more than this is read of a file. A pack is far shorter, so the library refuses it by what was read.
const MOST_BYTES: u64 = 1 << 20;

/// The text of a pack or of clauses, and what it is called on the page.
pub struct Source {
    pub shown: String,
    pub text: Vec<u8>,
    pub length: Length,
}

impl Source {
    #[cfg(test)]
    pub fn of(text: &[u8]) -> Source {
        Source { shown: "a pack".to_string(), text: text.to_vec(), length: Length::Exactly(text.len() as u64) }
    }
}

/// The operand that stands for standard input.
pub const STANDARD_INPUT: &str = "-";

pub fn read_pack(operand: &OsStr) -> Result<Source, Misuse> {
    read_source(operand, "pack")
}

/// All of a clause text: one that is cut off would be another text. The library takes texts of any length, but what more
/// than this becomes has no room in a pack.
pub fn read_clauses(operand: &OsStr) -> Result<Source, Misuse> {
    let source = read_source(operand, "clause text")?;
    if source.text.len() as u64 > MOST_BYTES {
        let (shown, most) = (&source.shown, grouped(MOST_BYTES));
        return Err(Misuse(format!("{shown} has over {most} bytes, and no longer clause text is read: split it")));
    }
    Ok(source)
}

fn read_source(operand: &OsStr, what: &str) -> Result<Source, Misuse> {
    if operand == STANDARD_INPUT {
        let text = read_at_most(io::stdin().lock()).map_err(|error| cannot_read("standard input", &error))?;
        let length = length_of(&text, None);
        return Ok(Source { shown: "standard input".to_string(), text, length });
    }
    let shown = shown_path(operand.as_bytes());
    let file = File::open(operand).map_err(|error| cannot_read(&shown, &error))?;
    let metadata = file.metadata().map_err(|error| cannot_read(&shown, &error))?;
    if metadata.is_dir() {
        return Err(Misuse(format!("{shown} is a folder; name the {what}'s file")));
    }
    let text = read_at_most(file).map_err(|error| cannot_read(&shown, &error))?;
    let length = length_of(&text, metadata.is_file().then_some(metadata.len()));
    Ok(Source { shown, text, length })
}

fn read_at_most(input: impl Read) -> io::Result<Vec<u8>> {
    let mut text = Vec::new();
    input.take(MOST_BYTES + 1).read_to_end(&mut text)?;
    Ok(text)
}

/// The length of all that there was to read: known where all was read, or where the file says it.
fn length_of(text: &[u8], file_length: Option<u64>) -> Length {
    match (text.len() as u64, file_length) {
        (read, _) if read <= MOST_BYTES => Length::Exactly(read),
        (read, Some(length)) if length >= read => Length::Exactly(length),
        _ => Length::Over(MOST_BYTES),
    }
}

fn cannot_read(shown: &str, error: &io::Error) -> Misuse {
    match error.kind() {
        ErrorKind::NotFound => Misuse(format!("there is no file {shown}")),
        ErrorKind::PermissionDenied => Misuse(format!("{shown} may not be read: permission denied")),
        _ => Misuse(format!("{shown} can't be read: {error}")),
    }
}

/// Queries or terms: each operand is one, and `-` stands for the lines of standard input.
pub fn read_lines(operands: &[&OsStr]) -> Result<Vec<Vec<u8>>, Misuse> {
    let mut lines = Vec::new();
    for operand in operands {
        if *operand != STANDARD_INPUT {
            lines.push(operand.as_bytes().to_vec());
            continue;
        }
        let text = read_at_most(io::stdin().lock()).map_err(|error| cannot_read("standard input", &error))?;
        if text.len() as u64 > MOST_BYTES {
            return Err(Misuse(format!("standard input has over {} bytes", grouped(MOST_BYTES))));
        }
        let finished = text.strip_suffix(b"\n").unwrap_or(&text);
        if !text.is_empty() {
            lines.extend(finished.split(|byte| *byte == b'\n').map(<[u8]>::to_vec));
        }
    }
    Ok(lines)
}

#[cfg(test)]
mod tests {
    use super::*;

    #[test]
    fn the_length_is_told_as_far_as_it_is_known() {
        let long = vec![0; MOST_BYTES as usize + 1];
        assert_eq!(length_of(b"abc", Some(7)), Length::Exactly(3));
        assert_eq!(length_of(&long, Some(5_000_000)), Length::Exactly(5_000_000));
        assert_eq!(length_of(&long, None), Length::Over(MOST_BYTES));
        assert_eq!(length_of(&long, Some(0)), Length::Over(MOST_BYTES));
    }

    #[test]
    fn no_more_than_the_limit_is_read() {
        assert_eq!(read_at_most(io::repeat(b'a')).unwrap().len() as u64, MOST_BYTES + 1);
    }
}

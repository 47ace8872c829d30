//! 2, 3 and 6: the whole text is too long, empty or unfinished, or has no `E` line.

use crate::limits::TEXT_BYTES;
use crate::pack::{lines_of, Pack};
use crate::words::{count, grouped};

/// What is wrong with a whole text. `last_line` says that its last line shows it: with a mark at its end where that end
/// is missing, without one where a line is due after it.
pub struct TextFault {
    pub last_line: Option<LastLine>,
    pub wrong: String,
    pub mend: String,
}

#[derive(PartialEq)]
pub enum LastLine {
    EndMissing,
    LineMissing,
}

/// How many bytes there were to read, or that there were more than so many.
#[derive(Clone, Copy, Debug, PartialEq)]
pub enum Length {
    Exactly(u64),
    Over(u64),
}

pub fn of_text(number: u8, text: &[u8], length: Length) -> Option<TextFault> {
    match number {
        2 => too_long(length),
        3 if text.is_empty() => Some(TextFault {
            last_line: None,
            wrong: "The pack is empty.".to_string(),
            mend: "A pack has at least one line, E, with its line end.".to_string(),
        }),
        3 => unfinished(text),
        6 => no_end(text),
        _ => None,
    }
}

fn too_long(length: Length) -> Option<TextFault> {
    let (most, mend) = (TEXT_BYTES as u64, "Split it, or shorten the names of symbols and variables.");
    let wrong = match length {
        Length::Exactly(bytes) if bytes <= most => return None,
        Length::Exactly(bytes) => {
            format!(
                "The pack has {} bytes, {} more than the 32,768 that it may have.",
                grouped(bytes),
                grouped(bytes - most)
            )
        }
        Length::Over(bytes) => format!("The pack has over {} bytes; it may have 32,768 at most.", grouped(bytes)),
    };
    Some(TextFault { last_line: None, wrong, mend: mend.to_string() })
}

fn unfinished(text: &[u8]) -> Option<TextFault> {
    if text.ends_with(b"\n") {
        return None;
    }
    let has_old_line_ends = !text.contains(&b'\n') && text.contains(&b'\r');
    let (wrong, mend) = if has_old_line_ends {
        ("The pack has carriage returns (byte 13) in place of line ends.", "End each line with byte 10 (LF) alone.")
    } else {
        (
            "The last line has no line end (byte 10).",
            "End it like the others, with a line end after its last character.",
        )
    };
    Some(TextFault { last_line: Some(LastLine::EndMissing), wrong: wrong.to_string(), mend: mend.to_string() })
}

fn no_end(text: &[u8]) -> Option<TextFault> {
    let pack = Pack::read(&lines_of(text)).ok()?;
    if pack.end_line.is_some() {
        return None;
    }
    let (mut wrong, mut mend) = ("The pack has no E line.".to_string(), "Add a last line that is just E.".to_string());
    let due = pack.multiplier_lines_due();
    if due > 0 {
        wrong += &format!(" Rule {}, the last one, lacks {} too.", pack.rules.len(), count(due, "M line"));
        let lines = if due == 1 { "the M line".to_string() } else { format!("the {due} M lines") };
        mend = format!("Add {lines}, and then a last line that is just E.");
    }
    Some(TextFault { last_line: Some(LastLine::LineMissing), wrong, mend })
}

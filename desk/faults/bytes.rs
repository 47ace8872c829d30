//! 4: over 1,024 bytes, or a byte outside 32 to 126.

use super::Fault;
use crate::limits::LINE_BYTES;
use crate::words::{count, shown};

/// `what` says what the bytes are: a line, a query or a term.
pub fn explain(what: &str, bytes: &[u8]) -> Option<Fault> {
    match bytes.iter().position(|byte| !(32..=126).contains(byte)) {
        Some(at) => foreign_byte(what, bytes, at),
        None if bytes.len() > LINE_BYTES => too_long(what, bytes),
        None => None,
    }
}

fn too_long(what: &str, bytes: &[u8]) -> Option<Fault> {
    let wrong = format!("The {what} has {}; it may have 1,024 at most.", count(bytes.len(), "byte"));
    let mend = match what {
        "line" => {
            "Shorten it: give its symbols and variables shorter names; a rule can be split with a further predicate."
        }
        _ => "Shorten it.",
    };
    Fault::at(LINE_BYTES..bytes.len(), wrong, mend)
}

fn foreign_byte(what: &str, bytes: &[u8], at: usize) -> Option<Fault> {
    let is_last = at + 1 == bytes.len();
    let mark = at..at + character(&bytes[at..]).map_or(1, char::len_utf8);
    let (wrong, mend) = match bytes[at] {
        b'\r' if is_last => (
            format!("The {what} ends with a carriage return (byte 13): the line ends are those of Windows, CRLF."),
            "Save it with plain line ends (LF, byte 10 alone), for instance with dos2unix.".to_string(),
        ),
        b'\r' => (
            format!("There is a carriage return (byte 13) in the {what}."),
            "End each line with byte 10 (LF) alone.".to_string(),
        ),
        b'\t' => (
            format!("There is a tab (byte 9) in the {what}."),
            "Put one space in its place between the tokens of a term, and nothing anywhere else.".to_string(),
        ),
        b'\n' => (format!("There is a line end (byte 10) in the {what}."), format!("Write the {what} as one line.")),
        0 => (
            format!("There is a zero byte in the {what}: this is a binary file, or text in UTF-16."),
            "Save it as plain ASCII text.".to_string(),
        ),
        128.. => not_ascii(what, &bytes[at..]),
        byte => (
            format!("There is a control character (byte {byte}) in the {what}."),
            "Take it out: only the bytes 32 to 126 may stand there.".to_string(),
        ),
    };
    Fault::at(mark, wrong, mend)
}

/// The character that UTF-8 text begins with, if it is such text.
fn character(bytes: &[u8]) -> Option<char> {
    let longest = bytes.len().min(4);
    (1..=longest).find_map(|length| std::str::from_utf8(&bytes[..length]).ok()).and_then(|text| text.chars().next())
}

fn not_ascii(what: &str, bytes: &[u8]) -> (String, String) {
    let Some(character) = character(bytes) else {
        let wrong = format!("There is a byte in the {what} that is neither ASCII nor UTF-8 ({}).", shown(&bytes[..1]));
        return (wrong, "Use letters from a to z, digits and underscores.".to_string());
    };
    let code = format!("U+{:04X}, {}", u32::from(character), shown(&bytes[..character.len_utf8()]));
    let wrong = format!("There is a character in the {what} that is not ASCII ({code}).");
    let mend = match character {
        '\u{feff}' => "It is a byte order mark: save the file without one.",
        '\u{a0}' | '\u{2007}' | '\u{202f}' => "It is a no-break space: put a plain space in its place, or nothing.",
        '\u{2010}'..='\u{2015}' | '\u{2212}' => "It looks like a minus: write - in its place.",
        '\u{ff0c}' | '\u{60c}' => "It looks like a comma: write , in its place.",
        _ => "Use letters from a to z, digits and underscores.",
    };
    (wrong, mend.to_string())
}

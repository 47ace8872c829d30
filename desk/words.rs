//! Parts of sentences: counts, lists, and bytes as they are shown.

/// A count and its noun: `1 line`, `2 lines`, `32,768 bytes`.
pub fn count(number: usize, noun: &str) -> String {
    format!("{} {}{}", grouped(number as u64), noun, if number == 1 { "" } else { "s" })
}

/// `is` after a count of one, `are` after any other.
pub fn are(number: usize) -> &'static str {
    if number == 1 {
        "is"
    } else {
        "are"
    }
}

/// A number with commas between its thousands.
pub fn grouped(number: u64) -> String {
    let digits = number.to_string();
    let mut grouped = String::new();
    for (place, digit) in digits.chars().enumerate() {
        if place > 0 && (digits.len() - place) % 3 == 0 {
            grouped.push(',');
        }
        grouped.push(digit);
    }
    grouped
}

/// `a`, `a or b`, `a, b or c`, with the word that is wanted before the last.
pub fn listed(things: &[String], last: &str) -> String {
    match things {
        [] => String::new(),
        [only] => only.clone(),
        [front @ .., end] => format!("{} {} {}", front.join(", "), last, end),
    }
}

/// How often: `once`, `3 times`.
pub fn times(number: usize) -> String {
    if number == 1 {
        "once".to_string()
    } else {
        format!("{} times", grouped(number as u64))
    }
}

/// A sentence's first letter made a capital.
pub fn capital(sentence: &str) -> String {
    let mut letters = sentence.chars();
    match letters.next() {
        Some(first) => first.to_ascii_uppercase().to_string() + letters.as_str(),
        None => String::new(),
    }
}

/// One byte as it is shown: itself if it is from 32 to 126 and no backslash, else escaped.
pub fn shown_byte(byte: u8) -> String {
    match byte {
        b'\\' => "\\\\".to_string(),
        b'\n' => "\\n".to_string(),
        b'\r' => "\\r".to_string(),
        b'\t' => "\\t".to_string(),
        32..=126 => char::from(byte).to_string(),
        _ => format!("\\x{byte:02X}"),
    }
}

/// Bytes as they are shown: each byte by itself, so that no two byte strings look alike.
pub fn shown(bytes: &[u8]) -> String {
    bytes.iter().map(|byte| shown_byte(*byte)).collect()
}

/// How many bytes a sentence quotes at most.
const QUOTED_BYTES: usize = 40;

/// A field as a sentence quotes it: in quotes, cut short if it is long.
pub fn quoted(field: &[u8]) -> String {
    match field.get(..QUOTED_BYTES) {
        Some(front) if field.len() > QUOTED_BYTES => format!("'{}...'", shown(front)),
        _ => format!("'{}'", shown(field)),
    }
}

/// A file's name as it is shown: itself where it is text without control characters, else escaped.
pub fn shown_path(path: &[u8]) -> String {
    match std::str::from_utf8(path) {
        Ok(text) if !text.chars().any(char::is_control) => text.to_string(),
        _ => shown(path),
    }
}

#[cfg(test)]
mod tests {
    use super::*;

    #[test]
    fn counts_are_grouped_and_agree_with_their_noun() {
        assert_eq!(count(1, "line"), "1 line");
        assert_eq!(count(0, "line"), "0 lines");
        assert_eq!(count(32_768, "byte"), "32,768 bytes");
        assert_eq!(grouped(1_048_577), "1,048,577");
        assert_eq!(grouped(999), "999");
    }

    #[test]
    fn lists_have_their_word_before_the_last() {
        let things: Vec<String> = ["P", "C", "H"].iter().map(|thing| thing.to_string()).collect();
        assert_eq!(listed(&things, "or"), "P, C or H");
        assert_eq!(listed(&things[..2], "and"), "P and C");
        assert_eq!(listed(&things[..1], "or"), "P");
    }

    #[test]
    fn bytes_that_are_not_printable_are_escaped() {
        assert_eq!(shown(b"a\tb\r\x00\xff\\ ~"), "a\\tb\\r\\x00\\xFF\\\\ ~");
        assert_eq!(quoted(&[b'a'; 50]), format!("'{}...'", "a".repeat(40)));
        assert_eq!(quoted(&[b'a'; 40]), format!("'{}'", "a".repeat(40)));
    }

    #[test]
    fn a_path_is_shown_as_text_where_it_is_text() {
        assert_eq!(shown_path("gr\u{f6}\u{df}e.pack".as_bytes()), "gr\u{f6}\u{df}e.pack");
        assert_eq!(shown_path(b"a\xff.pack"), "a\\xFF.pack");
        assert_eq!(shown_path(b"a\x1b[31m"), "a\\x1B[31m");
    }
}

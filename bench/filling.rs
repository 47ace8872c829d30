//! Fills a pack with rules or facts up to an exact number of bytes.

use crate::generate::text::{heads_of_size, shortest_head, text_of};

/// The longest pack that document 01 allows.
pub const FULL_BYTES: usize = 32_768;

/// A pack of exactly so many bytes: the opening lines, then rules, or facts, as long as `next_rule` has one for the room
/// that is left, then heads of a predicate `pad` without claims for the rest.
pub fn text_of_rules(
    opening: &[String],
    bytes: usize,
    next_rule: &mut dyn FnMut(usize) -> Option<Vec<String>>,
) -> Vec<u8> {
    let mut lines = vec!["P,pad,1,R".to_string()];
    lines.extend_from_slice(opening);
    let mut room = bytes - text_of(&lines).len() - "E\n".len();
    while let Some(rule) = next_rule(room - shortest_head("pad")) {
        room -= text_of(&rule).len();
        lines.extend(rule);
    }
    lines.extend(heads_of_size("pad", room));
    lines.push("E".to_string());
    text_of(&lines)
}

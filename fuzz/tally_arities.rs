//! Which answers are about a name with several arities, or with another one than is declared: those that 02's 5/14 changed
//! or that would be others if names were compared alone.

/// Answers about a name that is declared at several arities are counted a second time with these words after them.
pub const SHARED: &str = ", a shared name";

/// The same for a line whose name is declared, but not at the line's arity, and for `P` lines of a declared name.
const OTHER_ARITY: &str = ", declared at another arity";
const DECLARED: &str = ", a declared name";

fn fields_of(line: &[u8]) -> Vec<&[u8]> {
    line.split(|byte| *byte == b',').collect()
}

/// The arities of the well-formed `P` lines with this name.
fn arities_of<'a>(lines: &[&'a [u8]], name: &[u8]) -> Vec<&'a [u8]> {
    let declared = lines.iter().map(|line| fields_of(line)).filter(|fields| fields.len() == 4 && fields[0] == b"P");
    declared.filter(|fields| fields[1] == name).map(|fields| fields[2]).collect()
}

/// Does the text declare some name twice?
fn has_shared_name(lines: &[&[u8]]) -> bool {
    let names = lines.iter().filter(|line| line.starts_with(b"P,")).map(|line| fields_of(line)[1]);
    names.into_iter().any(|name| arities_of(lines, name).len() > 1)
}

/// Does the accepted text declare the query's name twice?
pub fn shares_name(text: &[u8], query: &[u8]) -> bool {
    let lines: Vec<&[u8]> = text.split(|byte| *byte == 10).collect();
    arities_of(&lines, fields_of(query)[0]).len() > 1
}

/// Further names under which check's answer is counted, by the text and the line that it refuses.
pub fn kinds_of_check(word: u64, text: &[u8]) -> Vec<String> {
    let (number, line) = (word & 0xFF, (word >> 8 & 0xFFFF) as usize);
    let lines: Vec<&[u8]> = text.split(|byte| *byte == 10).collect();
    let mut kinds = Vec::new();
    if [0, 12, 13, 22, 24].contains(&number) && has_shared_name(&lines) {
        kinds.push(format!("check {number}{SHARED}"));
    }
    if [8, 9, 10].contains(&number) {
        kinds.extend(kind_of_line(number, fields_of(lines[line - 1]), &lines[..line - 1]));
    }
    kinds
}

/// What 8, 9 or 10 is about, with the lines above the one that has it.
fn kind_of_line(number: u64, fields: Vec<&[u8]>, above: &[&[u8]]) -> Option<String> {
    let letter = fields[0].escape_ascii();
    let is_declared = fields.len() > 1 && !arities_of(above, fields[1]).is_empty();
    match (number, fields[0]) {
        (9, b"M") if has_shared_name(above) => Some(format!("check 9 on M{SHARED}")),
        (8, b"P") if fields.len() != 4 => Some("check 8 in place of 9 on P".to_string()),
        (9 | 10, b"P") if is_declared => Some(format!("check {number} on P{DECLARED}")),
        // A given predicate at the head's own arity is 8 too, and is not meant.
        (8, b"C" | b"G" | b"H" | b"B") if is_declared && !has_own_arity(&fields, above) => {
            Some(format!("check 8 on {letter}{OTHER_ARITY}"))
        }
        _ => None,
    }
}

fn has_own_arity(fields: &[&[u8]], above: &[&[u8]]) -> bool {
    let no_arguments = if fields[0] == b"C" { 3 } else { 2 };
    let written = fields.len().checked_sub(no_arguments).map(|arity| arity.to_string());
    arities_of(above, fields[1]).iter().any(|arity| written.as_ref().is_some_and(|own| own.as_bytes() == *arity))
}

/// All of these that a run must have met.
pub fn needed_answers() -> impl Iterator<Item = String> {
    let shared = [0, 12, 13, 22, 24].map(|number| format!("check {number}{SHARED}"));
    let lines = ["C", "G", "H", "B"].map(|letter| format!("check 8 on {letter}{OTHER_ARITY}"));
    let declarations = [9, 10].map(|number| format!("check {number} on P{DECLARED}"));
    let others = [format!("check 9 on M{SHARED}"), "check 8 in place of 9 on P".to_string()];
    let queries = ["B", "N", "I", "R 14", "R 16", "R 17", "R 18"].map(|answer| format!("reserve {answer}{SHARED}"));
    shared.into_iter().chain(lines).chain(declarations).chain(others).chain(queries)
}

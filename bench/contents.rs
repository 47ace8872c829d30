//! What a text is made of: counted from its bytes alone, to see that a pack is of the kind that it is said to be.

#[derive(Default, PartialEq, Debug)]
pub struct Contents {
    pub bytes: usize,
    /// Facts, and the claims before them.
    pub facts: usize,
    pub claims: usize,
    /// Of facts, heads and subgoals: symbols with their arities, and variables.
    pub symbols: usize,
    pub variables: usize,
    pub variable_bytes: usize,
    pub longest_variable: usize,
    /// Of `M` lines.
    pub multiplier_lines: usize,
    pub multipliers: usize,
    pub zeros: usize,
    /// The fewest multipliers that an `M` line has.
    pub fewest_multipliers: usize,
}

pub fn contents(text: &[u8]) -> Contents {
    let mut found = Contents { bytes: text.len(), fewest_multipliers: usize::MAX, ..Contents::default() };
    for line in text.split(|byte| *byte == 10) {
        let fields: Vec<&[u8]> = line.split(|byte| *byte == b',').collect();
        match fields[0] {
            b"C" => found.claims += 1,
            b"G" | b"H" | b"B" => {
                found.facts += usize::from(fields[0] == b"G");
                fields[2..].iter().for_each(|term| found.add_term(term));
            }
            b"M" => found.add_multipliers(&fields[1..]),
            _ => {}
        }
    }
    found
}

impl Contents {
    fn add_term(&mut self, term: &[u8]) {
        for token in term.split(|byte| *byte == b' ') {
            if token.contains(&b'/') {
                self.symbols += 1;
            } else {
                self.variables += 1;
                self.variable_bytes += token.len();
                self.longest_variable = self.longest_variable.max(token.len());
            }
        }
    }

    fn add_multipliers(&mut self, fields: &[&[u8]]) {
        self.multiplier_lines += 1;
        self.multipliers += fields.len();
        self.zeros += fields.iter().filter(|field| **field == b"0").count();
        self.fewest_multipliers = self.fewest_multipliers.min(fields.len());
    }
}

//! The commands. A command more is an entry more in the table.

use crate::report::{Misuse, Report};
use crate::{check, import, measure, reserve, sheet};
use std::ffi::OsStr;

pub struct Command {
    pub name: &'static str,
    /// What it is handed, as a usage line writes it.
    pub operands: &'static str,
    pub least: usize,
    pub most: usize,
    pub about: &'static str,
    pub help: &'static str,
    pub run: fn(&[&OsStr]) -> Result<Report, Misuse>,
}

pub const COMMANDS: [Command; 5] = [
    Command {
        name: "check",
        operands: "PACK",
        least: 1,
        most: 1,
        about: "check a pack; show its claims, or what is wrong and what to mend",
        help: "\
Checks the pack in the file PACK (- reads standard input). Accepted: its counts, how many facts
come with it, and each claim as an inequality of argument sizes s1, s2, .. Refused: the number,
the line with a mark under what is at fault, what is wrong and what to mend; for a claim that is
not justified, the rule as a clause and the working that leads to the residual; for a fact that
fails a claim, its sizes and the claim with them put in.",
        run: check::run,
    },
    Command {
        name: "reserve",
        operands: "PACK QUERY..",
        least: 2,
        most: usize::MAX,
        about: "answer queries by a pack, with the working",
        help: "\
Checks the pack and answers each QUERY, name,i,s1,..,sn: how large argument i of name/n can be,
where each s is a known size or - (unknown). PACK or one QUERY may be -, for standard input,
where queries stand one on a line. Shows for each claim on the predicate what it gives, or why it is
not usable.",
        run: reserve::run,
    },
    Command {
        name: "measure",
        operands: "TERM..",
        least: 1,
        most: usize::MAX,
        about: "measure ground terms, shown in the usual notation",
        help: "\
Measures each TERM, written as in a pack: 'cons/2 a/0 nil/0', in one argument. One TERM may be -,
for standard input, where terms stand one on a line. Shows the term in the usual notation,
cons(a,nil), and which symbols make up its size.",
        run: measure::run,
    },
    Command {
        name: "sheet",
        operands: "PACK",
        least: 1,
        most: 1,
        about: "print an accepted pack's sheet for the job folder",
        help: "\
Prints the sheet of the pack in the file PACK (- reads standard input) as the library writes it,
and nothing else: for each rule a line of 64 columns with the rule's number, its head's name, how
many subgoals and how many M lines it has. A refused pack has no sheet; it is explained as check
does.",
        run: sheet::run,
    },
    Command {
        name: "import",
        operands: "CLAUSES",
        least: 1,
        most: 1,
        about: "print a maker's Prolog clauses as H and B lines of a pack",
        help: "\
Imports the clauses in the file CLAUSES (- reads standard input), facts and rules in a subset of
Prolog, and prints the lines that the library writes for them, and nothing else: an H line for
each clause and a B line for each subgoal, to be put into a pack. Refused: the line with a mark
under the first token that cannot stand there, and what may stand there instead; or the clause
that passes a limit of packs, and by what.",
        run: import::run,
    },
];

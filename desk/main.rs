//! packdesk: says in words what the library answers of a pack, a query, a term or a clause text, for those who write packs.
//! Verdicts, bounds, sizes, sheets and imported lines are the library's alone. What this program works out to explain them
//! is compared with them at every run; where the two differ it says so, and ends with status 3.

mod arguments;
mod bounds;
mod candidates;
mod check;
mod claims;
mod clauses;
mod commands;
mod facts;
mod faults;
mod findings;
mod findings_json;
mod findings_page;
mod forms;
mod heads;
mod import;
mod input;
mod json;
mod letters;
mod limits;
mod measure;
mod naming;
mod near;
mod output;
mod pack;
mod page;
mod quoting;
mod report;
mod reserve;
mod residuals;
mod sheet;
mod terms;
mod tokens;
mod words;

#[cfg(test)]
#[path = "../tests/desk/clause_texts.rs"]
mod clause_texts;

#[cfg(test)]
#[path = "../tests/desk/vectors.rs"]
mod vectors;

use arguments::Request;
use report::{Misuse, Status};
use std::ffi::OsString;
use std::process::ExitCode;

/// The build hands over a checksum of the crates that the library is made from (scripts/prepare).
const SOURCES: Option<&str> = option_env!("CERRUNDIX_SOURCES");

fn main() -> ExitCode {
    let arguments: Vec<OsString> = std::env::args_os().skip(1).collect();
    let status = match answer(&arguments) {
        Ok((text, status)) => match output::write(&text) {
            Ok(()) => status,
            Err(Misuse(why)) => output::complain(&why),
        },
        Err(Misuse(why)) => output::complain(&why),
    };
    ExitCode::from(status as u8)
}

fn version() -> String {
    match SOURCES {
        Some(checksum) => format!("packdesk (Cerrundix), from crates with the checksum {checksum}\n"),
        None => "packdesk (Cerrundix)\n".to_string(),
    }
}

/// What is to be printed, and the status to end with.
fn answer(arguments: &[OsString]) -> Result<(String, Status), Misuse> {
    match arguments::read(arguments)? {
        Request::Help(command) => Ok((arguments::help(command), Status::Accepted)),
        Request::Version => Ok((version(), Status::Accepted)),
        Request::Answer { command, operands, as_json } => {
            let report = (command.run)(&operands)?;
            let text = if as_json { report.json.written() } else { report.page.written(output::is_in_colour()) };
            Ok((text, report.status))
        }
    }
}

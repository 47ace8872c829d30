//! Standard output and standard error.

use crate::report::{Misuse, Status};
use std::env;
use std::io::{self, ErrorKind, IsTerminal, Write};

/// Colour is for a terminal that knows it, unless the user does not want it (NO_COLOR).
pub fn is_in_colour() -> bool {
    let is_unwanted = env::var_os("NO_COLOR").is_some_and(|value| !value.is_empty());
    let is_plain_terminal = env::var_os("TERM").is_none_or(|terminal| terminal.is_empty() || terminal == "dumb");
    io::stdout().is_terminal() && !is_unwanted && !is_plain_terminal
}

/// Writes all of it. A reader that has closed the pipe wants no more, and that is no fault.
pub fn write(text: &str) -> Result<(), Misuse> {
    let mut output = io::stdout().lock();
    match output.write_all(text.as_bytes()).and_then(|()| output.flush()) {
        Err(error) if error.kind() != ErrorKind::BrokenPipe => {
            Err(Misuse(format!("the output can't be written: {error}")))
        }
        _ => Ok(()),
    }
}

/// Says what is wrong on standard error; if that cannot be written either, the status still tells.
pub fn complain(why: &str) -> Status {
    let _ = writeln!(io::stderr(), "packdesk: {why}");
    Status::Misuse
}
